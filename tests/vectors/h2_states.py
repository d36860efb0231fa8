#!/usr/bin/env python3
"""Writes the table of a stream's states and the frames that a client may send there, after RFC 9113.

    python3 tests/vectors/h2_states.py >crates/h2_conn_tests/src/state_rows.rt
    python3 tests/vectors/h2_states.py --choices       what the standard leaves open, and what is taken, cell by cell

RULES are the standard's own: a section, where it applies, and the outcomes that it allows. They were written from
the text of RFC 9113, and not from this project's connection table. Every rule that applies to a cell counts, and the
standard does not say which of two faults in one frame is found first: so a cell allows what any of its rules allows.
Where that is more than one outcome, CHOICES says which one is taken here and why. This program refuses a cell without
a rule, one that is open and has no choice, and a choice that no rule allows.

Section 5.4.1 lets an endpoint treat any stream error as a connection error. It is a rule below only where that is
done.
"""
import sys

# ---- error codes (section 7), and the letter of each in the table: large on the connection, small on a stream
LETTERS = {
    "PROTOCOL_ERROR": "P",
    "FLOW_CONTROL_ERROR": "F",
    "STREAM_CLOSED": "S",
    "FRAME_SIZE_ERROR": "L",
    "COMPRESSION_ERROR": "C",
}
PROTOCOL = "connection PROTOCOL_ERROR"
FLOW = "connection FLOW_CONTROL_ERROR"
SIZE = "connection FRAME_SIZE_ERROR"
CLOSED = "connection STREAM_CLOSED"
COMPRESSION = "connection COMPRESSION_ERROR"
S_PROTOCOL = "stream PROTOCOL_ERROR"
S_FLOW = "stream FLOW_CONTROL_ERROR"
S_SIZE = "stream FRAME_SIZE_ERROR"
S_CLOSED = "stream STREAM_CLOSED"
ACCEPTED = "accepted"
IGNORED = "ignored"


# ---- frames (section 4.1)
def frame(kind, flags, stream, payload=b"", reserved=0):
    return len(payload).to_bytes(3, "big") + bytes([kind, flags]) + (reserved << 31 | stream).to_bytes(4, "big") + payload


DATA, HEADERS, PRIORITY, RST_STREAM, SETTINGS, PUSH_PROMISE, PING, GOAWAY, WINDOW_UPDATE, CONTINUATION = range(10)
END_STREAM, ACK, END_HEADERS, PADDED, WITH_PRIORITY = 1, 1, 4, 8, 32
MAX_WINDOW = 2**31 - 1
MAX_FRAME = 2**14


def word(number):
    return number.to_bytes(4, "big")


def setting(name, value):
    return name.to_bytes(2, "big") + word(value)


REQUEST = bytes.fromhex("838684")  # :method POST, :scheme http, :path /
TRAILERS = bytes.fromhex("0001610162")  # a: b, not indexed
NO_BLOCK = bytes.fromhex("80")  # index 0
FIELDS = bytes(5)  # the fields of PRIORITY
CANCEL = word(8)
PUSHED = word(2) + REQUEST

# the frames of a stream; the test puts them on the stream of the state
STREAM_FRAMES = {
    "DATA": frame(DATA, 0, 1, b"x"),
    "DATA, END_STREAM": frame(DATA, END_STREAM, 1, b"x"),
    "DATA without bytes": frame(DATA, 0, 1),
    "DATA without bytes, END_STREAM": frame(DATA, END_STREAM, 1),
    "DATA, padded": frame(DATA, PADDED, 1, b"\2xy\0\0"),
    "DATA, too much padding": frame(DATA, PADDED, 1, b"\2x"),
    "DATA, no pad length": frame(DATA, PADDED, 1),
    "DATA, too large": (MAX_FRAME + 1).to_bytes(3, "big") + bytes([DATA, 0]) + word(1),
    "HEADERS, request": frame(HEADERS, END_HEADERS, 1, REQUEST),
    "HEADERS, request, END_STREAM": frame(HEADERS, END_HEADERS | END_STREAM, 1, REQUEST),
    "HEADERS, request, END_STREAM, padded, with priority": frame(
        HEADERS, END_HEADERS | END_STREAM | PADDED | WITH_PRIORITY, 1, b"\1" + FIELDS + REQUEST + b"\0"),
    "HEADERS and CONTINUATION, request, END_STREAM":
        frame(HEADERS, END_STREAM, 1, REQUEST[:1]) + frame(CONTINUATION, END_HEADERS, 1, REQUEST[1:]),
    "HEADERS, trailers": frame(HEADERS, END_HEADERS, 1, TRAILERS),
    "HEADERS, trailers, END_STREAM": frame(HEADERS, END_HEADERS | END_STREAM, 1, TRAILERS),
    "HEADERS and CONTINUATION, trailers, END_STREAM":
        frame(HEADERS, END_STREAM, 1, TRAILERS[:1]) + frame(CONTINUATION, END_HEADERS, 1, TRAILERS[1:]),
    "HEADERS without END_HEADERS": frame(HEADERS, 0, 1, REQUEST),
    "HEADERS, no block": frame(HEADERS, END_HEADERS, 1, NO_BLOCK),
    "HEADERS, too much padding": frame(HEADERS, END_HEADERS | PADDED, 1, b"\2\x82"),
    "HEADERS, no priority fields": frame(HEADERS, END_HEADERS | WITH_PRIORITY, 1, bytes(4)),
    "HEADERS, too large": (MAX_FRAME + 1).to_bytes(3, "big") + bytes([HEADERS, END_HEADERS]) + word(1),
    "PRIORITY": frame(PRIORITY, 0, 1, FIELDS),
    "PRIORITY of 4 bytes": frame(PRIORITY, 0, 1, bytes(4)),
    "RST_STREAM": frame(RST_STREAM, 0, 1, CANCEL),
    "RST_STREAM of 3 bytes": frame(RST_STREAM, 0, 1, bytes(3)),
    "PUSH_PROMISE": frame(PUSH_PROMISE, END_HEADERS, 1, PUSHED),
    "WINDOW_UPDATE by 1": frame(WINDOW_UPDATE, 0, 1, word(1)),
    "WINDOW_UPDATE by 0": frame(WINDOW_UPDATE, 0, 1, word(0)),
    "WINDOW_UPDATE past the largest": frame(WINDOW_UPDATE, 0, 1, word(MAX_WINDOW)),
    "WINDOW_UPDATE of 3 bytes": frame(WINDOW_UPDATE, 0, 1, bytes(3)),
    "CONTINUATION": frame(CONTINUATION, END_HEADERS, 1, REQUEST[1:]),
    "type 10, all flags": frame(10, 255, 1, b"new"),
    "SETTINGS on a stream": frame(SETTINGS, 0, 1),
    "SETTINGS, ACK, on a stream": frame(SETTINGS, ACK, 1),
    "PING on a stream": frame(PING, 0, 1, bytes(8)),
    "PING, ACK, on a stream": frame(PING, ACK, 1, bytes(8)),
    "GOAWAY on a stream": frame(GOAWAY, 0, 1, bytes(8)),
}
CONNECTION_FRAMES = {
    "DATA on 0": frame(DATA, 0, 0, b"x"),
    "HEADERS on 0": frame(HEADERS, END_HEADERS, 0, REQUEST),
    "PRIORITY on 0": frame(PRIORITY, 0, 0, FIELDS),
    "RST_STREAM on 0": frame(RST_STREAM, 0, 0, CANCEL),
    "PUSH_PROMISE on 0": frame(PUSH_PROMISE, END_HEADERS, 0, PUSHED),
    "CONTINUATION on 0": frame(CONTINUATION, END_HEADERS, 0, REQUEST),
    "type 10 on 0": frame(10, 0, 0, b"new"),
    "SETTINGS": frame(SETTINGS, 0, 0),
    "SETTINGS, the reserved bit": frame(SETTINGS, 0, 0, reserved=1),
    "SETTINGS, unknown": frame(SETTINGS, 0, 0, setting(0x99, 7)),
    "SETTINGS, pushing 2": frame(SETTINGS, 0, 0, setting(2, 2)),
    "SETTINGS, a window of 2^31": frame(SETTINGS, 0, 0, setting(4, 2**31)),
    "SETTINGS, frames of 16,383": frame(SETTINGS, 0, 0, setting(5, MAX_FRAME - 1)),
    "SETTINGS, frames of 2^24": frame(SETTINGS, 0, 0, setting(5, 2**24)),
    "SETTINGS of 5 bytes": frame(SETTINGS, 0, 0, bytes(5)),
    "SETTINGS, ACK": frame(SETTINGS, ACK, 0),
    "SETTINGS, ACK, of 6 bytes": frame(SETTINGS, ACK, 0, setting(3, 1)),
    "PING": frame(PING, 0, 0, b"\1\2\3\4\5\6\7\x08"),
    "PING, all flags but ACK": frame(PING, 254, 0, bytes(8)),
    "PING, ACK": frame(PING, ACK, 0, bytes(8)),
    "PING of 7 bytes": frame(PING, 0, 0, bytes(7)),
    "GOAWAY": frame(GOAWAY, 0, 0, bytes(8)),
    "GOAWAY of 7 bytes": frame(GOAWAY, 0, 0, bytes(7)),
    "WINDOW_UPDATE on 0 by 1": frame(WINDOW_UPDATE, 0, 0, word(1)),
    "WINDOW_UPDATE on 0 by 0": frame(WINDOW_UPDATE, 0, 0, word(0)),
    "WINDOW_UPDATE on 0 past the largest": frame(WINDOW_UPDATE, 0, 0, word(MAX_WINDOW)),
    "WINDOW_UPDATE on 0 of 3 bytes": frame(WINDOW_UPDATE, 0, 0, bytes(3)),
}
FRAMES = STREAM_FRAMES | CONNECTION_FRAMES


def names(*beginnings, but=()):
    """The frames whose names begin so."""
    found = {name for name in FRAMES if name.startswith(beginnings)}
    return frozenset(found - set(but))


ON_0 = frozenset(CONNECTION_FRAMES)
ALL_DATA = names("DATA") - ON_0
ALL_HEADERS = names("HEADERS") - ON_0
WRONG_SIZES = frozenset(name for name in FRAMES if " bytes" in name and "without" not in name) | {
    "DATA, no pad length", "DATA, too large", "HEADERS, no priority fields", "HEADERS, too large"}
TOO_MUCH_PADDING = frozenset({"DATA, too much padding", "HEADERS, too much padding"})
GOOD_DATA = ALL_DATA - WRONG_SIZES - TOO_MUCH_PADDING
REQUESTS = names("HEADERS, request", "HEADERS and CONTINUATION, request")
ALL_TRAILERS = names("HEADERS, trailers", "HEADERS and CONTINUATION, trailers")
LAST_TRAILERS = ALL_TRAILERS - {"HEADERS, trailers"}
WHOLE_HEADERS = REQUESTS | ALL_TRAILERS
CUT = frozenset({"HEADERS without END_HEADERS"})
UNDECODED = frozenset({"HEADERS, no block"})
RESETS = names("RST_STREAM") - ON_0
WINDOWS = names("WINDOW_UPDATE") - ON_0
PUSHES = names("PUSH_PROMISE")
SETTINGS_ON_0 = names("SETTINGS") & ON_0
UNKNOWN = names("type 10")
ENDS = frozenset(name for name in FRAMES if "END_STREAM" in name)

# ---- states (section 5.1), as a server sees a stream of its client, and how each is reached: the client's frames, what
# the server does on the stream, and more of the client's frames
GREETING = frame(SETTINGS, 0, 0)


def opens(stream, flags=0):
    return frame(HEADERS, END_HEADERS | flags, stream, REQUEST)


ENDED = frame(DATA, END_STREAM, 1)
MANY = b"".join(opens(2 * each + 1) for each in range(16))
STATES = {
    "first": ("before the client's SETTINGS", 1, b"", "Nothing", b""),
    "idle": ("idle", 1, GREETING, "Nothing", b""),
    "even": ("idle, of the server's numbers", 2, GREETING + opens(3), "Nothing", b""),
    "open": ("open", 1, GREETING + opens(1), "Nothing", b""),
    "remote": ("half-closed (remote)", 1, GREETING + opens(1, END_STREAM), "Nothing", b""),
    "local": ("half-closed (local)", 1, GREETING + opens(1), "Finish", b""),
    "ended": ("closed by END_STREAM, the server's last", 1, GREETING + opens(1, END_STREAM), "Finish", b""),
    "ended_by_client": ("closed by END_STREAM, the client's last", 1, GREETING + opens(1), "Finish", ENDED),
    "reset": ("closed by RST_STREAM of the server", 1, GREETING + opens(1), "Reset", b""),
    "errored": ("half-closed (remote), closed by RST_STREAM of the server", 1, GREETING + opens(1, END_STREAM), "Reset", b""),
    "refused": ("refused above the limit of streams", 33, GREETING + MANY, "Nothing", opens(33)),
    "reset_by_client": ("closed by RST_STREAM of the client", 1, GREETING + opens(1), "Nothing", frame(RST_STREAM, 0, 1, CANCEL)),
    "skipped": ("closed since a higher stream was opened", 1, GREETING + opens(3), "Nothing", b""),
    "block": ("idle, its header block unfinished", 1, GREETING + frame(HEADERS, 0, 1, REQUEST[:1]), "Nothing", b""),
    "other_block": ("open, another stream's header block unfinished",
        1, GREETING + opens(1) + frame(HEADERS, 0, 3, REQUEST[:1]), "Nothing", b""),
}
ALL = frozenset(STATES)
BLOCKS = frozenset({"block", "other_block"})
LIVE = frozenset({"open", "remote", "local"})
RESET_HERE = frozenset({"reset", "refused"})
OTHER_CLOSED = frozenset({"ended", "ended_by_client", "errored", "reset_by_client", "skipped"})
ALL_CLOSED = RESET_HERE | OTHER_CLOSED
GREETED = ALL - {"first"}
BETWEEN_BLOCKS = GREETED - BLOCKS
EVERY_FRAME = frozenset(FRAMES)

# ---- the standard: section, what it says, states, frames, and the outcomes that it allows
RULES = [
    ("3.4", "the client's preface ends with SETTINGS, which may be empty", {"first"}, EVERY_FRAME - SETTINGS_ON_0, [PROTOCOL]),
    ("3.4", "the same; that an acknowledgement is not that frame is not said",
     {"first"}, names("SETTINGS, ACK") & ON_0, [PROTOCOL, IGNORED]),
    # frame formats
    ("4.1", "flags and the reserved bit without meaning are ignored",
     BETWEEN_BLOCKS, {"PING, all flags but ACK", "SETTINGS, the reserved bit"}, [ACCEPTED]),
    ("4.2", "a frame above the size that is allowed", ALL, {"DATA, too large"}, [S_SIZE]),
    ("4.2", "too small for what it must have", ALL, {"DATA, no pad length"}, [S_SIZE]),
    ("5.4.1", "a stream error may be treated as a connection error",
     ALL, {"DATA, too large", "DATA, no pad length", "PRIORITY of 4 bytes"}, [SIZE]),
    ("4.2", "of a frame that carries a header block, or on stream 0, it is a connection error",
     ALL, {"HEADERS, too large", "HEADERS, no priority fields", "GOAWAY of 7 bytes"}, [SIZE]),
    ("4.3", "a block that can't be decoded", BETWEEN_BLOCKS - {"even"}, UNDECODED, [COMPRESSION]),
    ("4.3", "a block is processed once it is whole", {"idle"} | LIVE | ALL_CLOSED, CUT, [ACCEPTED]),
    # the states of a stream
    ("5.1", "idle: HEADERS opens it", {"idle"}, REQUESTS, [ACCEPTED]),
    ("5.1", "idle: any frame but HEADERS and PRIORITY",
     {"idle", "even"}, ALL_DATA | RESETS | WINDOWS | {"CONTINUATION", "PUSH_PROMISE"}, [PROTOCOL]),
    ("5.1", "idle, of the server's numbers: HEADERS too", {"even"}, ALL_HEADERS, [PROTOCOL]),
    ("5.1", "open, half-closed (local): frames of any type",
     {"open", "local"}, GOOD_DATA | LAST_TRAILERS | {"RST_STREAM", "WINDOW_UPDATE by 1"}, [ACCEPTED]),
    ("5.1", "half-closed (local): WINDOW_UPDATE can be ignored", {"local"}, WINDOWS - WRONG_SIZES, [IGNORED]),
    ("5.1", "half-closed (remote): frames but WINDOW_UPDATE, PRIORITY and RST_STREAM",
     {"remote"}, ALL_DATA | ALL_HEADERS | {"CONTINUATION", "PUSH_PROMISE"}, [S_CLOSED]),
    ("5.1", "half-closed (remote): WINDOW_UPDATE and RST_STREAM", {"remote"}, {"RST_STREAM", "WINDOW_UPDATE by 1"}, [ACCEPTED]),
    ("5.1", "closed by this side's RST_STREAM: any frame is minimally processed and discarded",
     RESET_HERE, GOOD_DATA | WHOLE_HEADERS | {"RST_STREAM"} | (WINDOWS - WRONG_SIZES), [IGNORED]),
    ("5.1", "closed: this can be done on all closed streams",
     OTHER_CLOSED, GOOD_DATA | WHOLE_HEADERS | {"RST_STREAM"} | (WINDOWS - WRONG_SIZES), [IGNORED]),
    ("5.1", "closed: a frame may be treated as an error", OTHER_CLOSED, GOOD_DATA | WHOLE_HEADERS | CUT | UNDECODED, [CLOSED]),
    ("5.1", "closed: RST_STREAM may, where this side sent neither END_STREAM nor RST_STREAM",
     {"reset_by_client", "skipped"}, {"RST_STREAM"}, [CLOSED]),
    ("5.1.1", "a new stream is above all that were opened", {"skipped"}, WHOLE_HEADERS | CUT | UNDECODED, [PROTOCOL]),
    ("5.5", "frames of unknown types are discarded", BETWEEN_BLOCKS, UNKNOWN, [IGNORED]),
    ("5.5", "in a header block they are an error", BLOCKS, UNKNOWN, [PROTOCOL]),
    # DATA
    ("6.1", "DATA on stream 0", ALL, {"DATA on 0"}, [PROTOCOL]),
    ("6.1", "DATA neither open nor half-closed (local); section 5.1 has the rule for a stream that this side reset",
     {"remote"} | OTHER_CLOSED, GOOD_DATA, [S_CLOSED]),
    ("6.1", "padding as long as the payload, or longer", ALL, {"DATA, too much padding"}, [PROTOCOL]),
    # HEADERS
    ("6.2", "HEADERS on stream 0", ALL, {"HEADERS on 0"}, [PROTOCOL]),
    ("6.2", "in a header block, any other frame, or one on another stream", BLOCKS, EVERY_FRAME - {"CONTINUATION"}, [PROTOCOL]),
    ("6.2", "padding longer than what is left", ALL, {"HEADERS, too much padding"}, [PROTOCOL]),
    ("8.1", "a second HEADERS has END_STREAM, else the request is malformed (8.1.1)",
     {"open", "local"}, {"HEADERS, trailers"}, [S_PROTOCOL]),
    ("8.1", "trailers have no pseudo-header, else the request is malformed (8.1.1)", {"open", "local"}, REQUESTS, [S_PROTOCOL]),
    ("8.3.1", "a request has its pseudo-headers, else it is malformed (8.1.1)", {"idle"}, ALL_TRAILERS, [S_PROTOCOL]),
    # PRIORITY
    ("6.3", "PRIORITY on stream 0", ALL, {"PRIORITY on 0"}, [PROTOCOL]),
    ("6.3", "PRIORITY in any state", BETWEEN_BLOCKS, {"PRIORITY"}, [ACCEPTED]),
    ("6.3", "a length other than 5", ALL, {"PRIORITY of 4 bytes"}, [S_SIZE]),
    # RST_STREAM
    ("6.4", "RST_STREAM on stream 0", ALL, {"RST_STREAM on 0"}, [PROTOCOL]),
    ("6.4", "RST_STREAM on an idle stream", {"idle", "even"}, {"RST_STREAM"}, [PROTOCOL]),
    ("6.4", "a length other than 4", ALL, {"RST_STREAM of 3 bytes"}, [SIZE]),
    # SETTINGS
    ("6.5", "SETTINGS on a stream", ALL, names("SETTINGS on a stream", "SETTINGS, ACK, on a stream"), [PROTOCOL]),
    ("6.5", "no multiple of 6, or an acknowledgement that isn't empty",
     ALL, {"SETTINGS of 5 bytes", "SETTINGS, ACK, of 6 bytes"}, [SIZE]),
    ("6.5.2", "unknown settings are ignored", ALL - BLOCKS, {"SETTINGS, unknown"}, [ACCEPTED]),
    ("6.5.2", "SETTINGS_ENABLE_PUSH is 0 or 1; SETTINGS_MAX_FRAME_SIZE is 16,384 to 16,777,215",
     ALL, {"SETTINGS, pushing 2", "SETTINGS, frames of 16,383", "SETTINGS, frames of 2^24"}, [PROTOCOL]),
    ("6.5.2", "SETTINGS_INITIAL_WINDOW_SIZE is at most 2,147,483,647", ALL, {"SETTINGS, a window of 2^31"}, [FLOW]),
    ("6.5.3", "SETTINGS is acknowledged", ALL - BLOCKS, {"SETTINGS", "SETTINGS, the reserved bit"}, [ACCEPTED]),
    ("6.5.3", "an acknowledgement", BETWEEN_BLOCKS, {"SETTINGS, ACK"}, [IGNORED]),
    # PUSH_PROMISE
    ("8.4", "a client does not push", ALL, PUSHES, [PROTOCOL]),
    # PING
    ("6.7", "PING on a stream", ALL, names("PING on a stream", "PING, ACK, on a stream"), [PROTOCOL]),
    ("6.7", "a length other than 8", ALL, {"PING of 7 bytes"}, [SIZE]),
    ("6.7", "PING is answered", BETWEEN_BLOCKS, {"PING"}, [ACCEPTED]),
    ("6.7", "PING with ACK is not answered", BETWEEN_BLOCKS, {"PING, ACK"}, [IGNORED]),
    # GOAWAY
    ("6.8", "GOAWAY on a stream", ALL, {"GOAWAY on a stream"}, [PROTOCOL]),
    ("6.8", "the client takes no more streams of the server", BETWEEN_BLOCKS, {"GOAWAY"}, [ACCEPTED]),
    # WINDOW_UPDATE
    ("6.9", "a step of 0 is a stream error", LIVE | ALL_CLOSED, {"WINDOW_UPDATE by 0"}, [S_PROTOCOL]),
    ("6.9", "half-closed (remote), closed: WINDOW_UPDATE is no error", ALL_CLOSED, {"WINDOW_UPDATE by 1"}, [IGNORED]),
    ("6.9", "on the connection a step of 0 is a connection error", ALL, {"WINDOW_UPDATE on 0 by 0"}, [PROTOCOL]),
    ("6.9", "a length other than 4", ALL, {"WINDOW_UPDATE of 3 bytes", "WINDOW_UPDATE on 0 of 3 bytes"}, [SIZE]),
    ("6.9", "the connection's window", BETWEEN_BLOCKS, {"WINDOW_UPDATE on 0 by 1"}, [ACCEPTED]),
    ("6.9.1", "a stream's window is at most 2,147,483,647", LIVE, {"WINDOW_UPDATE past the largest"}, [S_FLOW]),
    ("6.9.1", "the connection's window is at most 2,147,483,647", ALL, {"WINDOW_UPDATE on 0 past the largest"}, [FLOW]),
    # CONTINUATION
    ("6.10", "CONTINUATION on stream 0", ALL, {"CONTINUATION on 0"}, [PROTOCOL]),
    ("6.10", "CONTINUATION without a block, or of another stream's", ALL - {"block"}, {"CONTINUATION"}, [PROTOCOL]),
    ("6.10", "CONTINUATION ends the block, and HEADERS opens its stream", {"block"}, {"CONTINUATION"}, [ACCEPTED]),
]

# ---- what is taken where the standard leaves it open: states, frames, outcome, why. The first that fits a cell decides.
CHOICES = [
    (ALL, WRONG_SIZES, SIZE, "a length is judged as soon as a frame's head has come; a wrong one fails the connection (5.4.1)"),
    ({"remote"}, TOO_MUCH_PADDING, PROTOCOL, "padding is judged before the stream's state is"),
    ({"first"}, EVERY_FRAME, PROTOCOL, "the first frame is SETTINGS without ACK, and the first fault that is found decides"),
    (BLOCKS, EVERY_FRAME, PROTOCOL, "a frame in a header block is not looked at any further"),
    ({"even"}, EVERY_FRAME, PROTOCOL, "the stream's number decides"),
    ({"remote"}, {"CONTINUATION", "PUSH_PROMISE"}, PROTOCOL, "what 6.10 and 8.4 make a connection error stays one"),
    ({"remote"} | OTHER_CLOSED, UNDECODED, COMPRESSION, "a block is decoded before its stream's state is judged"),
    ({"remote"} | ALL_CLOSED, CUT, ACCEPTED, "a block is judged once it is whole"),
    ({"local"}, {"WINDOW_UPDATE by 0"}, S_PROTOCOL, "windows of live streams are judged alike"),
    ({"local"}, {"WINDOW_UPDATE past the largest"}, S_FLOW, "windows of live streams are judged alike"),
    ({"local"}, {"WINDOW_UPDATE by 1"}, ACCEPTED, "windows of live streams are judged alike"),
    (ALL_CLOSED, {"WINDOW_UPDATE by 0"}, IGNORED, "a closed stream has no window"),
    ({"skipped"}, WHOLE_HEADERS, IGNORED,
     "all closed streams are treated alike, as 5.1 lets them; 5.1.1, read alone, asks for PROTOCOL_ERROR"),
    (OTHER_CLOSED, GOOD_DATA, IGNORED,
     "all closed streams are treated alike, as 5.1 lets them; 6.1, read alone, asks for STREAM_CLOSED"),
    (OTHER_CLOSED, EVERY_FRAME, IGNORED, "all closed streams are treated alike, as 5.1 lets them"),
]

# ---- what another crate does: heads are judged above the connection (h2_headers), which only tells them
ELSEWHERE = [({"idle"}, ALL_TRAILERS, ACCEPTED, "a malformed head is reported, and reset by the layer above")]


for rule in RULES + CHOICES + ELSEWHERE:
    states, frames = (rule[2], rule[3]) if len(rule) == 5 else (rule[0], rule[1])
    if not (states <= ALL and frames <= EVERY_FRAME):
        sys.exit(f"no such state or frame: {sorted((states - ALL) | (frames - EVERY_FRAME))}")


# ---- one cell
def find(choices, state, name):
    return [each for each in choices if state in each[0] and name in each[1]]


def outcome(state, name):
    """What is taken, and why where the standard leaves it open."""
    for _, _, taken, why in find(ELSEWHERE, state, name):
        return taken, why
    allowed = {each for rule in RULES if state in rule[2] and name in rule[3] for each in rule[4]}
    if not allowed:
        sys.exit(f"no rule: {name} in {state}")
    if len(allowed) == 1:
        return allowed.pop(), None
    for _, _, taken, why in find(CHOICES, state, name):
        if taken not in allowed:
            sys.exit(f"not allowed: {taken} for {name} in {state}: {sorted(allowed)}")
        return taken, f"{why} (allowed: {', '.join(sorted(allowed))})"
    sys.exit(f"no choice: {name} in {state}: {sorted(allowed)}")


def seen(state, name, taken):
    """The letter of an outcome: an error's, or what an accepted frame shows."""
    if " " in taken:
        where, code = taken.split()
        return LETTERS[code] if where == "connection" else LETTERS[code].lower()
    if taken == IGNORED:
        return "."
    if name in ALL_DATA:
        return "b"
    if state in ("idle", "block") and name in WHOLE_HEADERS | {"CONTINUATION"}:
        return "h"
    if name in WHOLE_HEADERS:
        return "e"
    if name == "RST_STREAM":
        return "g"
    return "a" if name.startswith(("SETTINGS", "PING")) else "."


def state_after(state, name, taken):
    """The letter of the stream's state after the frame (section 5.1)."""
    if taken.startswith("connection"):
        return "-"
    if taken.startswith("stream") or state in ALL_CLOSED and name not in CUT:
        return "x"
    if taken == ACCEPTED and name == "RST_STREAM":
        return "x"
    if name in CUT or state in ("first", "even"):
        return "i"
    if taken == ACCEPTED and name in ENDS:
        return {"idle": "r", "open": "r", "local": "x"}[state]
    if taken == ACCEPTED and state in ("idle", "block") and name in WHOLE_HEADERS | {"CONTINUATION"}:
        return "o"
    return {"idle": "i", "open": "o", "remote": "r", "local": "l"}[state]


# ---- the tables
def words(octets):
    """The frames in hexadecimal, as the tests read them."""
    return octets.hex() or "."


# what the server does, as the tests read it
ACTS = {"Nothing": "nothing", "Finish": "finish 1", "Reset": "reset 1 8"}

HEAD = """\
//! The states of a stream and the frames of a client there, after RFC 9113. `tests/vectors/h2_states.py` writes this file: it
//! has the standard's rules with their sections, and what is taken where they leave a choice.

/// How each state is reached, a line for each in the order of the letters of `ROWS`: the stream, the client's frames,
/// what the server does, and the client's frames after it. The states are:
///"""

ROWS = """
/// What comes of a client's frames in each state, a line for each row: its name, the frames (those of stream 1 are for
/// the stream of the state), and a letter for each state of what is seen, and of the stream's state after it.
///
/// Seen is the code of GOAWAY (`P` PROTOCOL_ERROR, `F` FLOW_CONTROL_ERROR, `S` STREAM_CLOSED, `L` FRAME_SIZE_ERROR,
/// `C` COMPRESSION_ERROR) or of RST_STREAM, in small letters; else `a` for an acknowledgement, `h`, `b`, `e` and `g` for
/// what is reported (a head, a body, the end, the stream is gone), and `.` for nothing. After it the stream is idle or a
/// block is unfinished (`i`), open (`o`), half-closed (`r` remote, `l` local) or closed (`x`), or the connection has
/// failed (`-`)."""


def table():
    print(HEAD)
    for name, *_ in STATES.values():
        print(f"/// - {name}")
    print('pub const STARTS: &str = "\\')
    for _, stream, before, act, after in STATES.values():
        print(f"{stream} | {words(before)} | {ACTS[act]} | {words(after)}")
    print('";')
    print(ROWS)
    print('pub const ROWS: &str = "\\')
    for name, octets in FRAMES.items():
        taken = {state: outcome(state, name)[0] for state in STATES}
        letters = "".join(seen(state, name, taken[state]) for state in STATES)
        after = "".join(state_after(state, name, taken[state]) for state in STATES)
        print(f"{name} | {words(octets)} | {letters} | {after}")
    print('";')


def choices():
    reasons = {}
    for name in FRAMES:
        for state in STATES:
            taken, why = outcome(state, name)
            if why:
                reasons.setdefault((taken, why), []).append(f"{name} / {state}")
    for (taken, why), cells in reasons.items():
        print(f"{taken}: {why}")
        for cell in cells:
            print(f"    {cell}")


if "--choices" in sys.argv[1:]:
    choices()
else:
    table()
