"""HTTP/2 and gRPC over bare Unix sockets, as far as these clients need it: RFC 9113, RFC 7541, and gRPC's own page on HTTP/2."""
import socket

from messages import SECURITY

# RFC 9113, sections 3.4, 6 and 7
PREFACE = b"PRI * HTTP/2.0\r\n\r\nSM\r\n\r\n"
DATA, HEADERS, RST_STREAM, SETTINGS, PING, GOAWAY, WINDOW_UPDATE, CONTINUATION = 0, 1, 3, 4, 6, 7, 8, 9
END_STREAM, END_HEADERS = 1, 4
MOST = 2**31 - 1


class Ended(Exception):
    """A call has ended with this status of gRPC; with None, its connection has ended before it."""

    def __init__(self, status):
        super().__init__(f"the call ended with status {status}")
        self.status = status


def frame(kind, flags=0, stream=0, payload=b""):
    return len(payload).to_bytes(3, "big") + bytes([kind, flags]) + stream.to_bytes(4, "big") + payload


def literal(name, value):
    # RFC 7541, section 6.2.2: without indexing, a new name, both as they are
    return b"\0" + bytes([len(name)]) + name + bytes([len(value)]) + value


def head(path, metadata=(SECURITY,)):
    fields = [(":method", "POST"), (":scheme", "http"), (":path", path), (":authority", "localhost"),
              ("content-type", "application/grpc"), ("te", "trailers"), *metadata]
    return b"".join(literal(name.encode(), value.encode()) for name, value in fields)


GREETING = PREFACE + frame(SETTINGS)
# section 6.5.2 (SETTINGS_INITIAL_WINDOW_SIZE) and 6.9: the widest windows, for a client that reads whatever comes
WIDE_GREETING = PREFACE + frame(SETTINGS, payload=b"\0\x04" + MOST.to_bytes(4, "big")) \
    + frame(WINDOW_UPDATE, payload=(MOST - 65_535).to_bytes(4, "big"))


def connect(path, seconds):
    """A connection of which each call ends after so many seconds."""
    opened = socket.socket(socket.AF_UNIX)
    opened.settimeout(seconds)
    opened.connect(str(path))
    return opened


def frames(opened):
    """Each frame that comes: its kind, its stream and its payload."""
    held = b""
    while True:
        while len(held) < 9 or len(held) < 9 + int.from_bytes(held[:3], "big"):
            piece = opened.recv(65_536)
            if not piece:
                return
            held += piece
        end = 9 + int.from_bytes(held[:3], "big")
        yield held[3], int.from_bytes(held[5:9], "big") & MOST, held[9:end]
        held = held[end:]


def call(opened, path, request=b"", metadata=(SECURITY,)):
    """Makes the one call of this connection."""
    message = bytes(1) + len(request).to_bytes(4, "big") + request
    opened.sendall(WIDE_GREETING + frame(HEADERS, END_HEADERS, 1, head(path, metadata)) + frame(DATA, END_STREAM, 1, message))


def status_in(block):
    """The status in a header block, whose strings stand as they are; None where it has none."""
    _, name, rest = block.partition(b"grpc-status")
    return int(rest[1:1 + rest[0]]) if name else None


def messages(opened):
    """Each message that answers the one call of this connection, and then Ended."""
    held = b""
    for kind, stream, payload in frames(opened):
        if kind == HEADERS and status_in(payload) is not None:
            raise Ended(status_in(payload))
        held += payload if kind == DATA and stream else b""
        while len(held) >= 5 and len(held) >= 5 + int.from_bytes(held[1:5], "big"):
            end = 5 + int.from_bytes(held[1:5], "big")
            yield held[5:end]
            held = held[end:]
    raise Ended(None)
