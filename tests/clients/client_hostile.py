#!/usr/bin/python3
"""Peers that mean no good, over bare sockets: each ends its own connection with the GOAWAY of RFC 9113 that is due, and a neighbour on
the same socket is served. Usage: client_hostile.py FOLDER [CASE..]; a line for each case."""
import pathlib
import socket
import sys

sys.path.insert(0, str(pathlib.Path(__file__).resolve().parent.parent.parent / "tools"))
import bare
from bare import CONTINUATION, DATA, END_HEADERS, END_STREAM, GOAWAY, GREETING, HEADERS, MOST, PING, PREFACE, RST_STREAM, SETTINGS, \
    WINDOW_UPDATE, frame, frames
from cases import tell
from messages import API

FOLDER = pathlib.Path(sys.argv[1])
SECONDS = 30
# RFC 9113, section 7
PROTOCOL_ERROR, FLOW_CONTROL_ERROR, FRAME_SIZE_ERROR, COMPRESSION_ERROR, ENHANCE_YOUR_CALM = 1, 3, 6, 9, 11
HEAD = bare.head(API + "FetchX509SVID")


def connect(name):
    return bare.connect(FOLDER / f"{name}.sock", SECONDS)


def is_served():
    """Whether a neighbour gets its message."""
    with connect("web") as opened:
        opened.sendall(GREETING + frame(HEADERS, END_HEADERS, 1, HEAD) + frame(DATA, END_STREAM, 1, bytes(5)))
        return any(kind == DATA and b"spiffe://example.org/web" in payload for kind, _, payload in until(opened, DATA))


def until(opened, kind):
    for it in frames(opened):
        yield it
        if it[0] == kind and it[2]:
            return


def ends_with(code, sent):
    """Whether these bytes are answered by a GOAWAY of this code and then the end, while a neighbour is served."""
    with connect("web") as opened:
        try:
            opened.sendall(sent)
        except (BrokenPipeError, ConnectionResetError):
            pass  # it has said already what it has to say
        said = [payload for kind, _, payload in frames(opened) if kind == GOAWAY]
    return len(said) == 1 and int.from_bytes(said[0][4:8], "big") == code and is_served()


def rapid_reset():
    sent = b"".join(frame(HEADERS, END_HEADERS, n, HEAD) + frame(RST_STREAM, 0, n, bytes(4)) for n in range(1, 20_010, 2))
    return ends_with(ENHANCE_YOUR_CALM, GREETING + sent)


def ping_flood():
    """Ten thousand are answered one by one."""
    with connect("web") as opened:
        opened.sendall(GREETING)
        for _ in range(100):
            opened.sendall(frame(PING, 0, 0, b"12345678") * 100)
            got = 0
            for kind, _, payload in frames(opened):
                got += kind == PING and payload == b"12345678"
                if got == 100:
                    break
    return is_served()


def silent():
    """Eight that say nothing hold eight of the socket's places, and no neighbour."""
    held = [connect("web") for _ in range(8)]
    served = is_served()
    for it in held:
        it.close()
    return served


def one_byte_at_a_time():
    sent = GREETING + frame(HEADERS, END_HEADERS, 1, HEAD) + frame(DATA, END_STREAM, 1, bytes(5))
    with connect("web") as opened:
        opened.setsockopt(socket.SOL_SOCKET, socket.SO_SNDBUF, 1)
        for at in range(len(sent)):
            opened.sendall(sent[at:at + 1])
        return any(kind == DATA and payload for kind, _, payload in until(opened, DATA))


OPEN = GREETING + frame(HEADERS, END_HEADERS, 1, HEAD)
CASES = {
    "bad_preface": lambda: ends_with(PROTOCOL_ERROR, b"GET / HTTP/1.1\r\nHost: a\r\n\r\n"),
    "no_settings": lambda: ends_with(PROTOCOL_ERROR, PREFACE + frame(PING, 0, 0, bytes(8))),
    "long_frame": lambda: ends_with(FRAME_SIZE_ERROR, GREETING + frame(DATA, 0, 1, bytes(16_385))),
    "short_ping": lambda: ends_with(FRAME_SIZE_ERROR, GREETING + frame(PING, 0, 0, b"1")),
    "bad_header_block": lambda: ends_with(COMPRESSION_ERROR, GREETING + frame(HEADERS, END_HEADERS, 1, b"\xbf")),
    "window_overflow": lambda: ends_with(FLOW_CONTROL_ERROR, GREETING + frame(WINDOW_UPDATE, 0, 0, MOST.to_bytes(4, "big"))),
    "settings_flood": lambda: ends_with(ENHANCE_YOUR_CALM, GREETING + frame(SETTINGS) * 101),
    "empty_data_flood": lambda: ends_with(ENHANCE_YOUR_CALM, OPEN + frame(DATA, 0, 1) * 101),
    "continuation_flood": lambda: ends_with(ENHANCE_YOUR_CALM, GREETING + frame(HEADERS, 0, 1) + frame(CONTINUATION, 0, 1) * 65),
    "rapid_reset": rapid_reset,
    "ping_flood": ping_flood,
    "silent": silent,
    "one_byte_at_a_time": one_byte_at_a_time,
}


if __name__ == "__main__":
    tell(CASES)
