#!/usr/bin/python3
"""Prints what the servers of two other libraries write to a client that asks once, in hexadecimal, for the tests of the
client: a line for each server and case, of its name, the case and the bytes.

It needs Debian's python3-grpcio, golang-go and golang-google-grpc-dev. The client here sends the preface, an empty SETTINGS,
a head of plain literals and one message, acknowledges SETTINGS and PING, and gives back each window."""
import json
import os
import socket
import struct
import subprocess
import sys
import tempfile
import time

import answers

CODES = {"INVALID_ARGUMENT": 3, "NOT_FOUND": 5, "PERMISSION_DENIED": 7, "UNAVAILABLE": 14}
HERE = os.path.dirname(os.path.abspath(__file__))


def frame(kind, flags, stream, payload=b""):
    return struct.pack(">I", len(payload))[1:] + bytes([kind, flags]) + struct.pack(">I", stream) + payload


def text(value):
    value = value.encode()
    assert len(value) < 127
    return bytes([len(value)]) + value


def opening(path):
    head = b"\x83\x86\x04" + text(path) + b"\x01" + text("localhost") + b"\x0f\x10" + text("application/grpc")
    head += b"\x00" + text("te") + text("trailers") + b"\x00" + text("workload.spiffe.io") + text("true")
    return b"PRI * HTTP/2.0\r\n\r\nSM\r\n\r\n" + frame(4, 0, 0) + frame(1, 4, 1, head) + frame(0, 1, 1, bytes(5))


def replies(kind, flags, payload):
    if kind == 4 and not flags & 1:
        return frame(4, 1, 0)
    if kind == 6 and not flags & 1:
        return frame(6, 1, 0, payload)
    if kind == 0 and payload:
        step = struct.pack(">I", len(payload))
        return frame(8, 0, 0, step) + frame(8, 0, 1, step)
    return b""


def record(path, case):
    service, method = case.path.strip("/").split("/")
    peer = socket.socket(socket.AF_UNIX)
    peer.connect(path)
    peer.settimeout(1.0)
    peer.sendall(opening(f"/{case.name}.{service}/{method}"))
    heard, at = b"", 0
    while True:
        try:
            piece = peer.recv(65536)
        except socket.timeout:
            return heard
        if not piece:
            return heard
        heard += piece
        while len(heard) - at >= 9 and len(heard) - at >= 9 + int.from_bytes(heard[at:at + 3], "big"):
            end = at + 9 + int.from_bytes(heard[at:at + 3], "big")
            peer.sendall(replies(heard[at + 3], heard[at + 4], heard[at + 9:end]))
            at = end


def go_cases():
    return json.dumps([{"Name": c.name, "Path": c.path, "Streams": c.streams, "Messages": [m.hex() for m in c.messages],
                        "Code": CODES[c.status[0]] if c.status else 0, "Text": c.status[1] if c.status else ""}
                       for c in answers.CASES])


def main():
    with tempfile.TemporaryDirectory() as scratch:
        program = os.path.join(scratch, "go_server")
        subprocess.run(["go", "build", "-o", program, os.path.join(HERE, "go_server.go")], check=True,
                       env=dict(os.environ, GO111MODULE="off", GOPATH="/usr/share/gocode", GOCACHE=os.path.join(scratch, "cache")))
        servers = {"grpcio": [sys.executable, os.path.join(HERE, "python_server.py")], "go": [program]}
        for name, words in servers.items():
            path = os.path.join(scratch, name + ".sock")
            server = subprocess.Popen([*words, path] + ([go_cases()] if name == "go" else []))
            for _ in range(100):
                if os.path.exists(path):
                    break
                time.sleep(0.1)
            for case in answers.CASES:
                print(name, case.name, record(path, case).hex(), flush=True)
            server.kill()
            server.wait()


main()
