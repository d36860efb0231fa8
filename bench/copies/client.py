#!/usr/bin/python3
"""How often wlctl copies the bytes of long responses that a server of the same bytes sends: one response, one in DATA with
padding, and several on one stream. Copies of the kernel are not counted. Usage: bench/copies/client.py [CALLS]

It needs gcc."""
import os
import pathlib
import socket
import struct
import subprocess
import sys
import tempfile
import threading

HERE = pathlib.Path(__file__).resolve().parent
TOP = HERE.parent.parent
WLCTL = os.environ.get("WLCTL", str(TOP / "crates" / "wlctl" / "out" / "wlctl"))
BUNDLES = (800_000, 700_000, 1_000_000)
FRAME = 16_384
PADDED = 8


def varint(number):
    out = b""
    while number > 127:
        out += bytes([number & 127 | 128])
        number >>= 7
    return out + bytes([number])


def field(number, content):
    return varint(number << 3 | 2) + varint(len(content)) + content


def frame(kind, flags, stream, payload):
    return len(payload).to_bytes(3, "big") + bytes([kind, flags]) + struct.pack(">I", stream) + payload


def response():
    svid = field(1, b"spiffe://example.org/huge") + field(2, bytes(500)) + field(3, bytes(130)) + field(4, bytes(500))
    bundles = [field(1, b"spiffe://%d.example" % at) + field(2, os.urandom(size)) for at, size in enumerate(BUNDLES)]
    return field(1, svid) + b"".join(field(3, it) for it in bundles)


def answer(message, padding, times):
    body = b"\0" + struct.pack(">I", len(message)) + message
    front, flags, room = (bytes([padding]), PADDED, FRAME - 1 - padding) if padding else (b"", 0, FRAME)
    parts = [body[at : at + room] for at in range(0, len(body), room)]
    data = b"".join(frame(0, flags, 1, front + part + bytes(padding)) for part in parts)
    head = frame(1, 4, 1, b"\x88\x0f\x10\x10application/grpc")
    return frame(4, 0, 0, b"") + frame(4, 1, 0, b"") + head + data * times


def drain(peer):
    try:
        while peer.recv(65_536):
            pass
    except OSError:
        pass


def serve(listener, text):
    while True:
        peer, _ = listener.accept()
        threading.Thread(target=drain, args=(peer,), daemon=True).start()
        try:
            peer.sendall(text)
        except OSError:
            pass


def measure(folder, shim, calls, words, padding, times):
    message = response()
    place = f"{folder}/socket-{padding}-{times}"
    listener = socket.socket(socket.AF_UNIX)
    listener.bind(place)
    listener.listen()
    threading.Thread(target=serve, args=(listener, answer(message, padding, times)), daemon=True).start()
    moved = grown = 0
    for _ in range(calls):
        counts = pathlib.Path(folder, "counts")
        env = {**os.environ, "COPIES": str(counts), "LD_PRELOAD": shim}
        subprocess.run([WLCTL, place, *words], check=True, stdout=subprocess.DEVNULL, env=env)
        by_copies, by_reallocs = struct.unpack("QQ", counts.read_bytes())
        moved, grown = moved + by_copies, grown + by_reallocs
        counts.unlink()
    size = calls * times * len(message)
    print(f"| {' '.join(words)}, padding {padding} | {moved / size:.2f} by copies | {grown / size:.2f} by reallocs that move |")


def main():
    calls = int(sys.argv[1]) if len(sys.argv) > 1 else 20
    with tempfile.TemporaryDirectory(prefix="copies-") as folder:
        shim = f"{folder}/copies.so"
        subprocess.run(["gcc", "-O2", "-shared", "-fPIC", "-fno-builtin", "-o", shim, HERE / "copies.c", "-ldl"], check=True)
        measure(folder, shim, calls, ["fetch", "x509"], 0, 1)
        measure(folder, shim, calls, ["fetch", "x509"], 7, 1)
        measure(folder, shim, calls, ["watch", "8"], 0, 8)


main()
