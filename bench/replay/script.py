#!/usr/bin/env python3
"""Writes a script for `agentd replay` that is as long as one may be, or shorter:

    bench/replay/script.py calls|pings|documents [BYTES]

`calls`: 32 callers of 100 entries make call after call of FetchX509SVID, each cancelled before the next, with a turn
after each. `pings`: the callers make one call each, and then send PING after PING, with a turn after each.
`documents`: a document of 1,000 entries is taken in again and again, in which the DNS name of one entry comes and goes.
"""
import json
import sys

LIMIT = 16_777_216
CALLERS = 32
OPENING = b"PRI * HTTP/2.0\r\n\r\nSM\r\n\r\n" + bytes.fromhex("000000040000000000")
PING = bytes.fromhex("0000080600000000006162636465666768")
HEADERS = [
    (b":path", b"/SpiffeWorkloadAPI/FetchX509SVID"),
    (b":authority", b"localhost"),
    (b"content-type", b"application/grpc"),
    (b"te", b"trailers"),
    (b"workload.spiffe.io", b"true"),
]


def frame(kind, flags, stream, payload):
    return len(payload).to_bytes(3, "big") + bytes([kind, flags]) + stream.to_bytes(4, "big") + payload


def header_block():
    """`:method: POST` and `:scheme: http` of the static table, and literals that are not added to the table."""
    texts = b"".join(bytes([0, len(name)]) + name + bytes([len(value)]) + value for name, value in HEADERS)
    return b"\x83\x86" + texts


def call(stream):
    return frame(1, 4, stream, header_block()) + frame(0, 1, stream, bytes(5))


def next_call(stream):
    """The call before it is cancelled, and the window of the connection grows by 4,096 bytes."""
    return frame(3, 0, stream - 2, bytes([0, 0, 0, 8])) + frame(8, 0, 0, bytes([0, 0, 16, 0])) + call(stream)


def entry(number, names):
    return {
        "id": f"e{number:05}",
        "spiffe_id": f"spiffe://a.b/w/{number}",
        "selectors": [f"sim:caller:{number % CALLERS}"],
        "dns_names": names,
        "ttl": 3600,
    }


def document(count, names):
    """A document in which the last entry has these DNS names."""
    entries = [entry(number, names if number + 1 == count else []) for number in range(count)]
    bundle = {"trust_domain": "a.b", "x509": "Aw=="}
    text = {"version": 2, "trust_domain": "a.b", "bundles": [bundle], "entries": entries}
    return json.dumps(text, separators=(",", ":")).encode().hex()


def beginning(count):
    """All entries are signed, for long, and all callers are connected."""
    yield f"sync {document(count, [])}"
    yield "claim 1000"
    for ticket in range(1, count + 1):
        yield f"signed {ticket} 3031 3032 1000 1000000000 1000"
    for caller in range(CALLERS):
        yield f"join {caller} sim:caller:{caller}"
        yield f"feed {caller} {(OPENING + call(1)).hex()}"
        yield f"turn {caller}"


def calls():
    yield from beginning(100)
    stream = 3
    while True:
        piece = next_call(stream).hex()
        for caller in range(CALLERS):
            yield f"feed {caller} {piece}"
            yield f"turn {caller}"
        stream += 2


def pings():
    yield from beginning(100)
    while True:
        for caller in range(CALLERS):
            yield f"feed {caller} {PING.hex()}"
            yield f"turn {caller}"


def documents():
    one, other = document(1_000, []), document(1_000, ["alt"])
    while True:
        yield f"sync {one}"
        yield f"sync {other}"


def main():
    lines = {"calls": calls, "pings": pings, "documents": documents}[sys.argv[1]]()
    left = int(sys.argv[2]) if len(sys.argv) > 2 else LIMIT
    for line in lines:
        left -= len(line) + 1
        if left < 0:
            return
        sys.stdout.write(line + "\n")


main()
