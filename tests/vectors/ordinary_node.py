#!/usr/bin/python3
"""Prints the bytes of the test of an ordinary node (crates/wl_serve_tests/src/tests/ordinary): what each of its clients sends, with
heads as python3-hpack (Debian) writes them, and the parts of certificates and messages, counted here. Its output was
copied into the test once.
"""
import hpack

CHAIN, KEY, BUNDLE = 1_500, 140, 1_200
METHODS = ["FetchX509SVID", "FetchX509Bundles", "FetchJWTBundles"]
DOMAINS = ["a.b", "c.d", "e.f"]
# how many of fifty entries are of each socket: those whose numbers, from 0, leave 0, 1 and 2 when divided by 3
ENTRIES = [17, 17, 16]


def frame(kind, flags, stream, payload=b""):
    return len(payload).to_bytes(3, "big") + bytes([kind, flags]) + stream.to_bytes(4, "big") + payload


def head(method):
    return [(":method", "POST"), (":scheme", "http"), (":path", "/SpiffeWorkloadAPI/" + method), (":authority", "localhost"),
            ("content-type", "application/grpc"), ("user-agent", "grpc-go/1.62.1"), ("te", "trailers"),
            ("workload.spiffe.io", "true"), ("grpc-accept-encoding", "gzip")]


def varint(number):
    return bytes([number]) if number < 128 else bytes([number & 127 | 128]) + varint(number >> 7)


def front(number, length):
    """What stands before the bytes of a field of that length (Protocol Buffers, wire type 2)."""
    return bytes([number << 3 | 2]) + varint(length)


def der(tag, *parts):
    content = b"".join(parts)
    assert len(content) < 128
    return bytes([tag, len(content)]) + content


def certificate(uri, begin, end):
    """The least certificate: a TBSCertificate of version 3 with empty names and keys, and one URI (RFC 5280)."""
    empty = der(0x30)
    names = der(0x30, bytes.fromhex("0603551d11"), der(4, der(0x30, der(0x86, uri))))
    fields = [der(0xa0, der(2, b"\2")), der(2, b"\1"), empty, empty, der(0x30, der(0x17, begin), der(0x17, end)), empty, empty]
    return der(0x30, der(0x30, *fields, der(0xa3, der(0x30, names))), empty, der(3, b"\0"))


def written(data):
    return 'b"' + "".join(chr(c) if 32 <= c < 127 and chr(c) not in '"\\' else "\\x%02x" % c for c in data) + '"'


def main():
    encoder = hpack.Encoder()
    ping = frame(6, 0, 0, b"\2\4\x10\x10\x09\x0e\7\7")
    for place, method in enumerate(METHODS):
        stream = 2 * place + 1
        block = encoder.encode(head(method), huffman=True)
        print(method, written(frame(1, 4, stream, block) + frame(0, 1, stream, bytes(5)) + ping))
    print("a ping", written(ping))
    print("steps of 60,000", written(frame(8, 0, 0, (60_000).to_bytes(4, "big")) + frame(8, 0, 1, (60_000).to_bytes(4, "big"))))
    one, other, place = b"700101000140Z", b"700101000320Z", b"NN"
    leaf = certificate(b"spiffe://a.b/w" + place, one, other)
    before, rest = leaf.split(one)
    between, rest = rest.split(other)
    names, after = rest.split(place)
    for part in (before, between, names, after):
        print("leaf", written(part))
    print("chain after the leaf", CHAIN - len(leaf))
    name = len(b"spiffe://a.b/w" + place)
    svid = sum(len(front(1, size)) + size for size in (name, CHAIN, KEY, BUNDLE))
    print("svid", written(front(1, svid) + front(1, name) + b"spiffe://a.b/w"), written(front(2, CHAIN)), written(front(3, KEY)), written(front(4, BUNDLE)))
    pair = len(front(1, 12)) + 12 + len(front(2, BUNDLE)) + BUNDLE
    print("pair", written(front(0, pair)[1:] + front(1, 12) + b"spiffe://"), written(front(2, BUNDLE)))
    for entries in ENTRIES:
        length = entries * (len(front(1, svid)) + svid) + 2 * (len(front(3, pair)) + pair)
        print(entries, "identities", length, written(b"\0" + length.to_bytes(4, "big")))
    length = 3 * (len(front(2, pair)) + pair)
    print("three bundles", length, written(b"\0" + length.to_bytes(4, "big")))


main()
