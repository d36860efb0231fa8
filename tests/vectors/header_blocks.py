#!/usr/bin/python3
"""Header blocks encoded by Debian's python3-hpack, for the tests of the crate `hpack`.

Prints a script: a line `new` begins a connection, a line `> HEX` is its next block, and the lines after it are the
headers that the block names. Run once; its text stands in crates/wire_tests/src/hpack_tests/vectors.rt.
"""

import hpack

GRPC = [
    (":method", "POST"),
    (":scheme", "http"),
    (":path", "/SpiffeWorkloadAPI/FetchX509SVID"),
    (":authority", "localhost"),
    ("content-type", "application/grpc"),
    ("user-agent", "grpc-go/1.62.1"),
    ("te", "trailers"),
    ("workload.spiffe.io", "true"),
    ("grpc-accept-encoding", "gzip"),
]

BUNDLES = [(n, "/SpiffeWorkloadAPI/FetchX509Bundles" if n == ":path" else v) for n, v in GRPC]
JWT = [(n, "/SpiffeWorkloadAPI/FetchJWTSVID" if n == ":path" else v) for n, v in GRPC] + [("grpc-timeout", "4999855u")]
ODD = [
    ("x-empty", ""),
    ("x-bytes", "".join(chr(c) for c in range(32, 127))),
    ("x-long", "a" * 300),
    ("x-quote", '"`~|{}<>[]\\^'),
]
LARGE = [("x-large-%d" % k, "v%d" % k * 200) for k in range(3)]


def show(encoder, headers, huffman):
    block = encoder.encode(headers, huffman=huffman)
    print("> " + block.hex())
    for name, value in headers:
        print("%s: %s" % (name, value))


def main():
    for huffman in (True, False):
        print("new")
        encoder = hpack.Encoder()
        for headers in (GRPC, GRPC, BUNDLES, JWT, ODD, GRPC):
            show(encoder, headers, huffman)
    # The table is made smaller and larger again between blocks, and large entries evict small ones.
    print("new")
    encoder = hpack.Encoder()
    show(encoder, GRPC, True)
    encoder.header_table_size = 120
    show(encoder, GRPC, True)
    show(encoder, BUNDLES, True)
    encoder.header_table_size = 0
    show(encoder, GRPC, True)
    encoder.header_table_size = 4096
    show(encoder, LARGE, True)
    show(encoder, GRPC, True)
    show(encoder, LARGE, True)
    # A sensitive header is never indexed.
    print("new")
    encoder = hpack.Encoder()
    block = encoder.encode([hpack.NeverIndexedHeaderTuple("authorization", "secret")])
    print("> " + block.hex())
    print("authorization: secret")


main()
