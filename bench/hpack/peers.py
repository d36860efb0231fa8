#!/usr/bin/python3
"""The same heads as decode.rt.txt, by Debian's python3-hpack. Fewer of them, since it is slower."""

import time
import hpack

FIRST = bytes.fromhex("838644996375669652f23d9d6838e4875e463095249ff1b03fbb8e4bff4186a0e41d139d095f8b1d75d0620d263d4c4d65647a8a9acac8b4c7602bb825c34082497f864d833505b11f408df07b3ad071c8ba2b34b295731f834d9697408e9acac8b0c842d6958b510f21aa9b839bd9ab")
NEXT = bytes.fromhex("8386c4c3c2c1c0bfbe")
COUNT = 20000


def timed(name, run):
    start = time.perf_counter()
    run()
    spent = time.perf_counter() - start
    print("%s: %d ns a head" % (name, spent / COUNT * 1e9))


def first_heads():
    for _ in range(COUNT):
        hpack.Decoder().decode(FIRST)


def next_heads():
    decoder = hpack.Decoder()
    decoder.decode(FIRST)
    for _ in range(COUNT):
        decoder.decode(NEXT)


timed("first heads", first_heads)
timed("next heads", next_heads)
