#!/usr/bin/env python3
"""Runs the built measurement of sessions and prints its figures as three tables in Markdown: nanoseconds, the least of
seven runs, at 1,000 and at 10,000 entries; how often turns with nothing new take memory; and the most memory that is
resident, by the number of frames that one session is fed.

    bench/session/table.py PROGRAM SHIM

SHIM is the library that allocations.c makes.
"""
import os
import re
import subprocess
import sys

COUNTS = [1_000, 10_000]
RUNS = 7
TURNS = 1_000_000
# Calls beyond those that are timed, which are as many on each session, of four frames each.
TIMED_CALLS = 2_000
FRAMES_A_CALL = 4


def run(program, entries, calls, turns, shim=""):
    """The figures that the program prints by name, and those that the library prints."""
    words = [program, str(entries), str(calls), str(turns)]
    environment = {**os.environ, "LD_PRELOAD": shim}
    ended = subprocess.run(words, stdout=subprocess.PIPE, stderr=subprocess.PIPE, text=True, env=environment)
    if ended.returncode != 0:
        sys.exit(ended.stdout + ended.stderr)
    lines = ended.stdout.splitlines() + ended.stderr.splitlines()
    return {name: int(figure) for name, figure in (line.rsplit(": ", 1) for line in lines)}


def times(program):
    runs = [[run(program, entries, 0, TURNS) for _ in range(RUNS)] for entries in COUNTS]
    least = [{name: min(one[name] for one in of) for name in of[0]} for of in runs]
    print("| nanoseconds | " + " | ".join(f"{count:,} entries" for count in COUNTS) + " |")
    print("|---|" + "---|" * len(COUNTS))
    for name in least[0]:
        print(f"| {name} | " + " | ".join(f"{of[name]:,}" for of in least) + " |")


def turns(program, shim):
    print("| entries | turns with nothing new | memory is taken, times in all |")
    print("|---|---|---|")
    for entries in COUNTS:
        for count in (0, TURNS):
            taken = run(program, entries, 0, count, shim)["memory taken"]
            print(f"| {entries:,} | {count:,} | {taken:,} |")


def frames(program, shim):
    print("| frames that one session is fed | resident at most, kB |")
    print("|---|---|")
    for count in (10_000, 100_000, 1_000_000):
        calls = count // FRAMES_A_CALL - TIMED_CALLS
        peak = run(program, 10, calls, 0, shim)["resident at most"]
        print(f"| {count:,} | {peak:,} |")


program, shim = sys.argv[1:]
times(program)
print()
turns(program, shim)
print()
frames(program, shim)
