#!/usr/bin/env python3
"""Runs the built measurement of publications for several numbers of entries and of publications, each in a process of
its own, and prints its figures as two tables in Markdown.

    bench/publish/table.py PROGRAM
"""
import pathlib
import sys

sys.path.insert(0, str(pathlib.Path(__file__).resolve().parent.parent))
from figures import figures

program = sys.argv[1]
print("| entries | publications before | ns a read, one thread | ns a read, each of four | rate of each of the four |")
print("|---|---|---|---|---|")
for entries, publications in [(1, 10), (100, 10), (10_000, 10), (1, 100_000)]:
    named, _ = figures(program, str(entries), str(publications))
    alone, four = named["read alone"], named["read by four"]
    print(f"| {entries:,} | {publications:,} | {alone} | {four} | {alone / max(four, 1):.2f} |")
print()
print("| publications of one entry | memory at most, MB | ns a publication |")
print("|---|---|---|")
for publications in [1_000, 1_000_000]:
    named, peak = figures(program, "1", str(publications))
    print(f"| {publications:,} | {peak / 1e6:,.1f} | {named['publication']:,} |")
