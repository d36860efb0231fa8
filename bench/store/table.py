#!/usr/bin/env python3
"""Runs the built measurement of the store for 1,000, 3,000 and 10,000 entries, without and with tokens, each in a
process of its own, and prints its figures as a table in Markdown: microseconds, the lesser of both runs, and the peak of
the memory of each.

    bench/store/table.py PROGRAM
"""
import pathlib
import sys

sys.path.insert(0, str(pathlib.Path(__file__).resolve().parent.parent))
from figures import figures

COUNTS = [1_000, 3_000, 10_000]


def cell(nanoseconds):
    microseconds = nanoseconds / 1000
    return f"{microseconds:,.1f}" if microseconds < 100 else f"{microseconds:,.0f}"


def row(name, cells):
    print(f"| {name} | " + " | ".join(cells) + " |")


program = sys.argv[1]
runs = [(figures(program, str(count)), figures(program, str(count), "tokens")) for count in COUNTS]
row("microseconds", [f"{count:,} entries" for count in COUNTS])
row("---", ["---"] * len(COUNTS))
for name in runs[0][1][0]:
    row(name, [cell(min(named[name] for named, _ in both if name in named)) for both in runs])
row("memory at most, MB", [f"{peak / 1e6:,.0f}" for (_, peak), _ in runs])
row("with the last 16 of 48 tokens an entry, MB", [f"{peak / 1e6:,.0f}" for _, (_, peak) in runs])
