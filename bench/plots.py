#!/usr/bin/python3
"""Draws the plots of docs/plots from the tables of docs/PERFORMANCE.md, as SVG.

    bench/plots.py            writes them
    bench/plots.py --check    ends with 1 where one isn't what it would write

The tables have the figures of one run each; this reads them and measures nothing."""
import html
import math
import pathlib
import re
import sys

TOP = pathlib.Path(__file__).resolve().parent.parent
PAGE = TOP / "docs" / "PERFORMANCE.md"
OUT = TOP / "docs" / "plots"
WIDTH, LEFT, BAR, GAP = 720, 250, 20, 8
COLOURS = ("#1f5fa8", "#c2703d", "#8a8a8a", "#4f8f5b")
NUMBER = re.compile(r"[\d,]+(?:\.\d+)?")


def table_of(section):
    """The rows of the first table of a section, as lists of cells."""
    text = PAGE.read_text().split(f"\n## {section}\n", 1)[1].split("\n## ", 1)[0]
    rows = [[cell.strip() for cell in line.strip().strip("|").split("|")] for line in text.splitlines() if line.startswith("|")]
    return rows[0], rows[2:]


def first_number(cell):
    return float(NUMBER.search(cell).group().replace(",", ""))


def svg(height, title, parts):
    head = (f'<svg xmlns="http://www.w3.org/2000/svg" width="{WIDTH}" height="{height}" viewBox="0 0 {WIDTH} {height}" '
            f'font-family="sans-serif" font-size="13" role="img" aria-label="{html.escape(title)}">')
    back = f'<rect width="{WIDTH}" height="{height}" fill="#ffffff"/>'
    name = f'<text x="12" y="24" font-size="15" font-weight="bold">{html.escape(title)}</text>'
    return "\n".join([head, back, name, *parts, "</svg>", ""])


def text(x, y, words, anchor="start", colour="#222222"):
    return f'<text x="{x:.0f}" y="{y:.0f}" text-anchor="{anchor}" fill="{colour}">{html.escape(words)}</text>'


def bars(title, groups):
    """Bars of groups: each has a name and its (name, number, words)."""
    parts, y = [], 44
    for name, rows in groups:
        most = max(number for _, number, _ in rows)
        parts.append(text(12, y + 14, name))
        y += 22
        for at, (who, number, words) in enumerate(rows):
            length = (WIDTH - LEFT - 110) * number / most
            parts.append(text(LEFT - 10, y + 15, who, "end"))
            parts.append(f'<rect x="{LEFT}" y="{y}" width="{length:.0f}" height="{BAR}" fill="{COLOURS[at]}"/>')
            parts.append(text(LEFT + length + 6, y + 15, words))
            y += BAR + GAP
        y += 10
    return svg(y + 6, title, parts)


def beside_grpc_go():
    names, rows = table_of("Serving, beside grpc-go")
    groups = []
    for wanted, name in [("20,000 first responses", "First responses on new connections, a second"),
                         ("100,000 calls", "Calls on open connections, a second")]:
        row = next(row for row in rows if row[0].startswith(wanted))
        groups.append((name, [(who, first_number(cell), NUMBER.search(cell).group()) for who, cell in zip(names[1:], row[1:])]))
    return bars("One processor, beside grpc-go (longer is faster)", groups)


def lines(title, below, xs, series):
    """Lines over numbers of entries, the highest first; the numbers stand by powers of ten."""
    height, top, bottom, right = 380, 50, 330, WIDTH - 210
    numbers = [y for _, ys in series for y in ys]
    low, high = math.floor(math.log10(min(numbers))), math.ceil(math.log10(max(numbers)))
    across = [LEFT - 170 + (right - LEFT + 170) * (math.log10(x) - math.log10(xs[0])) / (math.log10(xs[-1]) - math.log10(xs[0])) for x in xs]

    def up(y):
        return bottom - (bottom - top) * (math.log10(y) - low) / (high - low)
    parts = []
    for power in range(low, high + 1):
        parts.append(f'<line x1="{across[0]:.0f}" y1="{up(10.0 ** power):.0f}" x2="{right}" y2="{up(10.0 ** power):.0f}" stroke="#dddddd"/>')
        parts.append(text(across[0] - 8, up(10.0 ** power) + 5, f"{10.0 ** power:,g}", "end"))
    for x, at in zip(xs, across):
        parts.append(text(at, bottom + 20, f"{x:,.0f}", "middle"))
    parts.append(text((across[0] + right) / 2, bottom + 42, below, "middle"))
    label = 0.0
    for at, (name, ys) in enumerate(series):
        label = max(up(ys[-1]) + 5, label + 15)
        points = " ".join(f"{x:.0f},{up(y):.0f}" for x, y in zip(across, ys))
        parts.append(f'<polyline points="{points}" fill="none" stroke="{COLOURS[at]}" stroke-width="2.5"/>')
        parts.append(text(right + 8, label, name, colour=COLOURS[at]))
    return svg(height, title, parts)


def over_entries():
    names, rows = table_of("The store")
    xs = [first_number(name) for name in names[1:]]
    series = []
    for wanted, name in [("`sync`, the same document", "a whole document"), ("`signed`, one ticket", "one identity signed"),
                         ("`entitled`, to one entry", "who is entitled"), ("`claim`, nothing due", "nothing is due")]:
        row = next(row for row in rows if row[0] == wanted)
        series.append((name, [first_number(cell) for cell in row[1:]]))
    return lines("The store: microseconds over the number of entries", "entries", xs, series)


PLOTS = {"grpc-go.svg": beside_grpc_go, "entries.svg": over_entries}


def main():
    stale = []
    for name, draw in PLOTS.items():
        drawn = draw()
        if "--check" in sys.argv[1:]:
            if not (OUT / name).is_file() or (OUT / name).read_text() != drawn:
                stale.append(name)
        else:
            OUT.mkdir(exist_ok=True)
            (OUT / name).write_text(drawn)
    for name in stale:
        print(f"docs/plots/{name} isn't what bench/plots.py draws")
    return 1 if stale else 0


if __name__ == "__main__":
    sys.exit(main())
