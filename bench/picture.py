#!/usr/bin/env python3
"""Draws the two tables of speeds in docs/BENCHMARKS.md as bars.

usage: bench/picture.py            writes docs/speed.svg
       bench/picture.py --check    says whether docs/speed.svg is what the table gives

For each document there is a bar for the way to a buffer and one for the way to JSON: this program's CPU time (user and
system), where Google's is 1.
"""
import os
import sys
from xml.sax.saxutils import escape

ROOT = os.path.dirname(os.path.dirname(os.path.abspath(__file__)))
TABLE = f"{ROOT}/docs/BENCHMARKS.md"
PICTURE = f"{ROOT}/docs/speed.svg"
BARS = [("JSON to a buffer", "#2f6f9f"), ("a buffer to JSON", "#7fb069")]
WIDTH, LEFT, UNIT, TOP, BAR, GAP = 760, 130, 380, 58, 11, 10


def ratios(table):
    """The documents of a table, each with its first ratio, that of CPU times."""
    titles, _, *rows = [[cell.strip() for cell in line.strip("|").split("|")] for line in table.splitlines()]
    return {cells[0]: float(cells[titles.index("ratio")]) for cells in rows}


def speeds():
    """The documents, each with the ratio to a buffer and the one to JSON."""
    with open(TABLE, encoding="utf-8") as it:
        parts = it.read().split("\n\n")
    to_buffer, to_json = [ratios(part) for part in parts if part.startswith("| Document |")]
    return [(name, [ratio, to_json[name]]) for name, ratio in to_buffer.items()]


def text(x, y, words, more=""):
    return f'<text x="{x}" y="{y}"{more}>{escape(words)}</text>'


def legend():
    parts = [text(LEFT, 20, "CPU time beside Google's flatc, whose time is 1 (shorter is faster)")]
    for at, (words, colour) in enumerate(BARS):
        x = LEFT + 160 * at
        parts += [f'<rect x="{x}" y="30" width="11" height="11" fill="{colour}"/>', text(x + 16, 40, words)]
    return parts


def bars(at, name, ratios):
    y = TOP + at * (2 * BAR + GAP)
    parts = [text(LEFT - 8, y + BAR + 4, name, ' text-anchor="end"')]
    for below, (ratio, (_, colour)) in enumerate(zip(ratios, BARS)):
        top = y + below * BAR
        length = round(ratio * UNIT, 1)
        parts.append(f'<rect x="{LEFT}" y="{top}" width="{length}" height="{BAR - 1}" fill="{colour}"/>')
        parts.append(text(LEFT + length + 5, top + 9, f"{ratio:.2f}", ' font-size="9"'))
    return parts


def picture(rows):
    height = TOP + len(rows) * (2 * BAR + GAP) + 8
    one = LEFT + UNIT
    parts = [
        f'<svg xmlns="http://www.w3.org/2000/svg" width="{WIDTH}" height="{height}"'
        ' font-family="sans-serif" font-size="12">',
        f'<rect width="{WIDTH}" height="{height}" fill="#ffffff"/>',
        *legend(),
        f'<line x1="{one}" y1="{TOP - 8}" x2="{one}" y2="{height - 8}" stroke="#888888" stroke-dasharray="3 3"/>',
        text(one + 4, TOP - 2, "Google's flatc", ' font-size="10" fill="#666666"'),
    ]
    for at, (name, ratios) in enumerate(rows):
        parts += bars(at, name, ratios)
    return "\n".join([*parts, "</svg>"]) + "\n"


def main():
    drawn = picture(speeds())
    if "--check" not in sys.argv[1:]:
        with open(PICTURE, "w", encoding="utf-8") as it:
            it.write(drawn)
        return 0
    with open(PICTURE, encoding="utf-8") as it:
        same = it.read() == drawn
    print(f"docs/speed.svg is drawn from the table of docs/BENCHMARKS.md:\n{int(same)} passed, {int(not same)} failed")
    return int(not same)


if __name__ == "__main__":
    sys.exit(main())
