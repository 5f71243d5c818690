#!/usr/bin/env python3
"""The table of the group `pairs` as a picture.

    python3 bench/link/plot.py < target/link.md > docs/link.svg

Reads what `link pairs` prints, or all of its output. One panel for each size, one group of bars for
each change, each bar the mean over the contents; the line is the whole string.
"""
import sys

BARS = [("rcds", "#4466aa"), ("rsync", "#dd8833"), ("rdiff", "#559955")]
WIDTH, PANEL, TOP, LEFT, FOOT, GAP = 900, 170, 40, 70, 34, 14
GRAY = "#888888"


def rows(lines):
    """The rows of the table whose head begins with KiB, content and change."""
    head = None
    for line in lines:
        cells = [cell.strip() for cell in line.strip().strip("|").split("|")]
        if cells[:3] == ["KiB", "content", "change"]:
            head = cells
        elif head and line.startswith("|") and not line.startswith("|--"):
            yield dict(zip(head, cells))
        elif not line.startswith("|"):
            head = None


def mean(values):
    """The mean of numbers; nothing if one is missing."""
    if any(value == "-" for value in values):
        return None
    return sum(int(value) for value in values) / len(values)


def text(x, y, words, anchor="middle", extra=""):
    return f'<text x="{x:.1f}" y="{y:.1f}" text-anchor="{anchor}"{extra}>{words}</text>'


def bar(x, y, width, height, color):
    return f'<rect x="{x:.1f}" y="{y:.1f}" width="{width:.1f}" height="{height:.1f}" fill="{color}"/>'


def line(x1, x2, y, extra=""):
    return f'<line x1="{x1:.1f}" x2="{x2:.1f}" y1="{y:.1f}" y2="{y:.1f}" stroke="{GRAY}"{extra}/>'


def legend():
    out = []
    for place, (name, color) in enumerate(BARS):
        x = LEFT + 100 * place
        out += [bar(x, 12, 12, 12, color), text(x + 18, 22, name, "start")]
    x = LEFT + 100 * len(BARS)
    out += [line(x, x + 12, 18, ' stroke-dasharray="4 3"')]
    out += [text(x + 18, 22, "whole string. Bytes both ways, mean over the contents", "start")]
    return out


def panel(size, table, changes, top):
    """One size: bars from `top` on, the scale up to the highest of them."""
    of = [[row for row in table if row["KiB"] == size and row["change"] == c] for c in changes]
    means = [[mean([row[name] for row in group]) for name, _ in BARS] for group in of]
    whole = 1024 * int(size)
    scale = (PANEL - GAP) / max([whole] + [m for group in means for m in group if m])
    base, step = top + PANEL, (WIDTH - LEFT - 10) / len(changes)
    out = [text(LEFT - 8, top + GAP + 4, f"{size} KiB", "end", ' font-weight="bold"')]
    for place, group in enumerate(means):
        for at, value in enumerate(group):
            if value is None:
                continue
            width = step / (len(BARS) + 1)
            x, y = LEFT + step * place + width * (at + 0.5), base - scale * value
            out += [bar(x, y, width - 2, scale * value, BARS[at][1])]
            out += [text(x + width / 2 - 1, y - 2, round(value), extra=' font-size="8"')]
        out += [text(LEFT + step * (place + 0.5), base + 14, changes[place])]
    out += [line(LEFT, WIDTH - 10, base)]
    out += [line(LEFT, WIDTH - 10, base - scale * whole, ' stroke-dasharray="4 3"')]
    return out


def main():
    table = list(rows(sys.stdin))
    if not table:
        sys.exit("plot.py: no table of pairs in the input")
    sizes, changes = ([*dict.fromkeys(row[key] for row in table)] for key in ("KiB", "change"))
    height = TOP + len(sizes) * (PANEL + FOOT)
    print(f'<svg xmlns="http://www.w3.org/2000/svg" viewBox="0 0 {WIDTH} {height}" '
          'font-family="sans-serif" font-size="10">')
    print(bar(0, 0, WIDTH, height, "white"))
    print("\n".join(legend()))
    for place, size in enumerate(sizes):
        print("\n".join(panel(size, table, changes, TOP + place * (PANEL + FOOT))))
    print("</svg>")


main()
