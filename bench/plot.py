#!/usr/bin/env python3
"""Draws what bench/beside.py measured: processor time and memory of each input, ours by LLD's and by mold's.

    python3 bench/plot.py RESULTS.json PLOT.svg

A bar that ends left of the line at 1 is an input on which ours takes less. The scale is logarithmic, from 1/8 to 8.
"""

import json
import math
import sys
from pathlib import Path

LEFT, WIDTH, STEP, BAR, TOP = 110, 300, 34, 10, 58
COLOURS = {"lld": "#4c72b0", "mold": "#dd8452"}
PANELS = ("processor time", "memory")


def value(row, panel):
    """Seconds or MiB of a row."""
    return row[2] if panel else row[0] + row[1]


def at(panel, ratio):
    """Where a ratio is, in a panel."""
    clipped = min(max(ratio, 1 / 8), 8)
    return LEFT + panel * (WIDTH + 70) + WIDTH * (math.log2(clipped) + 3) / 6


def text(x, y, words, anchor="start"):
    return f'<text x="{x:.0f}" y="{y:.0f}" text-anchor="{anchor}">{words}</text>'


def grid(panel, bottom):
    """The scale of a panel."""
    lines = [text(at(panel, 1), 20, f"{PANELS[panel]}, ours by theirs", "middle")]
    for power in range(-3, 4):
        x, colour = at(panel, 2.0**power), "#000" if power == 0 else "#ccc"
        label = str(2**power) if power >= 0 else f"1/{2**-power}"
        lines.append(f'<line x1="{x:.0f}" y1="44" x2="{x:.0f}" y2="{bottom}" stroke="{colour}"/>')
        lines.append(text(x, 38, label, "middle"))
    return lines


def bars(results, panel):
    """The bars of a panel, and their numbers."""
    lines = []
    for number, rows in enumerate(results.values()):
        for place, (peer, colour) in enumerate(COLOURS.items()):
            if peer not in rows:
                continue
            ratio = value(rows["ours"], panel) / value(rows[peer], panel)
            y, ends = TOP + number * STEP + place * (BAR + 2), sorted((at(panel, 1), at(panel, ratio)))
            width = max(ends[1] - ends[0], 1)
            lines.append(f'<rect x="{ends[0]:.0f}" y="{y}" width="{width:.0f}" height="{BAR}" fill="{colour}"/>')
            lines.append(text(at(panel, 8) + 4, y + BAR - 1, f"{ratio:.2f}"))
    return lines


def drawn(results):
    bottom = TOP + STEP * len(results)
    lines = [text(10, TOP + number * STEP + 15, name) for number, name in enumerate(results)]
    for panel in range(len(PANELS)):
        lines += grid(panel, bottom) + bars(results, panel)
    for place, (peer, colour) in enumerate(COLOURS.items()):
        lines.append(f'<rect x="10" y="{10 + 14 * place}" width="10" height="10" fill="{colour}"/>')
        lines.append(text(24, 19 + 14 * place, f"by {peer}"))
    size = f'width="{LEFT + 2 * WIDTH + 120}" height="{bottom + 10}"'
    head = f'<svg xmlns="http://www.w3.org/2000/svg" {size} font-family="sans-serif" font-size="11">'
    return "\n".join([head, '<rect width="100%" height="100%" fill="#fff"/>', *lines, "</svg>"]) + "\n"


def main():
    if len(sys.argv) != 3:
        print(__doc__, file=sys.stderr)
        return 2
    results = json.loads(Path(sys.argv[1]).read_text())
    Path(sys.argv[2]).write_text(drawn(results))
    return 0


if __name__ == "__main__":
    sys.exit(main())
