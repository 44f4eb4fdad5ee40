#!/usr/bin/env python3
"""Draws the ratios that bench/tcp.py --json FILE wrote, as bars that start at 1.0, on a scale by doublings.

    bench/chart.py FILE.json FILE.svg [WORKLOAD..]     all workloads, in groups, or the named ones alone
"""
import json
import math
import os
import sys
from html import escape

# Each panel's figure, what it says, and whether more of it is better.
PANELS = [
    ("a_second", "requests a second", True),
    ("us", "processor time a request", False),
    ("p999", "99.9th percentile of latency", False),
]
# The groups of workloads, by name; a workload of no group is in the last one.
GROUPS = [
    ("Small, one at a time", ("get", "set", "get-10k", "set-10k", "incr", "zipf", "growth", "get-t1", "set-t1", "get-t2", "set-t2")),
    ("In a pipeline", ("get-32", "set-32", "nothing-32", "nothing-full-32", "set-noreply")),
    ("Large", tuple(f"{verb}-{size}" for size in ("34k", "50k", "64k", "100k", "400k", "1m", "4m", "8m") for verb in ("get", "set"))),
    ("Many keys or connections", ()),
]
# Eight rows are as wide as a page of GitHub shows them, so that no letter gets smaller.
PANEL, GAP, ROW, TOP, BOTTOM, MARGIN = 188, 54, 22, 96, 34, 12
# What the bars, their lines and the third colour mean.
LEGEND = "A bar is the median of the rounds, a line the least to the most; grey: the line reaches 1, so no side is ahead."
# Each colour by day and by night. A viewer that knows no scheme shows the day's.
COLOURS = {"paper": ("#ffffff", "#0d1117"), "ink": ("#222222", "#e6edf3"), "faint": ("#bbbbbb", "#484f58"),
           "better": ("#2a7f6f", "#4fb8a3"), "worse": ("#b85c1e", "#e8935a"), "even": ("#6b7280", "#9aa4b0")}
# The width of a character in 1/1000 of the font's size, in the widest of Debian's usual fonts without serifs (DejaVu Sans);
# a capital and any other character not named here take WIDE.
NARROW = {" ": 318, ",": 318, ".": 318, "i": 278, "j": 278, "l": 278, "t": 392, "f": 352, "r": 411, "s": 521, "c": 550, "z": 525, "-": 361,
          "k": 579, "v": 592, "y": 592, "x": 592, "a": 613, "o": 612, "e": 615, "m": 974, "w": 818, **dict.fromkeys("bdghnpqu", 635), **dict.fromkeys("0123456789", 636)}
WIDE = 1000


class Scale:
    """Where a ratio lies on a panel, by doublings, with room around the medians. A spread beyond it is cut."""

    def __init__(self, ratios):
        logs = [math.log2(max(it["median"], 1e-3)) for it in ratios]
        self.low = min(-1, min(logs) - 0.4)
        self.high = max(1, max(logs) + 0.4)

    def at(self, ratio):
        part = (math.log2(max(ratio, 1e-3)) - self.low) / (self.high - self.low)
        return PANEL * min(max(part, 0), 1)

    def marks(self):
        return [2.0**it for it in range(math.ceil(self.low), math.floor(self.high) + 1)]


def width_of(words, size=12):
    """How wide a text is at most."""
    return sum(NARROW.get(it, WIDE) for it in words) * size / 1000


def text(x, y, words, anchor="start", size=12, colour="ink", weight="normal"):
    style = f'class="{colour}" font-size="{size}" text-anchor="{anchor}" font-weight="{weight}"'
    return f'<text x="{x:.1f}" y="{y:.1f}" {style}>{escape(words)}</text>'


def line(x, y, to_x, to_y, colour, width=1.0):
    return f'<line class="{colour}" x1="{x:.1f}" y1="{y:.1f}" x2="{to_x:.1f}" y2="{to_y:.1f}" stroke-width="{width}"/>'


def axis(left, scale, height):
    """The marks of a panel, and the line at 1.0."""
    drawn = []
    for mark in scale.marks():
        x = left + scale.at(mark)
        drawn.append(line(x, TOP - 6, x, TOP + height, "ink" if mark == 1 else "faint", 1.5 if mark == 1 else 0.5))
        drawn.append(text(x, TOP + height + 16, f"{mark:g}", "middle", 10))
    return drawn


def colour_of(ratio, more_is_better):
    """Which side is ahead, if all rounds agree."""
    if ratio["least"] <= 1 <= ratio["most"]:
        return "even"
    return "better" if (ratio["median"] > 1) == more_is_better else "worse"


def bar(left, y, scale, ratio, more_is_better):
    """A bar from 1.0 to the median, a thin line over the spread, and the median in figures."""
    start, end = left + scale.at(1), left + scale.at(ratio["median"])
    colour = colour_of(ratio, more_is_better)
    middle = y + ROW / 2
    wide = f'width="{max(abs(end - start), 1):.1f}" height="{ROW - 8}"'
    least, most = left + scale.at(ratio["least"]), left + scale.at(ratio["most"])
    return [
        f'<rect class="{colour}" x="{min(start, end):.1f}" y="{y + 4}" {wide}/>',
        line(least, middle, most, middle, "ink"),
        text(left + PANEL + 8, middle + 4, f"{ratio['median']:.2f}", "start", 11, colour, "bold"),
    ]


def panel(left, lines, name, title, more_is_better):
    """A panel over the chart's lines, each a workload or the head of a group."""
    scale = Scale([it["ratios"][name] for it in lines if isinstance(it, dict)])
    drawn = [
        text(left, TOP - 28, title, weight="bold"),
        text(left, TOP - 13, "more is better" if more_is_better else "less is better", size=10),
        *axis(left, scale, ROW * len(lines)),
    ]
    for number, it in enumerate(lines):
        if isinstance(it, dict):
            drawn += bar(left, TOP + ROW * number, scale, it["ratios"][name], more_is_better)
    return drawn


def grouped(rows):
    """The chart's lines: the head of each group that has workloads, and these."""
    named = {name for _, names in GROUPS for name in names}
    lines = []
    for title, names in GROUPS:
        found = [row for row in rows if (row["name"] in names if names else row["name"] not in named)]
        lines += [title, *found] if found else []
    return lines


def style():
    """The colours, by day and by night."""
    by_night = [[f".{name} {{ fill: {pair[night]} }} line.{name} {{ stroke: {pair[night]} }}" for name, pair in COLOURS.items()] for night in (0, 1)]
    return f"<style>{' '.join(by_night[0])} @media (prefers-color-scheme: dark) {{ {' '.join(by_night[1])} }}</style>"


def chart(rows, only=()):
    lines = [row for name in only for row in rows if row["name"] == name] if only else grouped(rows)
    # a bold letter is an eighth wider
    labels = MARGIN + max([width_of(it["title"]) if isinstance(it, dict) else width_of(it) * 9 / 8 for it in lines]) + MARGIN
    width = math.ceil(labels + len(PANELS) * (PANEL + GAP))
    height = TOP + ROW * len(lines) + BOTTOM
    drawn = [style(), f'<rect class="paper" width="{width}" height="{height}"/>', text(MARGIN, 22, "mcserver, as ratios to memcached", size=15, weight="bold"),
             text(MARGIN, 42, LEGEND, size=11)]
    for number, it in enumerate(lines):
        y = TOP + ROW * number + ROW / 2 + 4
        drawn.append(text(labels - MARGIN, y, it["title"], "end") if isinstance(it, dict) else text(MARGIN, y, it, weight="bold"))
    for number, (name, title, more_is_better) in enumerate(PANELS):
        drawn += panel(labels + number * (PANEL + GAP), lines, name, title, more_is_better)
    head = f'<svg xmlns="http://www.w3.org/2000/svg" width="{width}" height="{height}" viewBox="0 0 {width} {height}"'
    return "\n".join([f'{head} font-family="sans-serif">', *drawn, "</svg>", ""])


def main():
    if len(sys.argv) < 3 or not os.path.exists(sys.argv[1]):
        print(__doc__.strip(), file=sys.stderr)
        return 2
    with open(sys.argv[1], encoding="utf-8") as given:
        rows = json.load(given)["rows"]
    unknown = set(sys.argv[3:]) - {row["name"] for row in rows}
    if not rows or unknown:
        print(f"chart.py: {sys.argv[1]} has no {'rows' if not rows else ', '.join(sorted(unknown))}", file=sys.stderr)
        return 1
    with open(sys.argv[2], "w", encoding="utf-8") as to:
        to.write(chart(rows, sys.argv[3:]))
    return 0


if __name__ == "__main__":
    sys.exit(main())
