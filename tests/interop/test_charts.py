"""The charts of docs/, drawn by rsvg-convert (Debian's librsvg2-bin) in the fonts of this machine: no text lies outside, also not those of
the longest names. What isn't there is named, and its tests are not run.
"""
import re
import shutil
import subprocess
import sys
import unittest

from tests.lib.settings import ROOT

sys.path.insert(0, f"{ROOT}/bench")
import chart  # noqa: E402

# How far around a chart is looked, in points.
AROUND = 300
HEAD = re.compile(r'<svg ([^>]*)width="(\d+)" height="(\d+)" viewBox="0 0 \d+ \d+"')


def pixels(drawing):
    """A drawing's width, its height, and its pixels, row by row in three bytes each."""
    ran = subprocess.run(["rsvg-convert", "--background-color=white", "-f", "png"], input=drawing.encode(), capture_output=True, check=True)
    ran = subprocess.run(["pngtopnm"], input=ran.stdout, capture_output=True, check=True)
    size = re.match(rb"P6\s+(\d+)\s+(\d+)\s+255\n", ran.stdout)
    return int(size[1]), int(size[2]), ran.stdout[size.end():]


def inked_around(drawing):
    """Whether something is drawn outside of a chart's own edges."""
    head = HEAD.search(drawing)
    width, height = int(head[2]), int(head[3])
    wide = drawing.replace(head[0], f'<svg {head[1]}width="{width + 2 * AROUND}" height="{height + 2 * AROUND}" '
                                    f'viewBox="{-AROUND} {-AROUND} {width + 2 * AROUND} {height + 2 * AROUND}"')
    across, down, found = pixels(wide)
    for y in range(down):
        line = found[3 * across * y:3 * across * (y + 1)]
        if not AROUND <= y < AROUND + height:
            outside = line
        else:
            outside = line[:3 * AROUND] + line[3 * (AROUND + width):]
        if outside.strip(b"\xff"):
            return True
    return False


@unittest.skipUnless(shutil.which("rsvg-convert") and shutil.which("pngtopnm"), "rsvg-convert or pngtopnm isn't there: librsvg2-bin, netpbm")
class Charts(unittest.TestCase):
    def test_no_text_lies_outside(self):
        for name in ("tcp.svg", "tcp-all.svg"):
            with self.subTest(name), open(f"{ROOT}/docs/{name}", encoding="utf-8") as drawing:
                self.assertFalse(inked_around(drawing.read()))

    def test_a_long_name_has_room(self):
        ratio = {"median": 1.5, "least": 0.5, "most": 30.0}
        row = {"name": "get", "title": "WWWW MMMM of the longest names that a workload may have @@@@", "ratios": dict.fromkeys(("a_second", "us", "p999"), ratio)}
        self.assertFalse(inked_around(chart.chart([row])))

    def test_what_lies_outside_is_seen(self):
        drawing = chart.chart([{"name": "get", "title": "get", "ratios": dict.fromkeys(("a_second", "us", "p999"), {"median": 1.0, "least": 1.0, "most": 1.0})}])
        self.assertTrue(inked_around(drawing.replace("</svg>", '<text x="-40" y="40">outside</text></svg>')))
