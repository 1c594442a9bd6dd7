"""Draws what the benchmark printed: the four pictures under a peak of 4,000.

    python3 -m bench.chart RESULT FILE.svg
"""

import math
import sys
from pathlib import Path

from docs.plots.svg import COLOURS, Frame, Picture

from .result import PICTURES, read, three_digits

PEAK = 4_000
NAMES = {"row_call": "this engine, row call", "libm": "C doubles, libm throughout",
         "tables": "C doubles, tables for EOTF and curve", "copy": "copy of the bytes"}
WORDS = {"gradients": "gradients with noise", "blocks": "flat blocks", "film": "film-like highlights",
         "random": "random codes"}
BOTTOM, TOP = 0.5, 1_000                 # ns, ends of the axis
LEFT = 265


def along(ns):
    """Where a time lies on the axis, 0 to 1."""
    return max(0, math.log(ns / BOTTOM) / math.log(TOP / BOTTOM))


def draw(times):
    """One group of bars a way, one bar a picture."""
    picture = Picture(860, 382, f"Nanoseconds a pixel of the row call and of C programs, peak {PEAK:,}")
    frame = Frame(picture, LEFT, 52, 470, 276, along, lambda y: y)
    frame.grid((1, 10, 100, 1_000), (), f"ns a pixel, one thread, peak {PEAK:,} (the axis is logarithmic)")
    for i, name in enumerate(PICTURES):
        x = LEFT + 150 * i
        picture.bar(x, 22, 11, 11, COLOURS[i])
        picture.words(x + 16, 32, WORDS[name], size=12)
    for group, (way, label) in enumerate(NAMES.items()):
        top = 60 + 68 * group
        picture.words(LEFT - 10, top + 33, label, "end", 12, bold=way == "row_call")
        for i, name in enumerate(PICTURES):
            ns, ratio = times[PEAK, name][way]
            y, width = top + 14 * i, frame.x(ns) - LEFT
            picture.bar(LEFT, y, width, 12, COLOURS[i])
            words = f"{three_digits(ns)}   ({three_digits(ratio)} × libm)"
            picture.words(LEFT + width + 6, y + 10, words, size=10.5)
    return picture


def main(result, path):
    draw(read(Path(result).read_text()).times).save(Path(path))


if __name__ == "__main__":
    main(*sys.argv[1:3])
