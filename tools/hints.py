#!/usr/bin/env python3
"""The hints of the fast row: guesses that a test confirms each time, so nothing rests on their values.

    python3 tools/hints.py source    print crates/span/src/hint_table.rt
    python3 tools/hints.py cells     print crates/span/src/cell_table.rt
    python3 tools/hints.py --check   compare both files with what would be printed
    python3 tools/hints.py slack     how far a guess of a root may lie, how far these do, and how far the proof's inequality allows

The hints of every row are 1,361 entries, three tables after one another. A number's six leading bits t, 32 to 63, count
its place in the first two, so 32 zeros come first and no place needs a subtraction.
    800 lines, 25 octaves of 32: the HLG code (before it is rounded down) of a product p of a component and a root, p
        from 2^33 to below 2^58, in a straight line over each 32nd of an octave. With x the 26 leading bits of p, its
        height is start plus slope times x, in 1/2^32 of a code; the slope stands in the low 20 bits of the entry, the
        start in those above them. Each line is its chord raised by half of what the curve lies above it in the middle
    198 roots, 6 times 33, for a luminance shifted by its z leading zeros to fill 64 bits: with j = z modulo 6 and t
        from 32 to 64, the sixth root of 2^463 / (5^11 N), N = t 2^(58 - j), lowered by half of what the chord to the
        next one lies above the curve in the middle. Between two entries lies a straight line
    331 reciprocals: 2^96 over the light of each brightest code from 610 to 940, rounded up. No peak bends a code below
        614
Those of rows of floats, 224 entries: 32 zeros, then 6 octaves of 32 lines like the codes', the cell of the light table
in which a light stands, from 256 cd/m2 on; no peak bends less than 330. The curve lies above its chord, so a chord that is
lowered by more than its slope is rounded meets the cell or the one before it. Lights past 10,000 cd/m2 have none.
Decimals of 50 digits make the lines, whole numbers the rest.
"""
import bisect
import sys
from decimal import Decimal, getcontext
from pathlib import Path

sys.path.insert(0, str(Path(__file__).resolve().parent))
import hlg_steps
import light_table
from generated import ROOT, run

SOURCE = ROOT / "crates/span/src/hint_table.rt"
CELLS = ROOT / "crates/span/src/cell_table.rt"
SPREAD = 10**12                          # `spread` of the laws; LEAST and SPREAD of root.rt are 2^79 / 5^11 less it, and twice it
getcontext().prec = 50


def code_at(s):
    """The HLG code of the scene light s / 2^40 before it is rounded down."""
    e = Decimal(s) / hlg_steps.UNIT
    a, b, c = (Decimal(x) / hlg_steps.DECIMALS for x in (hlg_steps.A, hlg_steps.B, hlg_steps.C))
    signal = (3 * e).sqrt() if 12 * e <= 1 else a * (12 * e - b).ln() + c
    return 876 * signal + Decimal("64.5")


def chord(top, start, middle, end):
    """The line over the numbers with the leading bits top, of a curve's heights at the first, in the middle and after the
    last of them."""
    slope = int((end - start) * 2**12 + Decimal("0.5"))
    # the curve lies above its chord: half of what it does in the middle raises the whole line, so that it strays as
    # far to either side
    raised = start + (middle - (start + end) / 2) / 2
    return int(raised * 2**32 - slope * top * 2**20) >> 20 << 20 | slope


def line(octave, top):
    """The line over the products from top 2^(octave + 28) on, of which 2^17 make a scene light of 1/2^40."""
    return chord(top, *(code_at(2 * top + half << octave + 10) for half in range(3)))


def sixth_root(n):
    """Rounded down."""
    low, high = 0, 1 << 80
    while high - low > 1:
        middle = (low + high) // 2
        low, high = (middle, high) if middle**6 <= n else (low, middle)
    return low


def root(top, j):
    """The entry of luminances with the leading bits top. A chord of the falling curve lies above it."""
    def at(halves):
        return sixth_root(2**463 // (5**11 * (halves << 57 >> j)))
    start, middle, end = (at(2 * top + half) for half in range(3))
    return start - ((start + end) // 2 - middle) // 2


def cell_at(lights, light):
    """The cell of the light table in which a light stands, and the part of it up to the light."""
    if light >= lights[-1]:
        return Decimal(len(lights) - 1)
    k = bisect.bisect_right(lights, light) - 1
    return k + Decimal(light - lights[k]) / (lights[k + 1] - lights[k])


def cell_line(lights, octave, top):
    """The line over the lights from top 2^(octave + 27) on."""
    if lights[-1] <= top << octave + 27:
        return 0
    start, end = (cell_at(lights, top + one << octave + 27) - Decimal(2)**-12 for one in range(2))
    return chord(top, start, (start + end) / 2, end)


def cells():
    lights = light_table.light_table()
    yield from [0] * 32
    yield from (cell_line(lights, octave, top) for octave in range(6) for top in range(32, 64))


def entries():
    lights = light_table.light_table()
    yield from [0] * 32
    yield from (line(octave, top) for octave in range(25) for top in range(32, 64))
    yield from (root(top, j) for j in range(6) for top in range(32, 65))
    yield from (-(-(2**96) // lights[4 * (d - 64)]) for d in range(610, 941))


def table(name, comment, hints):
    """The lines of a file: what the entries of an array are, and the array."""
    yield from comment
    yield f"pub static {name}: [u64; {len(hints)}] = ["
    for h in hints:
        yield f"    {h},"
    yield "];"


def source():
    return table("HINTS", (
        "// Made by `python3 tools/hints.py source`. Hints: a test confirms each one's use, so nothing rests on these "
        "values. Entries 32 to 831 are lines of",
        "// codes, 832 to 1,029 roots of luminances, 1,030 to 1,360 reciprocals of lights.",
    ), list(entries()))


def cell_source():
    return table("CELLS", (
        "// Made by `python3 tools/hints.py cells`. Hints: a test confirms each one's use, so nothing rests on these "
        "values. Entries from 32 on are lines of",
        "// cells of the light table, 32 to each octave of lights from 256 cd/m2 on.",
    ), list(cells()))


def farthest():
    """How far the power of a guessed root lies from 2^79 / 5^11 at the most, at 64 places of each line."""
    hints, whole = list(entries()), 2**79 // 5**11
    far = 0
    for j in range(6):
        for top in range(32, 64):
            first, second = hints[800 + 33 * j + top:][:2]
            for part in range(65):
                n = (top << 58) + part * (2**58 - 1) // 64
                guess = first - ((first - second) * (n % 2**58 * 64) >> 64)
                far = max(far, abs((guess**6 * (n >> j) >> 384) - whole))
    return far


def allowed():
    """The largest spread for which `mean_near` of hlg/proofs/NewtonLaws holds: with x = 5^11 (spread + 5), x^2 is at
    most 2^79 - x times the step's gain, 5 x 2^50 less 4 x 5^11."""
    net = 5 * 2**50 - 4 * 5**11
    low, high = 0, 2**50
    while high - low > 1:
        middle = (low + high) // 2
        x = 5**11 * (middle + 5)
        low, high = (middle, high) if x * x <= (2**79 - x) * net else (low, middle)
    return low


def slack():
    far, most = farthest(), allowed()
    print(f"spread {SPREAD:,}; the hints need {far:,} ({far / SPREAD:.3f}), the inequality allows {most:,} ({most / SPREAD:.3f})")
    return 0 if far <= SPREAD <= most else 1


if __name__ == "__main__":
    sys.exit(slack() if sys.argv[1:] == ["slack"] else run(sys.argv[1:], __doc__, {"source": (SOURCE, source), "cells": (CELLS, cell_source)}))
