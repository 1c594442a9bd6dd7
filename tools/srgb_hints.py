#!/usr/bin/env python3
"""The hints of captions: guesses of how many HLG steps a scene light reaches, which a test confirms each time, so nothing rests on their values.

    python3 tools/srgb_hints.py source    print crates/srgb_hlg/src/hint_table.rt
    python3 tools/srgb_hints.py --check   compare the file with what would be printed
    python3 tools/srgb_hints.py slack     how far scene lights lie above the lights by weights, and how far the proof allows

Lights of one octave, which have as many leading zeros, are divided evenly into cells of a power of two, as large as may be so that no cell has two steps: the
light reaches as many steps as its cell's first light, or one more. Three tables after one another:
    65 shifts, by the leading zeros of a light: what is left of it by its shift counts its octave's cells
    65 places, by the same: that of the cell is so many entries further
    the steps that the cells' first lights reach, octave by octave, after one entry for lights that have no cell: below 2^16, which reach no step, and above
        white's; more steps than there are say that there is no hint
"""
import sys
import textwrap
from bisect import bisect_right
from fractions import Fraction

from generated import ROOT, run
from hlg_steps import FIRST, LAST, require, step
from srgb_lights import TO_XYZ, WHITE, light

SOURCE = ROOT / "crates/srgb_hlg/src/hint_table.rt"
BITS = 64
OCTAVES = range(16, 39)  # those of lights from below the first step to white's
BRIGHTEST = 291391195829  # the red scene light of white, `PixelLaws.scene_le`
ENTRIES = 1298  # the length that the code names
NONE = 1000  # more steps than there are
FROM_XYZ = ((17167, -3557, -2534), (-6667, 16165, 158), (176, -428, 9421))  # in ten-thousandths
SPREAD = 736  # `spread` of the definitions, SPREAD of code.rt


def made():
    steps = [step(d) for d in range(FIRST, LAST + 1)]

    def reached(s):
        return bisect_right(steps, s)

    def cells(octave, shift):
        """The first and the last light of each."""
        last = min(2 ** (octave + 1) - 1, BRIGHTEST)
        return [(cell << shift, min((cell + 1 << shift) - 1, last)) for cell in range(2**octave >> shift, (last >> shift) + 1)]

    def fits(octave, shift):
        return all(reached(end) - reached(start) <= 1 for start, end in cells(octave, shift))

    shifts, places, counts = [BITS - 1] * (BITS + 1), [2 * (BITS + 1)] * (BITS + 1), [NONE]
    for octave in OCTAVES:
        shift = next(shift for shift in range(octave, -1, -1) if fits(octave, shift))
        zeros = BITS - 1 - octave
        shifts[zeros] = shift
        places[zeros] = 2 * (BITS + 1) + len(counts) - (2**octave >> shift)
        counts += [reached(start) for start, _ in cells(octave, shift)]
    hints = shifts + places + counts
    require(len(hints) == ENTRIES and all(0 <= hint < 2**16 for hint in hints), "the hints as the code takes them")
    return hints


def source():
    hints = made()
    yield "// Made by `python3 tools/srgb_hints.py source`, which says how they are laid out. Guesses of the steps that a scene light reaches, by its leading"
    yield "// bits; a test confirms each one's use, so nothing rests on these values."
    yield f"pub static HINTS: [u16; {len(hints)}] = ["
    # as many to a line of 100 characters as the layout puts there
    yield from textwrap.wrap(", ".join(map(str, hints)) + ",", 100, initial_indent="    ", subsequent_indent="    ")
    yield "];"


def slack():
    """Prints both; `lower_light` reads the bits of lights from bit 11 on, and weights are shares times 2^23/5^10 rounded down."""
    lights = [light(v) for v in range(WHITE + 1)]
    farthest = 0
    for row in FROM_XYZ:
        shares = [53 * sum(weight * to[j] for weight, to in zip(row, TO_XYZ)) for j in range(3)]
        short = sum(max(Fraction(share * s, 2 * 10**10) - Fraction(share * 2**23 // 5**10 * (s >> 11), 2**23) for s in lights) for share in shares)
        farthest = max(farthest, int(short) + 1)
    # the lower bits: 53 times the largest sum of shares; the weights: one of 2^23 for each of three lights; a rounding
    allowed = 53 * 100007075 * 2047 // 2048 // 5**10 + 1 + 3 * 2**29 // 2**23 + 1
    print(f"lights by weights fall short by {farthest} at most, the proof allows {allowed}, and the test {SPREAD}")
    return 0 if farthest <= allowed <= SPREAD else 1


if __name__ == "__main__":
    if sys.argv[1:] == ["slack"]:
        sys.exit(slack())
    sys.exit(run(sys.argv[1:], __doc__, {"source": (SOURCE, source)}))
