#!/usr/bin/env python3
"""The linear lights of sRGB: for each value v from 0 to 255 the largest whole s with s^5 255^11 <= 2^200 v^11, the power 2.2 of v/255 in 1/2^40.

    python3 tools/srgb_lights.py source    print crates/srgb/src/lights.rt
    python3 tools/srgb_lights.py specs     print crates/srgb/specs/LightTable.antt
    python3 tools/srgb_lights.py greys     print crates/srgb/proofs/GreyHints.antt, the blue HLG code of each grey
    python3 tools/srgb_lights.py --check   compare all three files with what would be printed

Whole numbers only: a fifth root by halving, then tested again, with the light one above it. The blue light of a grey is its light times the sum of the last
row of both matrices, times 0.265.
"""
import sys
from bisect import bisect_right

from generated import ROOT, run
from hlg_steps import FIRST, LAST, UNIT, grouped, require, step

WHITE = 255
SOURCE = ROOT / "crates/srgb/src/lights.rt"
SPECS = ROOT / "crates/srgb/specs/LightTable.antt"
GREYS = ROOT / "crates/srgb/proofs/GreyHints.antt"
TO_XYZ = ((4124, 3576, 1805), (2126, 7152, 722), (193, 1192, 9505))  # in ten-thousandths
TO_BLUE = (176, -428, 9421)  # the last row of the matrix from XYZ


def at_most(s, v):
    """s is at most the light of v."""
    return s**5 * WHITE**11 <= UNIT**5 * v**11


def light(v):
    low, high = 0, UNIT + 1
    while high - low > 1:
        middle = (low + high) // 2
        low, high = (middle, high) if at_most(middle, v) else (low, middle)
    require(at_most(low, v) and not at_most(low + 1, v), f"light of {v}")
    return low


def source(lights):
    yield "// Made by `python3 tools/srgb_lights.py source`. Entry v is the linear light of the sRGB value v, rounded down, in 1/2^40 of white's."
    yield f"// {len(lights)} entries from {grouped(lights[0])} to {grouped(lights[-1])}, rising."
    yield f"pub static TABLE: [u64; {len(lights)}] = ["
    for s in lights:
        yield f"    {s},"
    yield "];"


def specs(lights):
    yield "-- The linear lights of sRGB (request 13): the light of each value v from 0 to 255, in 1/2^40 of white's."
    yield (
        f"-- {len(lights)} entries from {grouped(lights[0])} to {grouped(lights[-1])}, rising. "
        "Made by `python3 tools/srgb_lights.py specs`; `Light.IsLinearLight` is the rule."
    )
    yield "use Rattle.std.specs.Prelude.{List, [], ◌∷◌, ℕ, min, get_or}"
    yield ""
    yield "unfoldable pub linear_table : List ℕ"
    yield "linear_table ="
    for i in range(0, len(lights), 8):
        yield "    " + " ".join(f"{s} ∷" for s in lights[i : i + 8])
    yield "    []"
    yield ""
    yield "-- the light of value v; above 255 that of 255"
    yield "unfoldable pub linear_light : ℕ → ℕ"
    yield f"linear_light v = get_or linear_table (min v {WHITE}) 0"


def greys(lights):
    steps = [step(d) for d in range(FIRST, LAST + 1)]
    share = sum(weight * sum(row) for weight, row in zip(TO_BLUE, TO_XYZ))
    codes = [FIRST - 1 + bisect_right(steps, 265 * share * s // 10**11) for s in lights]
    yield "-- For each grey of an sRGB value from 0 to 255, in order, its blue HLG code. Made by `python3 tools/srgb_lights.py greys`; nothing is believed of"
    yield "-- them: `GreyLaws` tests each."
    yield "use mathlib.Core.List.{List, [], ◌∷◌}"
    yield "use Prim.Native.Nat.{ℕ}"
    yield ""
    yield "unfoldable pub blue_codes : List ℕ"
    yield "blue_codes ="
    for i in range(0, len(codes), 24):
        yield "    " + " ".join(f"{d} ∷" for d in codes[i : i + 24])
    yield "    []"


def made(form):
    lights = [light(v) for v in range(WHITE + 1)]
    require(lights[0] == 0 and lights[WHITE] == UNIT, "black has no light, and white all of it")
    require(all(s < t for s, t in zip(lights, lights[1:])), "rising lights")
    return form(lights)


if __name__ == "__main__":
    files = {"source": (SOURCE, lambda: made(source)), "specs": (SPECS, lambda: made(specs)), "greys": (GREYS, lambda: made(greys))}
    sys.exit(run(sys.argv[1:], __doc__, files))
