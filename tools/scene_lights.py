#!/usr/bin/env python3
"""The scene lights: for each HLG code d from 64 to 1,019 the light, in 1/2^40 and to the nearest, whose HLG signal is (d - 64)/876.

    python3 tools/scene_lights.py source    print crates/inverse_oetf/src/scene_lights.rt
    python3 tools/scene_lights.py specs     print crates/inverse_oetf/specs/SceneTable.antt
    python3 tools/scene_lights.py --check   compare both files with what would be printed

Whole numbers only. Up to code 502 the inverse OETF is a third of the signal's square, and a light is one division to the nearest. From 503
on it is (exp((e - c)/a) + b)/12: the exponential is enclosed as in hlg_steps.py, and terms are added until both ends give the same light.
Each light s is then tested again by the OETF itself: the signal of s - 1/2 is below the code's, that of s + 1/2 above it. Both strictly, so
no light is an exact half; only black has none below it, and its signal is 0 exactly.
"""
import sys

from generated import ROOT, run
from hlg_steps import B, DECIMALS, LAST, LAST_SQUARE, UNIT, grouped, require, signal_exponential

BLACK, CODES = 64, 876  # the signal of code d is (d - BLACK)/CODES
HALVES = 2 * UNIT  # lights between two entries are counted in 1/HALVES
SOURCE = ROOT / "crates/inverse_oetf/src/scene_lights.rt"
SPECS = ROOT / "crates/inverse_oetf/specs/SceneTable.antt"


def nearest(n, d):
    return (2 * n + d) // (2 * d)


def compared(light, n, m):
    """12E - b less the fraction n/m, times a number above 0; E is light half units."""
    return (12 * light * DECIMALS - B * HALVES) * m - n * HALVES * DECIMALS


def signal_below(light, d, terms):
    """The signal of that many half units is below that of code d."""
    if 12 * light <= HALVES:
        return 3 * light * CODES**2 < (d - BLACK) ** 2 * HALVES
    low, _ = signal_exponential(d - BLACK, CODES, terms)
    return compared(light, *low) < 0


def signal_above(light, d, terms):
    """The signal of that many half units is above that of code d."""
    if 12 * light <= HALVES:
        return 3 * light * CODES**2 > (d - BLACK) ** 2 * HALVES
    _, high = signal_exponential(d - BLACK, CODES, terms)
    return compared(light, *high) > 0


def light_of_exponential(n, m):
    """(n/m + b)/12 in units, to the nearest."""
    return nearest((n * DECIMALS + B * m) * UNIT, 12 * m * DECIMALS)


def scene_light(d):
    terms = 16
    if d <= LAST_SQUARE:
        s = nearest((d - BLACK) ** 2 * UNIT, 3 * CODES**2)
    else:
        while True:
            low, high = signal_exponential(d - BLACK, CODES, terms)
            s = light_of_exponential(*low)
            if s == light_of_exponential(*high):
                break
            terms += 8
    require((d, s) == (BLACK, 0) or signal_below(2 * s - 1, d, terms), f"light of {d}, half a unit below")
    require(signal_above(2 * s + 1, d, terms), f"light of {d}, half a unit above")
    return s


def source(lights):
    yield (
        "// Made by `python3 tools/scene_lights.py source`. Entry d - 64 is the scene light of the HLG code d, to the nearest, "
        "in 1/2^40 of the nominal range."
    )
    yield f"// {len(lights)} entries from {grouped(lights[0])} to {grouped(lights[-1])}, rising."
    yield f"pub static TABLE: [u64; {len(lights)}] = ["
    for s in lights:
        yield f"    {s},"
    yield "];"


def specs(lights):
    yield "-- The scene lights of the HLG codes (request 08): the light of each code d from 64 to 1,019, in 1/2^40 of the nominal range."
    yield (
        f"-- {len(lights)} entries from {grouped(lights[0])} to {grouped(lights[-1])}, rising. "
        "Made by `python3 tools/scene_lights.py specs`; `SceneLight.IsSceneLight` is the rule."
    )
    yield "use Rattle.std.specs.Prelude.{List, [], ◌∷◌, ℕ, min, ◌-◌, get_or}"
    yield ""
    yield "unfoldable pub scene_table : List ℕ"
    yield "scene_table ="
    for i in range(0, len(lights), 8):
        yield "    " + " ".join(f"{s} ∷" for s in lights[i : i + 8])
    yield "    []"
    yield ""
    yield "-- the scene light of code d; below 64 that of 64, above 1,019 that of 1,019"
    yield "unfoldable pub scene_light : ℕ → ℕ"
    yield f"scene_light d = get_or scene_table (min (d - {BLACK}) {len(lights) - 1}) 0"


def made(form):
    lights = [scene_light(d) for d in range(BLACK, LAST + 1)]
    require(all(s < t for s, t in zip(lights, lights[1:])), "rising lights")
    return form(lights)


if __name__ == "__main__":
    sys.exit(run(sys.argv[1:], __doc__, {"source": (SOURCE, lambda: made(source)), "specs": (SPECS, lambda: made(specs))}))
