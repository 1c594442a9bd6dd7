#!/usr/bin/env python3
"""The room that the found numbers of demand 3's proof have: FoundNumbers.antt of crates/distance, full_range, bent_lights and linear_distance against the
stored tables.

    python3 tools/slack.py            each number, the least and the most that would do beside the others, and what they come from
    python3 tools/slack.py --check    the same in silence, unless a number is out of its room

A law or a computed test of the proofs shows each number; nothing rests on this program. It says where a new table, a new bound
or another depth leaves room, before a proof is tried. Whole numbers, but for the exponential and the PQ formula, which have 60 decimals.
"""
import re
import sys
from decimal import Decimal, getcontext
from pathlib import Path

sys.path.insert(0, str(Path(__file__).resolve().parent))
import light_table

ROOT = Path(__file__).resolve().parent.parent
getcontext().prec = 60
UNITS, CELL, LAST = 2**24, 256, 897024
C, K = 2**109, 48828125                  # the HLG comparison without its common factor: hlg/proofs/CancelledLaws
BLUE, WEIGHTS = 593, 10000               # the least weight of the luminance, and the sum of the three
A, B, C_HLG = Decimal("0.17883277"), Decimal("0.28466892"), Decimal("0.55991073")


def numbers():
    """The found numbers by name; one is given by another."""
    found = {}
    for crate in ("distance", "full_range", "bent_lights", "linear_distance"):
        for name, value in re.findall(r"^(\w+) = (.+)$", (ROOT / "crates" / crate / "proofs/FoundNumbers.antt").read_text(encoding="utf-8"), re.M):
            found[name] = eval(value, {}, found)
    return found


def table(path):
    """The entries of a stored table."""
    text = (ROOT / path).read_text(encoding="utf-8").split("List ℕ\n")[1]
    return [int(n) for n in re.findall(r"(\d+) ∷", text)]


N = numbers()
# the numbers of full range under the names of those that take their place
FULL = {name: N["full_" + name] for name in (
    "result_above", "result_below", "luminance_below", "luminance_above", "slope_above", "slope_below", "room_above", "room_below", "ratio_under",
    "ratio_over")}
FULL["least_luminance"] = N["lit_luminance"]
# those of lights that are given themselves, whose whole parts enclose them
WHOLE = {**N, "result_above": 1, "result_below": 0, "luminance_below": 0, "luminance_above": WEIGHTS, "slope_above": N["unit_slope"],
         "slope_below": N["unit_slope"], "least_luminance": N["lit_units_luminance"]}
LIGHTS = table("crates/pq/specs/LightTable.antt")
STEPS = table("crates/hlg_steps/specs/StepTable.antt")


def light_at(q):
    k, f = divmod(q, CELL)
    low, high = LIGHTS[min(k, len(LIGHTS) - 1)], LIGHTS[min(k + 1, len(LIGHTS) - 1)]
    return low + (high - low) * f // CELL


def formula(q):
    """The PQ EOTF of a position, in units."""
    return light_table.TEN_THOUSAND * light_table.signal_w(Decimal(q) / CELL) ** (Decimal(8192) / 1305)


def position_of(light):
    low, high = 0, CELL * (len(LIGHTS) - 1) + 1
    while high - low > 1:
        middle = (low + high) // 2
        low, high = (middle, high) if light_at(middle) <= light else (low, middle)
    return low


def least(holds, high):
    """The smallest number up to high that holds; larger ones hold too."""
    low = -1
    while high - low > 1:
        middle = (low + high) // 2
        low, high = (low, middle) if holds(middle) else (middle, high)
    return high


def most(holds, low, high=10**9):
    """The largest number from low on that holds; smaller ones hold too."""
    while high - low > 1:
        middle = (low + high) // 2
        low, high = (middle, high) if holds(middle) else (low, middle)
    return low


# ---- the tests of StepTests, of narrow or full range's numbers with some of them changed

def add_high(base=N, **other):
    n = {**base, **other}
    s, g, v, u = n["result_above"], n["luminance_below"], n["slope_above"], n["room_above"]

    def one(t):
        f = max(BLUE * t, v * n["least_luminance"])
        return g * v < f and (t + s * v) ** 6 * f <= (t + u) ** 6 * (f - g * v)
    return s * v <= u and all(map(one, STEPS))


def add_low(base=N, **other):
    n = {**base, **other}
    s, h, v, l = n["result_below"], n["luminance_above"], n["slope_below"], n["room_below"]

    def one(t):
        f = max(BLUE * t, v * n["least_luminance"])
        return max(t - l, 0) ** 6 * (f + h * v) <= max(t - s * v, 0) ** 6 * f
    return all(map(one, STEPS))


def slope_above(base=N, **other):
    n = {**base, **other}
    return C <= n["slope_above"] ** 6 * K * max(n["least_luminance"] - n["luminance_below"], 0)


def slope_below(base=N, **other):
    n = {**base, **other}
    return C <= n["slope_below"] ** 6 * K * n["least_luminance"]


def between_steps(p, q, base=N, **other):
    n = {**base, **other}
    u, l = n["room_above"], n["room_below"]
    return all(q**7 * (x + u) ** 6 <= p**7 * (y - 1) ** 6 and q**7 * x**6 <= p**7 * max(y - l, 0) ** 6 for x, y in zip(STEPS, STEPS[1:]))


def scene_light(signal):
    """In 1/2^40: the OETF backwards."""
    return 2**40 * (signal * signal / 3 if 2 * signal <= 1 else (((signal - C_HLG) / A).exp() + B) / 12)


def sixteenths(n):
    """The scene lights n sixteenths of a code above the code before each step."""
    return [scene_light(Decimal(16 * i + n) / 14016) for i in range(len(STEPS))]


SIXTEENTHS = sixteenths(7), sixteenths(9)


def farthest(t, **other):
    """As far below and above a step as a few units take a component, and then as the ratio does."""
    n = {**N, **other}
    down, up, part = max(t - n["room_below"], 0), t + n["room_above"], n["ratio_part"]
    return down - (down // part + 1), up + (up // part + 1)


def nine(**other):
    """The tests of 9/16 either side: 7/16 above the code before a step, and 9/16."""
    return all(under <= low and high <= over for (low, high), under, over in zip((farthest(t, **other) for t in STEPS), *SIXTEENTHS))


def part_fits(p, part):
    """What the ratio (p + 1) / p is in scene light, the sixth root of its seventh power, adds no more than this part."""
    return (p + 1) ** 7 * part**6 <= p**7 * (part + 1) ** 6


def slow_over(p, way, widths, cells):
    """`slow` of BentLightTests: so many positions take less than the ratio (p + 1) / p, by the cells that they reach."""
    rises = [high - low for low, high in zip(LIGHTS, LIGHTS[1:])] + [0] * (widths + 1)
    return all(p * (way * max(rises[k:k + widths + 1]) + 2 * CELL * widths) <= CELL * LIGHTS[k] for k in cells)


def slow(cells=None, **other):
    """The way from a bent position to a point."""
    n = {**N, **other}
    cells = range(n["first_cell"], n["first_cell"] + n["cells"]) if cells is None else cells
    return slow_over(n["ratio_under"], n["positions_off"] + n["points_apart"], 1, cells)


def linear_slow(**other):
    """The way that X's fractions add to it where lights are given themselves."""
    n = {**N, **other}
    return slow_over(n["full_ratio_under"], n["linear_reach"], 2, range(n["first_point_cell"], n["last_point_cell"] + 1))


def points_hold(k):
    """Whether the light at each point of a cell lies between the formula's at the position before and at the one after."""
    apart = N["points_apart"]
    return all(formula(q - 1) <= light_at(q) <= formula(q + 1) for q in range(-(-CELL * k // apart) * apart, CELL * (k + 1), apart))


# ---- the curve under every peak, at the position of every ten-bit code

T = position_of(1000 * UNITS)


def spline(t, w, m):
    return (27 * (w - t) ** 2 * t - 4 * (w - m) ** 3) // (27 * (w - t) ** 2)


def bent():
    """How far the bent signal's enclosure lies from the engine's position at most, J from t to t + 1 and H from w - 1 to w + 2; and the lowest of
    those positions, which is at the first m from the knee on."""
    off, lowest = 0, T
    for peak in range(1001, 10001):
        w = position_of(peak * UNITS)
        low, high = 27 * (w - T - 2) ** 2, 27 * (w - T + 2) ** 2
        first = (3 * T - N["knee_halves"] - w) // 2 + 1
        at = min(first, w)
        lowest = min(lowest, at if 2 * at + w < 3 * T else spline(T, w, at))
        for m in range(-(-first // 1024) * 1024, min(w, 897024) + 1024, 1024):
            m = min(m, w)
            s = m if 2 * m + w < 3 * T else spline(T, w, m)
            below = min(T - -(-4 * (w + 2 - min(m, w - 1)) ** 3 // low), m)
            above = T + 1 - 4 * max(w - 1 - m, 0) ** 3 // high
            off = max(off, s - below, above - s)
    return off, lowest


# ---- full range: the light at the position of every code of both depths, and what its enclosure takes

def full_lights():
    """The engine's light, and the formula's at the position and at the next."""
    positions = {LAST * n // top for top in (1023, 4095) for n in range(1, top + 1)}
    return [(light_at(q), formula(q), formula(q + 1)) for q in positions]


def encloses(lights, **other):
    n = {**N, **other}
    part, below, above = n["light_part"], n["units_below"], n["units_above"]
    return part > 0 and all(l - l // part - below <= low and high <= l + l // part + above for l, low, high in lights)


def units_fit(**other):
    """`sum_up` and `sum_lo` of FullRangeNear: the units off lights take 43/2 of the weights above, and 25 below."""
    n = {**N, **other}
    off, above = n["units_below"] + 1, n["units_above"]
    k = n["lit_light"] - off
    return 2 * ((off + 1 + 2 * above) * k + off**2 + off - 1 + 2 * off * above + above**2) <= 43 * k and 2 * off + above <= 25


def ratios_fit(p, part):
    """The parts of three lights are less than (p + 1) / p."""
    return part > 1 and p * (part + 1) * part <= (p + 1) * (part - 1) ** 2


def dim_fits(ratio, first):
    """A light of a dim pixel lies within the ratio of its ends, the first most of all; and narrow range's slope serves."""
    below, above = N["units_below"], N["units_above"]
    return first > below and slope_above(least_luminance=BLUE * first, luminance_below=0) and all(
        (first + above) * (m + above) <= ratio * (m - below) * first and first * (m + above) <= ratio * (first - below) * (m - below)
        for m in range(first, N["dim_light"] + 1))


def full_rows():
    lights = full_lights()
    first, third, fourth = (light_at(LAST * n // 4095) for n in (1, 3, 4))
    p, part = FULL["ratio_under"], N["light_part"]
    yield ("light_part", least(lambda n: ratios_fit(p, n), 10**6), min(most(lambda n: encloses(lights, light_part=n), 1), N["ratio_under"]),
           "ratio of full range; codes, the curve's ratio")
    yield "units_below", least(lambda n: encloses(lights, units_below=n), 100), most(lambda n: units_fit(units_below=n), 0), "codes; units off a result"
    yield "units_above", least(lambda n: encloses(lights, units_above=n), 100), most(lambda n: units_fit(units_above=n), 0), "codes; units off a result"
    yield "first_light", least(lambda n: dim_fits(N["dim_ratio"], n), 100), first, "ratio and slope of dim lights; first code of twelve bits"
    yield "dim_light", third, most(lambda n: C * n**5 < STEPS[1] ** 6 * K * BLUE, 0), "third code; step of code 66"
    yield "lit_light", least(lambda n: n > 10 and units_fit(lit_light=n), 10**6), fourth, "units off a result; fourth code"
    yield ("lit_luminance", least(lambda y: slope_above(FULL, least_luminance=y) and slope_below(FULL, least_luminance=y), 10**6), BLUE * fourth,
           "slopes; fourth code")
    yield "full_result_above", 22, most(lambda s: add_high(FULL, result_above=s), 0), "`sum_up`, 43/2; room above"
    yield "full_result_below", 25, most(lambda s: add_low(FULL, result_below=s), 0), "`sum_lo`; room below"
    yield ("full_luminance_below", 25 * WEIGHTS, most(lambda g: add_high(FULL, luminance_below=g) and slope_above(FULL, luminance_below=g), 0),
           "`sum_lo`; slope, room above")
    yield "full_luminance_above", 43 * WEIGHTS // 2, most(lambda h: add_low(FULL, luminance_above=h), 0), "`sum_up`; room below"
    yield ("full_slope_above", least(lambda v: slope_above(FULL, slope_above=v), 10**6), most(lambda v: add_high(FULL, slope_above=v), 0),
           "least luminance; room above")
    yield ("full_slope_below", least(lambda v: slope_below(FULL, slope_below=v), 10**6), most(lambda v: add_low(FULL, slope_below=v), 0),
           "least luminance; room below")
    up, down = (most(lambda n: between_steps(p, p + 1, FULL, **{name: n}), 0) for name in ("room_above", "room_below"))
    yield "full_room_above", least(lambda u: add_high(FULL, room_above=u), 10**6), up, "units off; ratio"
    yield "full_room_below", least(lambda l: add_low(FULL, room_below=l), 10**6), down, "units off; ratio"
    yield ("full_ratio_under", least(lambda n: n > 0 and between_steps(n, n + 1, FULL), 10**6),
           min(most(lambda n: ratios_fit(n, part), 1), most(lambda n: linear_slow(full_ratio_under=n), 1)), "steps; parts of lights, cells of bent light")
    yield "full_ratio_over", p + 1, p + 1, "one more"
    yield ("dim_ratio", least(lambda n: dim_fits(n, N["first_light"]), 100),
           most(lambda n: all(n**7 * x**6 <= (y - 1) ** 6 for x, y in zip(STEPS, STEPS[1:3])), 0), "ends of dim lights; first steps")


# ---- lights that are given themselves

def linear_rows():
    """Whole parts of lights, fewer of them than serve by their units, and X's fractions a cell off."""
    slopes = lambda y: slope_above(WHOLE, least_luminance=y) and slope_below(WHOLE, least_luminance=y) and add_low(WHOLE, least_luminance=y)
    dim = lambda n: C * (n - 1) ** 5 < STEPS[0] ** 6 * K * BLUE and C * n**5 <= N["dim_scene"] ** 6 * K * BLUE
    reach = N["positions_off"] + N["points_apart"]
    yield "lit_units", least(lambda n: slopes(BLUE * n), 10**4), most(dim, 1), "slope; first step, scene light"
    yield "lit_units_luminance", least(slopes, 10**6), BLUE * N["lit_units"], "slope; units"
    yield ("unit_slope", least(lambda v: slope_above(WHOLE, slope_above=v), 10**6),
           min(most(lambda v: add_high(WHOLE, slope_above=v), 0), most(lambda v: add_low(WHOLE, slope_below=v), 0)), "least luminance; rooms")
    yield ("dim_scene", least(lambda e: C * N["lit_units"] ** 5 <= e**6 * K * BLUE, 10**6), int(scene_light(Decimal(8) / 14016)), "units; 8/16")
    yield ("least_unleft", max(CELL * (N["first_point_cell"] + 1) + reach, CELL * N["steep_cell"]), (3 * T - 2048 - LAST) // 2 + 1,
           "points, steep cells; a code below the knee")
    yield ("steep_cell", least(lambda k: all(high - low >= CELL for low, high in zip(LIGHTS[k:], LIGHTS[k + 1:])), len(LIGHTS)), N["least_unleft"] // CELL,
           "a unit a position; the least position not left")
    yield "linear_reach", reach + CELL + 1, most(lambda n: linear_slow(linear_reach=n), 0, 2 * CELL + 1), "a cell and a position; cells of bent light"


def rows():
    """name, the least that would do, the most, and where they come from"""
    off, lowest = bent()
    part, reach = N["ratio_part"], N["positions_off"] + N["points_apart"]
    yield "least_light", LIGHTS[1], LIGHTS[1], "entry 1"
    yield "least_luminance", least(lambda y: slope_above(least_luminance=y) and slope_below(least_luminance=y), 10**6), BLUE * LIGHTS[1], "slopes; entry 1"
    yield "result_above", 3, most(lambda s: add_high(result_above=s), 0), "`sum_up`; room above"
    yield "result_below", 2, most(lambda s: add_low(result_below=s), 0), "`sum_lo`, 3/2; room below"
    yield ("luminance_below", 3 * WEIGHTS // 2, most(lambda g: add_high(luminance_below=g) and slope_above(luminance_below=g), 0),
           "`sum_lo`; slope, room above")
    yield "luminance_above", 3 * WEIGHTS, most(lambda h: add_low(luminance_above=h), 0), "`sum_up`; room below"
    yield "slope_above", least(lambda v: slope_above(slope_above=v), 10**6), most(lambda v: add_high(slope_above=v), 0), "least luminance; room above"
    yield "slope_below", least(lambda v: slope_below(slope_below=v), 10**6), most(lambda v: add_low(slope_below=v), 0), "least luminance; room below"
    yield ("room_above", least(lambda u: add_high(room_above=u) and add_high(WHOLE, room_above=u), 10**6), most(lambda u: nine(room_above=u), 0),
           "units off; 9/16")
    yield "room_below", least(lambda l: add_low(room_below=l) and add_low(WHOLE, room_below=l), 10**6), most(lambda l: nine(room_below=l), 0), "units off; 7/16"
    yield "ratio_under", least(lambda n: n > 0 and part_fits(n, part), 10**6), most(lambda n: slow(ratio_under=n), 1), "its part; cells of bent light"
    yield "ratio_over", N["ratio_under"] + 1, N["ratio_under"] + 1, "one more"
    yield "ratio_part", least(lambda n: n > 0 and nine(ratio_part=n), 10**6), most(lambda n: part_fits(N["ratio_under"], n), 1), "9/16; the ratio"
    yield "positions_off", off, most(lambda n: slow(positions_off=n), 0, 1000), "narrow codes under every peak; cells of bent light"
    yield "knee_halves", 5, 5, "J high and H high; `curve_place`"
    yield "least_bent", CELL * N["first_cell"] + reach, lowest, "first cell; lowest bent position"
    yield "first_cell", least(lambda k: slow(range(k, 2300)), 2300), (N["least_bent"] - reach) // CELL, "ratio; lowest bent position"
    yield "cells", T // CELL - N["first_cell"] + 1, most(lambda n: slow(cells=range(N["first_cell"], N["first_cell"] + n)), 1, 1305), "1,000 cd/m2; ratio"
    yield "thousand_at", T, T, "the position of 1,000 cd/m2"
    yield "points_apart", 1, most(lambda n: slow(points_apart=n), 1, 1000), "cells of bent light"
    yield ("first_point_cell", least(points_hold, N["first_point_cell"]), (N["least_unleft"] - CELL - reach) // CELL,
           "formula; a cell below the least position of a light that is not left")
    yield "last_point_cell", (T + reach) // CELL, most(points_hold, N["last_point_cell"], len(LIGHTS) - 1), "1,000 cd/m2; formula"
    yield from full_rows()
    yield from linear_rows()


def main(arguments):
    if arguments not in ([], ["--check"]):
        print(__doc__, file=sys.stderr)
        return 2
    bad, told = 0, set()
    for name, low, high, source in rows():
        told.add(name)
        value = N.get(name)
        fits = value is not None and low <= value <= high
        bad += not fits
        if not arguments or not fits:
            print(f"{name:18} {value!s:>8}{'' if fits else ' OUT OF ROOM'}  from {low:,} to {high:,}  ({source})")
    for name in sorted(set(N) - told):
        bad += 1
        print(f"{name}: no room is known for it", file=sys.stderr)
    return 1 if bad else 0


if __name__ == "__main__":
    sys.exit(main(sys.argv[1:]))
