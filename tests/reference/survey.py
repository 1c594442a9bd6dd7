"""How far HLG codes lie from their exact values, over many pixels of each format and many of linear values.

    python3 -m tests.reference.survey [seed] [count]

A first pass in double precision finds the farthest pixels, their neighbours are
tried as well, and the farthest of all are measured again in long decimals.
"""

import math
import sys
import time
from functools import lru_cache
from heapq import nlargest
from itertools import chain, islice, product
from random import Random
from struct import pack, unpack
from typing import Callable, NamedTuple

from . import exact, linear, linear_cases
from .curve import bend, bend_code, position_of_code, position_of_peak, t
from .light import N, light_at, position_of
from .pixel import hlg_codes
from .sample_format import FORMATS, TEN_NARROW
from .samples import draw_peaks, draw_pixel, knee_code, shuffled

m1, m2 = float(exact.m1), float(exact.m2)
c1, c2, c3 = float(exact.c1), float(exact.c2), float(exact.c3)
a, b, c = float(exact.a), float(exact.b), float(exact.c)
KEPT = 30                                   # pixels measured again in each zone
LOWEST = 16                                 # codes of which every pixel is tried
DIMMEST = 120                               # units of light, below which a linear component is tried with each few of the others
FARTHEST = {False: 0.51, True: 0.53}        # what is expected of narrow and of full range: less than is promised
FARTHEST_LINEAR = 0.52                      # and of linear values


@lru_cache(maxsize=None)
def code_light(D, form=TEN_NARROW):
    """Light of a code as read, cd/m2."""
    return float(exact.pq_eotf(exact.signal_of_code(D, form)))


@lru_cache(maxsize=None)
def code_signal(D, form=TEN_NARROW):
    """PQ signal of a code as read."""
    return float(form.signal(D))


def signal_of_light(light):
    """PQ signal of a light in cd/m2."""
    w = (light / 10_000) ** m1
    return ((c1 + c2 * w) / (1 + c3 * w)) ** m2


@lru_cache(maxsize=None)
def peak_signal(L):
    """PQ signal of a peak."""
    return signal_of_light(L)


@lru_cache(maxsize=None)
def bent_light(D, L, form=TEN_NARROW):
    """The bent light of a brightest code, as in exact.py but in double precision."""
    if L <= 1_000:
        return min(code_light(D, form), 1_000.0)
    J, H = peak_signal(1_000), peak_signal(L)
    X = code_signal(D, form)
    return light_of_signal(X if below_knee(X, J, H) else bent_signal(X, J, H))


def below_knee(X, J, H):
    """Whether the curve leaves a signal alone."""
    return 2 * min(X, H) < 3 * J - H


def bent_signal(X, J, H):
    """The highlight curve from the knee on."""
    return J - 4 * (H - min(X, H)) ** 3 / (27 * (H - J) ** 2)


def light_of_signal(X):
    """Light of a PQ signal, cd/m2."""
    root = X ** (1 / m2)
    return 10_000 * (max(root - c1, 0.0) / (c2 - c3 * root)) ** (1 / m1)


def distance_of(L, pixel, codes, form=TEN_NARROW):
    """The largest distance of a pixel's three HLG codes, in double precision."""
    brightest = max(pixel)
    if brightest <= form.black:
        return float(max(codes) - 64)
    return distance_of_lights([code_light(D, form) for D in pixel], bent_light(brightest, L, form), codes)


def distance_of_lights(lights, bent, codes):
    """The same of three lights in cd/m2, of which the brightest, above 0, is bent to another."""
    ratio = bent / max(lights) / 1_000
    red, green, blue = (light * ratio for light in lights)
    root = (0.2627 * red + 0.6780 * green + 0.0593 * blue) ** (1 / 6)
    worst = 0.0
    for code, light in zip(codes, (red, green, blue)):
        E = light / root
        signal = math.sqrt(3 * E) if E <= 1 / 12 else a * math.log(12 * E - b) + c
        worst = max(worst, abs(code - 64 - 876 * signal))
    return worst


def quick_distance(L, pixel, form=TEN_NARROW):
    """The same of the codes that the second implementation gives."""
    return distance_of(L, pixel, hlg_codes(L, pixel, form), form)


def in_inner_zone(L, pixel, form=TEN_NARROW):
    """Demand 3's inner zone: a low peak, or a whole code below the knee."""
    return L <= 1_000 or 2 * position_of_code(max(pixel), form) + 2_048 <= 3 * t - position_of_peak(L)


def bound(form=TEN_NARROW):
    """The largest distance that is promised, in either zone: below what requests 06 and 10 ask for each."""
    return 3 / 2 if form.full else 9 / 16


@lru_cache(maxsize=None)
def farthest_bent_code(L, form=TEN_NARROW):
    """The brightest code whose M2 lies farthest, in proportion, from the exact bent light. Of twelve bits every fourth code is tried."""
    return max(range(knee_code(L, form), form.white + 1, form.step),
               key=lambda D: abs(bend_code(D, L, form)[1] / N / bent_light(D, L, form) - 1))


def draw_case(random, peaks, form=TEN_NARROW):
    """A peak and a pixel: half by samples.py, a quarter dim beside clipped, a quarter badly bent."""
    lot, black, white = random.randrange(4), form.black, form.white
    if lot == 0:
        return random.randint(1, 1_000), shuffled(random, random.randint(black + 1, black + 6 * form.step),
                                                  random.randint(knee_code(1_000, form), white), random.randint(black, white))
    L = random.choice(peaks)
    if lot == 1 and L > 1_000:
        D = farthest_bent_code(L, form)
        return L, shuffled(random, D, random.randint(black, D), random.randint(black, D))
    return L, draw_pixel(random, L, form)


def dimmest_pixels(form):
    """All pixels of the lowest codes: there a unit of light, and a position, count most."""
    for pixel in product(range(form.black, form.black + LOWEST), repeat=3):
        yield 1_000, pixel


def neighbours(L, pixel, form=TEN_NARROW):
    """Pixels and peaks close to a given one, itself among them."""
    least, most = form.taken[0], form.taken[-1]
    for peak in range(max(1, L - 2), min(10_000, L + 2) + 1):
        for shift in product((-1, 0, 1), repeat=3):
            yield peak, tuple(min(max(D + s, least), most) for D, s in zip(pixel, shift))


# Linear values

def counted_light(bits):
    """What a finite float counts as, cd/m2."""
    return min(max(unpack("=f", pack("=I", bits))[0], 0.0), 10_000.0)


def bent_linear_light(light, L):
    """The bent light of a brightest light."""
    if L <= 1_000:
        return min(light, 1_000.0)
    X, J, H = signal_of_light(light), peak_signal(1_000), peak_signal(L)
    return light if below_knee(X, J, H) else light_of_signal(bent_signal(X, J, H))


def linear_distance_of(L, pixel, codes):
    """The largest distance of a linear pixel's three HLG codes, in double precision."""
    lights = [counted_light(bits) for bits in pixel]
    brightest = max(lights)
    return distance_of_lights(lights, bent_linear_light(brightest, L), codes) if brightest else float(max(codes) - 64)


def linear_exact_distances(L, pixel, codes):
    """The distances of all three in long decimals."""
    return exact.linear_distances(L, [linear.counted(bits) for bits in pixel], codes)


def linear_in_inner_zone(L, pixel):
    """The same zone by the position of the brightest whole light."""
    return L <= 1_000 or 2 * position_of(max(map(linear.whole_light, pixel))) + 2_048 <= 3 * t - position_of_peak(L)


@lru_cache(maxsize=None)
def farthest_linear_light(L):
    """Of some lights at and just before positions from the knee on, the one whose M2 lies farthest, in proportion, from the exact bent light."""
    random, knee, peak = Random(L), linear_cases.knee_position(L), position_of_peak(L)
    positions = [random.randint(knee, peak) for _ in range(40)]

    def error(light):
        return abs(bend(light, position_of(light), L) / N / bent_linear_light(light / N, L) - 1)
    return max((light_at(q) - below for q in positions for below in (0, 1)), key=error)


def draw_linear_cases(random, peaks):
    """A peak and a linear pixel, or two: a quarter as drawn, the others where a code goes up by a step, among them dim beside clipped and badly bent."""
    lot, L = random.randrange(4), random.choice(peaks)
    pixel, place = linear_cases.draw_pixel(random, L), random.randrange(3)
    if lot == 0:
        yield L, pixel
        return
    if lot == 1:
        L, pixel = random.randint(1, 1_000), [linear_cases.draw_light(random, 9.9, 13.3), linear_cases.draw_signal(random)]
        pixel.insert(place, linear_cases.draw_dim(random))
    elif lot == 2 and L > 1_000:
        bent = linear_cases.of_light(farthest_linear_light(L))
        pixel = shuffled(random, bent, random.randint(0, bent), random.randint(0, bent))
    for found in linear_cases.step_pixel(random, L, pixel, place) or [tuple(pixel)]:
        yield L, found


def dimmest_linear_pixels():
    """One component of few units of light, the others of fewer, each as it stands or the last float before the next unit: there a dropped fraction of a
    unit counts most."""
    for units in (*product(range(1, DIMMEST), range(3), range(3)), *((light, light, light) for light in range(3, DIMMEST))):
        for more in product((0, 1), repeat=3):
            pixel = [linear_cases.of_light(light + up) - up for light, up in zip(units, more)]
            for turn in range(3):
                yield 1_000, (*pixel[turn:], *pixel[:turn])


def linear_neighbours(L, pixel):
    """Pixels and peaks close to a given one, itself among them."""
    for peak in range(max(1, L - 2), min(10_000, L + 2) + 1):
        for shift in product((-1, 0, 1), repeat=3):
            yield peak, tuple(min(max(bits + s, 0), linear_cases.LARGEST) if bits <= linear_cases.LARGEST else bits for bits, s in zip(pixel, shift))


class Kind(NamedTuple):
    """What is surveyed, the codes of a format or linear values: its pixels, their HLG codes, and how far these are."""
    name: str
    codes: Callable            # of a peak and a pixel
    quick: Callable            # the largest distance of a peak, a pixel and its codes, in double precision
    exact: Callable            # all three, in long decimals
    inner: Callable            # whether a peak and a pixel lie in the inner zone
    bounds: dict               # the largest distance that is promised, by whether it is the inner zone
    expected: float            # in either zone
    draw: Callable             # endless peaks and pixels, from a random source
    dimmest: Callable          # those that are always tried
    near: Callable             # those near a given one


def draw_coded(random, form):
    """Peaks and pixels of a format."""
    peaks = draw_peaks(random, 1_000)
    while True:
        yield draw_case(random, peaks, form)


def draw_linear(random):
    """Peaks and pixels of linear values."""
    peaks = draw_peaks(random, 1_000)
    while True:
        yield from draw_linear_cases(random, peaks)


@lru_cache(maxsize=None)
def coded(form):
    """The codes of a format."""
    return Kind(str(form), lambda *case: hlg_codes(*case, form), lambda *found: distance_of(*found, form), lambda *found: exact.distances(*found, form),
                lambda *case: in_inner_zone(*case, form), dict.fromkeys((True, False), bound(form)), FARTHEST[form.full],
                lambda random: draw_coded(random, form), lambda: dimmest_pixels(form), lambda *case: neighbours(*case, form))


LINEAR = Kind("linear values", linear.hlg_codes, linear_distance_of, linear_exact_distances, linear_in_inner_zone, {True: 9 / 16, False: 3 / 2},
              FARTHEST_LINEAR, draw_linear, dimmest_linear_pixels, linear_neighbours)
KINDS = (*map(coded, FORMATS), LINEAR)


def farthest(cases, kind):
    """The farthest cases by double precision, for each zone, with the count of the zone."""
    zones = {True: [], False: []}
    for case in cases:
        zones[kind.inner(*case)].append((kind.quick(*case, kind.codes(*case)), case))
    return {zone: (len(found), nlargest(KEPT, set(found))) for zone, found in zones.items()}


def survey(seed, count, kind):
    """For each zone: how many pixels, and the largest distance with its peak and pixel."""
    random = Random(seed)
    cases = chain(islice(kind.draw(random), count), kind.dimmest())
    result = {}
    for zone, (number, found) in farthest(cases, kind).items():
        close = {near for _, case in found for near in kind.near(*case) if kind.inner(*near) == zone}
        worst = farthest(close, kind)[zone][1] if close else []
        result[zone] = number, max((max(kind.exact(*case, kind.codes(*case))), *case) for _, case in worst)
    return result


def main(arguments):
    seed, count = (list(map(int, arguments)) + [1, 200_000][len(arguments):])[:2]
    start = time.perf_counter()
    print(f"seed {seed}, {count} pixels of each format and of linear values")
    bad = False
    for kind in KINDS:
        for zone, (number, (distance, L, pixel)) in survey(seed, count, kind).items():
            name = "unbent or a low peak" if zone else "others"
            given = tuple(map(hex, pixel)) if kind is LINEAR else pixel
            print(f"{kind.name}, {name}: {number} pixels, largest distance {distance:.12f}, held to {kind.bounds[zone]}, at peak {L}, pixel {given}",
                  flush=True)
            bad |= distance > kind.expected
        for cached in (bent_light, bend_code):
            cached.cache_clear()
    print(f"{time.perf_counter() - start:.1f} s")
    return 1 if bad else 0


if __name__ == "__main__":
    sys.exit(main(sys.argv[1:]))
