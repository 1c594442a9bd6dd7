"""Every number that document 01 and requests 01 to 13 name, and the laws between their parts.

    python3 -m tests.reference.check

Each function below is one law; it yields statements with whether they hold.
"""

import subprocess
import sys
from bisect import bisect_left, bisect_right
from collections import Counter
from contextlib import contextmanager
from decimal import ROUND_HALF_UP, Decimal, localcontext
from fractions import Fraction
from functools import lru_cache
from io import BytesIO
from itertools import islice, product
from math import gcd, isqrt
from pathlib import Path
from random import Random
from struct import pack, unpack

from . import (content_light, curve, display_light, exact, hlg, light, linear, linear_cases, measure, metadata, program, returned, rewrite, row,
               sample_format, scene_light, srgb, srgb_cases)
from .cases import CORNER_CODES, CORNERS, UNIT_PIXELS, row as row_bytes, row_calls, title, titles, word, ycbcr_codes
from .format_cases import LIMITS, POSITION_PIXELS, UNREAD, card as maxcll_card, format_row_calls, format_titles as cases_of_formats
from .light import A, BRIGHTEST, END, LAST, N, P, STEPS
from .pixel import convert_pixel, hlg_codes, mapped_components
from .refusal import Refused
from .return_cases import ENDS, UNIT_COLOURS, beside_threshold, draw_colour, return_row_calls, scene_triples
from .row import MOST_ROWS
from .rounding import power, power_below
from .sample_format import FORMATS, FULL_RANGE, TEN_FULL, TEN_NARROW, TWELVE_BITS, TWELVE_FULL, TWELVE_NARROW, Format, format_of
from .samples import MARKED_PEAKS, draw_measured_row, draw_palette, draw_peaks, draw_pixel
from .scene_light import S
from .survey import LINEAR, bound, draw_linear, in_inner_zone, quick_distance
from .vectors import FILL, converted, measured, rewriting_line, rewritten
from .ycbcr import by_fractions, convert_codes, luma_sum, round_away, unrounded, ycbcr

ROOT = Path(__file__).resolve().parents[2]
YCBCR_COLUMNS = ((64, 512, 512), (303, 382, 978), (665, 185, 95), (120, 998, 473), (890, 63, 548),
                 (716, 638, 60), (356, 846, 938), (940, 512, 512))      # document 002's table, Y'CbCr columns


def refusal(call, *arguments):
    """A call's refusal as (number, place), None if it is accepted."""
    try:
        call(*arguments)
    except Refused as refused:
        return refused.number, refused.place
    return None


def grey(D):
    """A pixel of three equal codes."""
    return D, D, D


# Light

def w_by_roots(halves, up):
    """w of a light in half units by thirteen whole square roots and the power 1305, on the asked side."""
    one, whole = 2**320, 2 * BRIGHTEST
    x = -(-halves * one // whole) if up else halves * one // whole
    for _ in range(13):
        x = isqrt(x * one - 1) + 1 if up else isqrt(x * one)
    m, shift = power(x, one, 1_305, up)
    return m, 2**-shift


def brackets(k, p):
    """V(p - 1/2) < k/3504 < V(p + 1/2), found from the lights and not from the signal."""
    return (power_below(light.r_of(w_by_roots(2 * p - 1, True)), 2_523, (k, LAST), 32)
            and power_below((k, LAST), 32, light.r_of(w_by_roots(2 * p + 1, False)), 2_523))


def brackets_by_whole_powers(k, p):
    """The same by the document's powers, multiplied out and uncut."""
    def less(left, e, right, o):
        return left[0]**e * right[1]**o < right[0]**o * left[1]**e
    near, one = int(light.guess(k)[0] * 10**20), 10**20
    low, high = (near - 1, one), (near + 2, one)
    whole = 2 * BRIGHTEST
    return (less((2 * p - 1, whole), 1_305, low, 8_192) and less(light.r_of(low), 2_523, (k, LAST), 32)
            and less(high, 8_192, (2 * p + 1, whole), 1_305) and less((k, LAST), 32, light.r_of(high), 2_523))


def light_table():
    yield "N is 2 to the 24th", N == 2**24
    yield "there are 3,505 entries", len(P) == 3_505
    yield "P[0] is 0", P[0] == 0
    yield "P[3504] is 10,000 N", P[3_504] == 10_000 * N
    yield "w 1 has r 1, so light 10,000 N has PQ value 1", light.r_of((1, 1))[0] == light.r_of((1, 1))[1]
    yield "entries rise strictly", all(low < high for low, high in zip(P, P[1:]))
    yield "every entry brackets its signal, found a second way", all(brackets(k, P[k]) for k in range(1, LAST))
    yield "some entries, by powers that are not cut", all(
        brackets_by_whole_powers(k, P[k]) for k in (1, 2, 4, 100, 1_752, 2_636, 3_000, 3_503))
    yield "entries are the EOTF in long decimals, to the nearest, halves up", all(
        l.to_integral_value(ROUND_HALF_UP) == p for l, p in zip(exact_entries(), P))
    yield "an index past the table reads its end", light.light_entry(2**64 - 1) == P[LAST]


@lru_cache(maxsize=None)
def exact_entries():
    """The lights of the table's signals before they are rounded, in long decimals."""
    return [exact.pq_eotf(Decimal(k) / LAST) * N for k in range(LAST + 1)]


def forget_codes():
    """What is kept of codes is made anew."""
    light.light_of_code.cache_clear()
    curve.bend_code.cache_clear()


@contextmanager
def table_rounded_down():
    """The light table as document 01 has it without request 05, for a while."""
    def change(table):
        light.P = table
        curve.position_of_peak.cache_clear()
        forget_codes()
    change(tuple(map(int, exact_entries())))
    try:
        yield light.P
    finally:
        change(P)


def nearest_light():
    """Request 05 beside document 01: what moves with the table, and what does not."""
    yield "no light lies within 1/6500 of a unit of a half, so no entry tells halves up from halves down", all(
        abs(l % 1 - Decimal("0.5")) > Decimal(1) / 6_500 for l in exact_entries())

    def answers():
        return ([light.position_of(L * N) for L in range(1, 10_001)],
                [one_pixel(*grey(D)) for D in range(4, 1_020)],
                {(L, pixel): hlg_codes(L, pixel) for L, pixels in UNIT_PIXELS.items() for pixel in pixels})
    peaks, measured_peaks, codes = answers()
    with table_rounded_down() as lower:
        lower_peaks, lower_measured_peaks, lower_codes = answers()
    yield "1,738 entries are a unit more than rounded down, the others are the same", (
        [p - q for p, q in zip(P, lower)].count(1) == 1_738 and {p - q for p, q in zip(P, lower)} == {0, 1})
    yield "the position of no whole peak moves", peaks == lower_peaks
    yield "the measured peak of no code moves", measured_peaks == lower_measured_peaks
    yield "each stored pixel that hangs on a unit of light has a code or two that move, by one", all(
        sorted(abs(c - d) for c, d in zip(codes[case], lower_codes[case])) in ([0, 0, 1], [0, 1, 1]) for case in codes)


def light_of_codes():
    yield "sub-blacks read as 64", all(light.light_of_code(D) == 0 for D in range(4, 65))
    yield "super-whites read as 940", all(light.light_of_code(D) == BRIGHTEST for D in range(940, 1_020))
    yield "code 65 has the light P[4]", light.light_of_code(65) == P[4]
    yield "codes rise in light", all(light.light_of_code(D) < light.light_of_code(D + 1) for D in range(64, 940))
    yield "723 is the first code above 1,000 cd/m2", light.light_of_code(722) < A < light.light_of_code(723)


def positions():
    lights = [light.light_at(q) for q in range(END + 1)]
    yield "897,024 positions, 256 to an entry", END == 897_024
    yield "lights never fall with the position", all(low <= high for low, high in zip(lights, lights[1:]))
    yield "every 256th position has a table entry", lights[::256] == list(P)
    yield "1,000 cd/m2 stands at 674,406", curve.t == 674_406
    yield "light 0 stands at 3", light.position_of(0) == 3
    yield "10,000 cd/m2 stands at the end", light.position_of(BRIGHTEST) == END
    yield "a position or light past the end reads the end", (
        light.light_at(2**64 - 1) == BRIGHTEST and light.position_of(2**64 - 1) == END)
    random = Random(1)
    for name, drawn in (("drawn lights", [random.randrange(BRIGHTEST) for _ in range(2_000)]),
                        ("dim lights", range(1_000)), ("whole peaks", [L * N for L in range(1, 10_000)])):
        at = [(l, light.position_of(l)) for l in drawn]
        yield f"{name} stand at the largest position not above them", all(
            lights[q] <= l < lights[q + 1] for l, q in at)


# The highlight curve

def hermite(E1, maxLum):
    """Document 002's spline with zero black: P[E1], all signals divided by the peak's."""
    KS = Fraction(3, 2) * maxLum - Fraction(1, 2)
    T = (E1 - KS) / (1 - KS)
    return ((2 * T**3 - 3 * T**2 + 1) * KS + (T**3 - 2 * T**2 + T) * (1 - KS)
            + (-2 * T**3 + 3 * T**2) * maxLum)


def short_spline(m, t, w):
    """Document 01's form of it, before rounding."""
    return t - 4 * (w - m)**3 / (27 * (w - t)**2)


def spline_is_hermite():
    """With u = 1 - t and v = 1 - m at w = 1, u**3 times either side is a polynomial of degree at most
    4 in u and 3 in v, so agreement on a 5 by 4 grid is equality; a common factor of m, t, w is lost."""
    grid = [(Fraction(v, 7), 1 - Fraction(u, 11)) for v in range(4) for u in range(1, 6)]
    yield "both forms agree on the grid that decides them", all(
        hermite(m, t) == short_spline(m, t, Fraction(1)) for m, t in grid)
    random = Random(2)
    cases = [(random.randint(0, END), curve.t, curve.position_of_peak(random.randint(1_001, 10_000)))
             for _ in range(500)]
    yield "both forms agree at positions of codes and peaks", all(
        w * hermite(Fraction(m, w), Fraction(t, w)) == short_spline(Fraction(m), t, w) for m, t, w in cases)
    yield "the knee is document 002's", all(
        (2 * m < 3 * t - w) == (Fraction(m, w) < Fraction(3, 2) * Fraction(t, w) - Fraction(1, 2))
        for m, t, w in cases)
    yield "the whole-number curve is that form rounded down", all(
        curve.spline(m, w) == short_spline(Fraction(m), t, w).__floor__() for m, t, w in cases if m <= w)


def highlight_curve():
    w = curve.position_of_peak(4_000)
    yield "peak 4,000: the knee lies between codes 656 and 657", all(
        curve.below_knee(curve.position_of_code(D), w) == (D <= 656) for D in range(64, 941))
    yield "code 64 has m 0", curve.position_of_code(64) == 0
    low = [curve.bend_code(D, L) for L in (1, 999, 1_000) for D in range(64, 941)]
    yield "a peak up to 1,000 only cuts at 1,000 cd/m2", all(M2 == min(M1, A) for M1, M2 in low)
    for L in draw_peaks(Random(3), 60):
        bent = [curve.bend_code(D, L) for D in range(64, 941)]
        yield f"peak {L}: nothing above 1,000 cd/m2, never falling", (
            all(M2 <= A for _, M2 in bent) and all(x[1] <= y[1] for x, y in zip(bent, bent[1:])))
        if L > 1_000:
            w = curve.position_of_peak(L)
            yield f"peak {L}: the end is kept above the peak", all(
                M2 == light.light_at(curve.t) for D, (_, M2) in enumerate(bent, 64)
                if curve.position_of_code(D) >= w)
    yield "stages read the nearer end", (
        curve.bend(10, 0, 0) == curve.bend(10, 0, 1)
        and curve.bend(2**64, 2**64, 10**6) == curve.bend(BRIGHTEST, END, 10_000)
        and curve.scale(2**64, A, BRIGHTEST) == A and curve.scale(7, 2**64, 7) == A
        and curve.scale(BRIGHTEST, 2**64, 2**64) == A and curve.scale(0, 0, 0) == 0)


def published_patches():
    """Document 003's maxRGB table: 4,000 cd/m2 patches bent to 1,000.

    Its figures agree with the formulas to 3 parts in 10,000."""
    patches = (("3009.9 182.92 0", "998.32 60.681 0"), ("793 3763.9 70.3", "210.72 1000.00 18.678"),
               ("189.92 49.826 3929.4", "48.341 12.682 1000.00"))
    for source, target in patches:
        lights = [Decimal(x) for x in source.split()]
        top = max(lights)
        bent = exact.bent_light(exact.pq_inverse_eotf(top), 4_000)
        yield f"patch {source} becomes {target}", all(
            abs(x * bent / top - Decimal(y)) <= Decimal("0.0003") * Decimal(y) for x, y in zip(lights, target.split()))


# HLG code

def hlg_steps():
    T = hlg.T
    yield "steps run from 65 to 1,019", list(T) == list(range(65, 1_020))
    yield "steps rise strictly", all(T[d] < T[d + 1] for d in range(65, 1_019))
    yield "502 is the last step below signal 1/2", hlg.signal_of_step(502) < Fraction(1, 2) < hlg.signal_of_step(503)
    yield "that is where scene light 1/12 lies", 12 * T[502] < hlg.SCENE < 12 * T[503]
    yield "square steps are the smallest by their inequality", all(
        3 * (T[d] - 1) * 1_752**2 < (2 * d - 129)**2 * 2**40 <= 3 * T[d] * 1_752**2 for d in range(65, 503))

    def value(s):
        return 64 + 876 * exact.hlg_oetf(Decimal(s) / hlg.SCENE)
    yield "each step is the first scene light that rounds to its code", all(
        value(T[d] - 1) < d - Decimal("0.5") <= value(T[d]) for d in T)
    yield "an index past the steps reads the nearer end", (
        hlg.step(0) == T[65] and hlg.step(2**64 - 1) == T[1_019])
    low, high = hlg.exp_bounds(Fraction(1))
    yield "bounds of exp(1) and exp(-1) are close and reciprocal", (
        0 < high - low < Fraction(1, 2**240) and hlg.exp_bounds(Fraction(-1)) == (1 / high, 1 / low))


def hlg_code():
    random = Random(4)
    mapped = [tuple(random.randint(0, A >> random.randrange(34)) for _ in range(3)) for _ in range(120)]
    pairs = [(R, hlg.luminance(three)) for three in mapped for R in three]
    yield "the search finds the largest code reached", all(
        hlg.code(R, Y) == max((d for d in hlg.T if hlg.reached(d, R, Y)), default=64) for R, Y in pairs)
    even = 2**240 * 10_000 * A          # with R = T[d] * A both sides of the comparison are equal
    yield "equal sides reach the step, a hair more luminance doesn't", all(
        hlg.code(s * A, even) == d and hlg.code(s * A, even + 1) == d - 1 for d, s in hlg.T.items())
    yield "a component above 1,000 cd/m2 reads that", hlg.codes((2**64, 0, 2**63)) == hlg.codes((A, 0, A))
    yield "the weights add up to 10,000", sum(hlg.WEIGHTS) == 10_000


def shorter_products():
    """Request 03: the comparison divided by what both sides share."""
    shared = gcd(A**5, 2**240 * 10_000)
    yield "A^5 and 2^240 x 10,000 share 2^135 x 5^4", shared == 2**135 * 5**4
    yield "5^11 and 2^109 are left", (A**5 // shared, 2**240 * 10_000 // shared) == (5**11, 2**109)
    step_side = hlg.T[1_019]**6 * 5**11 * hlg.luminance((A, A, A))
    component_side = 2**109 * A**6
    yield "both sides stay below 2^318 and in five words", max(step_side, component_side) < 2**318 < 2**(5 * 64)
    yield "2^317 would not hold the step's side, nor four words the component's", step_side > 2**317 and component_side > 2**(4 * 64)

    def reached(d, R, Y):
        return R > 0 and hlg.T[d]**6 * 5**11 * Y <= 2**109 * R**6
    random = Random(3)
    mapped = [tuple(random.randint(0, A >> random.randrange(34)) for _ in range(3)) for _ in range(40)] + [(0, 0, 0), (A, A, A)]
    yield "every step is reached or missed as by the products before", all(
        reached(d, R, Y) == hlg.reached(d, R, Y) for three in mapped for R, Y in [(R, hlg.luminance(three)) for R in three] for d in hlg.T)
    even = 5 * 2**109                   # with R = 25 T[d] both sides are equal
    yield "also where both sides are equal, and where the luminance is a unit off", all(
        [reached(d, 25 * s, Y) for Y in (even - 1, even, even + 1)] == [True, True, False] for d, s in hlg.T.items())


def published_constants():
    yield "b is 1 - 4a exactly", hlg.b == 1 - 4 * hlg.a
    tail = Decimal("0.5") - exact.a * (4 * exact.a).ln() - exact.c
    yield "c is printed rounded; document 01 takes it as it stands", 0 < abs(tail) < Decimal("5e-9")
    yield "the PQ exponents are document 01's fractions", (
        (exact.m1 * 8_192, exact.m2 * 32) == (1_305, 2_523))
    yield "the PQ constants are document 01's fractions", (
        tuple(4_096 * x for x in (exact.c1, exact.c2, exact.c3)) == (3_424, 77_216, 76_544))
    blue = exact.scene_lights((Decimal(0), Decimal(0), Decimal(1_000)))[2]
    yield "the largest scene light is 1.601367, of blue", round(blue, 6) == Decimal("1.601367")


def published_table():
    """Document 002's table starts from 1,000 cd/m2 and not from a code."""
    for pixel, codes in zip(CORNERS, CORNER_CODES):
        lights = [Decimal(1_000 if D == 723 else 0) for D in pixel]
        exacts = exact.exact_values_of_lights(lights)
        yield f"lights of {pixel} give {codes}", tuple(int(x + Decimal("0.5")) for x in exacts) == codes


# Corner pixels

def corner_pixels():
    for pixel, codes in zip(CORNERS, CORNER_CODES):
        yield f"{pixel}, peak 1,000: {codes}", convert_pixel(1_000, pixel) == codes
    for D, L, code in ((4, 4_000, 64), (1_019, 4_000, 940), (940, 10_000, 940), (65, 1_000, 65)):
        yield f"grey {D}, peak {L}: {code}", convert_pixel(L, grey(D)) == grey(code)


def other_examples():
    yield "samples 3 and 1,020 are refused", (
        refusal(convert_pixel, 1_000, grey(3)) == refusal(convert_pixel, 1_000, grey(1_020)) == (9, 0))
    yield "samples 4 and 1,019 are taken", (
        refusal(convert_pixel, 1_000, grey(4)) is None and refusal(convert_pixel, 1_000, grey(1_019)) is None)
    yield "peaks 0 and 10,001 are refused", (
        refusal(convert_pixel, 0, grey(64)) == refusal(convert_pixel, 10_001, grey(64)) == (5, 0))
    yield "peaks 1 and 10,000 are taken", (
        refusal(convert_pixel, 1, grey(64)) is None and refusal(convert_pixel, 10_000, grey(64)) is None)
    yield "5 comes before 9", refusal(convert_pixel, 0, grey(3)) == (5, 0)
    yield "the place is the first bad sample's", (
        refusal(convert_pixel, 1, (64, 3, 3)) == (9, 1) and refusal(convert_pixel, 1, (64, 64, 2**64 - 1)) == (9, 2))
    for width, wanted in ((8_192, None), (8_193, (6, 0))):
        data = row_bytes(grey(64)) * width
        yield f"a row of {width} pixels", refusal(row.convert_row, 1_000, data, bytearray(len(data)), 0, 1) == wanted


# Cards, rows, program

def declared(text):
    """The peak of a card that is given in hexadecimal digits, or its refusal."""
    return outcome(metadata.peak_of_metadata, bytes.fromhex(text))


def cards():
    answers = (
        ("", (1, 0)), ("20", (2, 0)), ("80", (2, 0)), ("21", (2, 0)), ("01", (3, 0)), ("0103", (3, 0)), ("0303e8", (3, 0)), ("032711", (3, 0)),
        ("012711", (4, 0)), ("0303e82711", (4, 0)), ("0103e8", 1_000), ("020fa0", 4_000), ("0303e80fa0", 1_000), ("04", 10_000),
        ("060fa0", 10_000), ("0507d0", 2_000), ("0703e80fa0", 1_000), ("00", (17, 0)), ("010001", 1), ("012710", 10_000))
    for text, answer in answers:
        yield f"card {text or 'empty'}: {answer}", declared(text) == answer
    yield "what follows a card", metadata.after_metadata(bytes.fromhex("0303e80fa0c0ffee")) == b"\xc0\xff\xee"
    yield "nothing follows a card refused by 1 to 4", all(
        metadata.after_metadata(bytes.fromhex(text)) == b"" for text in ("", "20ff", "0103", "012711ff"))


def zero_fields():
    """Request 02: a card with a field of 0 answers as the one whose bit is clear and whose two bytes are gone."""
    answers = (
        ("010000", (17, 0)), ("020000", (17, 0)), ("0300000000", (17, 0)), ("0300000fa0", 4_000), ("03000007d0", 2_000), ("0303e80000", 1_000),
        ("050000", 10_000), ("060000", 10_000), ("0700000000", 10_000), ("030000", (3, 0)), ("0300002711", (4, 0)), ("0327110000", (4, 0)))
    for text, answer in answers:
        yield f"card {text}: {answer}", declared(text) == answer
    fields = [word(value) for value in (0, 1, 10_000, 10_001)]
    cases = [(1, 0, b"", "MaxCLL"), (2, 0, b"", "mastering peak"), *((2, 1, field, f"mastering peak after {field.hex()}") for field in fields)]
    for bit, others, before, name in cases:
        pairs = [(bytes([bits | others | bit]) + before + word(0) + rest, bytes([bits | others]) + before + rest)
                 for bits in range(256) if not bits & (2 * bit - 1) for rest in (b"", b"\0", *fields, b"\1\2\3")]
        yield f"{name}, 0 or not there", all(
            outcome(metadata.peak_of_metadata, zero) == outcome(metadata.peak_of_metadata, without)
            and metadata.after_metadata(zero) == metadata.after_metadata(without) for zero, without in pairs)


def unconstrained_first():
    """Request 07: bit 2 decides before the mastering peak; by every bit map, no other answer than those named is new."""
    answers = (
        ("060fa0", 10_000), ("062710", 10_000), ("060001", 10_000), ("06270f", 10_000), ("0700000fa0", 10_000), ("0703e80fa0", 1_000),
        ("0700010fa0", 1), ("062711", (4, 0)), ("060f", (3, 0)), ("0700000f", (3, 0)), ("260fa0", (2, 0)), ("020fa0", 4_000))
    for text, answer in answers:
        yield f"card {text}: {answer}", declared(text) == answer

    def former(card):
        """The peak by the order of before, with the refusals of now: what is left without a known field is unconstrained."""
        metadata.peak_of_metadata(card)
        fields = {bit: value for bit, value in metadata.card_fields(card).items() if value != 0}
        return fields.get(metadata.MAXCLL, fields.get(metadata.MASTERING_PEAK, 10_000))

    def named(card):
        """Whether the request names the card as one whose answer changes."""
        if refusal(metadata.card_fields, card) or card[0] & 6 != 6:
            return False
        first, second = int.from_bytes(card[1:3], "big"), int.from_bytes(card[3:5], "big")
        return first == 0 and 1 <= second <= 9_999 if card[0] & 1 else 1 <= first <= 9_999
    values = [word(value) for value in (0, 1, 1_000, 4_000, 9_999, 10_000, 10_001, 65_535)]
    whole = [bytes([bits]) + first + second for bits in range(256) for first in values for second in values]
    every = [*whole, *(card[:length] for card in whole for length in range(5))]
    changed = [card for card in every if outcome(metadata.peak_of_metadata, card) != outcome(former, card)]
    yield "the answers that change are those named", changed and changed == [card for card in every if named(card)]
    yield "they are 10,000 now", all(metadata.peak_of_metadata(card) == 10_000 for card in changed)


def peak_before(card):
    """The peak as it was chosen before request 12, refusals 1 to 4."""
    fields = {bit: value for bit, value in metadata.card_fields(card).items() if value != 0}
    unmeasured = 10_000 if card[0] & metadata.UNCONSTRAINED else fields.get(metadata.MASTERING_PEAK, 4_000)
    return fields.get(metadata.MAXCLL, unmeasured)


@contextmanager
def peaks_as_before():
    """Programs that read cards by the choice of before, for a while."""
    kept = metadata.peak_of_metadata
    metadata.peak_of_metadata = peak_before
    try:
        yield
    finally:
        metadata.peak_of_metadata = kept


def own_bytes(card):
    """How many bytes a card has of its own, by its bit map."""
    return 1 + 2 * (card[0] & 1) + (card[0] & 2)


def names_none(card):
    """Whether a card is whole and names no peak: no bit is set but those of fields and of the format, and no byte of a field."""
    return bool(card) and not card[0] & 0b1110_0100 and len(card) >= own_bytes(card) and not any(card[1:own_bytes(card)])


def cards_with_fields(*values):
    """Every bit map with each two of some fields, whole, cut, and with bytes behind it."""
    whole = [bytes([bits]) + word(first) + word(second) for bits in range(256) for first in values for second in values]
    return [*whole, *dict.fromkeys(card[:length] for card in whole for length in range(5)), *(card + b"\0\1\2" for card in whole)]


def no_peak_named():
    """Request 12: 17 refuses a whole card that names no peak; by every bit map, no other answer than these changes, and they were 4,000."""
    answers = (
        ("00", (17, 0)), ("08", (17, 0)), ("10", (17, 0)), ("18", (17, 0)), ("010000", (17, 0)), ("020000", (17, 0)), ("0300000000", (17, 0)),
        ("1b00000000", (17, 0)), ("04", 10_000), ("1c", 10_000), ("050000", 10_000), ("060000", 10_000), ("0700000000", 10_000), ("0300000fa0", 4_000),
        ("0300010000", 1), ("010001", 1), ("020001", 1), ("0100", (3, 0)), ("030000", (3, 0)), ("03000000", (3, 0)), ("0300002711", (4, 0)),
        ("0327110000", (4, 0)), ("20", (2, 0)), ("210000", (2, 0)), ("e3", (2, 0)), ("", (1, 0)))
    for text, answer in answers:
        yield f"card {text or 'empty'}: {answer}", declared(text) == answer
    every = cards_with_fields(0, 1, 4_000, 9_999, 10_000, 10_001, 65_535)
    changed = [card for card in every if outcome(metadata.peak_of_metadata, card) != outcome(peak_before, card)]
    yield "the answers that change are those of the cards that name none", changed and changed == [card for card in every if names_none(card)]
    yield "they are refused by 17 now", all(refusal(metadata.peak_of_metadata, card) == (17, 0) for card in changed)
    yield "17 is not given to others", changed == [card for card in every if refusal(metadata.peak_of_metadata, card) == (17, 0)]
    yield "they were 4,000", all(peak_before(card) == 4_000 for card in changed)
    yield "what follows is decided by 1 to 4 alone and begins after the card's own bytes", all(
        metadata.after_metadata(card) == (card[own_bytes(card):] if refusal(peak_before, card) is None else b"") for card in every)


def rewritten_cards():
    """Request 12: the three bytes, by number and by every bit map."""
    answers = (
        ("00", "020fa0"), ("08", "0a0fa0"), ("10", "120fa0"), ("18", "1a0fa0"), ("010000", "020fa0"), ("020000", "020fa0"), ("0300000000", "020fa0"),
        ("1b00000000", "1a0fa0"), ("0003e8", "020fa0"), ("190000ffff", "1a0fa0"), ("04", None), ("050000", None), ("0300000fa0", None), ("010001", None),
        ("020fa0", None), ("1a0fa0", None), ("", (1, 0)), ("20", (2, 0)), ("3b00000000", (2, 0)), ("0100", (3, 0)), ("0b0000", (3, 0)), ("0300002711", (4, 0)))
    for text, answer in answers:
        wanted = bytes.fromhex(answer) if isinstance(answer, str) else answer
        yield f"card {text or 'empty'} is rewritten: {answer}", outcome(metadata.rewritten_opening, bytes.fromhex(text)) == wanted
    every = cards_with_fields(0, 1, 4_000, 10_000, 10_001)
    openings = {card: outcome(metadata.rewritten_opening, card) for card in every}
    yield "cards that are refused by 17 are rewritten, those that name a peak are not, others are refused as before", all(
        isinstance(opening, bytes) if names_none(card) else opening == refusal(peak_before, card) for card, opening in openings.items())
    pairs = [(card, opening, opening + metadata.after_metadata(card)) for card, opening in openings.items() if isinstance(opening, bytes)]
    yield "three bytes: bit 1 set, bits 3 and 4 kept, all others clear, and 4,000", all(
        opening == bytes([card[0] & 0b1_1000 | 0b10, 4_000 // 256, 4_000 % 256]) for card, opening, _ in pairs)
    yield "before what followed they are accepted with a peak of 4,000 in the depth and range of before", all(
        metadata.source_of_metadata(after) == (4_000, format_of(card[0])) for card, _, after in pairs)
    yield "and the same bytes follow", all(metadata.after_metadata(after) == metadata.after_metadata(card) for card, _, after in pairs)
    yield "there is nothing to rewrite in them", all(metadata.rewritten_opening(after) is None for *_, after in pairs)


def rows():
    data = row_bytes(*CORNERS)
    whole = b"".join(row_bytes(pixel) for pixel in CORNER_CODES)
    for first in range(9):
        for end in range(first, 9):
            destination = bytearray([FILL]) * len(data)
            number = row.c_number(1_000, 0, data, destination, first, end)
            wanted = bytearray([FILL]) * len(data)
            wanted[6 * first:6 * end] = whole[6 * first:6 * end]
            yield f"pixels {first} to {end}: these places and no others", (number, destination) == (0, wanted)
    bad = row_bytes(grey(64), (64, 64, 1_020), grey(64))
    calls = (                           # number, peak, row, bytes of the destination, first, end
        (5, 0, bad[1:], 1, 2, 1), (6, 1, bad[1:], 1, 2, 1), (6, 1, bytes(49_158), 49_158, 0, 0),
        (7, 1, bad, 1, 2, 1), (8, 1, bad, 18, 2, 1), (8, 1, bad, 18, 0, 4),
        (9 + 256 * 5, 1, bad, 18, 0, 3), (9 + 256 * 5, 1, bad, 18, 1, 2),
        (0, 1, bad, 18, 2, 3), (0, 1, bad, 18, 3, 3),
        (0, 1, b"", 0, 0, 0), (8, 1, b"", 0, 0, 1), (7, 1, b"", 6, 0, 0))
    for number, peak, given, length, first, end in calls:
        destination = bytearray([FILL]) * length
        answer = row.c_number(peak, 0, given, destination, first, end)
        yield f"C number {number}: {len(given)} bytes, pixels {first} to {end}", answer == number
        yield f"C number {number}: nothing is written by a refusal", (
            number == 0 or destination == bytearray([FILL]) * length)


def program_answers():
    card = b"\x01\x03\xe8"
    white, lines = row_bytes(grey(723)), b"940 940 940\n"
    cut, bad = white[:5], row_bytes((64, 3, 64))
    answers = (
        ("no input", b"", b"refused 1\n"), ("one byte of width", card + b"\0", b"refused 10\n"),
        ("no width", card, b"refused 10\n"), ("width 0", title(card, 0), b"refused 10\n"),
        ("width 8,193", title(card, 8_193), b"refused 10\n"), ("no rows", title(card, 8_192), b""),
        ("a cut row", title(card, 1, white, cut), lines + b"refused 11\n"),
        ("a row cut between pixels", title(card, 2, white), b"refused 11\n"),
        ("a bad row", title(card, 1, white, bad, white), lines + b"refused 9\n"),
        ("a bad and cut row", title(card, 2, bad, cut), b"refused 11\n"),
        ("a cut row after a bad one", title(card, 1, bad, cut), b"refused 9\n"),
        ("none of a refused row", title(card, 2, white, bad), b"refused 9\n"),
        ("no peak named and no width", b"\0", b"refused 17\n"), ("no peak named and width 0", title(b"\2\0\0", 0), b"refused 17\n"))
    for name, data, printed in answers:
        yield f"{name} prints {printed!r}", converted(data) == printed
    sample = bytes.fromhex("0103E8 0002 02D302D302D3 02D300400040")
    printed = b"940 940 940\n976 64 64\n"
    yield "the sample", converted(sample) == printed
    filter_command = [sys.executable, "-B", "-m", "tests.reference.program"]
    run = subprocess.run(filter_command, cwd=ROOT, input=sample, capture_output=True)
    yield "the sample as a filter", (run.returncode, run.stdout, run.stderr) == (0, printed, b"")
    for limit, answer in ((0, b""), (1, lines), (2, 2 * lines), (3, 2 * lines + b"refused 9\n")):
        out, source = [], BytesIO(title(card, 1, white, white, bad))
        program.convert_title(source.read, out.append, limit)
        yield f"at most {limit} rows, what follows stays unread", (
            "".join(out).encode() == answer and source.tell() == 5 + 6 * limit)


def small_rests(form):
    """What can follow a card: widths that are missing, cut and refused, sound rows, and such as are refused by 11 and by 9."""
    bright = [form.step * D for D in (700, 740, 800)]
    good, bad = row_bytes(bright, grey(form.white)), row_bytes(bright, grey(form.taken[-1] + 1))
    return (b"", b"\0", b"\1", word(0), word(0) + good, word(8_193) + good, word(8_192), word(2), word(2) + good, word(2) + good + good[:7],
            word(2) + good + good, word(2) + good + bad, word(2) + bad + good, word(1) + good, word(1) + bad, word(1) + good + b"\2",
            word(10_001) + word(10_001) + good)


def rewritten_titles():
    """Request 12 through the programs: what was answered with 4,000 is refused, and answered as before once it is rewritten."""
    cards = [(bytes([form.number | bits, *fields]), form) for form in FORMATS for bits, fields in ((0, b""), (1, word(0)), (2, word(0)), (3, bytes(4)))]
    unnamed = [card + rest for card, form in cards for rest in small_rests(form)]
    with peaks_as_before():
        texts = [(converted(data), measured(data)) for data in unnamed]
    ends = {text.splitlines()[-1] for text, _ in texts if text}
    yield "some of them were converted, others refused by 9, by 10 and by 11", ends >= {b"refused 9", b"refused 10", b"refused 11"} and any(
        not end.startswith(b"refused") for end in ends)
    yield "both programs refuse them by 17", all(converted(data) == measured(data) == b"refused 17\n" for data in unnamed)
    new = [rewritten(data) for data in unnamed]
    yield "rewritten they are three bytes and all that followed, and nothing is told", new == [
        (metadata.rewritten_opening(data) + data[own_bytes(data):], b"") for data in unnamed]
    yield "rewritten they convert and measure to the text of before", [(converted(data), measured(data)) for data, _ in new] == texts
    yield "rewritten again they stay as they are", all(rewritten(data) == (data, b"") for data, _ in new)
    for card, _ in cards:
        source = BytesIO(card + b"\0\1\2")
        program.convert_title(source.read, [].append)
        yield f"what follows card {card.hex()} stays unread", source.tell() == len(card)
    named = [card + rest for form in FORMATS for card in (bytes([form.number | 4]), bytes([form.number | 5, 0, 0]), maxcll_card(form, 1_500),
                                                          bytes([form.number | 3, 0, 0]) + word(2_000)) for rest in small_rests(form)]
    yield "titles that name a peak are copied", all(rewritten(data) == (data, b"") for data in named)
    with peaks_as_before():
        texts = [(converted(data), measured(data)) for data in named]
    yield "and convert and measure as before", texts == [(converted(data), measured(data)) for data in named]
    for card, number in ((b"", 1), (b"\x20", 2), (b"\x60\x0f\xa0" + bytes(9), 2), (b"\x03\0\0\0", 3), (b"\x01\x27\x11" + bytes(9), 4)):
        yield f"card {card.hex() or 'empty'} is refused by {number}: a line apart and no byte", rewritten(card) == (b"", b"refused %d\n" % number)


def rewrite_program():
    """Request 12: how the filter reads and writes."""
    def long_title(card, length):
        return (card + Random(length).randbytes(length))[:length]
    for length in (1, 4, 5, 6, 65_540, 65_541, 65_542, 131_076, 131_077, 131_078):
        for card, opening in ((b"\0", b"\x02\x0f\xa0"), (b"\x04", b"\x04")):
            asked, blocks, data = [], [], BytesIO(long_title(card, length))
            rewrite.rewrite_title(lambda n: asked.append(n) or data.read(n), blocks.append, blocks.append)
            yield f"{length} bytes after card {card.hex()} are copied in blocks, five bytes first", (
                b"".join(blocks) == opening + data.getvalue()[1:] and asked == [5] + [65_536] * len(blocks))
    for card, left in ((b"\x20", 4), (b"\x01\x27\x11", 2), (b"\x03\x27\x11\0\0", 0)):
        data = BytesIO(card + bytes(20))
        rewrite.rewrite_title(data.read, None, str)
        yield f"no more than five bytes of refused card {card.hex()} are read", data.tell() == len(card) + left == 5

    def full(data):
        raise OSError
    for data, told in ((b"\0\1", "rewrite: the output could not be written to its end\n"), (b"\x20", "refused 2\n")):
        lines = []
        rewrite.rewrite_title(BytesIO(data).read, full, lines.append)
        yield f"told of {data.hex()} where nothing can be written: {told!r}", lines == [told]
    command = [sys.executable, "-B", "-m", "tests.reference.rewrite"]
    for data, out, told in ((b"\x1b\0\0\0\0\0\1", b"\x1a\x0f\xa0\0\1", b""), (b"\4\0", b"\4\0", b""), (b"\1\0", b"", b"refused 3\n")):
        run = subprocess.run(command, cwd=ROOT, input=data, capture_output=True)
        yield f"{data.hex()} through the filter", (run.returncode, run.stdout, run.stderr) == (0, out, told)

    def by_line(data, line):
        """What a stored line says of a title."""
        _, first, *more = line.split()
        if first == "refused":
            return b"", f"refused {more[0]}\n".encode()
        return data if first == "same" else data.replace(bytes.fromhex(more[1]), bytes.fromhex(first), 1), b""
    yield "what is stored of titles is what the filter gives", all(
        rewritten(data) == by_line(data, rewriting_line(name, data)) for name, data in (*titles(), *cases_of_formats()))


# Request 01: the measuring run

def narrow(*rows):
    """Rows of ten-bit narrow range, as the measuring run takes them."""
    return [(data, TEN_NARROW) for data in rows]


def one_pixel(*codes, form=TEN_NARROW):
    """What a list of one row of one pixel measures."""
    return content_light.measure([(row_bytes(codes), form)])


def steps(record, rows):
    """The run by its record: the record after the rows, and of each row its refusal or None."""
    refused = []
    for data, form in rows:
        refused.append(refusal(content_light.measure_row, record, data, form))
        if refused[-1] is None:
            record = content_light.measure_row(record, data, form)
    return record, refused


def both_ways(rows, empty=0):
    """Whether list and record agree on the refusals and on the result, after so many rows of no pixel."""
    listed = [each and (each.number, each.place) for each in content_light.refusals(rows, empty)]
    record, refused = steps(content_light.Record(rows=empty), rows)
    accepted = [len(data) // 6 for (data, _), each in zip(rows, refused) if each is None]
    return (listed == refused and (record.rows, record.pixels) == (empty + len(accepted), sum(accepted))
            and outcome(content_light.measure, rows, empty) == outcome(content_light.measured_peak, record))


def outcome(call, *arguments):
    """A call's result, or its refusal."""
    return refusal(call, *arguments) or call(*arguments)


def measured_numbers():
    for D, peak in ((64, 0), (65, 1), (722, 994), (723, 1_005), (939, 9_892), (940, 10_000), (4, 0), (1_019, 10_000)):
        yield f"brightest code {D} measures {peak}", all(
            one_pixel(*codes) == (peak, 0, 0) for codes in (grey(D), (D, 4, 64), (64, D, 4), (4, 64, D)))
    yield "722 has 993.73 cd/m2 and 723 has 1,004.19", [round(light.light_of_code(D) / N, 2) for D in (722, 723)] == [993.73, 1_004.19]
    dim, bright = grey(509), grey(800)
    yield "the last of equal pixels in a row", content_light.measure(narrow(row_bytes(bright, dim, bright, dim))) == (2_249, 0, 2)
    yield "the last of equal rows", content_light.measure(
        narrow(row_bytes(dim, bright), row_bytes(bright, dim), row_bytes(dim, dim))) == (2_249, 1, 0)
    yield "super-whites tie with 940, sub-blacks with 64", all(
        content_light.measure(narrow(row_bytes(*map(grey, codes)))) == (peak, 0, 1)
        for peak, codes in ((10_000, (940, 1_019)), (10_000, (1_019, 940)), (0, (4, 64)), (0, (64, 4))))
    yield "black ties with the positions up to 3, which have its light, and not with 4", [
        content_light.measure_row(content_light.Record(9, 9, position, 3, 3), row_bytes(grey(64))).row for position in range(6)] == [9, 9, 9, 9, 3, 3]
    some = narrow(b"", row_bytes(grey(3)), b"\0", row_bytes(dim))
    yield "a refused row is not numbered", content_light.measure(some) == (100, 1, 0) == (
        content_light.measured_peak(steps(content_light.Record(), some)[0]))
    yield "no pixel: refusal 12, also after rows of none and refused ones", all(
        refusal(content_light.measure, narrow(*rows)) == (12, 0) for rows in ([], [b""], [b"", b"\0"], [row_bytes(grey(3))]))
    yield "a fresh record has no pixel", refusal(content_light.measured_peak, content_light.Record()) == (12, 0)


def measured_refusals():
    last = content_light.Record(rows=MOST_ROWS, pixels=1)
    bad, long, damaged = row_bytes(grey(64), (64, 64, 3)), bytes(49_158), bytes(7)
    for data in (b"", row_bytes(grey(64)), bad, long, damaged):
        yield f"13 before all else, row of {len(data)} bytes", all(
            refusal(content_light.measure_row, record, data) == (13, 0) for record in (last, last._replace(rows=2**64 - 1)))
    before = last._replace(rows=MOST_ROWS - 1)
    yield "6 before 9, and the place of 9, one row before", [
        refusal(content_light.measure_row, before, data) for data in (b"", bad, long, damaged)] == [None, (9, 5), (6, 0), (6, 0)]
    yield "that row is the last one", content_light.measure_row(before, row_bytes(grey(65)))[:4:3] == (MOST_ROWS, MOST_ROWS - 1)


def draw_list(random, forms):
    """A list of rows in any of some formats, empty and refused ones among them."""
    codes = {form: draw_palette(random, form) for form in forms}
    drawn = [random.choice(forms) for _ in range(random.randrange(9))]
    return [(draw_measured_row(random, codes[form], random.choice((0, 1, 1, 2, 3, 5)), form), form) for form in drawn]


def measured_lists():
    random = Random(6)
    yield from laws_of_lists(random, [draw_list(random, [form]) for form in FORMATS for _ in range(500)])


def mixed_lists():
    """Request 06: rows of one run may differ in format."""
    random = Random(10)
    yield from laws_of_lists(random, [draw_list(random, FORMATS) for _ in range(1_500)])


def brightest_places(rows):
    """Row and pixel of all that have the largest light of sound rows."""
    lights = {(i, j): light.light_of_code(max(pixel), form)
              for i, (data, form) in enumerate(rows) for j, pixel in enumerate(row.pixels_of(row.samples_of(data)))}
    return [place for place, each in lights.items() if each == max(lights.values())]


def former_answer(rows):
    """What sound rows measured before request 09, pixel by pixel: a later one took over only with more light."""
    best = None
    for i, (data, form) in enumerate(rows):
        for j, pixel in enumerate(row.pixels_of(row.samples_of(data))):
            each = light.light_of_code(max(pixel), form)
            if best is None or each > best[0]:
                best = each, i, j
    return -(-best[0] // N), *best[1:]


def laws_of_lists(random, lists):
    yield "the record gives what the whole list gives, refusals included", all(map(both_ways, lists))
    yield "also where the rows come to their end", all(both_ways(rows, MOST_ROWS - random.randrange(7)) for rows in lists)
    sound = [[each for each, refused in zip(rows, content_light.refusals(rows)) if refused is None] for rows in lists]
    shares = [(outcome(content_light.measure, rows), brightest_places(rows)) for rows in sound if any(data for data, _ in rows)]
    yield "of the pixels that share the largest light the last is told, and some lists have several", all(
        given[1:] == max(places) for given, places in shares) and any(len(places) > 1 for _, places in shares)
    yield "request 09 changes the place where several share it, and nowhere else", all(
        (given != former_answer(rows)) == (len(places) > 1) and given[0] == former_answer(rows)[0]
        for (given, places), rows in zip(shares, (rows for rows in sound if any(data for data, _ in rows))))
    yield "refused rows change nothing", all(
        outcome(content_light.measure, rows) == outcome(content_light.measure, kept) for rows, kept in zip(lists, sound))
    peaks = [(outcome(content_light.measure, rows)[0], [(max(pixel), form) for data, form in rows for pixel in row.pixels_of(row.samples_of(data))])
             for rows in sound if any(data for data, _ in rows)]
    yield "the peak is the least whole cd/m2 that no light exceeds", all(
        (L - 1) * N < max(light.light_of_code(*code) for code in codes) <= L * N for L, codes in peaks)
    yield "no pixel lies above a measured peak from 1 up, by light and by position", all(
        light.light_of_code(*code) <= L * N and curve.position_of_code(*code) <= curve.position_of_peak(L)
        for L, codes in peaks if L for code in codes)


def measured_codes():
    for form in FORMATS:
        each = [(D, one_pixel(*grey(D), form=form)[0]) for D in form.taken]
        yield f"{form}: no code that is the brightest lies above its peak; the row call takes that", all(
            light.light_of_code(D, form) <= L * N and curve.position_of_code(D, form) <= curve.position_of_peak(L)
            and refusal(convert_pixel, L, grey(D), form) is None for D, L in each if L)
        yield f"{form}: only black measures 0, nothing more than 10,000", all((L == 0) == (D <= form.black) and L <= 10_000 for D, L in each)


def measured_records():
    most = content_light.Record(4_294_967_295, 35_184_372_080_640, 897_024, 4_294_967_294, 8_191)
    yield "the ends of a record's ranges", content_light.ENDS == most
    two = row_bytes(grey(64), grey(64))
    for pixels in (0, most.pixels - 3, most.pixels - 2, most.pixels - 1, 2**64 - 1):
        yield f"{pixels} pixels and two more", (
            content_light.measure_row(content_light.Record(pixels=pixels), two).pixels == min(pixels + 2, most.pixels))
    random = Random(7)
    past = [end + more for end in content_light.ENDS for more in (0, 1)] + [2**32, 2**63, 2**64 - 1]
    for _ in range(300):
        record = content_light.Record(*(random.choice((0, 1, random.randrange(end + 1), end, random.choice(past))) for end in content_light.ENDS))
        cut = content_light.Record(*(end if field > end else field for field, end in zip(record, content_light.ENDS)))
        data = draw_measured_row(random, draw_palette(random), random.randrange(4))
        yield f"{record} reads as {cut}", (
            outcome(content_light.measured_peak, record) == outcome(content_light.measured_peak, cut)
            and outcome(content_light.measure_row, record, data) == outcome(content_light.measure_row, cut, data))


def measure_answers():
    card = b"\x01\x03\xe8"
    white, brighter = row_bytes(grey(723)), row_bytes(grey(800))
    cut, bad = white[:5], row_bytes((64, 3, 64))
    answers = (
        ("no input", b"", "refused 1"), ("an unknown bit", b"\x20", "refused 2"), ("a cut card", b"\x01", "refused 3"),
        ("a field above 10,000", b"\x01\x27\x11", "refused 4"), ("no width", card, "refused 10"), ("width 0", title(card, 0), "refused 10"),
        ("a field of 0 and no width", b"\x05\0\0", "refused 10"), ("a field of 0", title(b"\x05\0\0", 1, white), "1005 0 0"),
        ("no rows", title(card, 8_192), "refused 12"), ("a cut row", title(card, 1, white, cut), "refused 11"),
        ("a bad row", title(card, 1, white, bad, white), "refused 9"), ("a bad and cut row", title(card, 2, bad, cut), "refused 11"),
        ("a cut row after a bad one", title(card, 1, bad, cut), "refused 9"), ("two rows", title(card, 1, white, brighter), "2249 1 0"),
        ("the card's peak is not used", title(b"\x04", 1, brighter, white), "2249 0 0"), ("no peak named", title(b"\0", 1, brighter), "refused 17"))
    for name, data, printed in answers:
        yield f"measure, {name}: {printed}", measured(data) == printed.encode() + b"\n"
    run = subprocess.run([sys.executable, "-B", "-m", "tests.reference.measure"], cwd=ROOT, input=title(card, 1, white), capture_output=True)
    yield "measure as a filter", (run.returncode, run.stdout, run.stderr) == (0, b"1005 0 0\n", b"")
    for limit, answer in ((0, "refused 12"), (1, "1005 0 0"), (2, "2249 1 0"), (3, "refused 9")):
        out, source = [], BytesIO(title(card, 1, white, brighter, bad))
        measure.measure_title(source.read, out.append, limit)
        yield f"measure, at most {limit} rows, what follows stays unread", ("".join(out) == answer + "\n" and source.tell() == 5 + 6 * limit)


# Request 04: Y'CbCr

def nearest(x):
    """A decimal's nearest whole number, halves away from zero."""
    return int(x.to_integral_value(ROUND_HALF_UP))


@lru_cache(maxsize=None)
def accepted_codes():
    """The RGB codes that are stored for the pixel call, refused ones left out."""
    return [codes for codes in ycbcr_codes() if refusal(convert_codes, codes) is None]


def published_ycbcr():
    """Document 002's Y'CbCr columns start from unrounded signals, request 04 from codes: red's luma differs, nothing else."""
    for codes, published in zip(CORNER_CODES, YCBCR_COLUMNS):
        due = (304, 382, 978) if published == (303, 382, 978) else published
        yield f"codes {codes} give {due}", convert_codes(codes) == due
    for pixel, published in zip(CORNERS, YCBCR_COLUMNS):
        lights = [Decimal(1_000 if D == 723 else 0) for D in pixel]
        red, green, blue = ((value - 64) / 876 for value in exact.exact_values_of_lights(lights))
        luma = exact.RED * red + exact.GREEN * green + exact.BLUE * blue
        cb, cr = (blue - luma) / Decimal("1.8814"), (red - luma) / Decimal("1.4746")
        yield f"unrounded signals of {pixel} give {published}", (
            nearest(64 + 876 * luma), nearest(512 + 896 * cb), nearest(512 + 896 * cr)) == published
    signal = exact.exact_values_of_lights((Decimal(1_000), Decimal(0), Decimal(0)))[0] - 64
    yield "red's luma before rounding is 303.49 by its signal of 975.66 and 303.58 by its code of 976", (
        round(64 + signal, 2), round(64 + exact.RED * signal, 2), round(64 + unrounded((976, 64, 64))[0], 2)) == (
        Decimal("975.66"), Decimal("303.49"), Fraction("303.58"))
    yield "luma is weighted as the luminance is", (luma_sum(1, 0, 0), luma_sum(0, 1, 0), luma_sum(0, 0, 1)) == hlg.WEIGHTS
    yield "1.8814 and 1.4746 are twice what the weights of blue and red leave", (
        2 - 2 * exact.BLUE, 2 - 2 * exact.RED) == (Decimal("1.8814"), Decimal("1.4746"))


def rounding_away():
    for n, d, whole in ((1, 2, 1), (-1, 2, -1), (5, 2, 3), (-5, 2, -3), (3, 7, 0), (-3, 7, 0), (4, 7, 1), (-4, 7, -1), (0, 9, 0)):
        yield f"{n}/{d} rounds to {whole}", round_away(n, d) == whole
    fractions = [(n, d) for n in range(-60, 61) for d in range(1, 13)]
    yield "nothing is more than a half away, and a half lies nearer to zero than its whole number", all(
        2 * abs(whole * d - n) < d or 2 * abs(whole * d - n) == d and abs(whole * d) > abs(n)
        for n, d in fractions for whole in [round_away(n, d)])
    yield "the same as decimals round", all(round_away(n, 16) == nearest(Decimal(n) / 16) for n in range(-80, 81))


def ycbcr_of_codes():
    random = Random(8)
    drawn = [tuple(random.choices(range(64, 1_020), k=3)) for _ in range(10_000)]
    yield "whole numbers give what the fractions give", all(ycbcr(codes) == by_fractions(codes) for codes in (*accepted_codes(), *drawn))
    yield "a grey keeps its code and has no chroma", all(convert_codes(grey(d)) == (d, 512, 512) for d in range(64, 1_020))
    yield "a chroma counts differences of codes", all(
        unrounded(codes)[1:] == unrounded([code + 1 for code in codes])[1:] for codes in drawn[:1_000])
    corners = list(map(convert_codes, product((64, 1_019), repeat=3)))
    yield "at the cube's corners luma ends at 64 and 1,019, chroma at 24 and 1,000", [
        (min(each), max(each)) for each in zip(*corners)] == [(64, 1_019), (24, 1_000), (24, 1_000)]
    # which way luma, Cb and Cr go where red, green or blue grows
    ways = ((1, -1, 1), (1, -1, -1), (1, 1, -1))
    beside = [*product((64, 300, 940, 1_019), repeat=2), *(codes[:2] for codes in drawn[:40])]
    for place, (name, way) in enumerate(zip(("red", "green", "blue"), ways)):
        walks = [[ycbcr((*others[:place], code, *others[place:])) for code in range(64, 1_020)] for others in beside]
        yield f"with {name} luma never falls, and each chroma goes one way", all(
            sign * low <= sign * high for walk in walks for pair in zip(walk, walk[1:]) for sign, low, high in zip(way, *pair))
        yield f"all along {name} results lie between those ends", all(
            64 <= luma <= 1_019 and 24 <= min(chroma) and max(chroma) <= 1_000 for walk in walks for luma, *chroma in walk)


def halves_of_luma():
    stored = [(codes, luma_sum(*(code - 64 for code in codes))) for codes in accepted_codes()]
    for beside, more in ((4_999, 0), (5_000, 1), (5_001, 1)):
        codes = [(codes, total // 10_000) for codes, total in stored if total % 10_000 == beside]
        yield f"{beside} ten-thousandths go {'up' if more else 'down'}", len(codes) > 20 and all(
            convert_codes(each)[0] == 64 + whole + more for each, whole in codes)


def halves_of_chroma():
    """A chroma is unchanged where all codes grow alike, so the search may keep the darkest one at 64."""
    cases = (("Cb", 1, (-2_627, -6_780, 9_407), Fraction(112, 2_060_133), 7), ("Cr", 2, (7_373, -6_780, -593), Fraction(112, 1_614_687), 29))
    for name, place, weights, reduced, apart in cases:
        part = reduced.denominator
        units = [unrounded([64 + (at == one) for at in range(3)])[place] for one in range(3)]
        yield f"{name} is {reduced} times a whole sum", units == [weight * reduced for weight in weights]
        yield f"{name} is never a half: its denominator {part} is odd", part % 2 == 1
        steps = [[224 * weight * code % (2 * part) for code in range(956)] for weight in weights]
        yield f"no codes bring {name} nearer to a half than {apart} halves of 1/{part}", apart == min(
            abs((x + y) % (2 * part) - part) for one, other in ((0, 1), (0, 2), (1, 2)) for x in steps[one] for y in steps[other])
        stored = [unrounded(codes)[place] % 1 - Fraction(1, 2) for codes in accepted_codes()]
        yield f"such codes of {name} are stored, on both sides of the half", all(Fraction(sign * apart, 2 * part) in stored for sign in (-1, 1))


def code_refusals():
    bounds = ((63, (14, 0)), (64, None), (1_019, None), (1_020, (14, 0)), (0, (14, 0)), (2**32 + 500, (14, 0)), (2**64 - 1, (14, 0)))
    for code, answer in bounds:
        yield f"code {code} at each place: {answer}", all(
            refusal(convert_codes, codes) == answer for codes in ((code, 64, 940), (500, code, 64), (64, 1_019, code), grey(code)))
    yield "several at once have place 0 too", refusal(convert_codes, (64, 63, 1_020)) == refusal(convert_codes, (2**64 - 1, 3, 64)) == (14, 0)
    yield "what the conversion gives is taken", all(
        refusal(convert_codes, hlg_codes(L, pixel)) is None for L in (1, 1_000, 10_000) for pixel in (*CORNERS, grey(4), grey(1_019), (4, 4, 1_019)))


def alike(L, data, length, first, end, form=0):
    """Whether both row calls give one number, and the second luma, Cb and Cr of the codes that the first writes, in their places."""
    codes, made = (bytearray([FILL]) * length for _ in range(2))
    number = row.c_number(L, form, data, codes, first, end)
    if number == 0:
        span = slice(6 * first, 6 * end)
        codes[span] = row_bytes(*map(convert_codes, row.pixels_of(row.samples_of(codes[span]))))
    return (number, codes) == (row.c_number(L, form, data, made, first, end, ycbcr), made)


def ycbcr_rows():
    data, made = row_bytes(*CORNERS), bytearray(48)
    number = row.c_number(1_000, 0, data, made, 0, 8, ycbcr)
    yield "document 002's corners as a row", (number, made) == (0, row_bytes(*map(convert_codes, CORNER_CODES)))
    random = Random(9)
    drawn = [(L, row_bytes(*(draw_pixel(random, L) for _ in range(8))), 48, random.randrange(4), random.randrange(4, 9))
             for L in draw_peaks(random, 100)]
    yield "both calls start from the same RGB codes", all(alike(*call) for call in drawn)
    yield "both calls refuse alike, and write nothing then", all(alike(*call) for call in row_calls())
    yield "also in every format", all(alike(*call, form) for form, *call in format_row_calls())


# Request 06: depth and range

def all_codes():
    """Every code of every format that is taken."""
    return [(D, form) for form in FORMATS for D in form.taken]


def formats():
    yield "positions of codes are those of lights", sample_format.POSITIONS == END
    for form, (n, full, number) in zip(FORMATS, ((10, False, 0), (12, False, 8), (10, True, 16), (12, True, 24))):
        yield f"{form}: depth, range and number", form == Format(n, full) and form.number == number and format_of(number) == form
    for form in (TEN_NARROW, TWELVE_NARROW):        # BT.2100's narrow range of n bits
        unit = 2**(form.bits - 8)
        yield f"{form}: from black to the nominal peak", (form.black, form.white) == (16 * unit, 235 * unit)
        yield f"{form}: all but the codes kept for timing are taken", (form.taken[0], form.taken[-1]) == (unit, 255 * unit - 1)
    for form in (TEN_FULL, TWELVE_FULL):
        yield f"{form}: every code is taken, and none is beyond black or the nominal peak", form.taken == form.nominal == range(2**form.bits)
    for form in FORMATS:
        black, white = form.black, form.white
        yield f"{form}: a signal is the code's share of the way from black to the nominal peak", all(
            form.signal(D) == Fraction(D - black, white - black) for D in form.nominal)
        yield f"{form}: codes beyond these read as these", all(
            form.read(D) == (black if D < black else white if D > white else D) for D in (*form.taken, 0, 2**form.bits, 2**16, 2**64 - 1))
        yield f"{form}: a position is the signal's, rounded down", all(
            form.position(D) == (END * form.signal(D)).__floor__() for D in (*form.taken, 0, 2**64 - 1))
        yield f"{form}: the signal lies from its position up to the next one", all(
            Fraction(q, END) <= form.signal(D) < Fraction(q + 1, END) for D in form.taken for q in [form.position(D)])
        yield f"{form}: positions grow from 0 to the last", (form.position(black), form.position(white)) == (0, END) and all(
            form.position(D) < form.position(D + 1) for D in form.nominal[:-1])
        yield f"{form}: a light is that at the code's position", all(
            light.light_of_code(D, form) == light.light_at(form.position(D)) for D in form.taken)
        yield f"{form}: the ends have no light and all of it", (light.light_of_code(black, form), light.light_of_code(white, form)) == (0, BRIGHTEST)
    yield "narrow codes stand at entries of the light table, every fourth of ten bits and each of twelve", (
        all(form.position(D) % STEPS == 0 for D, form in all_codes() if not form.full)
        and all(light.light_of_code(D) == P[4 * (D - 64)] for D in TEN_NARROW.nominal)
        and all(light.light_of_code(D, TWELVE_NARROW) == P[D - 256] for D in TWELVE_NARROW.nominal))
    rest = {form: [part for D in form.taken for part in [END * form.signal(D) - form.position(D)] if part] for form in FORMATS}
    yield "full codes mostly don't: a rest is left", (
        [len(rest[form]) for form in FORMATS] == [0, 0, 1_020, 4_092] and max(rest[TWELVE_FULL]) > Fraction(99, 100))
    yield "thirds of the signal are codes of both depths in full range", all(
        TEN_FULL.position(341 * i) == TWELVE_FULL.position(1_365 * i) == i * END // 3 for i in range(4))


def order_of_codes():
    """Light and position order codes of all formats alike, so that a record may hold either."""
    positions = sorted({form.position(D) for D, form in all_codes()})
    lights = [light.light_at(q) for q in positions]
    yield "lights of codes rise with their positions, whatever their formats", all(low < high for low, high in zip(lights, lights[1:]))
    yield "the position just below a code's has less light", all(light.light_at(q - 1) < lit for q, lit in zip(positions, lights) if q)
    yield "1,000 cd/m2 lies between codes 722 and 723, 2,890 and 2,891, 769 and 770, 3,078 and 3,079", all(
        light.light_of_code(D, form) < A < light.light_of_code(D + 1, form) for D, form in zip((722, 2_890, 769, 3_078), FORMATS))
    w = curve.position_of_peak(4_000)
    yield "peak 4,000: the knee lies after codes 656, 2,626, 692 and 2,770", all(
        curve.below_knee(form.position(D), w) and not curve.below_knee(form.position(D + 1), w) for D, form in zip((656, 2_626, 692, 2_770), FORMATS))


@contextmanager
def positions_by(position):
    """Codes at other positions, for a while."""
    kept = Format.position
    Format.position = position
    forget_codes()
    try:
        yield
    finally:
        Format.position = kept
        forget_codes()


def format_codes():
    random = Random(11)
    cases = [(L, draw_pixel(random, L)) for L in draw_peaks(random, 60) for _ in range(20)]
    yield "four times the codes in twelve-bit narrow range give the same", all(
        hlg_codes(L, pixel) == hlg_codes(L, [4 * D for D in pixel], TWELVE_NARROW) for L, pixel in cases)
    for form in FORMATS:
        yield f"{form}: white under a peak of 10,000 and of 1,000, and black", [
            convert_pixel(L, grey(D), form) for L, D in ((10_000, form.white), (1_000, form.white), (1_000, form.black))] == [
            grey(940), grey(940), grey(64)]
        yield f"{form}: the first red above 1,000 cd/m2 is 976 64 64", convert_pixel(
            1_000, (curve_start(form), form.black, form.black), form) == (976, 64, 64)
    stored = {(form, L, pixel): hlg_codes(L, pixel, form) for form, peaks in POSITION_PIXELS.items() for L, pixels in peaks.items() for pixel in pixels}
    with positions_by(lambda form, D: -(-END * form.signal(D) // 1)):
        higher = {(form, L, pixel): hlg_codes(L, pixel, form) for form, L, pixel in stored}
    yield "each stored pixel that hangs on a position has a code or two that move, by one, if positions are rounded up", all(
        sorted(abs(c - d) for c, d in zip(stored[case], higher[case])) in ([0, 0, 1], [0, 1, 1], [1, 1, 1]) for case in stored)
    with positions_by(lambda form, D: END * form.read(D) // 2**form.bits):
        lower = [hlg_codes(L, pixel, form) for form, L, pixel in stored]
    yield "half of them move if a full signal were the code 2^n", 2 * sum(map(tuple.__ne__, stored.values(), lower)) >= len(stored)


def curve_start(form):
    """The first code above 1,000 cd/m2."""
    return next(D for D in form.nominal if light.light_of_code(D, form) > A)


def format_limits():
    limits = {TEN_NARROW: (4, 1_019), TWELVE_NARROW: (16, 4_079), TEN_FULL: (0, 1_023), TWELVE_FULL: (0, 4_095)}
    for form, (least, most) in limits.items():
        mid = form.nominal[300]
        for D in LIMITS:
            taken = least <= D <= most
            yield f"{form}: code {D} is {'taken' if taken else 'refused'} at each place", all(
                refusal(convert_pixel, 1_000, pixel, form) == (None if taken else (9, place))
                for place, pixel in enumerate(((D, mid, mid), (mid, D, mid), (mid, mid, D))))
        data = row_bytes(grey(mid), (mid, most + 1, mid), grey(most))
        yield f"{form}: the row call and the measuring run refuse the same sample", (
            row.c_number(1_000, form.number, data, bytearray(18), 0, 3) == 9 + 256 * 4
            and refusal(content_light.measure_row, content_light.Record(), data, form) == (9, 4))
        yield f"{form}: 5 comes before 9", refusal(convert_pixel, 0, grey(65_535), form) == (5, 0)


def unread_bits():
    yield "only bits 3 and 4 are read", all(
        format_of(number | other) == format_of(number) for number in (0, 8, 16, 24) for bit in range(64) if bit not in (3, 4) for other in (0, 1 << bit))
    yield "stored numbers with other bits stand for every format", {format_of(number) for number in UNREAD} == set(FORMATS) and not any(
        number in (0, 8, 16, 24) for number in UNREAD)

    def answered(number, call):
        destination = bytearray([FILL]) * call[2]
        return row.c_number(call[0], number, call[1], destination, *call[3:]), destination
    calls = [call for _, *call in format_row_calls()]
    yield "a row call gives the same with any of them", all(
        answered(number, call) == answered(format_of(number).number, call) for number in UNREAD for call in calls[::7])


def format_cards():
    answers = (
        ("0c", (10_000, TWELVE_NARROW)), ("14", (10_000, TEN_FULL)), ("1c", (10_000, TWELVE_FULL)), ("04", (10_000, TEN_NARROW)), ("18", (17, 0)),
        ("0903e8", (1_000, TWELVE_NARROW)), ("120fa0", (4_000, TEN_FULL)), ("1f03e80fa0", (1_000, TWELVE_FULL)), ("1b000007d0", (2_000, TWELVE_FULL)),
        ("150000", (10_000, TEN_FULL)), ("09", (3, 0)), ("1b03e8", (3, 0)), ("092711", (4, 0)), ("1803e8", (17, 0)), ("110000", (17, 0)),
        ("28", (2, 0)), ("38", (2, 0)), ("48", (2, 0)), ("9903", (2, 0)), ("f12711", (2, 0)))
    for text, answer in answers:
        yield f"card {text}: {answer}", outcome(metadata.source_of_metadata, bytes.fromhex(text)) == answer
    tails = (b"", b"\0", word(0), word(1_000), word(10_001), word(1_000) + word(2_000) + b"\7")
    yield "bits 3 and 4 say the format and change nothing else of a card", all(
        outcome(metadata.peak_of_metadata, bytes([bits | form.number]) + tail) == outcome(metadata.peak_of_metadata, bytes([bits]) + tail)
        and metadata.after_metadata(bytes([bits | form.number]) + tail) == metadata.after_metadata(bytes([bits]) + tail)
        for bits in range(256) if not bits & (TWELVE_BITS | FULL_RANGE) for form in FORMATS for tail in tails)


def format_titles():
    for form, lines, peak in ((TEN_NARROW, b"913 913 913\n", 1_005), (TWELVE_NARROW, b"138 138 138\n", 1), (TEN_FULL, b"879 879 879\n", 661),
                              (TWELVE_FULL, b"169 169 169\n", 2)):
        data = title(maxcll_card(form, 4_000), 1, row_bytes(grey(723)))
        yield f"{form}: code 723 prints {lines!r} and measures {peak}", (
            converted(data) == lines and measured(data) == b"%d 0 0\n" % peak)
        refused = title(maxcll_card(form, 4_000), 1, row_bytes(grey(500)), row_bytes(grey(form.taken[-1] + 1)))
        yield f"{form}: a sample past the highest stops both programs", (
            converted(refused).endswith(b"\nrefused 9\n") and measured(refused) == b"refused 9\n")


def measured_formats():
    first = row_bytes(grey(700)), TEN_NARROW
    same = row_bytes(grey(2_800)), TWELVE_NARROW
    more = row_bytes(grey(2_801)), TWELVE_NARROW
    yield "rows of two formats tie by their lights", content_light.measure([first, same]) == content_light.measure([same, first]) == (790, 1, 0)
    yield "and a brighter one takes over", content_light.measure([first, more]) == (792, 1, 0)
    whites = [(row_bytes(grey(form.taken[-1])), form) for form in FORMATS]
    blacks = [(row_bytes(grey(form.taken[0])), form) for form in FORMATS]
    yield "the highest codes tie in all formats, and so do the lowest", all(
        content_light.measure(rows[i:] + rows[:i]) == (peak, 3, 0) for rows, peak in ((whites, 10_000), (blacks, 0)) for i in range(4))
    yield "a code beside a record's position, whatever made that", all(
        content_light.measure_row(content_light.Record(1, 1, q + beside, 0, 0), row_bytes(grey(D)), form).row == (1 if beside <= 0 else 0)
        for form in FORMATS for D in form.nominal[3::37] for q in [form.position(D)] for beside in (-1, 0, 1))
    yield "the last position that shares the light of the darkest codes, and of the third entry of the table", [
        max(p for p in range(600) if light.light_at(p) == light.light_at(q)) for q in (0, 219, 256, 438, 512)] == [3, 221, 257, 439, 512]


# Request 08: the return path

def halves_of_scene(d):
    """The signals, in long decimals, of the scene lights half a unit below and half a unit above that of a code."""
    return [exact.hlg_oetf(Decimal(max(0, 2 * S[d] + half)) / (2 * hlg.SCENE)) for half in (-1, 1)]


def scene_lights():
    """Whether these are the lights is found by the OETF in decimals: a logarithm, where they were made by an exponential on whole numbers."""
    yield "codes from 64 to 1,019 have one", list(S) == list(range(64, 1_020))
    yield "black has none, code 1,019 has 1,803,467,062,476", (S[64], S[1_019]) == (0, 1_803_467_062_476)
    yield "they rise strictly", all(S[d] < S[d + 1] for d in range(64, 1_019))
    signals = {d: Decimal(d - 64) / 876 for d in S}
    yield "the signal of a code lies from half a unit below its light to half a unit above it, the latter not included", all(
        low <= signals[d] < high for d in S for low, high in [halves_of_scene(d)])
    yield "502 has signal 1/2, up to which the light is a third of the signal's square", signals[502] == Decimal("0.5") and all(
        (2 * S[d] - 1) * 3 * 876**2 <= 2 * (d - 64)**2 * hlg.SCENE < (2 * S[d] + 1) * 3 * 876**2 for d in range(65, 503))
    yield "that of 502 is a twelfth, and the next one is more", S[502] == hlg.SCENE // 12 < S[503]
    rests = [hlg.SCENE * scene_light.light_bounds(scene_light.signal_of_code(d))[0] % 1 for d in S]
    yield "no light lies within 1/1200 of a unit of a half", all(abs(rest - Fraction(1, 2)) > Fraction(1, 1_200) for rest in rests)
    yield "white is 2^40 and 26,791 units more: a, b and c are taken as printed", S[940] - hlg.SCENE == 26_791
    yield "on the way out each lies between the step of its code and the next one", all(
        hlg.T.get(d, 0) <= S[d] < hlg.T.get(d + 1, S[d] + 1) for d in S)
    yield "a code below 64 reads 64, one past 1,019 reads 1,019", all(scene_light.scene_light(d) == 0 for d in range(65)) and all(
        scene_light.scene_light(d) == S[1_019] for d in (1_019, 1_020, 2**16, 2**64 - 1))


def fifth_roots():
    random = Random(12)
    roots = [*range(40), *(2**power + beside for power in range(2, 41) for beside in (-1, 0, 1)), *(random.getrandbits(40) for _ in range(300))]
    yield "the root of a fifth power is its base; a unit less has the one before", all(
        display_light.fifth_root(c**5) == c and (c == 0 or display_light.fifth_root(c**5 - 1) == c - 1) for c in roots)
    numbers = [*range(300), *(random.getrandbits(random.randrange(1, 200)) for _ in range(2_000))]
    yield "no larger whole number has a fifth power as small", all(
        c**5 <= n < (c + 1)**5 for n in numbers for c in [display_light.fifth_root(n)])


def display_lights():
    random = Random(13)
    drawn = [tuple(S[max(d, 64)] for d in draw_colour(random)) for _ in range(400)]
    cases = [(hlg.luminance(scenes), scene, c) for triple in (*scene_triples(random), *drawn)
             for scenes in [[min(scene, S[1_019]) for scene in triple]] for scene, c in zip(scenes, display_light.display_lights(triple))]
    yield "each light is reached and the next one is not, by the inequality as written", all(
        display_light.reached(c, Y, scene) and not display_light.reached(c + 1, Y, scene) for Y, scene, c in cases)
    yield "each is the published OOTF in long decimals, rounded down", all(
        0 <= ootf(Y, scene) - c < 1 for Y, scene, c in cases if not whole_light(Y, scene))
    yield "greys of 2^40, 2^35, 2^30, 2^25 and 2^20 have 1,000 cd/m2 over a power of 64, where both sides are equal; a unit less has less", all(
        display_light.display_lights(grey(2**(40 - 5 * i))) == grey(A >> 6 * i) and max(display_light.display_lights(grey(2**(40 - 5 * i) - 1))) < A >> 6 * i
        for i in range(5))
    yield "a black pixel has no light, nor has a black component", (
        display_light.display_lights((0, 0, 0)) == (0, 0, 0) and display_light.display_lights((0, S[940], 0))[::2] == (0, 0))
    light = display_light.display_lights(grey(S[1_019]))[0] / N
    yield "code 1,019 three times shows 1,810.9 cd/m2, document 001's 1 811", round(light, 1) == 1_810.9 and round(light) == 1_811
    yield "no light of codes is more, so none comes near 10,000 cd/m2", all(c <= light * N for _, _, c in cases)
    yield "a larger scene light in a pixel has no smaller display light", all(
        pairs == sorted(pairs, key=lambda pair: pair[1]) for scenes in drawn for pairs in [sorted(zip(scenes, display_light.display_lights(scenes)))])


def ootf(Y, scene):
    """The OOTF by the published formula, in units: scene light times the fifth root of the luminance, for 1,000 cd/m2."""
    share = Decimal(Y) / 10_000 / hlg.SCENE
    return A * (share ** (Decimal(1) / 5) if share else share) * scene / hlg.SCENE


def whole_light(Y, scene):
    """Whether a light is whole without rounding; there a decimal may fall on either side of it."""
    c = display_light.display_light(Y, scene)
    return c**5 * 10_000 * 2**240 == A**5 * Y * scene**5


def pq_codes_of_lights():
    thresholds = {D: P[4 * (D - 64) - 2] for D in range(65, 941)}
    yield "there are thresholds of 65 to 940, rising strictly", (
        list(thresholds.values()) == returned.THRESHOLDS and all(thresholds[D] < thresholds[D + 1] for D in range(65, 940)))
    yield "a threshold lies between the lights of its code and of the one before", all(
        light.light_of_code(D - 1) < low < light.light_of_code(D) for D, low in thresholds.items())
    yield "from its threshold on a light has the code, a unit less has the one before", all(
        returned.pq_code(low) == D and returned.pq_code(low - 1) == D - 1 for D, low in thresholds.items())
    yield "the light of a code has that code", all(returned.pq_code(light.light_of_code(D)) == D for D in range(64, 941))
    yield "no light has 64, all above 10,000 cd/m2 have 940", (
        returned.pq_code(0) == 64 and returned.pq_code(BRIGHTEST) == returned.pq_code(2**64 - 1) == 940)
    beside = [low + units for low in thresholds.values() for units in (-1, 1)]
    yield "a unit beside each threshold the code is the published inverse EOTF, rounded", all(
        returned.pq_code(lit) == nearest(64 + 876 * exact.pq_inverse_eotf(Decimal(lit) / N)) for lit in beside)


def by_powers(pixel):
    """The codes without a root: the thresholds' fifth powers in the request's inequality."""
    scenes = [scene_light.scene_light(d) for d in pixel]
    Y = hlg.luminance(scenes)
    return tuple(max((D for D, low in enumerate(returned.THRESHOLDS, 65) if display_light.reached(low, Y, scene)), default=64) for scene in scenes)


def exact_codes(pixel):
    """PQ codes before they are rounded, by the published formulas in long decimals."""
    signals = [Decimal(max(d, 64) - 64) / 876 for d in pixel]
    scenes = [signal**2 / 3 if signal <= Decimal("0.5") else (((signal - exact.c) / exact.a).exp() + exact.b) / 12 for signal in signals]
    Y = exact.RED * scenes[0] + exact.GREEN * scenes[1] + exact.BLUE * scenes[2]
    root = Y ** (Decimal(1) / 5) if Y else Y
    return [64 + 876 * exact.pq_inverse_eotf(1_000 * root * scene) for scene in scenes]


@contextmanager
def scene_lights_rounded(up):
    """Scene lights rounded down or up instead of to the nearest, for a while."""
    kept = dict(S)
    for d in S:
        S[d] = (hlg.SCENE * scene_light.light_bounds(scene_light.signal_of_code(d))[up]).__floor__() + up * (S[d] > 0)
    try:
        yield
    finally:
        S.update(kept)


def returned_pixels():
    for d, D in ((940, 723), (64, 64), (1_019, 779), (65, 65), (4, 64), (63, 64)):
        yield f"grey {d} becomes {D}", returned.convert_pixel(grey(d)) == grey(D)
    back = (64, 64, 64), (723, 64, 64), (64, 722, 64), (64, 64, 722), (723, 723, 64), (64, 722, 722), (722, 64, 722), (723, 723, 723)
    for codes, pixel in zip(CORNER_CODES, back):
        yield f"document 002's {codes} becomes {pixel}", returned.convert_pixel(codes) == pixel
        yield f"and {pixel} the same again at 1,000 cd/m2, or a code less", all(
            0 <= code - again <= 1 for code, again in zip(codes, hlg_codes(1_000, pixel)))
    random = Random(14)
    drawn = [draw_colour(random) for _ in range(400)]
    yield "roots and thresholds give what their powers give", all(
        returned.pq_codes(pixel) == by_powers(pixel) for pixel in (*drawn[:150], *UNIT_COLOURS))
    yield "each code lies less than 0.501 from the published formulas", all(
        abs(code - value) < Decimal("0.501") for pixel in (*drawn, *map(grey, ENDS)) for code, value in zip(returned.pq_codes(pixel), exact_codes(pixel)))
    yield "codes below 64 read as 64", all(
        returned.pq_codes(pixel) == returned.pq_codes([max(d, 64) for d in pixel]) for pixel in drawn)
    yield "no code is above 779", max(max(returned.pq_codes(pixel)) for pixel in (*drawn, *product((4, 64, 1_019), repeat=3))) == 779
    greys = [returned.pq_codes(grey(d)) for d in range(4, 1_020)]
    yield "greys stay grey and never fall", all(len(set(three)) == 1 for three in greys) and greys == sorted(greys)


def hanging_colours():
    lights = {pixel: display_light.display_lights([S[d] for d in pixel]) for pixel in UNIT_COLOURS}
    yield "each stored colour that hangs on a unit has a light at a threshold or a unit below one", all(
        any(lit in returned.THRESHOLDS or lit + 1 in returned.THRESHOLDS for lit in three) for three in lights.values())
    codes = [returned.pq_codes(pixel) for pixel in UNIT_COLOURS[:5]]
    moved = []
    for up in (0, 1):
        with scene_lights_rounded(up):
            moved.append([returned.pq_codes(pixel) != three for pixel, three in zip(UNIT_COLOURS, codes)])
    yield "of the first three a code moves if scene lights are rounded down, of the next two if they are rounded up", moved == [
        [True] * 3 + [False] * 2, [False] * 3 + [True] * 2]
    random = Random(15)
    near = [min(abs(lit - low) / low for low in returned.THRESHOLDS for lit in display_light.display_lights([S[d] for d in beside_threshold(random)]))
            for _ in range(30)]
    yield "most colours that are drawn beside a threshold have a light within a ten-thousandth of one", sum(10_000 * share < 1 for share in near) > 15


def round_trip():
    """Greys sent to PQ and back; the request allows two codes."""
    back = Counter(hlg_codes(1_000, returned.pq_codes(grey(d)))[0] - d for d in range(64, 941))
    yield "of 877 greys 608 come back as they were, 150 a code lower, 119 a code higher", back == {0: 608, -1: 150, 1: 119}
    yield "no grey is more than two codes away", max(map(abs, back)) <= 2
    yield "only that of 940 has a PQ code above 1,000 cd/m2, 723, which is cut on the way out", [
        d for d in range(64, 941) if light.light_of_code(returned.pq_codes(grey(d))[0]) > A] == [940]
    there = Counter(returned.pq_codes(hlg_codes(1_000, grey(D)))[0] - D for D in range(64, 723))
    yield "PQ greys up to 722 that go to HLG and return are at most one code away", max(map(abs, there)) <= 1


def return_refusals():
    for d, answer in ((3, (9, 0)), (1_020, (9, 0)), (4, None), (1_019, None), (0, (9, 0)), (65_535, (9, 0)), (2**64 - 1, (9, 0))):
        yield f"HLG code {d}: {answer}", refusal(returned.convert_pixel, grey(d)) == answer
        yield f"HLG code {d} at each place", [refusal(returned.convert_pixel, pixel) for pixel in ((d, 64, 64), (64, d, 64), (64, 64, d))] == [
            answer and (9, place) for place in range(3)]
    yield "the place is the first bad code's", refusal(returned.convert_pixel, (64, 3, 1_020)) == (9, 1)


def return_rows():
    data = row_bytes(*CORNER_CODES)
    whole = row_bytes(*map(returned.pq_codes, CORNER_CODES))
    for first in range(9):
        for end in range(first, 9):
            destination, wanted = (bytearray([FILL]) * len(data) for _ in range(2))
            number = returned.c_number(data, destination, first, end)
            wanted[6 * first:6 * end] = whole[6 * first:6 * end]
            yield f"return, pixels {first} to {end}: these places and no others", (number, destination) == (0, wanted)
    bad = row_bytes(grey(64), (64, 64, 1_020), grey(64))
    calls = (                           # number, row, bytes of the destination, first, end
        (6, bad[1:], 1, 2, 1), (6, bytes(49_158), 49_158, 0, 0), (7, bad, 1, 2, 1), (8, bad, 18, 2, 1), (8, bad, 18, 0, 4),
        (9 + 256 * 5, bad, 18, 0, 3), (9 + 256 * 5, bad, 18, 1, 2), (0, bad, 18, 2, 3), (0, bad, 18, 3, 3),
        (0, b"", 0, 0, 0), (8, b"", 0, 0, 1), (7, b"", 6, 0, 0))
    for number, given, length, first, end in calls:
        destination = bytearray([FILL]) * length
        answer = returned.c_number(given, destination, first, end)
        yield f"return, C number {number}: {len(given)} bytes, pixels {first} to {end}", answer == number
        yield f"return, C number {number}: nothing is written by a refusal", number == 0 or destination == bytearray([FILL]) * length

    def numbers(data, length, first, end):
        return (returned.c_number(data, bytearray(length), first, end), row.c_number(1_000, 0, data, bytearray(length), first, end))
    yield "the outward call under a sound peak refuses the same calls alike", all(
        here == there for call in return_row_calls(Random(16)) for here, there in [numbers(*call)])


# Request 11: linear float frames

def of_host(bits):
    """A float by the machine's own decoding."""
    return unpack("=f", pack("=I", bits))[0]


def class_limits():
    named = (
        (0, "light", 0), (0x8000_0000, "light", 0), (1, "light", 0), (0x007F_FFFF, "light", 0), (0x0080_0000, "light", 0),
        (0x8000_0001, "negative", 0), (0x8080_0000, "negative", 0), (0xBF80_0000, "negative", 0), (0xC61C_4000, "negative", 0), (0xFF7F_FFFF, "negative", 0),
        (0x337F_FFFF, "light", 0), (0x3380_0000, "light", 1), (0x3380_0001, "light", 1), (0x33FF_FFFF, "light", 1), (0x3400_0000, "light", 2),
        (0x3F80_0000, "light", N), (0x3DCC_CCCD, "light", 1_677_721), (0x447A_0000, "light", A), (0x461C_3FFF, "light", BRIGHTEST - N // 1_024),
        (0x461C_4000, "light", BRIGHTEST), (0x461C_4001, "too bright", BRIGHTEST), (0x7F7F_FFFF, "too bright", BRIGHTEST))
    for bits, name, units in named:
        yield f"{bits:08x} is {name} as it was given, and has {units} units", (
            linear.class_of(bits) == (name, bits) and linear.whole_light(bits) == linear.by_fractions(bits) == units)
    yield "10,000 cd/m2 is 461c4000, 1,000 is 447a0000", [linear.value(bits) for bits in (0x461C_4000, 0x447A_0000)] == [10_000, 1_000]
    yield "the smallest float above 0 is 2^-149, the largest is (2 - 2^-23) x 2^127", (
        linear.value(1) == Fraction(1, 2**149) and linear.value(0x7F7F_FFFF) == 2**128 - 2**104)
    yield "infinities and what is no number are refused by 16 at 0", all(
        refusal(linear.class_of, bits) == (16, 0) for bits in (*linear_cases.REFUSED, 0x7F80_0000, 0xFF80_0000))
    yield "two of those stored are infinite, the others no numbers, half of them quiet", (
        [of_host(bits) for bits in linear_cases.REFUSED[:2]] == [float("inf"), float("-inf")]
        and all(of_host(bits) != of_host(bits) for bits in linear_cases.NO_NUMBERS) and sum(bits >> 22 & 1 for bits in linear_cases.NO_NUMBERS) == 5)


def every_pattern():
    """Classes are decided by the order of patterns, so their limits count all of them."""
    light_patterns, negative, too_bright = 0x461C_4001 + 1, 0x7F80_0000 - 1, 0x7F80_0000 - 0x461C_4001
    yield "light, negative, too bright and refused patterns are all that there are", light_patterns + negative + too_bright + 2 * 2**23 == 2**32
    random = Random(17)
    drawn = sorted([random.getrandbits(31) for _ in range(4_000)] + [e * 2**23 + beside for e in range(256) for beside in (0, 1, 2**23 - 1)])
    finite = [bits for bits in drawn if bits < 0x7F80_0000]
    yield "each finite pattern has the value of the machine's own decoding, either sign", all(
        linear.value(bits) == Fraction(of_host(bits)) == -linear.value(bits + 2**31) for bits in finite)
    yield "values rise with their patterns, strictly, and lights do not fall", all(
        linear.value(x) < linear.value(y) and linear.whole_light(x) <= linear.whole_light(y) for x, y in zip(finite, finite[1:]) if x < y)
    yield "a pattern is refused just where its exponent is the highest", all(
        (refusal(linear.class_of, bits) is None) == (bits % 2**31 < 0x7F80_0000) for bits in (*drawn, *(bits + 2**31 for bits in drawn)))
    yield "classes are those of comparisons by the machine", all(
        linear.class_of(bits)[0] == ("negative" if of_host(bits) < 0 else "too bright" if of_host(bits) > 10_000 else "light")
        for bits in (*finite, *(bits + 2**31 for bits in finite)))


    yield "a value counts as its class says", all(
        linear.counted(bits) == {"light": linear.value(bits), "negative": 0, "too bright": 10_000}[linear.class_of(bits)[0]]
        for bits in (*finite, *(bits + 2**31 for bits in finite)))


def whole_lights():
    random = Random(18)
    drawn = [linear_cases.draw_light(random) for _ in range(1_500)] + [linear_cases.draw_dim(random) for _ in range(1_500)]

    def in_decimals(bits):
        with localcontext() as wide:
            wide.prec = 250                 # a float has 112 digits at most, so nothing is rounded
            return int(min(Decimal(of_host(bits)), Decimal(10_000)) * N)
    yield "the whole light is the product in decimals without its places", all(
        linear.whole_light(bits) == in_decimals(bits) for bits in (*drawn, *linear_cases.SUBNORMAL, *linear_cases.TOO_BRIGHT))
    some = [*drawn, *(random.getrandbits(31) % 0x7F80_0000 + random.randrange(2) * 2**31 for _ in range(3_000))]
    yield "whole numbers give what fractions give", all(linear.whole_light(bits) == linear.by_fractions(bits) for bits in some)
    units = [*range(1, 3_000), *(random.randrange(1, 2**24) for _ in range(2_000))]
    yield "so many units are a float, and the one before it has a unit less", all(
        linear.value(bits) == Fraction(unit, N) and linear.whole_light(bits) == unit and linear.whole_light(bits - 1) == unit - 1
        for unit in units for bits in [linear_cases.of_light(unit)])
    yield "from 1 cd/m2 on a float is a whole number of units", all(
        linear.value(bits) * N == linear.whole_light(bits) for bits in (random.randrange(0x3F80_0000, 0x461C_4001) for _ in range(2_000)))
    entries = [linear_cases.of_light(p) for p in P]
    yield "the float at or before each table entry has no more light, the next one more", all(
        linear.whole_light(bits) <= p < linear.value(bits + 1) * N for p, bits in zip(P, entries))
    are_floats = [linear.value(bits) * N == p for p, bits in zip(P, entries)]
    yield "682 entries are floats: those that 24 bits hold, zeros behind them apart", (
        sum(are_floats) == 682 and are_floats == [p == 0 or p // (p & -p) < 2**24 for p in P])
    yield "up to an entry a light stands before its position, from it on there", all(
        light.position_of(linear.whole_light(bits)) >= 256 * k if linear.value(bits) * N >= P[k] else light.position_of(linear.whole_light(bits)) < 256 * k
        for k in range(1, LAST + 1) for bits in linear_cases.beside(entries[k]))


def linear_corners():
    lights = {64: 0, 723: 0x447A_0000}
    for pixel, codes in zip(CORNERS, CORNER_CODES):
        yield f"lights of {pixel} in floats, peak 1,000: {codes}", linear.convert_pixel(1_000, [lights[D] for D in pixel]) == codes
    for bits, L, code in ((0x447A_0000, 1_000, 940), (0x461C_4000, 10_000, 940), (0x461C_4001, 10_000, 940), (0x461C_4000, 1, 940), (0, 4_000, 64),
                          (0x8000_0000, 4_000, 64), (0xC47A_0000, 1_000, 64), (1, 1_000, 64), (0x337F_FFFF, 1_000, 64), (0x7F7F_FFFF, 4_000, 940)):
        yield f"grey {bits:08x}, peak {L}: {code}", linear.convert_pixel(L, grey(bits)) == grey(code)


def linear_pixels():
    random = Random(19)
    cases = [(L, linear_cases.draw_pixel(random, L)) for L in draw_peaks(random, 100) for _ in range(20)]
    yield "a pixel counts by what its values count as", all(
        linear.hlg_codes(L, pixel) == linear.hlg_codes(L, [linear_cases.float_below(linear.counted(bits)) for bits in pixel]) for L, pixel in cases)
    yield "no mapped component exceeds 1,000 cd/m2", all(
        max(linear.mapped_lights(L, [linear.whole_light(bits) for bits in pixel])) <= A for L, pixel in cases)

    def ordered(L, pixel):
        lights = sorted(map(linear.whole_light, pixel))
        mapped, codes = linear.mapped_lights(L, lights), linear.codes_of_lights(L, lights)
        return list(mapped) == sorted(mapped) and list(codes) == sorted(codes)
    yield "a brighter component stays at least as bright", all(ordered(*case) for case in cases)
    coded = [(L, pixel) for L in draw_peaks(random, 60) for pixel in [draw_pixel(random, L) for _ in range(20)] if max(pixel) > 64]
    yield "lights of ten-bit codes become what the codes become", all(
        linear.codes_of_lights(L, [light.light_of_code(D) for D in pixel]) == hlg_codes(L, pixel) for L, pixel in coded)
    yield "the position of a light of a code is the code's, but of black", all(
        light.position_of(light.light_of_code(D)) == curve.position_of_code(D) for D in range(65, 941)) and light.position_of(0) == 3
    steps = [(L, pixel) for L in (1_500, 4_000, 10_000) for pixel in linear_cases.step_pixels(random, L, 30)]
    yield "of pixels beside a step one that hangs on rounding the product is found, and one that hangs on the position", (
        any(linear.hlg_codes(L, pixel) != linear.codes_of_lights(L, [scene_light.nearest(linear.counted(bits) * N) for bits in pixel]) for L, pixel in steps)
        and any(linear.hlg_codes(L, pixel) != next_position_codes(L, pixel) for L, pixel in steps))


def next_position_codes(L, pixel):
    """The codes if the curve took the position after the brightest light's."""
    lights = [linear.whole_light(bits) for bits in pixel]
    M1 = max(lights)
    return hlg.codes([curve.scale(each, curve.bend(M1, light.position_of(M1) + 1, L), M1) for each in lights])


def linear_greys():
    """Where the curve sets in, lights just below the knee remain and those from it on are those of positions: the code of a grey may fall there."""
    def code(M2):
        return hlg.code(M2, hlg.luminance(grey(M2)))
    falls = []
    for L in range(1_001, 10_001):
        first = linear_cases.knee_light(L)
        if code(first - 1) > code(curve.bend(first, light.position_of(first), L)):
            falls.append(L)
    yield "greys fall at the knee under six peaks", falls == [1_967, 2_845, 7_388, 7_497, 7_949, 9_614]
    for L in falls:
        first = linear_cases.of_light(linear_cases.knee_light(L) - 1) + 1
        low, high = (linear.hlg_codes(L, grey(bits)) for bits in (first - 1, first))
        yield f"peak {L}: two floats beside each other fall by one code", [x - y for x, y in zip(low, high)] == [1, 1, 1]


def linear_refusals():
    good, bad = 0x3F80_0000, 0x7FC0_0000
    yield "16 at each place", [refusal(linear.convert_pixel, 1_000, pixel) for pixel in (
        (bad, good, good), (good, bad, good), (good, good, bad), (good, bad, bad))] == [(16, 0), (16, 1), (16, 2), (16, 1)]
    yield "5 comes before 16", all(refusal(linear.convert_pixel, L, grey(bad)) == (5, 0) for L in (0, 10_001, 2**64 - 1))
    yield "peaks 1 and 10,000 are taken", all(refusal(linear.convert_pixel, L, grey(good)) is None for L in (1, 10_000))
    yield "negative and too bright values are taken", refusal(linear.convert_pixel, 1_000, (0xFF7F_FFFF, 0x7F7F_FFFF, 0x8000_0000)) is None


def linear_rows():
    lights = {64: 0, 723: 0x447A_0000}
    data, whole = [lights[D] for pixel in CORNERS for D in pixel], row_bytes(*CORNER_CODES)
    for first in range(9):
        for end in range(first, 9):
            destination, wanted = (bytearray([FILL]) * len(whole) for _ in range(2))
            number = linear.c_number(1_000, data, destination, first, end)
            wanted[6 * first:6 * end] = whole[6 * first:6 * end]
            yield f"linear, pixels {first} to {end}: these places and no others", (number, destination) == (0, wanted)
    bad = [0x3F80_0000] * 5 + [0xFF80_0000] + [0x3F80_0000] * 3
    calls = (                           # number, peak, row, bytes of the destination, first, end
        (5, 0, bad[1:], 1, 2, 1), (15, 1, bad[1:], 1, 2, 1), (15, 1, [0] * 24_579, 49_158, 0, 0), (15, 1, [0] * 24_577, 49_154, 0, 0),
        (0, 1, [0] * 24_576, 49_152, 0, 0), (7, 1, bad, 1, 2, 1), (7, 1, bad, 9, 0, 1), (7, 1, bad, 36, 0, 1), (8, 1, bad, 18, 2, 1), (8, 1, bad, 18, 0, 4),
        (16 + 256 * 5, 1, bad, 18, 0, 3), (16 + 256 * 5, 1, bad, 18, 1, 2), (0, 1, bad, 18, 2, 3), (0, 1, bad, 18, 0, 1), (0, 1, bad, 18, 3, 3),
        (0, 1, [], 0, 0, 0), (8, 1, [], 0, 0, 1), (7, 1, [], 6, 0, 0))
    for number, peak, given, length, first, end in calls:
        destination = bytearray([FILL]) * length
        answer = linear.c_number(peak, given, destination, first, end)
        yield f"linear, C number {number}: {len(given)} floats, pixels {first} to {end}", answer == number
        yield f"linear, C number {number}: nothing is written by a refusal", number == 0 or destination == bytearray([FILL]) * length


def linear_distance():
    random = Random(20)
    cases = list(islice(draw_linear(random), 2_500))
    quick = [LINEAR.quick(*case, LINEAR.codes(*case)) for case in cases]
    zones = [LINEAR.inner(*case) for case in cases]
    yield "linear values: quick distances are at most 9/16 where nothing is bent, elsewhere 3/2", all(
        distance <= LINEAR.bounds[zone] for distance, zone in zip(quick, zones))
    yield "linear values: both zones are among them by hundreds", 300 < sum(zones) < len(zones) - 300
    some = random.sample(range(len(cases)), 300)
    yield "linear values: doubles and long decimals agree", all(
        abs(float(max(LINEAR.exact(*cases[i], LINEAR.codes(*cases[i])))) - quick[i]) < 1e-9 for i in some)
    coded = [(L, draw_pixel(random, L)) for L in draw_peaks(random, 40) for _ in range(2)]
    yield "the exact value of lights is that of the codes that have them", all(
        abs(x - y) < Decimal("1e-50") for L, pixel in coded for x, y in zip(
            exact.exact_values(L, pixel), exact.linear_exact_values(L, [Fraction(exact.pq_eotf(exact.signal_of_code(D))) for D in pixel])))
    farthest = 1_000, (0x337F_FFFF, 0x337F_FFFF, 0x3628_0000)
    yield "a blue of 42 units beside a red and a green just short of one lies 0.5127 away, farther than any other found", (
        LINEAR.codes(*farthest) == (64, 64, 65) and 0.5127 < LINEAR.quick(*farthest, (64, 64, 65)) < 0.5128)
    yield "without light exact values are 64", exact.linear_exact_values(4_000, [Fraction(0)] * 3) == (64, 64, 64)


# Request 13: captions from sRGB

def srgb_lights():
    lights = srgb.LIGHTS
    yield "all 256 values have one: 0 has 0, 1 has 5,582,277, 255 has 2^40", (len(lights), lights[0], lights[1], lights[255]) == (256, 0, 5_582_277, 2**40)
    yield "each light is reached and the next one is not, by the inequality as written", all(
        srgb.light_reached(s, v) and not srgb.light_reached(s + 1, v) for v, s in enumerate(lights))
    powers = [2**40 * (Decimal(v) / 255) ** Decimal("2.2") for v in range(256)]
    yield "each is the power 2.2 in long decimals, rounded down", list(map(int, powers)) == lights
    yield "none but those of 0 and 255 lies within 1/600 of a whole number", [
        v for v, power in enumerate(powers) if abs(power - round(power)) < Decimal(1) / 600] == [0, 255]
    yield "they rise strictly", all(low < high for low, high in zip(lights, lights[1:]))


def blue_of_xyz(text):
    """The matrix to BT.2020 with another decimal in the middle of its last row."""
    red, green, (x, _, z) = srgb.TO_BT2020
    return red, green, (x, text, z)


def codes_by_fractions(pixel, *matrices):
    """The codes of a pixel's scene lights as fractions, step by step; with other matrices than the request's if they are given."""
    return tuple(max((d for d, step in hlg.T.items() if step <= scene), default=64) for scene in srgb.by_fractions(pixel, *matrices))


def srgb_matrices():
    product_of_both = [[Fraction(weight, srgb_cases.UNIT) / Fraction("0.265") for weight in weights] for weights in srgb_cases.WEIGHTS]
    yield "multiplied, the matrices have no decimal that is 0 or negative, so no scene light is negative and none falls where a value rises", all(
        factor > 0 for factors in product_of_both for factor in factors)
    yield "red's row is 0.62745464 0.32929 0.04332611", product_of_both[0] == [Fraction(text) for text in ("0.62745464", "0.32929", "0.04332611")]
    yield "the rows add up to 1.00007075, 1.00000785 and 0.9998757, which is white", (
        list(map(sum, product_of_both)) == [Fraction(text) for text in ("1.00007075", "1.00000785", "0.9998757")]
        and srgb.by_fractions(grey(255)) == [2**40 * Fraction("0.265") * sum(factors) for factors in product_of_both])
    yield "0.265 is the scene light of HLG signal 0.75 to three places, and 721 the code of that signal", (
        round((((Decimal("0.75") - exact.c) / exact.a).exp() + exact.b) / 12, 3) == Decimal("0.265") and 64 + 876 * Fraction("0.75") == 721)
    printed = srgb.TO_XYZ, blue_of_xyz("-0.428")
    yield "document 003's -0.428 would colour white, 721 721 635, and make green's blue negative", (
        codes_by_fractions(grey(255), *printed) == (721, 721, 635) and srgb.by_fractions((0, 255, 0), *printed)[2] < 0)
    longer = srgb.TO_XYZ, blue_of_xyz("-0.04277")
    yield "document 004's -0.04277 would leave white as it is and move a code of the greys 55, 138 and 218", (
        codes_by_fractions(grey(255), *longer) == grey(721)
        and [v for v in range(256) if codes_by_fractions(grey(v), *longer) != srgb.convert_pixel(grey(v))] == [55, 138, 218])


def exact_caption_codes(pixel):
    """The codes by document 004's formulas in long decimals, with the request's -0.0428."""
    def decimals(matrix):
        return [[Decimal(text) for text in factors] for factors in matrix]
    lights = [(Decimal(v) / 255) ** Decimal("2.2") for v in pixel]
    scenes = [Decimal(srgb.SCALE) * light for light in srgb.times(decimals(srgb.TO_BT2020), srgb.times(decimals(srgb.TO_XYZ), lights))]
    return tuple(nearest(64 + 876 * exact.hlg_oetf(scene)) for scene in scenes)


def srgb_pixels():
    codes = (grey(64), (227, 147, 702), (512, 707, 296), (538, 709, 718), (639, 269, 164), (651, 285, 705), (713, 719, 316), grey(721))
    for pixel, three in (*zip(product((0, 255), repeat=3), codes), (grey(1), grey(66)), (grey(55), (209, 209, 208)), (grey(68), (247, 246, 246))):
        yield f"sRGB {pixel} becomes {three}", srgb.convert_pixel(pixel) == three
    greys = [srgb.convert_pixel(grey(v)) for v in range(256)]
    coloured = [v for v, three in enumerate(greys) if len(set(three)) > 1]
    yield "243 of the 256 greys have three equal codes, the others are these 13", coloured == [
        55, 68, 117, 138, 149, 172, 176, 181, 188, 218, 233, 241, 250] and 256 - len(coloured) == 243
    yield "their codes differ by one", all(max(greys[v]) - min(greys[v]) == 1 for v in coloured)
    yield "no code of a grey falls where the grey rises", all(x <= y for low, high in zip(greys, greys[1:]) for x, y in zip(low, high))
    random = Random(21)
    drawn = [*(srgb_cases.draw_colour(random) for _ in range(400)), *srgb_cases.NEAR_COLOURS, *product((0, 1, 255), repeat=3)]
    yield "whole numbers give what fractions give, rounded down", all(
        srgb.scene_lights(pixel) == [scene.__floor__() for scene in srgb.by_fractions(pixel)] for pixel in drawn)
    yield "the search finds the largest code whose step is reached", all(srgb.convert_pixel(pixel) == codes_by_fractions(pixel) for pixel in drawn)
    yield "each code is that of the published formulas, rounded", all(srgb.convert_pixel(pixel) == exact_caption_codes(pixel) for pixel in drawn)
    brighter = [tuple(min(v + random.choice((0, 1, 40)), 255) for v in pixel) for pixel in drawn]
    yield "no code falls where values rise, so none is above white's 721", all(
        x <= y <= 721 for low, high in zip(drawn, brighter) for x, y in zip(srgb.convert_pixel(low), srgb.convert_pixel(high)))


def nearest_to_steps():
    """Of the scene lights of all 2^24 colours, before they are rounded, the nearest that reaches a step and the nearest that misses one: how far it
    lies from it in units, and the colour. The value of least weight is looked up, so that each step takes one look for each pair of the others."""
    steps = [srgb_cases.UNIT * step for step in hlg.T.values()]
    reached = missed = (steps[-1], None)
    for weights in srgb_cases.WEIGHTS:
        slight, middle, heavy = sorted(range(3), key=weights.__getitem__)
        last = [weights[slight] * s for s in srgb.LIGHTS]
        for x, y in product(range(256), repeat=2):
            base = weights[heavy] * srgb.LIGHTS[x] + weights[middle] * srgb.LIGHTS[y]
            for step in steps[max(bisect_right(steps, base) - 1, 0):bisect_right(steps, base + last[-1]) + 1]:
                v = bisect_left(last, step - base)
                if v < 256 and base + last[v] - step < reached[0]:
                    reached = base + last[v] - step, {heavy: x, middle: y, slight: v}
                if v > 0 and step - base - last[v - 1] < missed[0]:
                    missed = step - base - last[v - 1], {heavy: x, middle: y, slight: v - 1}
    return [(Fraction(far, srgb_cases.UNIT), tuple(colour[place] for place in range(3))) for far, colour in (reached, missed)]


def colours_beside_steps():
    (above, reaching), (below, missing) = nearest_to_steps()
    yield "of all 2^24 colours none has a scene light less than 3.6 units above a step, or less than 10.4 below one", (
        above > Fraction("3.6") and below > Fraction("10.4"))
    yield "so no code tells how often it is rounded on the way; the nearest are 6 107 50 and 129 56 21", (
        (reaching, missing) == srgb_cases.NEAR_COLOURS[:2] == ((6, 107, 50), (129, 56, 21)))

    def distance(scene):
        i = bisect_right(srgb.STEPS, scene)
        return min([scene - step for step in srgb.STEPS[max(i - 1, 0):i]] + [step - 1 - scene for step in srgb.STEPS[i:i + 1]])
    yield "each stored colour beside a step has a scene light less than 300 units from it", all(
        min(map(distance, srgb.scene_lights(pixel))) < 300 for pixel in srgb_cases.NEAR_COLOURS)
    random = Random(22)

    def near(draw):
        return sum(min(map(distance, srgb.scene_lights(draw(random)))) < 2**40 // 100_000 for _ in range(1_000))
    yield "of colours drawn beside a step twice as many lie within 2^40 / 100,000 of one as of those drawn evenly", (
        near(srgb_cases.beside_step) > 2 * near(srgb_cases.draw_even))


def srgb_rows():
    pixels = list(product((0, 255), repeat=3))
    data, whole = srgb_cases.row(*pixels), row_bytes(*map(srgb.convert_pixel, pixels))
    for first in range(9):
        for end in range(first, 9):
            destination, wanted = (bytearray([FILL]) * len(whole) for _ in range(2))
            number = srgb.c_number(data, destination, first, end)
            wanted[6 * first:6 * end] = whole[6 * first:6 * end]
            yield f"sRGB, pixels {first} to {end}: these places and no others", (number, destination) == (0, wanted)
    calls = (                           # number, row, bytes of the destination, first, end
        (18, data[:8], 1, 2, 1), (18, data[:7], 14, 0, 0), (18, bytes(24_579), 1, 2, 1), (18, bytes(24_579), 49_158, 0, 8_193),
        (18, bytes(24_577), 49_154, 0, 0), (18, bytes(24_575), 49_150, 0, 0), (0, bytes(24_576), 49_152, 0, 0), (0, bytes(24_576), 49_152, 8_191, 8_192),
        (8, bytes(24_576), 49_152, 0, 8_193), (7, data[:9], 17, 2, 1), (7, data[:9], 9, 0, 1), (7, data[:9], 36, 0, 4), (8, data[:9], 18, 2, 1),
        (8, data[:9], 18, 0, 4), (8, data[:9], 18, 4, 4), (8, data[:9], 18, 2**64 - 1, 2**64 - 1), (0, data[:9], 18, 3, 3), (0, data[:9], 18, 2, 3),
        (0, b"", 0, 0, 0), (8, b"", 0, 0, 1), (7, b"", 6, 0, 0))
    for number, given, length, first, end in calls:
        destination = bytearray([FILL]) * length
        answer = srgb.c_number(given, destination, first, end)
        yield f"sRGB, C number {number}: {len(given)} bytes, pixels {first} to {end}", answer == number
        yield f"sRGB, C number {number}: nothing is written by a refusal", number == 0 or destination == bytearray([FILL]) * length
    yield "every byte is taken, at each place", all(
        srgb.c_number(bytes(pixel), bytearray(6), 0, 1) == 0 for v in range(256) for pixel in ((v, 0, 255), (0, v, 255), (0, 255, v)))


# Voted property 3

def distance():
    random = Random(5)
    for form in FORMATS:
        cases = [(L, draw_pixel(random, L, form)) for L in draw_peaks(random, 120) for _ in range(100 if form == TEN_NARROW else 40)]
        yield f"{form}: quick distances, bent or not, are at most {bound(form)}", all(quick_distance(*case, form) <= bound(form) for case in cases)
        some = random.sample(cases, 400 if form == TEN_NARROW else 200)
        far = [max(exact.distances(L, pixel, hlg_codes(L, pixel, form), form)) for L, pixel in some]
        yield f"{form}: long decimals say the same", max(far) <= bound(form)
        zones = [in_inner_zone(*case, form) for case in some]
        yield f"{form}: both zones are among them, with hundreds of all pixels and dozens of those in long decimals", (
            24 < sum(zones) < len(zones) - 24 and 100 < sum(in_inner_zone(*case, form) for case in cases) < len(cases) - 100)
        yield f"{form}: doubles and long decimals agree", all(
            abs(float(d) - quick_distance(*case, form)) < 1e-9 for d, case in zip(far, some))
        yield f"{form}: no mapped component exceeds 1,000 cd/m2", all(max(mapped_components(*case, form)) <= A for case in cases)

        def ordered(L, pixel):
            sorted_codes = tuple(sorted(pixel))
            mapped = mapped_components(L, sorted_codes, form)
            codes = hlg_codes(L, sorted_codes, form)
            return list(mapped) == sorted(mapped) and list(codes) == sorted(codes)
        yield f"{form}: a brighter component stays at least as bright", all(ordered(*case) for case in cases)
    yield "a black pixel has exact values 64", exact.exact_values(4_000, (4, 64, 30)) == exact.exact_values(4_000, (16, 256, 30), TWELVE_NARROW) == (
        exact.exact_values(4_000, (0, 0, 0), TEN_FULL)) == (64, 64, 64)
    farthest = quick_distance(1_000, (0, 1, 0), TWELVE_FULL)
    yield "the dimmest green of twelve-bit full range lies 0.5201 away, farther than any narrow pixel found", 0.5201 < farthest < 0.5202


def greys():
    some = 1, 1_000, 1_001, 4_000, 10_000
    for form, peaks in ((TEN_NARROW, MARKED_PEAKS), (TWELVE_NARROW, some[1::2]), (TEN_FULL, some), (TWELVE_FULL, some[1::2])):
        for L in peaks:
            codes = [hlg_codes(L, grey(D), form) for D in form.taken]
            yield f"{form}, peak {L}: greys stay grey", all(len(set(three)) == 1 for three in codes)
            yield f"{form}, peak {L}: greys never fall", all(min(high) >= max(low) for low, high in zip(codes, codes[1:]))


def traps():
    for L in (1_001, 1_500, 4_000):
        yield f"peak {L}: the bare spline would pass 1,000 cd/m2 above the peak", (
            light.light_at(curve.spline(END, curve.position_of_peak(L))) > A)
    M1, M2 = curve.bend_code(940, 1_500)
    yield "dividing by the peak's light would pass 1,000 cd/m2", (
        curve.scale(M1, M2, M1) <= A < M1 * M2 // (1_500 * N))
    yield "a title of peak 1,000 is not bent", all(
        mapped_components(1_000, grey(D)) == grey(light.light_of_code(D)) for D in range(64, 723))
    R, G, B = (light.light_of_code(D) for D in (900, 700, 800))
    mapped = mapped_components(4_000, (900, 700, 800))
    yield "all components shrink by one ratio", all(
        abs(Fraction(x, y) - Fraction(mapped[0], R)) < Fraction(1, 2**30) for x, y in zip(mapped, (R, G, B)))


LAWS = (light_table, nearest_light, light_of_codes, positions, spline_is_hermite, highlight_curve, published_patches, hlg_steps,
        hlg_code, shorter_products, published_constants, published_table, corner_pixels, other_examples, cards, zero_fields, unconstrained_first,
        no_peak_named, rewritten_cards, rows, program_answers, rewritten_titles, rewrite_program, measured_numbers, measured_refusals, measured_lists,
        measured_codes, measured_records, measure_answers, formats, order_of_codes, format_codes, format_limits, unread_bits, format_cards, format_titles,
        measured_formats, mixed_lists,
        published_ycbcr, rounding_away, ycbcr_of_codes, halves_of_luma, halves_of_chroma, code_refusals, ycbcr_rows, scene_lights, fifth_roots,
        display_lights, pq_codes_of_lights, returned_pixels, hanging_colours, round_trip, return_refusals, return_rows, class_limits, every_pattern,
        whole_lights, linear_corners, linear_pixels, linear_greys, linear_refusals, linear_rows, linear_distance, srgb_lights,
        srgb_matrices, srgb_pixels, colours_beside_steps, srgb_rows, distance, greys, traps)


def failures():
    """How many statements there are and how many do not hold; the latter are printed."""
    count, failed = 0, 0
    for law in LAWS:
        for statement, holds in law():
            count += 1
            if not holds:
                failed += 1
                print(f"fails: {law.__name__}: {statement}")
    return count, failed


def main():
    with localcontext(exact.LONG):
        count, failed = failures()
    print(f"{count} checks hold" if not failed else f"{failed} of {count} checks fail")
    return 1 if failed else 0


if __name__ == "__main__":
    sys.exit(main())
