"""What is stored of request 11 and drawn for it: floats of display light, pixels of three and row calls.

A float stands by its pattern, the number of its 32 bits; of floats from 0 up the next larger one has the next number. Lights are whole numbers of units,
1/16,777,216 cd/m2, values fractions of cd/m2.
"""

from functools import lru_cache
from itertools import product

from .curve import position_of_peak, t
from .light import A, BRIGHTEST, END, LAST, N, P, light_at, light_of_code
from .linear import FRACTION, SIGN, SMALLEST, UNIT_PLACES, hlg_codes, whole_light
from .refusal import MOST_FLOATS
from .samples import MARKED_PEAKS, draw_peaks, shuffled

INFINITY = 0x7F80_0000
LARGEST = INFINITY - 1                   # the largest finite float
ZERO, MINUS_ZERO, ONE = 0, SIGN, 0x3F80_0000
THOUSAND, TEN_THOUSAND = 0x447A_0000, 0x461C_4000
# Both infinities; quiet and signalling patterns that are no numbers, the lowest and the highest of each, of either sign.
NO_NUMBERS = (0x7FC0_0000, 0x7FFF_FFFF, 0x7F80_0001, 0x7FBF_FFFF, 0xFFC0_0000, 0xFFFF_FFFF, 0xFF80_0001, 0xFFBF_FFFF, 0x7FC1_2345, 0xFFA5_5A5A)
REFUSED = (INFINITY, SIGN + INFINITY, *NO_NUMBERS)
SUBNORMAL = (1, 2, 3, 0x1234, FRACTION // 2, FRACTION - 2, FRACTION - 1)
# What counts as 0: no light, less than a unit, or negative.
NO_LIGHT = (ZERO, MINUS_ZERO, 1, FRACTION - 1, FRACTION, 0x337F_FFFF, SIGN + 1, SIGN + FRACTION, SIGN + ONE, SIGN + TEN_THOUSAND, SIGN + LARGEST)
TOO_BRIGHT = (TEN_THOUSAND + 1, TEN_THOUSAND + 2, 0x4780_0000, 0x6000_0000, LARGEST)
DAMAGED_PEAKS = (0, 10_001, 2**16 + 1_000, 2**32 + 4_000, 2**63, 2**64 - 1)


def float_of_smallest(count):
    """The largest float that is not above so many times the smallest one above 0, of which every float is a whole number."""
    places = max(count.bit_length() - 24, 0)
    return places * FRACTION + (count >> places)


def float_below(x):
    """The largest float that is not above a value from 0 on."""
    return float_of_smallest(int(x * 2**-SMALLEST))


def of_light(light):
    """The largest float that is not above a light."""
    return float_of_smallest(light << -SMALLEST - UNIT_PLACES)


def beside(bits, reach=1):
    """A float from 0 on, and those up to so many below and above it."""
    return range(max(bits - reach, 0), bits + reach + 1)


def grey(bits):
    """A pixel of three equal values."""
    return bits, bits, bits


def knee_position(L):
    """The first position that is not below the knee of a peak above 1,000 cd/m2."""
    return (3 * t - position_of_peak(L) + 1) // 2


@lru_cache(maxsize=None)
def knee_light(L):
    """The first light that is not below the knee; for a low peak 1,000 cd/m2, from which on it is cut."""
    return A if L <= 1_000 else light_at(knee_position(L))


@lru_cache(maxsize=None)
def brightest_lights(L):
    """Where the curve is delicate under a peak: the first light of the knee's position, of the one before and after, and of the peak's."""
    if L <= 1_000:
        return A, light_at(t), L * N
    knee, peak = knee_position(L), position_of_peak(L)
    return light_at(knee - 1), light_at(knee), light_at(knee + 1), light_at(peak), light_at(min(peak + 1, END)), L * N, A


# Drawn by lot

def draw_finite(random):
    """Any finite float, each as likely as another."""
    while (bits := random.getrandbits(32)) & INFINITY == INFINITY:
        pass
    return bits


def draw_light(random, least=-27.0, most=14.0):
    """A float from 0 on, evenly by the logarithm of its value; the ends are powers of two."""
    return float_below(2 ** random.uniform(least, most))


def draw_signal(random, most=END):
    """A float evenly by its PQ signal, up to that of a position."""
    q = random.randrange(most)
    return of_light(random.randint(light_at(q), light_at(q + 1)))


def draw_entry(random):
    """A float beside an entry of the light table."""
    return random.choice(beside(of_light(random.choice(P)), 2))


def draw_dim(random):
    """A float of few units, most of them no whole number of units."""
    return float_of_smallest(random.getrandbits(random.randint(1, 40)) << -SMALLEST - UNIT_PLACES - 16)


def draw_dropped(random):
    """A pixel of few units, two components just short of one more: what is dropped of them counts most in the third."""
    return shuffled(random, of_light(random.randint(1, 3)) - 1, of_light(random.randint(1, 3)) - 1, of_light(random.randint(20, 120)))


def draw_odd(random):
    """A value that counts as another, or is no light of a unit."""
    return random.choice((random.choice(NO_LIGHT), random.choice(TOO_BRIGHT), random.choice(SUBNORMAL), SIGN + draw_light(random),
                          random.randrange(TEN_THOUSAND + 1, INFINITY), random.randrange(FRACTION)))


def draw_pixel(random, L):
    """One accepted pixel of a kind drawn by lot."""
    def bright():
        return random.choice((draw_signal(random), of_light(random.randint(knee_light(L), BRIGHTEST)), of_light(random.randint(knee_light(L), 2 * A))))

    def edge():
        return random.choice(beside(of_light(random.choice(brightest_lights(L))), 3))

    def lower(bits):
        return random.choice((random.randint(0, bits), of_light(random.randint(0, whole_light(bits)))))

    def with_lower(bits):
        return shuffled(random, bits, lower(bits), lower(bits))
    kinds = (
        lambda: tuple(draw_light(random) for _ in range(3)),
        lambda: tuple(draw_signal(random) for _ in range(3)),
        lambda: grey(bright()),
        lambda: grey(draw_signal(random)),
        lambda: grey(edge()),
        lambda: with_lower(edge()),
        lambda: shuffled(random, edge(), draw_dim(random), draw_odd(random)),
        lambda: shuffled(random, bright(), draw_dim(random), draw_dim(random)),
        lambda: shuffled(random, *[bright()] * 2, draw_dim(random)),
        lambda: with_lower(bright()),
        lambda: tuple(draw_entry(random) for _ in range(3)),
        lambda: shuffled(random, draw_entry(random), draw_dim(random), draw_odd(random)),
        lambda: shuffled(random, random.choice(beside(TEN_THOUSAND, 2)), draw_signal(random), draw_dim(random)),
        lambda: shuffled(random, random.choice(TOO_BRIGHT), draw_signal(random), draw_odd(random)),
        lambda: tuple(draw_dim(random) for _ in range(3)),
        lambda: shuffled(random, draw_dim(random), draw_odd(random), draw_dim(random)),
        lambda: tuple(draw_odd(random) for _ in range(3)),
        lambda: grey(draw_dim(random)),
        lambda: draw_dropped(random),
        lambda: tuple(draw_finite(random) for _ in range(3)),
        lambda: tuple(of_light(light_of_code(random.randint(64, 940))) for _ in range(3)),
    )
    return random.choice(kinds)()


def step_pixel(random, L, pixel=None, place=None):
    """A pixel and the same with one float, at a place, one higher, where the HLG code of that component goes up by one or more: what a code of the first
    lacks is as much as it can be. Nothing where that component has no step below."""
    pixel = list(pixel or draw_pixel(random, L))
    place = random.randrange(3) if place is None else place
    high = min(pixel[place], TEN_THOUSAND)

    def code(bits):
        return hlg_codes(L, [bits if i == place else other for i, other in enumerate(pixel)])[place]
    top = code(high) if high else 64
    if top == 64:
        return None
    due, low = random.randint(65, top), 0
    while high - low > 1:
        mid = (low + high) // 2
        low, high = (low, mid) if code(mid) >= due else (mid, high)
    return tuple(tuple(bits if i == place else other for i, other in enumerate(pixel)) for bits in (low, high))


# Stored questions

def values(random):
    """Floats of which class and whole light are asked."""
    for k in range(0, LAST + 1, 4):
        yield from beside(of_light(P[k]))
    for units in (*range(1, 40), *(2**places - 1 for places in range(6, 38)), *(2**places for places in range(6, 38)), A, light_at(t)):
        yield from beside(of_light(units))
    for exponent in range(256):
        yield from beside(exponent * FRACTION)
        yield SIGN + exponent * FRACTION
    for bits in (*beside(TEN_THOUSAND, 4), *beside(THOUSAND, 2), *SUBNORMAL, *NO_LIGHT, *TOO_BRIGHT, *REFUSED):
        yield from (bits, bits ^ SIGN)
    for _ in range(200):
        yield from (draw_finite(random), draw_light(random), draw_dim(random), random.getrandbits(32))


def step_pixels(random, L, count):
    """Pixels on either side of a step of a code, as many pairs as are asked for."""
    while count:
        if found := step_pixel(random, L):
            yield from found
            count -= 1


def pixels(random):
    """Peak and pixel of the pixel call."""
    for pixel in product((ZERO, THOUSAND), repeat=3):
        yield 1_000, pixel
    for pixel in product((ZERO, MINUS_ZERO, SIGN + THOUSAND, ONE, THOUSAND, TEN_THOUSAND, TEN_THOUSAND + 1), repeat=3):
        yield 4_000, pixel
    for L in draw_peaks(random, 60):
        for light in brightest_lights(L):
            yield from ((L, grey(bits)) for bits in beside(of_light(light)))
        for _ in range(24):
            yield L, draw_pixel(random, L)
    for L in (1_000, 1_500, 4_000, 10_000):
        yield from ((L, pixel) for pixel in step_pixels(random, L, 60))
    for units in (1, 2, 3, *range(30, 90, 4)):
        for bits in beside(of_light(units))[:2]:
            yield from ((1_000, pixel) for pixel in (grey(bits), (bits, 0, 0), (0, bits, 0), (0, 0, bits)))
    yield from refused_pixels()


def refused_pixels():
    """Refusals 5 and 16 of the pixel call."""
    for L, bad in product((1_000, 4_000), REFUSED):
        for pixel in ((bad, ZERO, ONE), (ONE, bad, SIGN + ONE), (THOUSAND, TEN_THOUSAND + 1, bad), grey(bad), (MINUS_ZERO, bad, REFUSED[0])):
            yield L, pixel
    for L in DAMAGED_PEAKS:
        for pixel in (grey(ZERO), (THOUSAND, ONE, SIGN + ONE), grey(REFUSED[1]), (ONE, ONE, REFUSED[2])):
            yield L, pixel


def row(*pixels):
    """The floats of a row."""
    return tuple(bits for pixel in pixels for bits in pixel)


def row_calls(random):
    """Arguments of the row call: peak, floats of the row, bytes of the destination, first, end."""
    big = 2**64 - 1
    four = row(*(draw_pixel(random, 4_000) for _ in range(4)))
    bad = row((ONE, REFUSED[2], ONE), (ONE, ONE, REFUSED[0]), (THOUSAND, SIGN + ONE, ONE), (REFUSED[5], ONE, REFUSED[1]))
    for first in range(5):
        for end in range(first, 5):
            yield 4_000, four, 24, first, end
            yield 4_000, bad, 24, first, end
    for peak in DAMAGED_PEAKS:
        yield peak, four, 24, 0, 4
        yield peak, bad[:5], 7, 2, 1
    for length in (1, 2, 4, 5, 7, 11):
        yield 1_000, four[:length], 2 * length, 0, 0
        yield 1_000, bad[:length], 24, 1, 0
    for count, spans in ((MOST_FLOATS + 3, ((0, 0), (0, 8_193))), (MOST_FLOATS + 1, ((0, 0),)),
                         (MOST_FLOATS, ((0, 0), (8_191, 8_192), (8_192, 8_192), (8_192, 8_193), (0, 8_192)))):
        for first, end in spans:
            yield 1_000, (THOUSAND,) * count, 2 * count, first, end
    yield 4_000, (REFUSED[2],) * MOST_FLOATS, 2 * MOST_FLOATS, 8_191, 8_192
    yield 4_000, (REFUSED[2],) * (MOST_FLOATS - 3) + row(grey(ONE)), 2 * MOST_FLOATS, 8_191, 8_192
    yield 4_000, (ONE,) * (MOST_FLOATS - 1) + (REFUSED[0],), 2 * MOST_FLOATS, 0, 8_192
    for length in (0, 12, 22, 23, 25, 26, 36, 48):
        yield 1_000, four, length, 0, 4
        yield 1_000, bad, length, 3, 2
    for first, end in ((1, 0), (4, 3), (5, 5), (0, 5), (0, 12), (5, 4), (0, big), (big, big), (big, 0), (2**63, 2**63), (2**64 // 3 + 1, 2**64 // 3 + 1)):
        yield 1_000, four, 24, first, end
        yield 1_000, bad, 24, first, end
    for first, end in ((0, 0), (0, 1), (1, 1), (1, 0), (big, big)):
        yield 1_000, (), 0, first, end
    yield 1_000, (), 6, 0, 0
    for place, value in enumerate(REFUSED):             # in the span, and before or after it
        spoiled = four[:place] + (value,) + four[place + 1:]
        yield from ((4_000, spoiled, 24, *span) for span in ((0, 4), (place // 3, place // 3 + 1), (place // 3 + 1, 4), (0, place // 3)))
    for L in (1, 1_000, 1_001, 1_500, 4_000, 10_000):
        for _ in range(3):
            some = row(*(draw_pixel(random, L) for _ in range(8)))
            yield L, some, 48, 0, 8
        steps = row(*step_pixels(random, L, 6))
        yield L, steps, 2 * len(steps), 0, len(steps) // 3
    for L in random.sample(MARKED_PEAKS, 6):
        yield L, row(*(draw_pixel(random, L) for _ in range(36))), 216, 1, 35
