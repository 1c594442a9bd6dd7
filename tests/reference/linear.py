"""Request 11, linear light: the class of a value that is given by its 32 bits, its whole light, the pixel call, the row call
and its number for C.

A float stands by the 32 bits of its pattern, decoded here by IEEE 754, so that a zero keeps its sign and a not-a-number its bits. A value is a fraction of
cd/m2, a whole light a number of units, 1/16,777,216 cd/m2.
"""

from fractions import Fraction

from .curve import bend, scale
from .hlg import codes
from .light import BRIGHTEST, N, position_of
from .refusal import refuse_floats, refuse_peak, refuse_values
from .row import PIXEL_BYTES, number_for_c, pixels_of, refuse_placing, write_span

SIGN = 2**31                       # the bit of negative values
FRACTION = 2**23                   # patterns of one exponent; also what stands before a normal float's fraction
SMALLEST = -149                    # the smallest float above 0 is this power of two
UNIT_PLACES = 24                   # N is this power of two
MOST = 10_000                      # cd/m2; values above it are too bright
LIGHT, NEGATIVE, TOO_BRIGHT = "light", "negative", "too bright"


def parts(bits):
    """A finite float's magnitude as a whole number and the power of two, counted from SMALLEST, that it is multiplied by."""
    exponent, fraction = divmod(bits % SIGN, FRACTION)
    return (FRACTION + fraction, exponent - 1) if exponent else (fraction, 0)          # a subnormal one has the lowest exponent and no 1 in front


def value(bits):
    """The value of a finite float."""
    significand, power = parts(bits)
    return Fraction(-significand if bits & SIGN else significand, 2**-SMALLEST) * 2**power


def class_of(bits):
    """The class of a value alone, with the value as it was given: refusal 16, then light, negative or too bright. A negative zero is light."""
    refuse_values((bits,))
    x = value(bits)
    if x < 0:
        return NEGATIVE, bits
    return (TOO_BRIGHT if x > MOST else LIGHT), bits


def counted(bits):
    """What a finite value counts as, in cd/m2."""
    return min(max(value(bits), Fraction(0)), Fraction(MOST))


def by_fractions(bits):
    """The whole light of a finite value: the whole part of the exact product of what it counts as with N."""
    return (counted(bits) * N).__floor__()


def whole_light(bits):
    """The same in whole numbers, for many values: the magnitude's places below a unit are dropped."""
    significand, power = parts(bits)
    below = -SMALLEST - UNIT_PLACES - power
    units = significand >> below if below >= 0 else significand << -below
    return 0 if bits & SIGN else min(units, BRIGHTEST)


def mapped_lights(L, lights):
    """Three whole lights after the highlight curve, which takes the position of the brightest."""
    M1 = max(lights)
    M2 = bend(M1, position_of(M1), L)
    return tuple(scale(light, M2, M1) for light in lights)


def codes_of_lights(L, lights):
    """The HLG codes of three whole lights."""
    return codes(mapped_lights(L, lights))


def hlg_codes(L, pixel):
    """The HLG codes of a pixel of finite floats."""
    return codes_of_lights(L, [whole_light(bits) for bits in pixel])


def convert_pixel(L, pixel):
    """The pixel call: refusals 5 and 16, then the three codes."""
    refuse_peak(L)
    refuse_values(pixel)
    return hlg_codes(L, pixel)


def convert_row(L, row, destination, first, end):
    """Converts the span of a row of floats and writes it to its places in `destination`, a bytearray of two bytes a float.

    Refusals 5, 15, 7, 8 and 16 in this order; a refused call writes nothing.
    """
    refuse_peak(L)
    refuse_floats(row)
    refuse_placing(destination, 2 * len(row), first, end)
    span = row[3 * first:3 * end]
    refuse_values(span, 3 * first)
    write_span(destination, slice(PIXEL_BYTES * first, PIXEL_BYTES * end), [hlg_codes(L, pixel) for pixel in pixels_of(span)])


def c_number(L, row, destination, first, end):
    """One number for C, as of the other calls."""
    return number_for_c(convert_row, L, row, destination, first, end)
