"""Request 13, captions from sRGB: the light of a value, the scene lights of a pixel, its HLG codes; the pixel call, the row call and its number for C.

A value is a byte. Light and scene light are whole numbers of 1/2**40: 2**40 is the light of value 255, and scene light 1.0.
"""

from bisect import bisect_right
from fractions import Fraction

from .display_light import fifth_root
from .hlg import SCENE, T
from .refusal import refuse_bytes
from .row import PIXEL_BYTES, number_for_c, pixels_of, refuse_placing, write_span

WHITE = 255
# Rows of a matrix. The first goes from lights of sRGB to XYZ, the second from XYZ to BT.2020 primaries.
TO_XYZ = (("0.4124", "0.3576", "0.1805"), ("0.2126", "0.7152", "0.0722"), ("0.0193", "0.1192", "0.9505"))
TO_BT2020 = (("1.7167", "-0.3557", "-0.2534"), ("-0.6667", "1.6165", "0.0158"), ("0.0176", "-0.0428", "0.9421"))
SCALE = "0.265"
STEPS = list(T.values())


def light_reached(s, v):
    """The request's inequality: whether a value has a light of s or more."""
    return s**5 * WHITE**11 <= 2**200 * v**11


def build_light(v):
    """The largest light that is reached. A fifth power is at most a quotient just when it is at most its whole part."""
    return fifth_root(2**200 * v**11 // WHITE**11)


LIGHTS = [build_light(v) for v in range(WHITE + 1)]


def times(matrix, three):
    """A matrix times a column of three."""
    return [sum(factor * x for factor, x in zip(factors, three)) for factors in matrix]


def fractions(matrix):
    """Printed decimals as the fractions that they are."""
    return [[Fraction(text) for text in factors] for factors in matrix]


def by_fractions(pixel, to_xyz=TO_XYZ, to_bt2020=TO_BT2020):
    """The scene lights of a pixel before they are rounded, one matrix after the other."""
    xyz = times(fractions(to_xyz), [LIGHTS[v] for v in pixel])
    return [Fraction(SCALE) * light for light in times(fractions(to_bt2020), xyz)]


def whole(text, one):
    """A printed decimal in parts of which so many are one; an error if that is no whole number."""
    parts = Fraction(text) * one
    if parts.denominator != 1:
        raise ValueError(f"{text} is no whole number of 1/{one}")
    return parts.numerator


PARTS = 10_000
WHOLE_TO_XYZ, WHOLE_TO_BT2020 = ([[whole(text, PARTS) for text in factors] for factors in matrix] for matrix in (TO_XYZ, TO_BT2020))
WHOLE_SCALE = whole(SCALE, PARTS)


def scene_lights(pixel):
    """The same in whole numbers, for many pixels, and rounded down, which is done once."""
    lights = times(WHOLE_TO_BT2020, times(WHOLE_TO_XYZ, [LIGHTS[v] for v in pixel]))
    return [WHOLE_SCALE * light // PARTS**3 for light in lights]


def code(scene):
    """The largest HLG code whose step a scene light reaches, else 64."""
    return 64 + bisect_right(STEPS, scene)


def convert_pixel(pixel):
    """The pixel call: the three HLG codes. It takes every byte."""
    return tuple(map(code, scene_lights(pixel)))


def convert_row(row, destination, first, end):
    """Converts the span of a row of bytes and writes it to its places in `destination`, a bytearray of two bytes for each.

    Refusals 18, 7 and 8 in this order; a refused call writes nothing.
    """
    refuse_bytes(row)
    refuse_placing(destination, 2 * len(row), first, end)
    span = slice(PIXEL_BYTES * first, PIXEL_BYTES * end)
    write_span(destination, span, map(convert_pixel, pixels_of(row[3 * first:3 * end])))


def c_number(row, destination, first, end):
    """One number for C, as of the other calls; a place other than 0 does not occur."""
    return number_for_c(convert_row, row, destination, first, end)
