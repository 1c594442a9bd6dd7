"""Request 08, the return path: PQ codes of HLG codes, both of ten-bit narrow range; the pixel call, the row call and its number for C.

Display light is in units of 1/16,777,216 cd/m2.
"""

from bisect import bisect_right

from .display_light import display_lights
from .light import P
from .refusal import refuse_samples
from .row import number_for_c, pixels_of, samples_of, tested_span, write_span
from .sample_format import TEN_NARROW
from .scene_light import scene_light

LOWEST, HIGHEST = 65, 940          # codes that have a threshold
TAKEN = TEN_NARROW.taken           # HLG samples, in every call
THRESHOLDS = [P[4 * (D - 64) - 2] for D in range(LOWEST, HIGHEST + 1)]     # the light from which on a code is D: half a code below its own


def pq_code(light):
    """The largest code whose threshold a display light reaches, else 64."""
    return 64 + bisect_right(THRESHOLDS, light)


def pq_codes(pixel):
    """The PQ codes of an accepted pixel."""
    return tuple(pq_code(light) for light in display_lights([scene_light(d) for d in pixel]))


def convert_pixel(pixel):
    """The pixel call: refusal 9, then the three codes."""
    refuse_samples(pixel)
    return pq_codes(pixel)


def convert_row(row, destination, first, end):
    """Converts a span as the outward row call does, without a peak: refusals 6 to 9 in this order, and a refused call writes nothing."""
    span = tested_span(row, destination, first, end)
    write_span(destination, span, [pq_codes(pixel) for pixel in pixels_of(samples_of(row[span]))])


def c_number(row, destination, first, end):
    """One number for C, as of the outward calls."""
    return number_for_c(convert_row, row, destination, first, end)
