"""The way of one pixel through document 01: lights, highlight curve, scaling, HLG code."""

from .curve import bend_code, scale
from .hlg import codes
from .light import light_of_code
from .refusal import refuse_peak, refuse_samples
from .sample_format import TEN_NARROW


def mapped_components(L, pixel, form=TEN_NARROW):
    """The three component lights after the highlight curve."""
    M1, M2 = bend_code(max(pixel), L, form)
    return tuple(scale(light_of_code(D, form), M2, M1) for D in pixel)


def hlg_codes(L, pixel, form=TEN_NARROW):
    """The HLG codes of an accepted pixel."""
    return codes(mapped_components(L, pixel, form))


def convert_pixel(L, pixel, form=TEN_NARROW):
    """The pixel call: refusals 5 and 9, then the three codes."""
    refuse_peak(L)
    refuse_samples(pixel, form)
    return hlg_codes(L, pixel, form)
