"""Request 04, "Y'CbCr rows beside RGB": luma and the two chroma of finished HLG codes, ten-bit narrow range.

Written in fractions as the request has it, and in whole numbers for many pixels; `check` compares both.
"""

from fractions import Fraction

from .refusal import refuse_codes

BLACK, NEUTRAL = 64, 512                # the codes of no signal and of no chroma
SIGNAL, CHROMA = 876, 896               # codes from black to white, and from one end of the chroma to the other
SHARES = 10_000                         # the weights of luma count in these


def round_away(numerator, denominator):
    """The whole number nearest to a fraction whose denominator is above 0; halves go away from zero."""
    nearest = (2 * abs(numerator) + denominator) // (2 * denominator)
    return nearest if numerator >= 0 else -nearest


def luma_sum(r, g, b):
    """Luma before rounding, in ten-thousandths of a code; r, g and b are codes less 64."""
    return 2_627 * r + 6_780 * g + 593 * b


def unrounded(codes):
    """Luma, Cb and Cr of three RGB codes as fractions, each less the code of its zero."""
    r, g, b = (code - BLACK for code in codes)
    red, blue, luma = Fraction(r, SIGNAL), Fraction(b, SIGNAL), Fraction(luma_sum(r, g, b), SIGNAL * SHARES)
    return SIGNAL * luma, CHROMA * (blue - luma) / Fraction("1.8814"), CHROMA * (red - luma) / Fraction("1.4746")


def by_fractions(codes):
    """Luma, Cb and Cr of three RGB codes, rounded at the end."""
    return tuple(zero + round_away(*x.as_integer_ratio()) for zero, x in zip((BLACK, NEUTRAL, NEUTRAL), unrounded(codes)))


def ycbcr(codes):
    """The same in whole numbers: B' - Y' and R' - Y' are counted in ten-thousandths of a code."""
    r, g, b = codes[0] - BLACK, codes[1] - BLACK, codes[2] - BLACK
    luma = luma_sum(r, g, b)
    return (BLACK + round_away(luma, SHARES),
            NEUTRAL + round_away(CHROMA * (SHARES * b - luma), SIGNAL * 18_814),
            NEUTRAL + round_away(CHROMA * (SHARES * r - luma), SIGNAL * 14_746))


def convert_codes(codes):
    """The pixel call: refusal 14, then luma, Cb and Cr."""
    refuse_codes(codes)
    return ycbcr(codes)
