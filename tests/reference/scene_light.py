"""Request 08, the first step back: the scene light of an HLG code, by the inverse OETF.

Scene light is a whole number of 1/2**40, the nearest. An HLG signal is 0 at code 64, 1 at 940 and more above.
"""

from fractions import Fraction

from .hlg import LAST, SCENE, a, b, c, exp_bounds
from .rounding import Undecided

BLACK = 64


def signal_of_code(d):
    """The HLG signal of a code as read, not rounded."""
    return Fraction(d - BLACK, 876)


def light_bounds(signal):
    """Fractions, one not above and one not below the scene light of a signal; both are the light itself up to 1/2."""
    if 2 * signal <= 1:
        return signal**2 / 3, signal**2 / 3
    return tuple((x + b) / 12 for x in exp_bounds((signal - c) / a))


def nearest(x):
    """The whole number nearest to a fraction, halves up."""
    return (x + Fraction(1, 2)).__floor__()


def build_light(d):
    """The scene light of a code from 64 to 1,019."""
    low, high = (nearest(SCENE * x) for x in light_bounds(signal_of_code(d)))
    if low != high:
        raise Undecided(f"scene light of code {d}")
    return low


S = {d: build_light(d) for d in range(BLACK, LAST + 1)}


def scene_light(d):
    """The scene light of any code: below 64 that of 64, past 1,019 that of 1,019."""
    return S[min(max(d, BLACK), LAST)]
