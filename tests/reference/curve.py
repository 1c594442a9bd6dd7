"""Document 01, "The highlight curve", with request 06: M2 from the brightest light, and the scaling by it.

The curve works on positions (PQ signals), the scaling on lights. t is the
position of 1,000 cd/m2, w that of the declared peak.
"""

from functools import lru_cache

from .light import A, BRIGHTEST, END, N, light_at, light_of_code, position_of
from .sample_format import TEN_NARROW

t = position_of(A)


def position_of_code(D, form=TEN_NARROW):
    """m of a brightest code."""
    return form.position(D)


@lru_cache(maxsize=None)
def position_of_peak(L):
    """w of a declared peak in cd/m2."""
    return position_of(L * N)


def below_knee(m, w):
    """Whether the curve leaves position m alone."""
    return 2 * m < 3 * t - w


def spline(m, w):
    """The bent position, for m from the knee to w."""
    return t + (-4 * (w - m) ** 3) // (27 * (w - t) ** 2)


def bend(M1, m, L):
    """M2. Arguments past their range read its nearer end."""
    M1, m, L = min(M1, BRIGHTEST), min(m, END), min(max(L, 1), 10_000)
    if L <= 1_000:
        return min(M1, A)
    w = position_of_peak(L)
    m = min(m, w)                      # above the peak the curve stays at its end
    return M1 if below_knee(m, w) else light_at(spline(m, w))


@lru_cache(maxsize=None)
def bend_code(D, L, form=TEN_NARROW):
    """M1 and M2 of a pixel whose brightest code is D."""
    M1 = light_of_code(D, form)
    return M1, bend(M1, position_of_code(D, form), L)


def scale(c, M2, M1):
    """A mapped component: c times M2 over the pixel's own brightest light, rounded down."""
    M1 = min(M1, BRIGHTEST)
    return min(c, M1) * min(M2, A) // M1 if M1 else 0
