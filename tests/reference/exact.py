"""Document 01, "The exact value", with requests 06 and 11: the published formulas without tables, in long decimals.

80 digits are carried; the stages lose a few of them, so that far more than 50 hold.
Light is in cd/m2 here, signals run from 0 to 1, and 1.0 is the full scene light.
"""

from decimal import Context, Decimal, localcontext
from functools import lru_cache, wraps

from .sample_format import TEN_NARROW

LONG = Context(prec=80)
m1, m2 = Decimal("0.1593017578125"), Decimal("78.84375")
c1, c2, c3 = Decimal("0.8359375"), Decimal("18.8515625"), Decimal("18.6875")
a, b, c = Decimal("0.17883277"), Decimal("0.28466892"), Decimal("0.55991073")
TARGET = Decimal(1_000)            # peak of the HLG display, cd/m2
RED, GREEN, BLUE = Decimal("0.2627"), Decimal("0.6780"), Decimal("0.0593")


def long_decimals(function):
    """Runs a function with 80 digits."""
    @wraps(function)
    def run(*arguments):
        with localcontext(LONG):
            return function(*arguments)
    return run


@lru_cache(maxsize=None)
@long_decimals
def pq_eotf(signal):
    """Light of a PQ signal."""
    if signal <= 0:
        return Decimal(0)
    root = signal ** (1 / m2)
    return 10_000 * ((root - c1) / (c2 - c3 * root)) ** (1 / m1)


@lru_cache(maxsize=None)
@long_decimals
def pq_inverse_eotf(light):
    """PQ signal of a light."""
    if light <= 0:
        return Decimal(0)
    w = (light / 10_000) ** m1
    return ((c1 + c2 * w) / (1 + c3 * w)) ** m2


@lru_cache(maxsize=None)
@long_decimals
def signal_of_code(D, form=TEN_NARROW):
    """PQ signal of a code as read."""
    signal = form.signal(D)
    return Decimal(signal.numerator) / signal.denominator


@long_decimals
def bent_signal(X, H):
    """The highlight curve on signals, for a peak above 1,000 cd/m2 of signal H."""
    J = pq_inverse_eotf(TARGET)
    X = min(X, H)
    return X if 2 * X < 3 * J - H else J - 4 * (H - X) ** 3 / (27 * (H - J) ** 2)


@lru_cache(maxsize=None)
@long_decimals
def bent_light(X, L):
    """The bent light of the brightest signal X under the peak L."""
    if L <= 1_000:
        return min(pq_eotf(X), TARGET)
    return pq_eotf(bent_signal(X, pq_inverse_eotf(Decimal(L))))


@long_decimals
def bent_linear_light(light, L):
    """The bent light of a brightest light that is given as itself, under the peak L; below the knee it remains what it is."""
    if L <= 1_000:
        return min(light, TARGET)
    J, H, X = (pq_inverse_eotf(each) for each in (TARGET, Decimal(L), light))
    return light if X < H and 2 * X < 3 * J - H else pq_eotf(bent_signal(X, H))


@long_decimals
def hlg_oetf(E):
    """HLG signal of a scene light."""
    return (3 * E).sqrt() if 12 * E <= 1 else a * (12 * E - b).ln() + c


@long_decimals
def scene_lights(lights):
    """Inverse OOTF, gamma 1.2: each light over the sixth root of the luminance, both per 1,000 cd/m2."""
    red, green, blue = (light / TARGET for light in lights)
    luminance = RED * red + GREEN * green + BLUE * blue
    root = luminance ** (Decimal(1) / 6) if luminance else Decimal(1)
    return red / root, green / root, blue / root


@long_decimals
def exact_values_of_lights(lights):
    """64 + 876 times the HLG signal of each of three display lights."""
    return tuple(64 + 876 * hlg_oetf(E) for E in scene_lights(lights))


@long_decimals
def exact_values(L, pixel, form=TEN_NARROW):
    """The exact values of a pixel's three codes under the peak L."""
    signals = [signal_of_code(D, form) for D in pixel]
    brightest = max(signals)
    if brightest == 0:
        return (Decimal(64),) * 3
    ratio = bent_light(brightest, L) / pq_eotf(brightest)
    return exact_values_of_lights([pq_eotf(X) * ratio for X in signals])


@long_decimals
def distances(L, pixel, codes, form=TEN_NARROW):
    """How far each HLG code lies from its exact value, in codes."""
    return tuple(abs(code - exact) for code, exact in zip(codes, exact_values(L, pixel, form)))


@long_decimals
def linear_exact_values(L, lights):
    """The exact values of three lights in cd/m2, given as fractions, under the peak L."""
    lights = [Decimal(light.numerator) / light.denominator for light in lights]
    brightest = max(lights)
    if brightest == 0:
        return (Decimal(64),) * 3
    ratio = bent_linear_light(brightest, L) / brightest
    return exact_values_of_lights([light * ratio for light in lights])


@long_decimals
def linear_distances(L, lights, codes):
    """How far each HLG code lies from its exact value, in codes."""
    return tuple(abs(code - exact) for code, exact in zip(codes, linear_exact_values(L, lights)))
