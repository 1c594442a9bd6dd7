"""Document 01, "Light", with requests 05 and 06: the light table, the light of a code, positions.

Display light is a whole number of units, N units to 1 cd/m2. Signals are PQ
signals from 0 to 1; a position counts them in 1/897,024.
"""

from bisect import bisect_right
from decimal import ROUND_HALF_UP, Context, Decimal
from functools import lru_cache

from .rounding import Undecided, power_below
from .sample_format import TEN_NARROW

N = 16_777_216                 # units in 1 cd/m2
A = 1_000 * N                  # the light of 1,000 cd/m2
BRIGHTEST = 10_000 * N         # the light of PQ signal 1
LAST = 3_504                   # last index of the light table
STEPS = 256                    # positions from one table entry to the next
END = STEPS * LAST             # last position, 897,024

# Only to guess an entry; what is guessed is then tested on whole numbers.
GUESS = Context(prec=45)
WITNESS = 10**32               # denominator of the fractions that stand beside w


def r_of(w):
    """The document's r as a fraction, for w given as one."""
    n, d = w
    return 3_424 * d + 77_216 * n, 4_096 * d + 76_544 * n


def guess(k):
    """w and the light of signal k/3504, in decimals: the PQ EOTF as printed."""
    g = GUESS
    root = g.power(g.divide(Decimal(k), Decimal(LAST)), g.divide(Decimal(32), Decimal(2_523)))
    w = g.divide(g.subtract(g.multiply(4_096, root), 3_424),
                 g.subtract(77_216, g.multiply(76_544, root)))
    light = g.multiply(BRIGHTEST, g.power(w, g.divide(Decimal(8_192), Decimal(1_305))))
    return w, light


def value_below(halves, k, w):
    """Shows V(halves/2) < k/3504 by a fraction w that lies above that light's w while its V lies below k/3504."""
    return (power_below((halves, 2 * BRIGHTEST), 1_305, w, 8_192)
            and power_below(r_of(w), 2_523, (k, LAST), 32))


def value_above(halves, k, w):
    """Shows V(halves/2) > k/3504 by a fraction w that lies below that light's w while its V lies above k/3504."""
    return (power_below(w, 8_192, (halves, 2 * BRIGHTEST), 1_305)
            and power_below((k, LAST), 32, r_of(w), 2_523))


def entry(k):
    """The light table's entry: the whole p with V(p - 1/2) <= k/3504 < V(p + 1/2), the nearest, halves up.

    That no light is a half exactly is shown on the way: V(p - 1/2) lies below k/3504.
    """
    if k == 0:
        return 0
    if k == LAST:
        return BRIGHTEST       # w, r and V are 1 there, without rounding
    w, light = guess(k)
    p = int(light.to_integral_value(ROUND_HALF_UP))
    near = int(GUESS.multiply(w, WITNESS))
    if not (value_below(2 * p - 1, k, (near - 1, WITNESS))
            and value_above(2 * p + 1, k, (near + 2, WITNESS))):
        raise Undecided(f"light table entry {k}")
    return p


P = tuple(entry(k) for k in range(LAST + 1))


def light_entry(k):
    """P[k]; an index past the table reads its last entry."""
    return P[min(k, LAST)]


def light_at(q):
    """The light at a position: between two entries on a straight line, rounded down."""
    if q >= END:
        return P[LAST]
    k, f = divmod(q, STEPS)
    return P[k] + (P[k + 1] - P[k]) * f // STEPS


@lru_cache(maxsize=None)
def light_of_code(D, form=TEN_NARROW):
    """The light of a PQ code: that at its position."""
    return light_at(form.position(D))


def position_of(light):
    """The largest position whose light does not exceed the given one."""
    return bisect_right(range(END + 1), light, key=light_at) - 1
