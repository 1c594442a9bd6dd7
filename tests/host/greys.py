"""HLG codes of greys from the second implementation, quick enough for every code and peak.

A grey's three mapped components are M2, so its code depends on M2 alone and grows
with it. The smallest M2 of each code is found once by the definition; `check` holds
what is looked up to the definition again.
"""

from bisect import bisect_left, bisect_right
from functools import lru_cache

from tests.reference import hlg
from tests.reference.curve import bend, position_of_code
from tests.reference.light import A, light_of_code
from tests.reference.pixel import hlg_codes
from tests.reference.sample_format import FORMATS, TEN_NARROW


@lru_cache(maxsize=None)
def brightest(form):
    """Light and position of each grey that a format takes."""
    return [(light_of_code(D, form), position_of_code(D, form)) for D in form.taken]


def code_of_light(M):
    """The code of three mapped components M, by the definition."""
    return hlg.code(M, hlg.luminance((M, M, M)))


FIRST_LIGHT = [bisect_left(range(A + 1), d, key=code_of_light)
               for d in range(hlg.FIRST, code_of_light(A) + 1)]


def grey_codes(L, form=TEN_NARROW):
    """The HLG code of each grey that a format takes under one peak."""
    return [64 + bisect_right(FIRST_LIGHT, bend(M1, m, L)) for M1, m in brightest(form)]


def check(random, count):
    """Holds the looked-up codes to the document's inequality and to whole pixels."""
    for d, M in enumerate(FIRST_LIGHT, hlg.FIRST):
        assert hlg.reached(d, M, 10_000 * M) and not hlg.reached(d, M - 1, 10_000 * (M - 1)), d
    for _ in range(count):
        L, form = random.randint(1, 10_000), random.choice(FORMATS)
        i, D = random.choice(list(enumerate(form.taken)))
        assert hlg_codes(L, (D, D, D), form) == (grey_codes(L, form)[i],) * 3, (L, D, form)
