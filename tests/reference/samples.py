"""Pixels and peaks to try: drawn evenly, and chosen where the conversion is delicate."""

from bisect import bisect_right
from functools import lru_cache

from .curve import below_knee, position_of_code, position_of_peak
from .light import A, light_of_code
from .sample_format import TEN_NARROW

MARKED_PEAKS = (1, 2, 100, 203, 999, 1_000, 1_001, 1_002, 1_003, 1_010, 1_100, 2_000,
                4_000, 9_999, 10_000)


def draw_peaks(random, count):
    """The marked peaks and others: half evenly, half crowded towards 1,000 from above."""
    peaks = set(MARKED_PEAKS)
    while len(peaks) < count:
        peaks.add(random.randint(1, 10_000))
        peaks.add(int(1_000 * 10 ** random.random()))
    return sorted(peaks)


@lru_cache(maxsize=None)
def knee_code(L, form=TEN_NARROW):
    """The lowest code that is not below the knee; for a low peak the first above 1,000 cd/m2."""
    codes = form.nominal
    if L <= 1_000:
        return codes[bisect_right(codes, A, key=lambda D: light_of_code(D, form))]
    w = position_of_peak(L)
    return codes[bisect_right(codes, False, key=lambda D: not below_knee(position_of_code(D, form), w))]


def code_of_peak(L, form=TEN_NARROW):
    """The highest code, up to the nominal peak, whose position does not exceed that of the peak."""
    codes = form.nominal
    return codes[bisect_right(codes, position_of_peak(L), key=form.position) - 1]


def shuffled(random, *codes):
    """Codes in any order of the three components."""
    return tuple(random.sample(codes, 3))


def delicate_pixels(L, form=TEN_NARROW):
    """For one peak: greys and pure colours about the knee and the peak, and the ends of the range."""
    knee, top, black, white = knee_code(L, form), code_of_peak(L, form), form.black, form.white
    least, most = form.taken[0], form.taken[-1]
    for D in (knee - 1, knee, knee + 1, top, min(top + 1, most)):
        yield D, D, D
    yield knee, black, black + 1
    yield black + 2, knee - 1, black
    yield black, black + 3, knee
    yield least, least, least
    yield most, most, most
    yield most, least, black + 1
    yield white, white - 1, min(white + 1, most)


def draw_pixel(random, L, form=TEN_NARROW):
    """One accepted pixel of a kind drawn by lot."""
    knee, top = knee_code(L, form), code_of_peak(L, form)
    least, most, black, white = form.taken[0], form.taken[-1], form.black, form.white
    dimmest, dimmer, darker = black + 8 * form.step, black + 26 * form.step, black + 46 * form.step
    dim = random.randint(black, dimmer)
    bright = random.randint(knee, white)
    kinds = (
        lambda: tuple(random.randint(least, most) for _ in range(3)),
        lambda: tuple(random.randint(black, white) for _ in range(3)),
        lambda: (bright,) * 3,
        lambda: (random.randint(least, most),) * 3,
        lambda: shuffled(random, bright, dim, random.randint(black, dimmer)),
        lambda: shuffled(random, bright, bright, dim),
        lambda: shuffled(random, bright, random.randint(black, bright), random.randint(black, bright)),
        lambda: shuffled(random, random.randint(knee - 2, knee + 1), random.randint(least, knee), black),
        lambda: shuffled(random, random.randint(top - 1, min(top + 1, most)), random.randint(least, most), black),
        lambda: shuffled(random, random.randint(top, most), random.randint(black, white), dim),
        lambda: shuffled(random, random.randint(least, black + 2), random.randint(least, black + 2), dim),
        lambda: shuffled(random, least, most, random.randint(least, most)),
        lambda: tuple(random.randint(black, darker) for _ in range(3)),
        lambda: shuffled(random, random.randint(black + 1, dimmest), random.randint(black, most), random.randint(black, most)),
        lambda: shuffled(random, dim, random.randint(black, dimmer), random.randint(black, knee)),
    )
    return random.choice(kinds)()


def ends_of(form):
    """The codes at both ends of what is taken and of what is not read as an end, and those beside the latter."""
    least, most, black, white = form.taken[0], form.taken[-1], form.black, form.white
    return [D for D in (least, black - 1, black, black + 1, white - 1, white, white + 1, most) if D in form.taken]


def beyond(form):
    """16-bit samples that a format does not take: those beside its limits, and the limits of the other formats."""
    near = (0, 3, 15, 1_020, 1_023, 1_024, 4_079, 4_080, 4_095, 4_096, 16_384, 65_535)
    return [sample for sample in near if sample not in form.taken]


def draw_palette(random, form=TEN_NARROW):
    """A few codes, so that brightest pixels are often equal; among them often some of one light."""
    return random.sample(form.taken, random.randint(1, 4)) + random.choices(ends_of(form), k=random.randrange(4))


def draw_row(random, codes, pixels):
    """The bytes of a row of such codes."""
    return b"".join(code.to_bytes(2, "big") for code in random.choices(codes, k=3 * pixels))


def with_bad_samples(random, row, form=TEN_NARROW):
    """A row with one sample out of range, or several."""
    row = bytearray(row)
    for _ in range(random.choice((1, 1, 1, 2, 5))):
        at = 2 * random.randrange(len(row) // 2)
        row[at:at + 2] = random.choice(beyond(form)).to_bytes(2, "big")
    return bytes(row)


def draw_measured_row(random, codes, pixels, form=TEN_NARROW):
    """A row for the measuring run: sound, or now and then refused, by its length, by a sample or by both."""
    row, lot = draw_row(random, codes, pixels), random.random()
    if 0.1 < lot < 0.22 and row:
        row = with_bad_samples(random, row, form)
    if lot < 0.12:
        row += bytes(random.randint(1, 5))
    return bytes(49_158) if lot > 0.99 else row
