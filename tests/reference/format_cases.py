"""What is stored of request 06: titles, cards, pixels, rows and records in each format of the samples.

A format stands here by its number, as a host in C gives it; that of a pixel, a row or a record may have bits that are not read.
"""

from itertools import product
from random import Random

from .cases import BRIGHT, row, title, word
from .sample_format import FORMATS, TEN_FULL, TEN_NARROW, TWELVE_FULL, TWELVE_NARROW, format_of
from .samples import beyond, code_of_peak, delicate_pixels, draw_peaks, draw_pixel, ends_of, knee_code

TOP = 2**64 - 1
NAMES = {TWELVE_NARROW: "twelve_bits", TEN_FULL: "full_range", TWELVE_FULL: "twelve_bits_full_range"}
NEW = tuple(NAMES)
PEAKS, DRAWN = 40, 48                    # of the pixels of each format

# The limits of refusal 9 of every format, and the numbers beside them.
LIMITS = (0, 3, 4, 15, 16, 1_019, 1_020, 1_023, 1_024, 4_079, 4_080, 4_095, 4_096, 65_535, 2**16 + 64, 2**32 + 500, TOP)

# Numbers with bits that are not read, low and high ones.
UNREAD = (7, 32, 0xE0, 2**32, 2**63, TOP - 24, 8 + 1, 8 + 64, 2**32 + 8, TOP - 16, 16 + 2, 2**63 + 16, 2**16 + 16 + 128, TOP - 8, 24 + 7, 2**40 + 24, TOP)

# Pixels of which a code hangs on the rounding of a position, by format and peak. Found by trying what positions rounded up would give.
POSITION_PIXELS = {
    TEN_FULL: {
        1_000: ((316, 405, 688), (44, 38, 7), (419, 361, 293), (12, 1, 446), (769, 0, 219), (131, 21, 778), (422, 503, 678), (569, 652, 8)),
        1_500: ((740, 91, 416), (643, 214, 488), (108, 685, 31), (542, 542, 542), (2, 590, 795), (684, 747, 0), (700, 1_023, 0), (0, 903, 1_023)),
        4_000: ((22, 23, 15), (614, 550, 316), (573, 623, 347), (488, 391, 402), (269, 216, 780), (477, 801, 747), (663, 919, 572), (713, 525, 523)),
        10_000: ((1_023, 678, 2), (472, 337, 853), (872, 872, 872), (435, 455, 775), (642, 0, 179), (11, 15, 156), (234, 501, 527), (0, 903, 1_023)),
    },
    TWELVE_FULL: {
        1_000: ((50, 74, 3_383), (2_898, 2_898, 2_898), (0, 37, 1), (2_362, 1_898, 487), (1_467, 1_049, 490), (3_035, 688, 368),
                (1_142, 42, 54), (2_561, 512, 1_528)),
        1_500: ((2_988, 0, 1_052), (4_095, 740, 0), (2_536, 2_882, 2_199), (85, 954, 2_211), (1_648, 569, 2_962), (3_733, 87, 3_733),
                (3_414, 417, 623), (3_262, 469, 8)),
        4_000: ((3_413, 306, 578), (3, 15, 2_017), (2_050, 928, 3_285), (2_815, 245, 3_032), (1_348, 1_635, 2_780), (1_447, 1_155, 1_029),
                (2_082, 2_442, 3_110), (1_732, 1_631, 2_933)),
        10_000: ((538, 1_472, 2_757), (3_344, 9, 1_001), (2_570, 0, 875), (2_741, 363, 1_731), (3_738, 3_927, 1_088), (1_185, 1_815, 3_448),
                 (4_095, 0, 2_513), (1_902, 2_572, 0)),
    },
}


def card(form, peak):
    """A card that names MaxCLL and the format."""
    return bytes([form.number | 1]) + word(peak)


def grey(D):
    """A pixel of three equal codes."""
    return D, D, D


# Titles

def format_cards():
    """Cards that declare a format, with and without fields; a width and a row that each format takes follow."""
    good = word(1) + row((723, 723, 723))
    for form, name in NAMES.items():
        bits, bright = form.number, word(3) + row(*([form.step * D for D in pixel] for pixel in BRIGHT))
        yield f"no_peak_named_{name}", bytes([bits]) + bright
        yield f"no_peak_named_{name}_maxcll_zero", bytes([bits | 1]) + word(0) + bright
        yield f"no_peak_named_{name}_maxcll_zero_mastering_peak_zero", bytes([bits | 3]) + word(0) + word(0) + bright
        yield f"{name}_mastering_peak_4000", bytes([bits | 2]) + word(4_000) + bright
        yield f"{name}_unconstrained", bytes([bits | 4]) + good
        yield f"{name}_maxcll_zero_unconstrained", bytes([bits | 5]) + word(0) + good
        yield f"{name}_maxcll_1200_mastering_peak_2000_unconstrained", bytes([bits | 7]) + word(1_200) + word(2_000) + good
        yield f"{name}_maxcll_zero_mastering_peak_1200", bytes([bits | 3]) + word(0) + word(1_200) + good
        yield f"{name}_mastering_peak_1200_unconstrained", bytes([bits | 6]) + word(1_200) + good
        yield f"{name}_card_cut_in_maxcll", bytes([bits | 1, 3])
        yield f"{name}_mastering_peak_10001", bytes([bits | 2]) + word(10_001) + good
        yield f"width_missing_after_{name}", bytes([bits | 4])


def format_titles():
    """Titles of `convert` in the formats beside ten-bit narrow range; `measure` and `rewrite` read them too."""
    yield from format_cards()
    for form, name in NAMES.items():
        codes = form.taken
        for peak in (1_000, 4_000):
            yield f"{name}_all_greys_peak_{peak}", title(card(form, peak), len(codes), row(*map(grey, codes)))
        for peak in (1_500, 4_000, 10_000):
            knee, top = knee_code(peak, form), code_of_peak(peak, form)
            about = [*range(knee - 3, knee + 4), *(D for D in range(top - 1, top + 3) if D in codes)]
            yield f"{name}_knee_and_peak_{peak}", title(card(form, peak), len(about), row(*map(grey, about)), row(*((D, form.black, D) for D in about)))
        least, most = codes[0], codes[-1]
        yield f"{name}_lowest_and_highest_samples", title(
            card(form, 1_000), 3, row((least, form.black, most), (most, least, least), (form.white, most, least)))
        for sample in beyond(form):
            yield f"{name}_sample_{sample}", title(card(form, 1_000), 2, row(grey(form.white), grey(form.white)), row(grey(500), (500, sample, 500)))
        for peak, pixels in POSITION_PIXELS.get(form, {}).items():
            yield f"{name}_a_position_peak_{peak}", title(card(form, peak), 4, row(*pixels))


def measured_format_titles():
    """Titles that `convert` is not run on: the brightest code, and codes of one light beyond black and the nominal peak."""
    for form, name in NAMES.items():
        opening, black, white = bytes([form.number | 4]), form.black, form.white
        middle = form.nominal[len(form.nominal) // 2]
        for D in dict.fromkeys((*ends_of(form), black + 2, middle, knee_code(1_000, form) - 1, knee_code(1_000, form))):
            yield f"{name}_brightest_code_{D}", title(opening, 1, row(grey(D)))
        yield f"{name}_brightest_far_on", title(opening, 3, row(*map(grey, (black, middle, black))), row(*map(grey, (middle, white, white))))
        yield f"{name}_brightest_blue_alone", title(opening, 2, row(grey(middle), (black, black, middle + 1)))
        yield f"{name}_black_title", title(opening, 2, row(grey(black), grey(form.taken[0])), row(grey(form.taken[0]), grey(black)))
        yield f"{name}_bad_sample_brighter_than_all", title(opening, 1, row(grey(middle)), row(grey(form.taken[-1] + 1)))
        if not form.full:
            yield f"{name}_super_white_before_nominal_peak", title(opening, 3, row(*map(grey, (white - 1, form.taken[-1], white))))
            yield f"{name}_super_white_after_nominal_peak", title(opening, 3, row(*map(grey, (white, white + 1, form.taken[-1]))))


# Lights and positions

def format_light_questions():
    """Of each code of each format its light and its position; past the depth the nearer end is read. Ten-bit narrow lights are stored elsewhere."""
    past = (2**16, 2**32 + 65, 2**63, TOP)
    for form in FORMATS:
        codes = (*range(2**form.bits + 2), *past)
        for D in codes if form != TEN_NARROW else (63, 64, 65, 723, 940, 941, TOP):
            yield form.number, "code", D
        for D in codes:
            yield form.number, "position", D


# Pixels

def limit_pixels():
    """Every limit of refusal 9 under every format, at each place; a refused peak comes before it."""
    for form in FORMATS:
        mid = form.nominal[300]
        for limit in LIMITS:
            for pixel in ((limit, mid, mid), (mid, limit, mid), (mid, mid, limit), grey(limit)):
                yield form.number, 1_000, pixel
        for L in (0, 10_001, 2**32 + 4_000, TOP):
            yield form.number, L, grey(mid)
            yield form.number, L, (mid, TOP, 4_096)


def format_pixels():
    """Number, peak and pixel."""
    random = Random(4_095)
    for form in NEW:
        for L in draw_peaks(random, PEAKS):
            for pixel in (*delicate_pixels(L, form), *(draw_pixel(random, L, form) for _ in range(DRAWN))):
                yield form.number, L, pixel
        for pixel in product(range(form.black, form.black + 4), repeat=3):
            yield form.number, 1_000, pixel
        for L, pixels in POSITION_PIXELS.get(form, {}).items():
            for pixel in pixels:
                yield form.number, L, pixel
    yield from limit_pixels()
    # the same pixels under every format, as far as each takes them, and under numbers with bits that are not read
    for number in (*(form.number for form in FORMATS), *UNREAD):
        for pixel in ((723, 64, 64), (940, 512, 300), (4, 1_019, 65), (3, 3, 3), (15, 1_020, 16), (1_023, 1_024, 256), (2_627, 3_760, 257), (4_080, 0, 4_095)):
            yield number, 4_000, pixel


# Rows

def format_row_calls():
    """Arguments of the row call: number, peak, row, bytes of the destination, first, end."""
    random = Random(1_023)
    for form in NEW:
        number, bad = form.number, beyond(form)
        four = row(*(draw_pixel(random, 4_000, form) for _ in range(4)))
        for first, end in ((0, 4), (1, 3), (2, 2), (3, 4)):
            yield number, 4_000, four, 24, first, end
        ends = row(*map(grey, ends_of(form)))
        yield number, 1_000, ends, len(ends), 0, len(ends) // 6
        for place, sample in enumerate(bad[:6]):
            spoiled = bytearray(four)
            spoiled[2 * place + 6:2 * place + 8] = word(sample)
            yield number, 4_000, bytes(spoiled), 24, 0, 4
            yield number, 4_000, bytes(spoiled), 24, 3, 4
        yield number, 10_001, row(grey(65_535)), 5, 2, 1
        yield number, 1_000, row(grey(65_535))[:5], 6, 2, 1
        yield number, 1_000, row(grey(65_535)), 5, 2, 1
        yield number, 1_000, row(grey(65_535)), 6, 2, 1
        for peak, pixels in POSITION_PIXELS.get(form, {}).items():
            yield number, peak, row(*pixels), 6 * len(pixels), 0, len(pixels)
    every = row((723, 64, 300), (4, 1_019, 940), (256, 512, 16))
    for number in (*(form.number for form in FORMATS), *UNREAD):
        yield number, 2_000, every, 18, 0, 3
    for number in (8, TOP):
        yield number, 2_000, row((3_760, 4_079, 256), (16, 4_080, 15)), 12, 0, 2


# The measuring run

def format_records():
    """Questions to the measuring run: number, the five fields of a record, and a row."""
    fresh = (0, 0, 0, 0, 0)
    for form in NEW:
        number, black, white, middle = form.number, form.black, form.white, form.nominal[len(form.nominal) // 2]
        at = form.position(middle)
        for D in dict.fromkeys((*ends_of(form), middle)):
            yield number, fresh, row(grey(D))
        yield number, fresh, row(grey(black), (black, middle, black), (middle, middle, white), grey(white))
        for sample in beyond(form)[:5]:
            yield number, fresh, row(grey(middle), (middle, middle, sample))
        yield number, (4_294_967_295, 5, at, 3, 2), row(grey(65_535))
        yield number, (4_294_967_294, 5, at, 3, 2), row(grey(middle + 1))
        yield number, (9, 9, at, 3, 3), row(grey(65_535))[:5]
        # a record whose position lies at a code's, one below it and one above it
        for D in (black + 1, black + 2, middle, middle + 1, white - 1, white):
            for beside in (-1, 0, 1):
                yield number, (9, 9, form.position(D) + beside, 3, 3), row(grey(black), grey(D), (black, D, black))
    # positions near black, where several have one light, and about the third entry of the light table
    for form in FORMATS:
        for position in (*range(5), *range(217, 224), *range(254, 260), *range(436, 442), *range(510, 515)):
            for D in (form.black, form.black + 1, form.black + 2):
                yield form.number, (9, 9, position, 3, 3), row(grey(D))
    # bits that are not read
    for form in FORMATS:
        for unread in (0x07, 0xE0, 0xE7):
            yield form.number | unread, (9, 9, 0, 3, 3), row(grey(form.white))
            yield form.number | unread, (9, 9, 0, 3, 3), row(grey(form.white), grey(form.taken[-1] + 1))
    # runs of rows in several formats: each record is the one that the row before gave
    yield from mixed_runs()


def mixed_runs():
    """Rows of one grey pixel, by number and code. Ten-bit narrow codes tie with four times themselves in twelve bits; so do all blacks, and all whites.

    What a row leaves in the record is told by positions: `check` shows that codes compare by them as by their lights.
    """
    for codes in (((0, 700), (8, 2_800), (24, 2_975), (8, 2_801), (16, 744), (0, 701), (24, 4_095), (0, 940), (8, 3_760), (16, 1_023)),
                  ((16, 0), (0, 64), (8, 256), (24, 0), (24, 1), (8, 257), (16, 1), (24, 5), (0, 65), (8, 260)),
                  ((8 + 1, 4_079), (24 + 32, 4_095), (16 + 128, 1_023), (7, 1_019), (0xE7, 940), (8, 3_760)),
                  ((16, 512), (24, 2_049), (24, 2_050), (0xFF, 2_051), (8, 2_010), (0xEF, 2_011), (0, 503), (0xF7, 513))):
        brightest, at = -1, 0
        for rows, (number, D) in enumerate(codes):
            yield number, (rows, rows, max(brightest, 0), at, 0), row(grey(D))
            position = format_of(number).position(D)
            if position >= brightest:
                brightest, at = position, rows
