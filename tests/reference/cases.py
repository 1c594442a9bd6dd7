"""Titles, rows, cards, codes, lights and positions that are stored as vectors; titles under telling names."""

from heapq import nlargest, nsmallest
from itertools import product
from random import Random

from .light import END, LAST, N, STEPS, guess
from .samples import draw_pixel

DAMAGE_PEAK = b"\x01\x03\xe8"                   # MaxCLL 1,000
UNCONSTRAINED = b"\x04"                        # names a peak in one byte
WHITE, RED, BLACK = (723, 723, 723), (723, 64, 64), (64, 64, 64)
CORNERS = (BLACK, RED, (64, 723, 64), (64, 64, 723), (723, 723, 64), (64, 723, 723),
           (723, 64, 723), WHITE)
CORNER_CODES = ((64, 64, 64), (976, 64, 64), (64, 950, 64), (64, 64, 1_015), (942, 942, 64),
                (64, 948, 948), (970, 64, 970), (940, 940, 940))    # what these become, document 002's RGB columns

BRIGHT = ((700, 720, 740), (800, 64, 64), (940, 900, 1_019))        # these tell peaks apart

# Pixels of which a code hangs on one unit of a light, by peak; under the peaks above 1,000 cd/m2 all are bent. Found by trying all codes from 64 to 940.
UNIT_PIXELS = {
    1_000: ((82, 82, 595), (86, 145, 86), (185, 185, 844), (351, 351, 138), (130, 123, 204), (349, 218, 375), (363, 238, 514),
            (380, 434, 631), (204, 107, 190), (310, 315, 81), (398, 149, 297), (342, 456, 307), (94, 531, 354), (171, 527, 584),
            (349, 74, 643), (73, 693, 594), (740, 768, 66), (289, 772, 66), (792, 90, 269), (413, 881, 77)),
    1_500: ((710, 493, 87), (733, 245, 493), (66, 771, 747), (66, 772, 426), (66, 772, 475), (306, 772, 66), (356, 772, 66),
            (783, 233, 120), (465, 175, 800), (345, 696, 830), (94, 880, 547), (899, 554, 771)),
    4_000: ((321, 103, 672), (105, 350, 718), (722, 763, 66), (71, 767, 91), (71, 767, 164), (71, 767, 238), (93, 767, 71),
            (166, 767, 71), (66, 727, 774), (798, 222, 77), (849, 74, 583), (86, 866, 884)),
    10_000: ((115, 634, 559), (417, 661, 73), (702, 180, 193), (94, 741, 705), (762, 276, 505), (775, 66, 574), (66, 554, 792),
             (298, 66, 804), (194, 107, 847), (881, 76, 271), (881, 76, 340), (884, 429, 159)),
}


def word(value):
    """Two bytes, high byte first."""
    return value.to_bytes(2, "big")


def row(*pixels):
    """The bytes of a row."""
    return b"".join(word(sample) for pixel in pixels for sample in pixel)


def title(card, width, *rows):
    """A card, a width and rows."""
    return card + word(width) + b"".join(rows)


def maxcll(peak):
    """A card that names only MaxCLL."""
    return b"\x01" + word(peak)


def refused_cards():
    """Refusals 1 to 4; a good width and row follow, so that nothing else is wrong."""
    good = word(1) + row(WHITE)
    yield "empty", b""
    for bit in range(5, 8):
        yield f"reserved_bit_{bit}", bytes([1 << bit]) + good
    yield "reserved_bit_6_alone", b"\x40"
    yield "reserved_bit_7_with_maxcll_cut", b"\x81\x03"
    yield "reserved_bit_5_with_maxcll_zero", b"\x21\x00\x00" + good
    yield "reserved_bit_5_with_twelve_bits", b"\x28" + good
    yield "reserved_bit_6_with_full_range", b"\x50" + good
    yield "reserved_bit_7_with_twelve_bits_full_range", b"\x98" + good
    yield "reserved_bit_7_with_all_others", b"\x9f" + word(1_000) + word(2_000) + good
    yield "card_cut_before_maxcll", b"\x01"
    yield "card_cut_in_maxcll", b"\x01\x03"
    yield "card_cut_in_maxcll_of_high_byte_zero", b"\x01\x00"
    yield "card_cut_before_mastering_peak", b"\x02"
    yield "card_cut_in_mastering_peak", b"\x02\x0f"
    yield "card_cut_after_maxcll", b"\x03\x03\xe8"
    yield "card_cut_in_second_field", b"\x03\x03\xe8\x0f"
    yield "card_cut_after_maxcll_zero", b"\x03\x00\x00"
    yield "card_cut_after_maxcll_10001", b"\x03\x27\x11"
    yield "unconstrained_card_cut_in_maxcll", b"\x05\x27"
    yield "maxcll_10001", maxcll(10_001) + good
    yield "maxcll_65535", maxcll(65_535) + good
    yield "mastering_peak_10001", b"\x02" + word(10_001) + good
    yield "mastering_peak_10001_beside_maxcll", b"\x03" + word(1_000) + word(10_001) + good
    yield "mastering_peak_10001_beside_maxcll_zero", b"\x03" + word(0) + word(10_001) + good
    yield "maxcll_10001_beside_mastering_peak_zero", b"\x03" + word(10_001) + word(0) + good
    yield "mastering_peak_10001_unconstrained", b"\x06" + word(10_001) + good
    yield "unconstrained_card_cut_in_mastering_peak", b"\x06\x0f"


def unnamed_peaks():
    """Refusal 17, whatever follows the card; the rows are those of `named_peaks`, so that a title can be rewritten to one of them."""
    zero, bright = word(0), row(*BRIGHT)
    for name, card in (("", b"\x00"), ("_maxcll_zero", b"\x01" + zero), ("_mastering_peak_zero", b"\x02" + zero),
                       ("_maxcll_zero_mastering_peak_zero", b"\x03" + zero + zero)):
        yield "no_peak_named" + name, title(card, 3, bright)
        yield f"no_peak_named{name}_alone", card
    yield "no_peak_named_and_one_byte", b"\x00\x04"
    yield "no_peak_named_maxcll_zero_and_one_byte", b"\x01" + zero + b"\x04"
    yield "no_peak_named_width_zero", title(b"\x00", 0, bright)
    yield "no_peak_named_width_8193", title(b"\x03" + zero + zero, 8_193, bright)
    yield "no_peak_named_without_rows", title(b"\x02" + zero, 8_192)
    yield "no_peak_named_row_cut", title(b"\x01" + zero, 3, bright, bright[:-1])
    yield "no_peak_named_bad_sample", title(b"\x00", 3, bright, bright[:-2] + word(1_020))


def refused_widths():
    """Refusal 10."""
    yield "width_missing", DAMAGE_PEAK
    yield "width_missing_after_bit_map", UNCONSTRAINED
    yield "width_missing_after_maxcll_zero", b"\x05" + word(0)
    yield "width_missing_low_byte", DAMAGE_PEAK + b"\x00"
    yield "width_missing_low_byte_of_8192", DAMAGE_PEAK + b"\x20"
    yield "width_zero", title(DAMAGE_PEAK, 0)
    yield "width_zero_with_row", title(DAMAGE_PEAK, 0, row(WHITE))
    yield "width_8193", title(DAMAGE_PEAK, 8_193)
    yield "width_8193_with_row", title(DAMAGE_PEAK, 8_193, row(BLACK) * 8_193)
    yield "width_65535", title(DAMAGE_PEAK, 65_535, row(WHITE))


def refused_rows():
    """Refusals 11 and 9, and which of the two comes first."""
    card = DAMAGE_PEAK
    for n in range(1, 6):
        yield f"row_cut_after_byte_{n}", title(card, 1, row(RED)[:n])
        yield f"second_row_cut_after_byte_{n}", title(card, 1, row(WHITE), row(RED)[:n])
    yield "row_cut_between_pixels", title(card, 2, row(WHITE))
    yield "third_row_cut_in_last_sample", title(card, 2, row(WHITE, RED) * 2, row(WHITE, RED)[:-1])
    for name, sample in (("0", 0), ("3", 3), ("1020", 1_020), ("1024", 1_024), ("16384", 16_384), ("65535", 65_535)):
        yield f"sample_{name}", title(card, 1, row((64, sample, 64)))
    yield "bad_red_first_row", title(card, 2, row((3, 64, 64), WHITE))
    yield "bad_green_first_row", title(card, 2, row((64, 1_020, 64), WHITE))
    yield "bad_blue_first_row", title(card, 2, row((64, 64, 3), WHITE))
    yield "bad_last_sample_first_row", title(card, 2, row(WHITE, (64, 64, 1_020)))
    yield "bad_sample_second_row", title(card, 2, row(WHITE, RED), row(WHITE, (64, 3, 64)), row(WHITE, RED))
    yield "bad_sample_last_row", title(card, 1, row(WHITE), row(RED), row((1_020, 64, 64)))
    yield "bad_sample_in_cut_row", title(card, 2, row((3, 64, 64), WHITE)[:-1])
    yield "bad_sample_before_cut_row", title(card, 1, row((3, 64, 64)), row(WHITE)[:4])
    yield "cut_row_after_good_rows", title(card, 3, row(*CORNERS[:3]), row(*CORNERS[3:6]), row(*CORNERS[6:]))


def accepted_titles():
    """Titles that convert whole."""
    yield "sample", bytes.fromhex("01 03 E8 00 02 02 D3 02 D3 02 D3 02 D3 00 40 00 40")
    yield "title_without_rows", title(DAMAGE_PEAK, 2)
    yield "title_without_rows_width_8192", title(UNCONSTRAINED, 8_192)
    yield "corner_pixels_peak_1000", title(maxcll(1_000), 8, row(*CORNERS))
    yield "corner_pixels_one_a_row", title(maxcll(1_000), 1, *map(row, CORNERS))
    yield "grey_65_peak_1000", title(maxcll(1_000), 1, row((65, 65, 65)))
    yield "sub_black_4_and_super_white_1019_peak_4000", title(maxcll(4_000), 2, row((4,) * 3, (1_019,) * 3))
    yield "white_940_peak_10000", title(maxcll(10_000), 1, row((940,) * 3))
    yield "knee_peak_4000", title(maxcll(4_000), 7, row(*((D,) * 3 for D in range(653, 660))))
    yield "lowest_and_highest_samples", title(maxcll(1_000), 3, row((4, 64, 1_019), (1_019, 4, 4), (64, 1_019, 4)))
    ramp = row(*((D, D, D) for D in range(4, 1_020)))
    for peak in (1, 1_000, 1_001, 4_000, 10_000):
        yield f"all_greys_peak_{peak}", title(maxcll(peak), 1_016, ramp)
    above = [(D, 64 + 3 * (D - 700) // 2, 500) for D in range(740, 1_020, 8)]
    yield "rows_above_peak_1500", title(maxcll(1_500), 5, row(*above))
    yield "rows_above_peak_100", title(maxcll(100), 5, row(*above))
    for peak, pixels in UNIT_PIXELS.items():
        yield f"a_unit_of_light_peak_{peak}", title(maxcll(peak), 4, row(*pixels))


def named_peaks():
    """Where the peak comes from; the same bright pixels under each card."""
    cards = (
        ("unconstrained", b"\x04"),
        ("mastering_peak_2000", b"\x02" + word(2_000)),
        ("mastering_peak_2000_unconstrained", b"\x06" + word(2_000)),
        ("maxcll_1200_mastering_peak_2000", b"\x03" + word(1_200) + word(2_000)),
        ("maxcll_1200_unconstrained", b"\x05" + word(1_200)),
        ("maxcll_1200_mastering_peak_2000_unconstrained", b"\x07" + word(1_200) + word(2_000)),
        ("maxcll_1", maxcll(1)),
        ("maxcll_10000", maxcll(10_000)),
        ("mastering_peak_1", b"\x02" + word(1)),
        ("mastering_peak_10000", b"\x02" + word(10_000)),
        # request 02: a field of 0 is not known
        ("maxcll_zero_mastering_peak_4000", b"\x03" + word(0) + word(4_000)),
        ("maxcll_zero_mastering_peak_2000", b"\x03" + word(0) + word(2_000)),
        ("maxcll_1000_mastering_peak_zero", b"\x03" + word(1_000) + word(0)),
        ("maxcll_zero_unconstrained", b"\x05" + word(0)),
        ("mastering_peak_zero_unconstrained", b"\x06" + word(0)),
        ("maxcll_zero_mastering_peak_zero_unconstrained", b"\x07" + word(0) + word(0)),
        ("maxcll_zero_mastering_peak_2000_unconstrained", b"\x07" + word(0) + word(2_000)),
        # request 07: unconstrained decides before the mastering peak
        ("mastering_peak_1_unconstrained", b"\x06" + word(1)),
        ("mastering_peak_4000_unconstrained", b"\x06" + word(4_000)),
        ("mastering_peak_9999_unconstrained", b"\x06" + word(9_999)),
        ("mastering_peak_10000_unconstrained", b"\x06" + word(10_000)),
        ("maxcll_zero_mastering_peak_4000_unconstrained", b"\x07" + word(0) + word(4_000)),
        ("maxcll_1000_mastering_peak_4000_unconstrained", b"\x07" + word(1_000) + word(4_000)),
    )
    for name, card in cards:
        yield "peak_" + name, title(card, 3, row(*BRIGHT))


def wide_rows():
    """The widest row: taken, cut by one byte, and with a bad last sample."""
    random = Random(8_192)
    pixels = [draw_pixel(random, 3_000) for _ in range(8_192)]
    yield "width_8192_one_row", title(maxcll(3_000), 8_192, row(*pixels))
    yield "width_8192_cut_by_one_byte", title(maxcll(3_000), 8_192, row(*pixels)[:-1])
    yield "width_8192_bad_last_sample", title(maxcll(3_000), 8_192, row(*pixels[:-1], (64, 64, 1_020)))
    yield "width_1_many_rows", title(maxcll(3_000), 1, row(*pixels[:300]))
    yield "width_1_bad_sample_after_300_rows", title(maxcll(3_000), 1, row(*pixels[:300], (3, 64, 64), *pixels[:9]))


def titles():
    """All named inputs of `convert`, which `measure` and `rewrite` read too."""
    for group in (accepted_titles, named_peaks, wide_rows, refused_cards, unnamed_peaks, refused_widths, refused_rows):
        yield from group()


def measured_titles():
    """Titles that `convert` is not run on: what is brightest, and which of equals; the card plays no part."""
    card = UNCONSTRAINED
    grey = {D: (D, D, D) for D in (4, 63, 64, 65, 500, 800, 939, 940, 941, 1_019)}
    for D in (4, 63, 64, 65, 66, 509, 721, 722, 723, 724, 938, 939, 940, 941, 1_019):
        yield f"brightest_code_{D}", title(card, 1, row((D, D, D)))
    yield "black_title", title(card, 3, row(*[BLACK] * 3) * 4)
    yield "black_and_sub_black_title", title(card, 2, row(grey[64], grey[4]), row(grey[63], grey[64]))
    yield "sub_black_before_black", title(card, 2, row(grey[4], grey[64]))
    for name, pixel in (("red", (800, 64, 64)), ("green", (64, 800, 64)), ("blue", (64, 64, 800))):
        yield f"brightest_{name}_alone", title(card, 3, row((700, 700, 700), pixel, (799, 799, 799)))
    yield "equal_brightest_in_other_components", title(card, 4, row(BLACK, (64, 64, 800), (800, 64, 64), grey[800]))
    yield "equal_brightest_in_one_row", title(card, 5, row(BLACK, grey[800], BLACK, grey[800], grey[800]))
    yield "equal_brightest_over_rows", title(card, 3, row(grey[500], BLACK, grey[500]), row(BLACK, BLACK, grey[800]), row(grey[800], BLACK, BLACK))
    yield "equal_brightest_everywhere", title(card, 4, row(*[grey[500]] * 4) * 5)
    yield "equal_brightest_in_the_first_and_the_last_row", title(card, 2, row(grey[800], BLACK), row(BLACK, BLACK), row(grey[800], grey[800]))
    yield "equal_brightest_then_dimmer_rows", title(card, 3, row(grey[800], BLACK, grey[800]), row(grey[800], grey[800], BLACK), row(*[grey[500]] * 3) * 2)
    yield "equal_brightest_then_dimmer_pixels", title(card, 5, row(grey[800], grey[500], grey[800], grey[500], BLACK))
    yield "equal_brightest_then_a_brighter_and_an_equal_one", title(card, 2, row(grey[800], grey[800]), row(grey[939], BLACK), row(grey[800], grey[800]))
    yield "super_white_before_940", title(card, 3, row(grey[939], grey[1_019], grey[940]))
    yield "super_white_after_940", title(card, 3, row(grey[940], grey[941], grey[1_019]))
    yield "super_white_in_a_later_row", title(card, 1, row(grey[939]), row(grey[940]), row(grey[1_019]))
    yield "brightest_first_pixel", title(card, 3, row(grey[940], grey[800], grey[500]), row(grey[939], grey[800], BLACK))
    yield "brightest_last_pixel_of_last_row", title(card, 3, row(grey[800], BLACK, grey[939]), row(grey[939], BLACK, grey[940]))
    yield "brightest_last_pixel_of_first_row", title(card, 3, row(BLACK, BLACK, grey[800]), row(grey[500], grey[500], grey[500]))
    yield "brightest_in_a_middle_row", title(card, 2, row(grey[500], grey[65]), row(grey[65], grey[800]), row(grey[500], grey[500]))
    yield "every_pixel_brighter_than_the_one_before", title(card, 8, row(*((D, 64, D) for D in range(65, 65 + 32))))
    yield "every_pixel_dimmer_than_the_one_before", title(card, 8, row(*((D, 64, D) for D in range(96, 64, -1))))
    yield "one_code_brighter_far_on", title(card, 16, row(*[grey[939]] * 16) * 20, row(*[grey[939]] * 15, grey[940]))
    yield "width_8192_brightest_last_pixel", title(card, 8_192, row(BLACK) * 8_191 + row((64, 65, 64)))
    yield "width_8192_brightest_in_second_row", title(card, 8_192, row(grey[500]) * 8_192, row(BLACK) * 8_190 + row((64, 501, 64), (501, 501, 64)))
    yield "declared_peak_below_the_brightest", title(maxcll(100), 2, row(grey[940], BLACK))
    yield "declared_peak_above_the_brightest", title(b"\x07" + word(10_000) + word(10_000), 2, row(BLACK, grey[65]))
    yield "bad_sample_after_the_brightest", title(card, 2, row(grey[940], grey[800]), row(BLACK, (64, 64, 1_020)))
    yield "bad_sample_brighter_than_all", title(card, 1, row(grey[500]), row((1_020, 1_020, 1_020)))
    yield "row_cut_short_after_the_brightest", title(card, 2, row(grey[940], grey[800]), row(grey[940]))
    yield "three_rows_brightest_last", title(card, 1, row(grey[500]), row(grey[800]), row(grey[940]))


def cards():
    """Openings of titles for the three card calls: every bit map, whole, cut and with odd fields."""
    for bits in range(256):
        yield bytes([bits]) + word(1_000) + word(2_000) + b"\x77"
        yield bytes([bits]) + word(0) + word(0) + b"\x77"
    for name, data in (*refused_cards(), *unnamed_peaks(), *named_peaks()):
        yield data[:8]
    for bits in range(32):
        for first, second in ((1, 10_000), (10_000, 1), (0, 1), (1, 0), (10_001, 1), (1, 10_001), (256, 257),
                              (0, 0), (0, 10_000), (10_000, 0), (0, 10_001), (10_001, 0), (0, 9_999), (9_999, 0)):
            yield bytes([bits]) + word(first) + word(second)
        for length in range(6):
            yield (bytes([bits]) + word(1_234) + word(5_678))[:length]
            yield bytes([bits, 0, 0, 0, 0])[:length]
    # 2 comes before 3 and 4, with bits 3 and 4 and without them
    for bits in (0x21, 0x2B, 0x33, 0x5A, 0x9F, 0xE3, 0xFF):
        for length in (1, 2, 4):
            yield (bytes([bits]) + word(10_001) + word(0))[:length]


def row_calls():
    """Arguments of the row call: peak, row, bytes of the destination, first, end."""
    big = 2**64 - 1
    random = Random(56_789)
    four = row(*(draw_pixel(random, 4_000) for _ in range(4)))
    bad = row((64, 3, 64), (64, 64, 1_020), (70, 71, 72), (0, 64, 65_535))
    none = (0, 10_001, 2**16 + 1_000, 2**32 + 1_000, 2**63, big)
    for first in range(5):
        for end in range(first, 5):
            yield 4_000, four, 24, first, end
            yield 4_000, bad, 24, first, end
    for peak in none:
        yield peak, four, 24, 0, 4
        yield peak, bad[:5], 7, 2, 1
    for length in (1, 2, 3, 4, 5, 7, 23):
        yield 1_000, four[:length], length, 0, 0
        yield 1_000, four[:length], 24, 1, 0
    yield 1_000, bytes(49_158), 49_158, 0, 0
    yield 1_000, bytes(49_158), 49_158, 0, 8_193
    yield 1_000, bytes(49_152), 49_152, 0, 0
    yield 1_000, bytes(49_152), 49_152, 8_191, 8_192
    yield 1_000, bytes(49_152), 49_152, 8_192, 8_192
    yield 1_000, bytes(49_152), 49_152, 8_192, 8_193
    for length in (0, 18, 23, 25, 30):
        yield 1_000, four, length, 0, 4
        yield 1_000, bad, length, 3, 2
    for first, end in ((1, 0), (4, 3), (5, 5), (0, 5), (5, 4), (0, big), (big, big), (big, 0), (2**63, 2**63)):
        yield 1_000, four, 24, first, end
        yield 1_000, bad, 24, first, end
    for first, end in ((0, 0), (0, 1), (1, 1), (1, 0), (big, big)):
        yield 1_000, b"", 0, first, end
    yield 1_000, b"", 6, 0, 0
    for peak, pixels in UNIT_PIXELS.items():
        yield peak, row(*pixels), 6 * len(pixels), 0, len(pixels)


def luma_beside_halves(random):
    """RGB codes whose luma is a half, or a ten-thousandth of a code beside one."""
    inverse = pow(593, -1, 10_000)
    for beside in (4_999, 5_000, 5_001):
        for _ in range(400):
            r, g = random.choices(range(956), k=2)
            b = (beside - 2_627 * r - 6_780 * g) * inverse % 10_000
            if b < 956:
                yield 64 + r, 64 + g, 64 + b


def differences_beside_halves(own, other):
    """Differences of codes, u and v, that bring a chroma nearest to a half: three pairs on either side.

    A chroma of request 04 is 112 (own u + other v) / (219 own); where u grows by 219 it moves by a whole number.
    """
    def beside(pair):
        return 224 * (own * pair[0] + other * pair[1]) % (438 * own) - 219 * own
    pairs = [(u, v) for u in range(219) for v in range(-955, 956)]
    above, below = ([pair for pair in pairs if sign * beside(pair) > 0] for sign in (1, -1))
    return nsmallest(3, above, beside) + nlargest(3, below, beside)


def chroma_beside_halves(random):
    """RGB codes whose Cb, then Cr, is as near to a half as can be; none is a half."""
    chroma = (((9_407, 2_627), lambda g, u, v: (g - v, g, g + u)),      # Cb counts b - g and g - r
              ((7_373, 593), lambda g, u, v: (g + u, g, g - v)))        # Cr counts r - g and g - b
    for weights, codes in chroma:
        for least, v in differences_beside_halves(*weights):
            for u in range(least - 5 * 219, 956, 219):
                greens = range(64 + max(0, -u, v), 1_020 - max(0, u, -v))
                if greens:
                    yield codes(random.choice(greens), u, v)


def refused_codes():
    """Refusal 14: one code out of range at each place, several at once, and numbers up to 64 bits."""
    for bad in (0, 3, 63, 1_020, 1_023, 1_024, 2**16 + 64, 2**32 + 500, 2**63 + 100, 2**64 - 64, 2**64 - 1):
        for codes in ((bad, 64, 940), (64, bad, 1_019), (500, 600, bad), (bad, bad, 64), (1_019, bad, bad), (bad, bad, bad)):
            yield codes
    yield 0, 1_020, 64
    yield 64, 2**64 - 1, 63
    yield 2**64 - 1, 3, 2**32 + 64


def ycbcr_codes():
    """RGB codes for the Y'CbCr pixel call."""
    random = Random(7_604)
    lowest, highest = 64, 1_019
    for code in range(lowest, highest + 1):
        yield code, code, code
    yield from CORNER_CODES
    yield from product((lowest, lowest + 1, highest - 1, highest), repeat=3)
    for ends in product((lowest, highest), repeat=2):
        for code in range(lowest, highest, 45):
            yield (code, *ends)
            yield ends[0], code, ends[1]
            yield (*ends, code)
    yield from luma_beside_halves(random)
    yield from chroma_beside_halves(random)
    for _ in range(2_000):
        yield tuple(random.choices(range(lowest, highest + 1), k=3))
    yield from refused_codes()


def light_questions():
    """Questions to the calls on lights and positions: the call and its number."""
    random = Random(897_024)
    large = (2**16, 2**32, 2**32 + 65, 2**63, 2**64 - 1)
    for k in (*range(LAST + 2), *large):
        yield "entry", k
    for D in (*range(1_025), *large):
        yield "code", D
    cells = [STEPS * k + beside for k in range(0, LAST + 1, 73) for beside in (-1, 0, 1, 128)][1:]
    for q in (*range(300), *cells, *random.sample(range(END), 2_000), *range(END - 300, END + 2), *large):
        yield "light", q
    # the darkest lights, every whole peak, lights about entries
    about = [int(guess(k)[1]) + beside for k in range(1, LAST, 8) for beside in (-1, 0, 1, 2)]
    for light in (*range(100), *(L * N for L in range(1, 10_001)), *about, 10_000 * N - 1, 10_000 * N + 1, *large):
        yield "position", light


def records():
    """Questions to the measuring run: the five fields of a record (rows, pixels, position, row, pixel) and a row."""
    most_rows, top = 4_294_967_295, 2**64 - 1
    ends = (most_rows, 8_192 * most_rows, 897_024, most_rows - 1, 8_191)
    fresh, mid = (0, 0, 0, 0, 0), (41, 82, 1_024 * (700 - 64), 17, 1)
    code = {D: row((D, D, D)) for D in (4, 63, 64, 65, 66, 699, 700, 701, 939, 940, 941, 1_019)}
    sound = (b"", *code.values(), row((699, 4, 64), (64, 701, 701), (701, 4, 4), (64, 700, 64)), row(BLACK, BLACK, (64, 64, 65)),
             row(*CORNERS), row((940, 4, 4), (4, 1_019, 4)), row((4, 4, 4), BLACK, (63, 64, 4)))
    refused = (bytes(1), bytes(5), code[700] + bytes(1), code[700][:-1], bytes(49_158), row((64, 64, 3)), row((1_020, 64, 64), (3, 3, 3)),
               row(WHITE, RED, (64, 65_535, 64)), row(BLACK, (4, 4, 1_019), (0, 0, 0)), row(WHITE, (16_384, 64, 64)) + bytes(3))
    for record in (fresh, mid):
        for data in (*sound, *refused):
            yield record, data
    # a run: each record is the one that the row before gave
    yield (1, 1, 1_024, 0, 0), code[65]
    yield (2, 2, 1_024, 0, 0), code[66]
    yield (3, 3, 2_048, 2, 0), b""
    yield (4, 3, 2_048, 2, 0), row(BLACK, (66, 66, 66))
    # rows of no pixel before the first pixel, and a brightest light where there is no pixel
    for data in (b"", code[4], code[64], code[65], row(BLACK, BLACK), row(BLACK, (65, 64, 64))):
        yield (3, 0, 0, 0, 0), data
        yield (3, 0, 897_024, 2, 5), data
        yield (0, 7, 0, 0, 0), data
    # the wide rows
    for record in (fresh, (7, ends[1] - 8_191, 0, 0, 0)):
        yield record, bytes([2]) * 49_152
        yield record, bytes([2]) * 49_146 + code[701]
        yield record, bytes([2]) * 49_150 + b"\x04\x00"
    yield mid, bytes([2]) * 49_158
    # positions beside those of codes, and where several have one light
    for position in (0, 1, 2, 3, 4, 1_023, 1_024, 1_025, 651_263, 651_264, 651_265, 652_287, 652_288, 652_289, 896_000, 896_001, 897_023, 897_024):
        for data in (code[64], code[65], code[700], code[701], code[939], code[940], code[1_019]):
            yield (9, 9, position, 3, 3), data
    # fields at and past the ends of their ranges, each alone and all together; 13 before 6 and 9
    for data in (b"", code[64], row(WHITE, (940, 64, 64)), bytes(7), row(BLACK, (64, 64, 3))):
        for field, end in enumerate(ends):
            for value in (end - 1, end, end + 1, 2**32, 2**63, top):
                yield (*mid[:field], value, *mid[field + 1:]), data
        for more in (-1, 0, 1):
            yield tuple(end + more for end in ends), data
        yield (top,) * 5, data
        yield (most_rows - 1, *[top] * 4), data
        yield (most_rows - 1, 0, 0, 0, 0), data
        yield (most_rows, 0, 0, 0, 0), data
        yield (2**32 + 5, 5, 5, 5, 5), data
        yield (5, 2**64 - 2, 2**32 + 5, 2**32 + 5, 2**32 + 5), data
    for pixels in (ends[1] - 3, ends[1] - 2, ends[1] - 1, ends[1], ends[1] + 1):
        yield (0, pixels, 0, 0, 0), row(BLACK, WHITE)
