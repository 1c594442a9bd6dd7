"""The row call on linear values beside the second implementation: floats of every kind, lengths and damaged calls.

What is drawn here is compared by compare.py. A row is an array of 32-bit patterns, so that its length counts floats.
"""

from array import array
from itertools import islice

from tests.reference.linear import c_number
from tests.reference.linear_cases import (FRACTION, INFINITY, REFUSED, SIGN, TEN_THOUSAND, beside, draw_dim, draw_entry, draw_finite, draw_light,
                                          draw_odd, draw_pixel, draw_signal, grey, knee_light, of_light, row_calls, step_pixels)
from tests.reference.refusal import MOST_FLOATS
from tests.reference.samples import MARKED_PEAKS, draw_peaks

from .damaged import draw_options, draw_pixels, draw_span, spoil_peak, wrong_span
from .engine import LINEAR, Call

STEPS = 4                                # pairs of pixels beside a step in a row of delicate ones
FALLING = (1_967, 2_845, 7_388, 7_497, 7_949, 9_614)     # peaks under which a grey's code falls at the knee
UNTOUCHABLE = (2**17, 2**30 + 1, 2**30 + 3, 2**31 + MOST_FLOATS, 2**32 - 1, 2**32)      # floats
BROKEN = (*REFUSED, *REFUSED[:2])        # infinities as often as both kinds of what is no number
KINDS = (draw_finite, draw_light, draw_light, draw_signal, draw_entry, draw_odd, draw_dim)


def row_of(pixels):
    """The floats of a row."""
    return array("I", [bits for pixel in pixels for bits in pixel])


def linear_call(random, L, row, length, first, end):
    """A call on linear values, placed by lot."""
    return Call(L, row if isinstance(row, range) else array("I", row), length, first, end, draw_options(random) + LINEAR)


def whole_row(random, L, pixels):
    """A call that converts all of a row."""
    row = row_of(pixels)
    return linear_call(random, L, row, 2 * len(row), 0, len(pixels))


def draw_broken(random):
    """A float that is infinite or no number."""
    return random.choice((random.choice(BROKEN), INFINITY + random.randrange(FRACTION) + random.randrange(2) * SIGN))


def random_rows(random, count, pixels):
    """Rows of floats of one kind or of all kinds: any patterns, lights evenly by their logarithm or by their signal, up to above 10,000 cd/m2, beside
    table entries, dim ones, zeros, subnormal and negative ones. Of every sixteenth row some floats are infinite or no numbers."""
    for number in range(count // pixels):
        kind = random.choice((*KINDS, None))
        row = array("I", [(kind or random.choice(KINDS))(random) for _ in range(3 * pixels)])
        if number % 16 == 0:
            for _ in range(random.choice((1, 1, 2, 9))):
                row[random.randrange(len(row))] = draw_broken(random)
        first = random.choice((0, 0, 0, random.randrange(pixels)))
        yield linear_call(random, random.randint(1, 10_000), row, 2 * len(row), first, pixels)


def delicate_rows(random, count, pixels):
    """Greys beside entries of the light table and beside the knee, under marked peaks and those under which a grey falls there; then rows of pixels
    drawn where it is delicate, some of them beside a step of a code."""
    greys = (*MARKED_PEAKS, *FALLING)
    for L in greys:
        yield whole_row(random, L, [grey(bits) for bits in (*beside(of_light(knee_light(L)), 3), *(draw_entry(random) for _ in range(5 * pixels - 7)))])
    peaks = draw_peaks(random, 2_000)
    for _ in range(count // pixels - 5 * len(greys)):
        L = random.choice(peaks)
        steps = list(step_pixels(random, L, STEPS))
        yield whole_row(random, L, steps + [draw_pixel(random, L) for _ in range(pixels - len(steps))])


def draw_row(random, pixels):
    """A row of finite floats; a long one repeats a short one, so that it is soon made."""
    some = min(pixels, 64)
    part = array("I", [random.choice(KINDS)(random) for _ in range(3 * some)])
    return (part * (pixels // some + 1))[:3 * pixels] if pixels else part


def calls_of_lengths(random, count):
    """Rows of so many lengths, all of those up to just above the longest if count allows; the last pixel is converted."""
    lengths = range(MOST_FLOATS + 4)
    row = draw_row(random, len(lengths) // 3 + 1)
    for length in lengths if count == len(lengths) else sorted(random.sample(lengths, count)):
        yield linear_call(random, random.randint(1, 10_000), row[:length], 2 * length, max(0, length // 3 - 1), length // 3)


def spoil_length(random, call):
    """A row that ends within a pixel, is any length up to just above the longest, or too long by far."""
    row, lot = call["row"], random.randrange(6)
    if lot < 3 and len(row):
        del row[-random.randint(1, min(2, len(row))):]
    elif lot == 3:
        row.extend(draw_finite(random) for _ in range(random.randint(1, 2)))
    elif lot == 4:
        length = random.choice((random.randint(0, MOST_FLOATS + 3), random.randint(MOST_FLOATS - 3, MOST_FLOATS + 3), MOST_FLOATS + 3))
        call["row"] = ((row or array("I", [TEN_THOUSAND])) * (length // max(len(row), 1) + 1))[:length]
    else:
        call["row"] = range(random.choice(UNTOUCHABLE))
    call["dst_len"] = 2 * len(call["row"])


def spoil_destination(random, call):
    """A destination of another length: as many bytes as floats, as the row has, or as a row of codes may have among them."""
    floats = len(call["row"])
    call["dst_len"] = random.choice((
        0, 6, floats, 3 * floats, 4 * floats, 2 * floats + 1, 2 * floats + 6, max(0, 2 * floats - 1), max(0, 2 * floats - 6),
        random.randint(0, 2 * MOST_FLOATS + 6), 2 * MOST_FLOATS, random.choice(UNTOUCHABLE)))


def spoil_span(random, call):
    """A span that is reversed or goes past the row."""
    call["first"], call["end"] = wrong_span(random, call["first"], call["end"], len(call["row"]) // 3)


def spoil_values(random, call):
    """Floats that are infinite or no numbers, anywhere, at the span's edges, or just outside it."""
    row = call["row"]
    if isinstance(row, range) or not len(row):
        return
    edges = [3 * call["first"] - 1, 3 * call["first"], 3 * call["end"] - 1, 3 * call["end"]]
    inside = range(len(row))[3 * call["first"]:3 * call["end"]] or edges
    for _ in range(random.choice((1, 1, 2, 5))):
        place = random.choice((random.choice(edges), random.choice(inside), random.randrange(len(row))))
        if 0 <= place < len(row):
            row[place] = draw_broken(random)


SPOILS = (spoil_peak, spoil_length, spoil_destination, spoil_span, spoil_values, spoil_values)


def draw_damaged(random):
    """A call with no, one or several things wrong."""
    pixels = draw_pixels(random)
    first, end = draw_span(random, pixels)
    call = {"peak": random.choice((random.choice(MARKED_PEAKS), random.randint(1, 10_000))), "row": draw_row(random, pixels), "dst_len": 6 * pixels,
            "first": first, "end": end}
    for spoil in random.sample(SPOILS, random.choice((0, 1, 1, 1, 1, 2, 2, 3, 6))):
        spoil(random, call)
    return linear_call(random, *call.values())


def each_refusal(random):
    """A call that is accepted, and one with a single thing wrong for each refusal."""
    row = draw_row(random, 2)
    bad = row[:4] + array("I", [draw_broken(random)]) + row[5:]
    for L, floats, length, first, end in ((4_000, row, 12, 0, 2), (10_001, row, 12, 0, 2), (4_000, row[:-1], 10, 0, 1), (4_000, row, 6, 0, 2),
                                          (4_000, row, 12, 0, 3), (4_000, bad, 12, 0, 2)):
        yield linear_call(random, L, floats, length, first, end)


def damaged_calls(random, count):
    """Every refusal, the calls that are stored, then calls with things wrong by lot."""
    sure = list(each_refusal(random))
    named = [*sure, *islice((linear_call(random, *call) for call in row_calls(random)), (count - len(sure)) // 2)]
    yield from named
    for _ in range(count - len(named)):
        yield draw_damaged(random)


def wanted_number(call, destination):
    """The number by the second implementation, which fills the destination."""
    return c_number(call.peak, call.row, destination, call.first, call.end)
