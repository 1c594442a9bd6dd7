"""The row call on sRGB beside the second implementation: colours of captions, lengths and damaged calls.

What is drawn here is compared by compare.py.
"""

from itertools import islice

from tests.reference.refusal import MOST_BYTES
from tests.reference.srgb import WHITE, c_number
from tests.reference.srgb_cases import CORNERS, NEAR_COLOURS, draw_colour, draw_even, grey, row, row_calls

from .damaged import draw_options, draw_pixels, draw_span, wrong_span
from .engine import SRGB, Call

# Bytes; some are whole pixels, some would be if 32 bits held them.
UNTOUCHABLE = (2**17 + 1, 2**32 - 1, 2**32 + 2, 2**32, 2**32 + 6, 2**32 + MOST_BYTES, 2**33 + 1)


def srgb_call(random, data, length, first, end):
    """A call on sRGB, placed by lot; its peak and format are not passed on."""
    return Call(0, data, length, first, end, draw_options(random) + SRGB)


def whole_row(random, colours):
    """A call that converts all of a row."""
    data = row(*colours)
    return srgb_call(random, data, 2 * len(data), 0, len(colours))


def random_rows(random, count, pixels):
    """Rows of colours drawn evenly from all."""
    for _ in range(count // pixels):
        data = random.randbytes(3 * pixels)
        yield srgb_call(random, data, 2 * len(data), 0, pixels)


def delicate_rows(random, count, pixels):
    """All greys, the corners, the colours that lie nearest to a step, then rows of colours drawn where it is delicate, most of them beside a step."""
    yield whole_row(random, [grey(v) for v in range(WHITE + 1)])
    yield whole_row(random, CORNERS)
    yield whole_row(random, NEAR_COLOURS)
    for _ in range(count // pixels):
        yield whole_row(random, [draw_colour(random) for _ in range(pixels)])


def draw_row(random, pixels):
    """A row of any colours; a long one repeats a short one, so that it is soon made."""
    some = min(pixels, 64)
    part = row(*(draw_even(random) for _ in range(some)))
    return bytearray((part * (pixels // some + 1))[:3 * pixels] if pixels else b"")


def calls_of_lengths(random, count):
    """Rows of so many lengths, all of those up to just above the longest if count allows; the last pixel is converted."""
    lengths = range(MOST_BYTES + 4)
    data = bytes(draw_row(random, len(lengths) // 3 + 1))
    for length in lengths if count == len(lengths) else sorted(random.sample(lengths, count)):
        yield srgb_call(random, data[:length], 2 * length, max(0, length // 3 - 1), length // 3)


def spoil_length(random, call):
    """A row that ends within a pixel, is any length up to just above the longest, or too long by far."""
    data, lot = call["row"], random.randrange(6)
    if lot < 3 and data:
        del data[-random.randint(1, min(2, len(data))):]
    elif lot == 3:
        data.extend(random.randbytes(random.randint(1, 2)))
    elif lot == 4:
        length = random.choice((random.randint(0, MOST_BYTES + 3), random.randint(MOST_BYTES - 3, MOST_BYTES + 3), MOST_BYTES + 3, 2 * MOST_BYTES))
        call["row"] = bytearray((bytes(data) or b"\0") * (length // max(len(data), 1) + 1))[:length]
    else:
        call["row"] = range(random.choice(UNTOUCHABLE))
    call["dst_len"] = 2 * len(call["row"])


def spoil_destination(random, call):
    """A destination of another length: as many bytes as the row has, or as a row of codes may have among them."""
    length = len(call["row"])
    call["dst_len"] = random.choice((
        0, 6, length, 3 * length, 2 * length + 1, 2 * length + 6, max(0, 2 * length - 1), max(0, 2 * length - 6),
        random.randint(0, 2 * MOST_BYTES + 6), MOST_BYTES, 2 * MOST_BYTES, random.choice(UNTOUCHABLE)))


def spoil_span(random, call):
    """A span that is reversed or goes past the row."""
    call["first"], call["end"] = wrong_span(random, call["first"], call["end"], len(call["row"]) // 3)


SPOILS = (spoil_length, spoil_destination, spoil_span)


def draw_damaged(random):
    """A call with no, one or several things wrong."""
    pixels = draw_pixels(random)
    first, end = draw_span(random, pixels)
    call = {"row": draw_row(random, pixels), "dst_len": 6 * pixels, "first": first, "end": end}
    for spoil in random.sample(SPOILS, random.choice((0, 1, 1, 1, 2, 2, 3))):
        spoil(random, call)
    if isinstance(call["row"], bytearray):
        call["row"] = bytes(call["row"])
    return srgb_call(random, *call.values())


def each_refusal(random):
    """A call that is accepted, and one with a single thing wrong for each refusal."""
    data = bytes(draw_row(random, 2))
    for given, length, first, end in ((data, 12, 0, 2), (data[:-1], 10, 0, 1), (data, 6, 0, 2), (data, 12, 0, 3)):
        yield srgb_call(random, given, length, first, end)


def damaged_calls(random, count):
    """Every refusal, the calls that are stored, then calls with things wrong by lot."""
    sure = list(each_refusal(random))
    named = [*sure, *islice((srgb_call(random, *call) for call in row_calls(random)), (count - len(sure)) // 2)]
    yield from named
    for _ in range(count - len(named)):
        yield draw_damaged(random)


def wanted_number(call, destination):
    """The number by the second implementation, which fills the destination."""
    return c_number(call.row, destination, call.first, call.end)
