"""Row calls with something wrong in them, often several things at once, and sound ones between.

What is wrong is drawn by lot; what the answer should be is not known here.
"""

from itertools import product

from tests.reference.cases import row_calls
from tests.reference.format_cases import format_row_calls
from tests.reference.row import PIXEL_BYTES, WIDEST
from tests.reference.sample_format import FORMATS, format_of
from tests.reference.samples import MARKED_PEAKS, beyond

from .engine import DST_AT_START, DST_NULL, ROW_AT_START, ROW_NULL, YCBCR, Call

TOP = 2**64 - 1                          # SIZE_MAX
LONG = PIXEL_BYTES * WIDEST              # the longest row, 49,152 bytes
SHORT_SPAN = 24                          # pixels that a long accepted call converts
BAD_PEAKS = (0, 10_001, 10_002, 2**16, 2**16 + 1_000, 2**32, 2**32 + 4_000, 2**63, TOP - 1, TOP)
ODD_SAMPLES = (0, 1, 2, 3, 15, 1_020, 1_021, 1_023, 1_024, 1_024 + 500, 4_079, 4_080, 4_095, 4_096, 4_096 + 500, 0x4000, 0xAC03, 2**15 + 64, 65_535)
READ = 8 | 16                            # the bits of a format that are read
UNTOUCHABLE = (2**17, 2**32, 2**32 + 6, 2**32 + LONG, 2**33 + 12)
# The products 2, 3 and 6 times such a number wrap round to a small one.
WRAPPING = (2**63, 2**63 + 1, 2**64 // 3 + 1, 2**64 // 6 + 1, 2**65 // 6 + 1, 2**32, 2**32 + 1)


def draw_format(random, form=None):
    """The number of a format, of any or of a given one; every second has bits that are not read."""
    number = (form or random.choice(FORMATS)).number
    return random.choice((number, number | random.choice((random.randrange(2**64), 1 << random.randrange(64), TOP)) & ~READ))


def draw_row(random, pixels, form):
    """A row of accepted samples; a long one repeats a short one, so that it is soon made."""
    some = min(pixels, 64)
    samples = random.choices(form.taken, k=3 * some)
    part = b"".join(sample.to_bytes(2, "big") for sample in samples)
    return bytearray((part * (pixels // some + 1))[:PIXEL_BYTES * pixels] if pixels else b"")


def draw_pixels(random):
    """The count of pixels: mostly few, now and then up to the most."""
    lot = random.random()
    if lot < 0.70:
        return random.randint(0, 12)
    if lot < 0.95:
        return random.randint(0, 170)
    return random.choice((random.randint(0, WIDEST), WIDEST - 1, WIDEST))


def draw_span(random, pixels):
    """A sound span, often to an end of the row; short if the row is long."""
    first = random.choice((0, random.randint(0, pixels), max(0, pixels - random.randint(0, SHORT_SPAN))))
    end = min(pixels, first + random.randint(0, SHORT_SPAN)) if pixels > 170 else random.randint(first, pixels)
    return first, end


def spoil_peak(random, call):
    """A peak out of range."""
    call["peak"] = random.choice((*BAD_PEAKS, random.randint(10_001, 20_000), random.randint(10_001, TOP)))


def spoil_length(random, call):
    """A row that ends within a pixel, is any length up to just above the longest, or too long by far."""
    row, lot = call["row"], random.randrange(6)
    if lot < 3 and row:
        del row[-random.randint(1, min(5, len(row))):]
    elif lot == 3:
        row.extend(random.randbytes(random.randint(1, 5)))
    elif lot == 4:
        length = random.choice((random.randint(0, LONG + 6), random.randint(LONG - 6, LONG + 6), LONG + 6))
        call["row"] = bytearray((bytes(row) or b"\0\x40") * (length // max(len(row), 2) + 1))[:length]
    else:
        call["row"] = range(random.choice(UNTOUCHABLE))
    call["dst_len"] = len(call["row"])


def spoil_destination(random, call):
    """A destination of another length."""
    length = len(call["row"])
    call["dst_len"] = random.choice((
        0, 6, length + 1, length + 6, max(0, length - 1), max(0, length - 6), min(2 * length, 65_536),
        random.randint(0, LONG + 6), LONG, random.choice(UNTOUCHABLE)))


def spoil_span(random, call):
    """First above end, end above the pixels, or either near the largest number."""
    call["first"], call["end"] = wrong_span(random, call["first"], call["end"], len(call["row"]) // PIXEL_BYTES)


def wrong_span(random, first, end, pixels):
    """Such a span, made of a sound one of a row of so many pixels."""
    near = TOP - random.randint(0, 12)
    return random.choice((
        (end + 1, end), (end + random.randint(1, 9), first), (first, pixels + 1), (pixels + 1, pixels + 1),
        (pixels + 1, pixels), (first, near), (near, near), (near, end), (near, TOP), (TOP, TOP), (TOP, 0),
        (0, TOP), (first, random.choice(WRAPPING)), (random.choice(WRAPPING), random.choice(WRAPPING)),
        (random.choice(WRAPPING), end), (random.randint(0, TOP), random.randint(0, TOP))))


def spoil_samples(random, call):
    """Samples that the format refuses, or another one does, anywhere, at the span's edges, or just outside it."""
    row = call["row"]
    samples = len(row) // 2
    if not isinstance(row, bytearray) or not samples:
        return
    edges = [3 * call["first"] - 1, 3 * call["first"], 3 * call["end"] - 1, 3 * call["end"]]
    inside = range(samples)[3 * call["first"]:3 * call["end"]] or edges
    refused = beyond(format_of(call["format"]))
    for _ in range(random.choice((1, 1, 2, 5))):
        place = random.choice((random.choice(edges), random.choice(inside), random.randrange(samples)))
        if 0 <= place < samples:
            bad = random.choice((*refused, *ODD_SAMPLES, random.randint(1_020, 65_535)))
            row[2 * place:2 * place + 2] = bad.to_bytes(2, "big")


SPOILS = (spoil_peak, spoil_length, spoil_destination, spoil_span, spoil_samples, spoil_samples)


def draw_options(random):
    """Where the bytes lie and what the destination holds; no bytes may be a null pointer."""
    return random.randrange(256) + sum(
        bit for bit in (ROW_AT_START, DST_AT_START, ROW_NULL, DST_NULL) if random.randrange(2))


def draw_call(random):
    """Options that choose one of the two calls as well."""
    return draw_options(random) + random.choice((0, YCBCR))


def draw_damaged(random, form=None):
    """A call with no, one or several things wrong, in any format or in a given one."""
    pixels, number = draw_pixels(random), draw_format(random, form)
    first, end = draw_span(random, pixels)
    call = {"peak": random.choice((random.choice(MARKED_PEAKS), random.randint(1, 10_000))), "format": number,
            "row": draw_row(random, pixels, format_of(number)), "dst_len": PIXEL_BYTES * pixels, "first": first, "end": end}
    for spoil in random.sample(SPOILS, random.choice((0, 1, 1, 1, 1, 2, 2, 3, 6))):
        spoil(random, call)
    if isinstance(call["row"], bytearray):
        call["row"] = bytes(call["row"])
    return Call(options=draw_call(random), **call)


def calls_of_lengths(random, count):
    """Rows of so many lengths, all of those up to just above the longest if count allows; the last pixel
    is converted."""
    rows, lengths = {form: bytes(draw_row(random, WIDEST + 1, form)) for form in FORMATS}, range(LONG + 7)
    for length in lengths if count == len(lengths) else sorted(random.sample(lengths, count)):
        pixels, form = length // PIXEL_BYTES, random.choice(FORMATS)
        yield Call(random.randint(1, 10_000), rows[form][:length], length, max(0, pixels - 1), pixels, draw_call(random), draw_format(random, form))


def each_refusal(random):
    """Of each format and each of the two calls one that is accepted, and one with a single thing wrong for each refusal."""
    for form, delivery in product(FORMATS, (0, YCBCR)):
        row = bytes(draw_row(random, 2, form))
        bad = row[:8] + random.choice(beyond(form)).to_bytes(2, "big") + row[10:]
        for peak, data, length, first, end in ((4_000, row, 12, 0, 2), (10_001, row, 12, 0, 2), (4_000, row[:-1], 11, 0, 1),
                                               (4_000, row, 6, 0, 2), (4_000, row, 12, 0, 3), (4_000, bad, 12, 0, 2)):
            yield Call(peak, data, length, first, end, draw_options(random) + delivery, draw_format(random, form))


def named_calls(random):
    """The calls that are also stored as vectors."""
    for number, *call in (*((0, *call) for call in row_calls()), *format_row_calls()):
        yield Call(*call, draw_call(random), number)
