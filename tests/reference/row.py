"""Document 01, "Cards, rows, program", with requests 04 and 06: the two row calls to HLG and the one number that C gets from them.

Both make the same HLG codes and differ in what they write of them: `rgb` or `ycbcr.ycbcr`. What they test and how they write serves the
return path and linear rows too.
"""

from functools import lru_cache

from .pixel import hlg_codes
from .refusal import Refused, refuse_peak, refuse_samples
from .sample_format import TEN_NARROW, format_of

PIXEL_BYTES = 6
WIDEST = 8_192
MOST_ROWS = 4_294_967_295      # of a title, and of a measuring run


def samples_of(row):
    """The 16-bit samples of a row, high byte first."""
    return [high << 8 | low for high, low in zip(row[0::2], row[1::2])]


def pixels_of(samples):
    """Samples in threes: red, green, blue."""
    return list(zip(samples[0::3], samples[1::3], samples[2::3]))


def refuse_length(row):
    """Refusal 6."""
    if len(row) % PIXEL_BYTES or len(row) > PIXEL_BYTES * WIDEST:
        raise Refused(6)


def refuse_placing(destination, length, first, end):
    """Refusals 7 and 8: a destination of another length than it should have, a span that is reversed or goes past it."""
    if len(destination) != length:
        raise Refused(7)
    if first > end or end > length // PIXEL_BYTES:
        raise Refused(8)


def rgb(codes):
    """What the RGB row call writes of a pixel: its HLG codes as they are."""
    return codes


@lru_cache(maxsize=1)
def span_codes(L, span, form):
    """The HLG codes of a span's pixels. The last ones are kept, for the other call on the same row."""
    return [hlg_codes(L, pixel, form) for pixel in pixels_of(samples_of(span))]


def tested_span(row, destination, first, end, form=TEN_NARROW):
    """The bytes of the span from `first` up to `end`, itself not included, as a slice; refusals 6 to 9 in this order."""
    refuse_length(row)
    refuse_placing(destination, len(row), first, end)
    span = slice(PIXEL_BYTES * first, PIXEL_BYTES * end)
    refuse_samples(samples_of(row[span]), form, 3 * first)
    return span


def write_span(destination, span, pixels):
    """Writes pixels of three samples each to a slice of a bytearray."""
    destination[span] = b"".join(sample.to_bytes(2, "big") for pixel in pixels for sample in pixel)


def convert_row(L, row, destination, first, end, written=rgb, form=TEN_NARROW):
    """Converts the span from `first` up to `end`, itself not included, and writes it to its places in `destination`, a bytearray.

    `written` makes the three samples of a pixel of its HLG codes. Refusals 5 to 9 in this order; a refused call writes nothing.
    """
    refuse_peak(L)
    span = tested_span(row, destination, first, end, form)
    write_span(destination, span, map(written, span_codes(L, bytes(row[span]), form)))


def number_for_c(call, *arguments):
    """What C gets of a call: 0, or of a refusal its number and 256 times its place added up."""
    try:
        call(*arguments)
    except Refused as refused:
        return refused.number + 256 * refused.place
    return 0


def c_number(L, number, row, destination, first, end, written=rgb):
    """One number for C. `number` declares the format."""
    return number_for_c(convert_row, L, row, destination, first, end, written, format_of(number))
