"""Document 01, "Cards, rows, program", with request 06: a title as the programs read it, from its first byte to its last row."""

from .metadata import card_length, has_unknown_bit, source_of_metadata
from .refusal import Refused, refuse_samples
from .row import MOST_ROWS, PIXEL_BYTES, WIDEST, samples_of


def read_card(read):
    """The card's own bytes, as many as there are of them."""
    card = read(1)
    if card and not has_unknown_bit(card[0]):
        card += read(card_length(card[0]) - 1)
    return card


def read_width(read):
    """The pixels of a row; refusal 10."""
    data = read(2)
    width = int.from_bytes(data, "big")
    if len(data) < 2 or not 1 <= width <= WIDEST:
        raise Refused(10)
    return width


def read_opening(read):
    """The declared source and the width; refusals 1 to 4, then 17, then 10."""
    return source_of_metadata(read_card(read)), read_width(read)


def read_rows(read, width, form, most_rows=MOST_ROWS):
    """The rows one by one, as bytes; refusal 11 before 9. What follows the last one that may be read stays unread."""
    for _ in range(most_rows):
        row = read(PIXEL_BYTES * width)
        if not row:
            return
        if len(row) < PIXEL_BYTES * width:
            raise Refused(11)
        refuse_samples(samples_of(row), form)
        yield row
