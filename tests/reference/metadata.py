"""Document 01, "Cards, rows, program", with requests 02, 06, 07 and 12: the card that opens a title and declares its source, and how one that names no
peak is rewritten."""

from typing import NamedTuple

from .refusal import PEAK_TOP, Refused
from .sample_format import FULL_RANGE, TWELVE_BITS, Format, format_of

MAXCLL, MASTERING_PEAK, UNCONSTRAINED = 1, 2, 4      # bits of the opening byte, beside those of the format
KNOWN = MAXCLL | MASTERING_PEAK | UNCONSTRAINED | TWELVE_BITS | FULL_RANGE
FIELD_BYTES = 2
REWRITTEN_PEAK = 4_000                               # what a card that names no peak is rewritten to


class Source(NamedTuple):
    """What a card declares: the peak in cd/m2, and the format of the samples."""
    peak: int
    form: Format


def has_unknown_bit(bits):
    """Whether a bit map has a bit that stands for nothing."""
    return bool(bits & ~KNOWN)


def card_length(bits):
    """Bytes of a card: the bit map and the fields whose bit stands."""
    return 1 + FIELD_BYTES * sum(bool(bits & bit) for bit in (MAXCLL, MASTERING_PEAK))


def card_fields(card):
    """The fields by their bit, in the order of the bits; refusals 1, 2, 3 and 4 in that order."""
    if not card:
        raise Refused(1)
    bits = card[0]
    if has_unknown_bit(bits):
        raise Refused(2)
    if len(card) < card_length(bits):
        raise Refused(3)
    fields, at = {}, 1
    for bit in (MAXCLL, MASTERING_PEAK):
        if bits & bit:
            fields[bit] = int.from_bytes(card[at:at + FIELD_BYTES], "big")
            at += FIELD_BYTES
    if max(fields.values(), default=0) > PEAK_TOP:
        raise Refused(4)
    return fields


def peak_of_metadata(card):
    """The declared peak in cd/m2 of the card that these bytes open with; fields of 0 are passed over, as if their bits were clear. Refusal 17 after 1 to 4."""
    fields = {bit: value for bit, value in card_fields(card).items() if value != 0}
    if MAXCLL in fields:
        return fields[MAXCLL]
    if card[0] & UNCONSTRAINED:
        return PEAK_TOP
    if MASTERING_PEAK not in fields:
        raise Refused(17)
    return fields[MASTERING_PEAK]


def source_of_metadata(card):
    """What the card that these bytes open with declares."""
    return Source(peak_of_metadata(card), format_of(card[0]))


def after_metadata(data):
    """The bytes that follow the card; the empty end of them if it is refused by 1 to 4. One refused by 17 ends where its last field does."""
    try:
        card_fields(data)
    except Refused:
        return data[len(data):]
    return data[card_length(data[0]):]


def rewritten_opening(data):
    """Three bytes to stand before `after_metadata` in the place of a card refused by 17; None for a card that names a peak. Refusals 1 to 4."""
    try:
        peak_of_metadata(data)
    except Refused as refused:
        if refused.number != 17:
            raise
        bits = format_of(data[0]).number | MASTERING_PEAK
        return bytes([bits]) + REWRITTEN_PEAK.to_bytes(FIELD_BYTES, "big")
    return None
