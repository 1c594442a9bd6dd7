"""Document 01, "What stops a call", and the requests since: a refusal's number and its place."""

from .sample_format import TEN_NARROW

PEAK_TOP = 10_000
LOWEST_CODE, HIGHEST_CODE = 64, 1_019          # of HLG
MOST_FLOATS = MOST_BYTES = 24_576              # of a row of floats, of one of sRGB values: three to a pixel
EXPONENT = 0x7F80_0000                         # bits of a float that all stand where it is infinite or not a number


class Refused(Exception):
    """A call's refusal; the place is 0 except for numbers 9 and 16."""

    def __init__(self, number, place=0):
        super().__init__(number, place)
        self.number, self.place = number, place


def refuse_peak(L):
    """Refusal 5."""
    if not 1 <= L <= PEAK_TOP:
        raise Refused(5)


def refuse_samples(samples, form=TEN_NARROW, first=0):
    """Refusal 9 at the first sample that the format does not take; `first` is the place of the first one given."""
    taken = form.taken
    for place, sample in enumerate(samples, first):
        if sample not in taken:
            raise Refused(9, place)


def refuse_codes(codes):
    """Refusal 14 if an RGB code is out of range; its place is 0, whichever code that is."""
    if not all(LOWEST_CODE <= code <= HIGHEST_CODE for code in codes):
        raise Refused(14)


def refuse_floats(row):
    """Refusal 15."""
    if len(row) % 3 or len(row) > MOST_FLOATS:
        raise Refused(15)


def is_finite(bits):
    """Whether the float of a pattern is neither infinite nor not a number."""
    return bits & EXPONENT != EXPONENT


def refuse_values(values, first=0):
    """Refusal 16 at the first float that is infinite or not a number; `first` is the place of the first one given."""
    for place, bits in enumerate(values, first):
        if not is_finite(bits):
            raise Refused(16, place)


def refuse_bytes(row):
    """Refusal 18."""
    if len(row) % 3 or len(row) > MOST_BYTES:
        raise Refused(18)
