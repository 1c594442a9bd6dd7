"""The return path's row call beside the second implementation: HLG colours, damaged calls, and colours sent to PQ and back.

What is drawn here is compared by compare.py. How far colours come back is counted and printed; the request promises it of greys alone.
"""

from collections import Counter
from itertools import islice

from tests.reference.return_cases import UNIT_COLOURS, draw_colour, return_row_calls
from tests.reference.returned import TAKEN, c_number
from tests.reference.row import WIDEST
from tests.reference.sample_format import TEN_NARROW
from tests.reference.samples import beyond

from .damaged import LONG, draw_damaged, draw_options, draw_row
from .engine import RETURN, Call

NOMINAL = range(64, 941)                 # greys whose way there and back the request bounds
FARTHEST_GREY = 2                        # by so many codes
CUT = 723                                # the first PQ code above 1,000 cd/m2, which the way out cuts
SHOWN = 4                                # distances that are counted one by one; all larger ones together


def bytes_of(colours):
    """The bytes of a row."""
    return b"".join(code.to_bytes(2, "big") for colour in colours for code in colour)


def return_call(random, row, length, first, end):
    """A call of the return path, placed by lot; its peak and format are not passed on."""
    return Call(0, row, length, first, end, draw_options(random) + RETURN)


def whole_row(random, colours):
    """A call that converts all of a row."""
    row = bytes_of(colours)
    return return_call(random, row, len(row), 0, len(colours))


def delicate_rows(random, count, pixels):
    """All greys, the colours that hang on a unit of light, then rows of colours drawn where it is delicate."""
    yield whole_row(random, [(d, d, d) for d in TAKEN])
    yield whole_row(random, UNIT_COLOURS)
    for _ in range(count // pixels):
        yield whole_row(random, [draw_colour(random) for _ in range(pixels)])


def random_rows(random, count, pixels):
    """Rows of colours drawn evenly from all codes that are taken."""
    for _ in range(count // pixels):
        yield whole_row(random, [tuple(random.choices(TAKEN, k=3)) for _ in range(pixels)])


def there_and_back(call, answer):
    """The outward call under a peak of 1,000 on what a return call wrote."""
    return Call(1_000, answer.destination, call.dst_len, call.first, call.end, call.options & ~RETURN)


def calls_of_lengths(random, count):
    """Rows of so many lengths, all of those up to just above the longest if count allows; the last pixel is converted."""
    row, lengths = bytes(draw_row(random, WIDEST + 1, TEN_NARROW)), range(LONG + 7)
    for length in lengths if count == len(lengths) else sorted(random.sample(lengths, count)):
        yield return_call(random, row[:length], length, max(0, length // 6 - 1), length // 6)


def each_refusal(random):
    """A call that is accepted, and one with a single thing wrong for each refusal."""
    row = bytes(draw_row(random, 2, TEN_NARROW))
    bad = row[:8] + random.choice(beyond(TEN_NARROW)).to_bytes(2, "big") + row[10:]
    for data, length, first, end in ((row, 12, 0, 2), (row[:-1], 11, 0, 1), (row, 6, 0, 2), (row, 12, 0, 3), (bad, 12, 0, 2)):
        yield return_call(random, data, length, first, end)


def damaged_calls(random, count):
    """Every refusal, the calls that are stored, then calls with things wrong by lot."""
    sure = list(each_refusal(random))
    stored = [return_call(random, *call) for call in return_row_calls(random)]
    named = [*sure, *islice(stored, (count - len(sure)) // 2)]
    yield from named
    for _ in range(count - len(named)):
        drawn = draw_damaged(random, TEN_NARROW)
        yield drawn._replace(options=draw_options(random) + RETURN)


def wanted_number(call, destination):
    """The number by the second implementation, which fills the destination."""
    return c_number(call.row, destination, call.first, call.end)


class RoundTrip:
    """How far codes come back, of colours that the way out leaves alone and of those that it cuts at 1,000 cd/m2."""

    def __init__(self):
        self.codes = {False: Counter(), True: Counter()}        # by whether the colour is cut: codes by their distance
        self.farthest = {False: (-1, None, None), True: (-1, None, None)}

    def add(self, colour, pq, back):
        """A colour, its PQ codes and the HLG codes that they become."""
        cut = max(pq) >= CUT
        distances = [abs(max(code, 64) - again) for code, again in zip(colour, back)]
        self.codes[cut].update(distances)
        if max(distances) > self.farthest[cut][0]:
            self.farthest[cut] = max(distances), colour, back

    def report(self):
        """Prints the shares of the distances."""
        for cut, name in ((False, f"colours with PQ codes below {CUT}"), (True, "colours with a PQ code from there on, which is cut")):
            codes = self.codes[cut]
            whole = sum(codes.values())
            if whole:
                shares = ", ".join(f"{distance}: {100 * codes[distance] / whole:.2f} %" for distance in range(SHOWN))
                more = 100 * sum(count for distance, count in codes.items() if distance >= SHOWN) / whole
                worst, colour, back = self.farthest[cut]
                print(f"round trip, {name}: {whole // 3:,}; codes by distance {shares}, {SHOWN} or more: {more:.2f} %; "
                      f"farthest {worst}, {colour} came back as {back}")
