"""Document 01, "Cards, rows, program": `convert` as a filter.

    python3 -m tests.reference.program < title > codes
"""

import sys

from .pixel import hlg_codes
from .refusal import Refused
from .row import MOST_ROWS, pixels_of, samples_of
from .streams import input_of
from .title import read_opening, read_rows


def lines_of(source, row):
    """The printed lines of an accepted row."""
    return "".join("%d %d %d\n" % hlg_codes(source.peak, pixel, source.form) for pixel in pixels_of(samples_of(row)))


def convert_title(read, write, most_rows=MOST_ROWS):
    """A whole title. `read(n)` gives n bytes, fewer only at the end of the input."""
    try:
        source, width = read_opening(read)
        for row in read_rows(read, width, source.form, most_rows):
            write(lines_of(source, row))
    except Refused as refused:
        write(f"refused {refused.number}\n")


if __name__ == "__main__":
    convert_title(input_of("convert"), sys.stdout.write)
