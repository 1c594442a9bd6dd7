"""Request 01: the program `measure` as a filter.

    python3 -m tests.reference.measure < title
"""

import sys

from .content_light import measure
from .refusal import Refused
from .row import MOST_ROWS
from .streams import input_of
from .title import read_opening, read_rows


def measure_title(read, write, most_rows=MOST_ROWS):
    """A whole title: one line, whatever peak its card declares. `read(n)` gives n bytes, fewer only at the end of the input."""
    try:
        source, width = read_opening(read)
        rows = [(row, source.form) for row in read_rows(read, width, source.form, most_rows)]
        write("%d %d %d\n" % measure(rows))
    except Refused as refused:
        write(f"refused {refused.number}\n")


if __name__ == "__main__":
    measure_title(input_of("measure"), sys.stdout.write)
