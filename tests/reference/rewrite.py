"""Request 12: the program `rewrite` as a filter.

    python3 -m tests.reference.rewrite < title > rewritten
"""

import sys

from .metadata import after_metadata, rewritten_opening
from .refusal import Refused
from .streams import input_of, output

LONGEST_CARD = 5                         # a bit map and two fields
BLOCK = 65_536


def rewrite_title(read, write, tell):
    """A whole title, whatever follows its card. `read(n)` gives n bytes, fewer only at the end of the input; `write` takes bytes and may fail by
    OSError; `tell` takes the lines for standard error."""
    data = read(LONGEST_CARD)
    try:
        opening = rewritten_opening(data)
    except Refused as refused:
        tell(f"refused {refused.number}\n")
        return
    if opening is not None:
        data = opening + after_metadata(data)
    try:
        while data:
            write(data)
            data = read(BLOCK)
    except OSError:
        tell("rewrite: the output could not be written to its end\n")


if __name__ == "__main__":
    rewrite_title(input_of("rewrite"), output, sys.stderr.write)
