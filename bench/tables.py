"""Prints what the benchmark found as the tables of README.md.

    python3 -m bench.tables RESULT
"""

import sys
from pathlib import Path

from .result import FORMATS, LINEAR_WAYS, PEAKS, PICTURES, PIXELS, RETURN_WAYS, SRGB_PICTURES, SRGB_WAYS, WAYS, read, three_digits


def table(words, head, rows):
    """A Markdown table below some words."""
    print(f"\n{words}\n\n| {' | '.join(head)} |\n{'|---' * len(head)}|")
    for row in rows:
        print(f"| {' | '.join(row)} |")


def main(path):
    result = read(Path(path).read_text())
    rows = ", ".join(str(result.rows[4_000, picture]) for picture in PICTURES)
    table(f"ns a pixel (and times libm) under a peak of 4,000; {rows} rows", ["", *PICTURES],
          [[f"`{way}`", *("{} ({})".format(*map(three_digits, result.times[4_000, picture][way]))
                          for picture in PICTURES)] for way in WAYS])
    table("times libm", ["peak", "", *PICTURES],
          [[f"{peak:,}", f"`{way}`", *(three_digits(result.times[peak, picture][way][1]) for picture in PICTURES)]
           for peak in PEAKS for way in ("row_call", "tables")])
    table("Y'CbCr, times RGB", ["peak", *PICTURES],
          [[f"{peak:,}", *(three_digits(result.times[peak, picture]["ycbcr_row_call"][0] / result.times[peak, picture]["row_call"][0])
                           for picture in PICTURES)] for peak in PEAKS])
    table(f"ns of one call (and times libm); filling the tables of C took {result.filling:,} ns",
          ["pixels", "`row_call`", "`libm`", "`tables`"],
          [[str(pixels), *(f"{ns:,} ({three_digits(ns / result.calls[pixels][1])})" for ns in result.calls[pixels])]
           for pixels in PIXELS])
    table("ns a pixel of `row_call` under a peak of 4,000 (and times ten-bit narrow range)", ["", *PICTURES],
          [[f"`{name}`", *("{} ({})".format(*map(three_digits, result.formats[picture][name])) for picture in PICTURES)] for name in FORMATS])
    table("ns a pixel of the return path (and times return_libm), and of `row_call` on the PQ picture under a peak of 1,000", ["", *PICTURES],
          [[f"`{way}`", *("{} ({})".format(*map(three_digits, result.returned[picture][way])) for picture in PICTURES)] for way in RETURN_WAYS])
    rows = ", ".join(str(result.linear_rows[4_000, picture]) for picture in PICTURES)
    table(f"ns a pixel of linear values (and times linear_libm) under a peak of 4,000, and of `row_call` on the PQ picture; {rows} rows", ["", *PICTURES],
          [[f"`{way}`", *("{} ({})".format(*map(three_digits, result.linear[4_000, picture][way])) for picture in PICTURES)] for way in LINEAR_WAYS])
    table("linear values, `linear_call` times linear_libm, and times `row_call`", ["peak", "", *PICTURES],
          [[f"{peak:,}", f"`{way}`", *(three_digits(result.linear[peak, picture]["linear_call"][0] / result.linear[peak, picture][way][0])
                                       for picture in PICTURES)] for peak in PEAKS for way in ("linear_libm", "row_call")])
    rows = ", ".join(str(result.srgb_rows[picture]) for picture in SRGB_PICTURES)
    table(f"ns a pixel of sRGB (and times srgb_libm); {rows} rows", ["", *SRGB_PICTURES],
          [[f"`{way}`", *("{} ({})".format(*map(three_digits, result.srgb[picture][way])) for picture in SRGB_PICTURES)] for way in SRGB_WAYS])


if __name__ == "__main__":
    main(sys.argv[1])
