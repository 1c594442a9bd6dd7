"""Reads what the timing programs printed."""

import re
from typing import NamedTuple

WAYS = ("row_call", "ycbcr_row_call", "libm", "tables", "copy")
PICTURES = ("gradients", "blocks", "film", "random")
PEAKS = (1_000, 4_000, 10_000)
PIXELS = (0, 1, 16, 64, 256)
FORMATS = ("ten_narrow", "twelve_narrow", "ten_full", "twelve_full")
RETURN_WAYS = ("return_call", "row_call", "return_libm")
LINEAR_WAYS = ("linear_call", "row_call", "linear_libm", "linear_tables")
SRGB_WAYS = ("srgb_call", "srgb_libm", "srgb_tables", "srgb_copy")
SRGB_PICTURES = ("captions", *PICTURES)


class Result(NamedTuple):
    """What a run found."""
    times: dict                # (peak, picture): {way: (ns a pixel, ratio to libm)}
    rows: dict                 # (peak, picture): rows that were timed
    calls: dict                # pixels: ns of one call by row_call, libm and tables
    filling: int               # ns of filling the tables of C
    formats: dict              # picture: {format: (ns a pixel of row_call, ratio to that in ten-bit narrow range)}
    returned: dict             # picture: {way: (ns a pixel, ratio to return_libm)}, row_call under a peak of 1,000
    linear: dict               # (peak, picture): {way: (ns a pixel, ratio to linear_libm)}, row_call on the PQ picture
    linear_rows: dict          # (peak, picture): rows that were timed
    srgb: dict                 # picture: {way: (ns a pixel, ratio to srgb_libm)}
    srgb_rows: dict            # picture: rows that were timed


def read(text):
    """All figures of a run; one that lacks some is refused."""
    times, rows, calls, filling, formats, returned, linear, linear_rows, srgb, srgb_rows, place = {}, {}, {}, None, {}, {}, {}, {}, {}, {}, None
    for line in text.splitlines():
        if found := re.match(r"peak (\d+) picture (\w+)\.rgb rows (\d+)", line):
            place = int(found[1]), found[2]
            times[place], rows[place] = {}, int(found[3])
        elif found := re.match(r"(\w+) ([\d.]+) ns/pixel, ([\d.]+) of libm", line):
            times[place][found[1]] = float(found[2]), float(found[3])
        elif found := re.match(r"pixels (\d+): row_call (\d+) ns/call, libm (\d+), tables (\d+)", line):
            calls[int(found[1])] = tuple(map(int, found.groups()[1:]))
        elif found := re.match(r"formats peak \d+ picture (\w+)\.rgb", line):
            place = found[1]
            formats[place] = {}
        elif found := re.match(r"(\w+) ([\d.]+) ns/pixel, ([\d.]+) of ten_narrow", line):
            formats[place][found[1]] = float(found[2]), float(found[3])
        elif found := re.match(r"returned picture (\w+)\.rgb", line):
            place = found[1]
            returned[place] = {}
        elif found := re.match(r"(\w+) ([\d.]+) ns/pixel, ([\d.]+) of return_libm", line):
            returned[place][found[1]] = float(found[2]), float(found[3])
        elif found := re.match(r"linear peak (\d+) picture (\w+)\.rgb rows (\d+)", line):
            place = int(found[1]), found[2]
            linear[place], linear_rows[place] = {}, int(found[3])
        elif found := re.match(r"(\w+) ([\d.]+) ns/pixel, ([\d.]+) of linear_libm", line):
            linear[place][found[1]] = float(found[2]), float(found[3])
        elif found := re.match(r"srgb picture (\w+)\.srgb rows (\d+)", line):
            place = found[1]
            srgb[place], srgb_rows[place] = {}, int(found[2])
        elif found := re.match(r"(\w+) ([\d.]+) ns/pixel, ([\d.]+) of srgb_libm", line):
            srgb[place][found[1]] = float(found[2]), float(found[3])
        elif found := re.match(r"tables of C filled: (\d+) ns", line):
            filling = int(found[1])
    whole = all(set(times.get((peak, picture), ())) == set(WAYS) for peak in PEAKS for picture in PICTURES)
    whole &= all(set(linear.get((peak, picture), ())) == set(LINEAR_WAYS) for peak in PEAKS for picture in PICTURES)
    whole &= all(set(formats.get(picture, ())) == set(FORMATS) and set(returned.get(picture, ())) == set(RETURN_WAYS) for picture in PICTURES)
    whole &= all(set(srgb.get(picture, ())) == set(SRGB_WAYS) for picture in SRGB_PICTURES)
    if not whole or set(calls) != set(PIXELS) or filling is None:
        raise SystemExit("the benchmark did not print all its figures")
    return Result(times, rows, calls, filling, formats, returned, linear, linear_rows, srgb, srgb_rows)


def three_digits(number):
    """A number to three digits."""
    return f"{number:,.0f}" if number >= 100 else f"{number:.3g}"
