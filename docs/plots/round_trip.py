"""Draws how greys come back: from HLG to PQ and to HLG again under a peak of 1,000, by the second implementation.

    python3 -m docs.plots.round_trip
"""

from pathlib import Path

from tests.reference.pixel import hlg_codes
from tests.reference.returned import pq_codes

from .svg import COLOURS, INK, Frame, Picture

FOLDER = Path(__file__).resolve().parent
CODES = range(64, 941)
TICKS = (64, 200, 300, 400, 500, 600, 700, 800, 940)
WINDOW = 40                              # codes on either side that a share is taken over
NAMES = {1: "one code higher", 0: "the same", -1: "one code lower"}


def returned_greys():
    """For each HLG grey from 64 to 940 how many codes higher it comes back."""
    return [hlg_codes(1_000, pq_codes((d, d, d)))[0] - d for d in CODES]


def codes_a_step():
    """How many HLG greys share the PQ code of each grey."""
    pq = [pq_codes((d, d, d))[0] for d in CODES]
    return [pq.count(D) for D in pq]


def shares(moved, wanted):
    """For each grey the share, in percent, of those about it that come back so."""
    for i in range(len(moved)):
        about = moved[max(0, i - WINDOW):i + WINDOW + 1]
        yield 100 * about.count(wanted) / len(about)


def frame_of(picture, top, height, scale, ticks, name, last=False):
    """One frame over the grey codes."""
    frame = Frame(picture, 75, top, 690, height, lambda d: (d - 64) / 876, scale)
    frame.grid(TICKS, ticks, "HLG code of the grey" if last else "", x_words=last)
    picture.words(83, top - 7, name, bold=True, size=11)
    return frame


def draw(moved, crowd):
    """Differences, shares about each code, and how many HLG codes share a PQ code."""
    if set(moved) != set(NAMES):
        raise SystemExit(f"greys come back by {sorted(set(moved))} codes")
    picture = Picture(800, 590, "HLG greys sent to PQ and back")
    picture.words(75, 26, "HLG to PQ and back at 1,000 cd/m2: all 877 greys of ten-bit narrow range", bold=True, size=13)
    frame = frame_of(picture, 62, 120, lambda y: (y + 1.6) / 3.2, (-1, 0, 1), "code that comes back − code that was sent")
    for value, colour in zip(NAMES, COLOURS):
        picture.dots(frame.points((d, by) for d, by in zip(CODES, moved) if by == value), colour)
        picture.words(frame.left + frame.width - 6, frame.y(value) - 7, f"{NAMES[value]}: {moved.count(value)}", "end", 11, colour)
    frame = frame_of(picture, 222, 150, lambda y: y / 100, (0, 25, 50, 75, 100), f"share of greys within {WINDOW} codes, in percent")
    for value, colour in zip(NAMES, COLOURS):
        picture.path(frame.points(zip(CODES, shares(moved, value))), colour)
    most = max(crowd)
    frame = frame_of(picture, 412, 120, lambda y: y / (most + 0.6), range(most + 1), "HLG greys that share the grey's PQ code", True)
    picture.dots(frame.points(zip(CODES, crowd)), INK)
    return picture


def main():
    draw(returned_greys(), codes_a_step()).save(FOLDER / "round_trip.svg")


if __name__ == "__main__":
    main()
