"""Requests 01, 06 and 09: the largest component light of a list of rows, and where it last occurs.

Twice: over the whole list at once, and by a record that is carried from row to row. Neither is made from the other.
A row is bytes, and comes with the format of its samples. The peak is in whole cd/m2, lights are in units (N to 1 cd/m2); rows and pixels count from 0.
"""

from typing import NamedTuple

from .light import END, N, light_at, light_of_code
from .refusal import Refused, refuse_samples
from .row import MOST_ROWS, WIDEST, pixels_of, refuse_length, samples_of
from .sample_format import TEN_NARROW

MOST_PIXELS = WIDEST * MOST_ROWS


# The whole list

def refusals(rows, empty=0):
    """Of each row its refusal, None for an accepted one. So many rows of no pixel were accepted before the list."""
    answers, count = [], empty
    for row, form in rows:
        try:
            if count == MOST_ROWS:
                raise Refused(13)
            refuse_length(row)
            refuse_samples(samples_of(row), form)
            answers.append(None)
            count += 1
        except Refused as refused:
            answers.append(refused)
    return answers


def measure(rows, empty=0):
    """Peak, row and pixel of all pixels of the accepted rows; refusal 12 where there is none."""
    accepted = [row for row, refused in zip(rows, refusals(rows, empty)) if refused is None]
    lights = [(max(light_of_code(D, form) for D in pixel), number, place)
              for number, (row, form) in enumerate(accepted, empty) for place, pixel in enumerate(pixels_of(samples_of(row)))]
    if not lights:
        raise Refused(12)
    largest = max(light for light, _, _ in lights)
    number, place = max((number, place) for light, number, place in lights if light == largest)
    return -(-largest // N), number, place


# Row by row

class Record(NamedTuple):
    """What a run carries: accepted rows, their pixels, and the position, row and pixel of the largest light so far."""
    rows: int = 0
    pixels: int = 0
    position: int = 0
    row: int = 0
    pixel: int = 0


ENDS = Record(MOST_ROWS, MOST_PIXELS, END, MOST_ROWS - 1, WIDEST - 1)


def as_read(record):
    """A field past its range reads the range's upper end."""
    return Record(*map(min, record, ENDS))


def measure_row(record, row, form=TEN_NARROW):
    """The record with a row in it; refusals 13, 6 and 9 in this order."""
    rows, pixels, position, brightest_row, brightest_pixel = as_read(record)
    if rows == MOST_ROWS:
        raise Refused(13)
    refuse_length(row)
    samples = samples_of(row)
    refuse_samples(samples, form)
    given = pixels_of(samples)
    for place, pixel in enumerate(given):
        if (pixels == place == 0) or light_of_code(max(pixel), form) >= light_at(position):
            position = form.position(max(pixel))
            brightest_row, brightest_pixel = rows, place
    return Record(rows + 1, min(pixels + len(given), MOST_PIXELS), position, brightest_row, brightest_pixel)


def measured_peak(record):
    """Peak, row and pixel of a record; refusal 12 where it has no pixel."""
    read = as_read(record)
    if read.pixels == 0:
        raise Refused(12)
    return (light_at(read.position) + N - 1) // N, read.row, read.pixel
