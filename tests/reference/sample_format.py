"""Request 06, "Depth and range as parameters": what a code of each format means.

A format is the depth and the range of a source's samples. Signals are PQ signals from 0 to 1, here as fractions; a position
counts them in 1/897,024.
"""

from fractions import Fraction
from typing import NamedTuple

POSITIONS = 897_024                     # the position of PQ signal 1
TWELVE_BITS, FULL_RANGE = 8, 16         # bits 3 and 4: of a card's bit map, and of the number that a host in C gives


class Format(NamedTuple):
    """Bits of a sample, and whether its range is full or narrow."""
    bits: int
    full: bool

    @property
    def taken(self):
        """The codes that are taken; all others are refused by 9."""
        if self.full:
            return range(0, 2**self.bits)
        return range(16, 4_079 + 1) if self.bits == 12 else range(4, 1_019 + 1)

    @property
    def nominal(self):
        """The codes from black to the nominal peak, of signals 0 to 1."""
        if self.full:
            return range(0, 2**self.bits)
        return range(256, 3_760 + 1) if self.bits == 12 else range(64, 940 + 1)

    @property
    def black(self):
        """The code of signal 0."""
        return self.nominal[0]

    @property
    def white(self):
        """The code of signal 1, the nominal peak."""
        return self.nominal[-1]

    @property
    def step(self):
        """How many codes of this depth one of ten bits is."""
        return 4 if self.bits == 12 else 1

    def read(self, D):
        """A code as it is read: sub-blacks as black, super-whites as the nominal peak."""
        return min(max(D, self.black), self.white)

    def signal(self, D):
        """The PQ signal of a code as read, not rounded."""
        D = self.read(D)
        if self.full:
            return Fraction(D, 2**self.bits - 1)
        return Fraction(D - 256, 3_504) if self.bits == 12 else Fraction(D - 64, 876)

    def position(self, D):
        """The position of a code as read; of full range the last one that does not exceed the signal."""
        D = self.read(D)
        if self.full:
            return POSITIONS * D // (2**self.bits - 1)
        return 256 * (D - 256) if self.bits == 12 else 1_024 * (D - 64)

    @property
    def number(self):
        """What a host in C gives, without the bits that are not read."""
        return TWELVE_BITS * (self.bits == 12) + FULL_RANGE * self.full

    def __str__(self):
        return f"{'twelve' if self.bits == 12 else 'ten'}-bit {'full' if self.full else 'narrow'} range"


def format_of(number):
    """The format that a bit map or a host's number declares by its bits 3 and 4."""
    return Format(12 if number & TWELVE_BITS else 10, bool(number & FULL_RANGE))


FORMATS = TEN_NARROW, TWELVE_NARROW, TEN_FULL, TWELVE_FULL = tuple(map(format_of, (0, 8, 16, 24)))
