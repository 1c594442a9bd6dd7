"""The static libraries, called through compare.c: calls go in as bytes, answers come back.

Nothing here knows what an answer should be.
"""

import struct
import subprocess
from functools import lru_cache
from pathlib import Path
from tempfile import TemporaryDirectory
from typing import NamedTuple

from tests.reference.sample_format import format_of

ROOT = Path(__file__).resolve().parent.parent.parent
TARGET = ROOT / "target"
# What a program is linked with, in this order: the library's crate by the option that names another file, and what the library is.
CRATES = {"library": ("pq_hlg", "the static library to HLG"), "return_library": ("hlg_pq", "that of the return path"),
          "srgb_library": ("srgb_hlg", "that of captions")}
LIBRARIES = tuple(TARGET / f"staticlib/lib{crate}.a" for crate, _ in CRATES.values())

LONGEST = 102_400              # bytes; longer rows and destinations cannot be touched; as in compare.c
ROW_AT_START, DST_AT_START, ROW_NULL, DST_NULL, YCBCR, RETURN, LINEAR, SRGB = (256 << place for place in range(8))
DELIVERIES = ("RGB", "Y'CbCr")
HARM = {1: "the row was changed", 2: "bytes beside the row were changed",
        4: "bytes beside the destination were changed"}
CALL = struct.Struct("=7Q")
ANSWER = struct.Struct("=2Q")
FLAGS = {
    "pages": ["-O2"],
    "sanitizer": ["-O1", "-g", "-fsanitize=address,undefined", "-fno-sanitize-recover=all", "-DHEAP=64"],
    "heap": ["-O1", "-g", "-DHEAP=0"],
}


class Call(NamedTuple):
    """One row call: to HLG, in Y'CbCr if the options have that bit, else in RGB; or that of the return path, which takes neither peak nor format; or that
    on linear values, which takes no format and whose row is an array of 32-bit patterns; or that on sRGB, which takes neither.

    A destination's byte i holds options + i before it, modulo 256.
    """
    peak: int
    row: bytes                 # or an array of floats' patterns; or a range, whose length counts alone
    dst_len: int
    first: int
    end: int
    options: int = 0
    format: int = 0            # the number that is given for it, bits that are not read included

    @property
    def in_ycbcr(self):
        """Whether it is the Y'CbCr call."""
        return bool(self.options & YCBCR)

    @property
    def returns(self):
        """Whether it is the return path's call."""
        return bool(self.options & RETURN)

    @property
    def linear(self):
        """Whether it is the call on linear values."""
        return bool(self.options & LINEAR)

    @property
    def srgb(self):
        """Whether it is the call on sRGB."""
        return bool(self.options & SRGB)

    @property
    def row_bytes(self):
        """How long the row is in bytes."""
        return len(self.row) * (4 if self.linear else 1)

    @property
    def form(self):
        """Depth and range of its samples."""
        return format_of(self.format)

    def __str__(self):
        name = (f"linear, peak {self.peak}" if self.linear else "return" if self.returns else "sRGB" if self.srgb
                else f"{DELIVERIES[self.in_ycbcr]}, peak {self.peak}, format {self.format:#x}")
        return (f"{name}, row of {len(self.row)} {'floats' if self.linear else 'bytes'}, destination of {self.dst_len}, "
                f"first {self.first}, end {self.end}, options {self.options:#x}")


class Answer(NamedTuple):
    """The C number, what was harmed, and the destination's bytes."""
    number: int
    harm: int
    destination: bytes


class Broken(Exception):
    """A library ended the program that called it."""


@lru_cache(maxsize=None)
def own_folder():
    """A folder of this run alone, so that two runs at once don't take each other's programs."""
    TARGET.mkdir(exist_ok=True)
    return TemporaryDirectory(prefix="host-", dir=TARGET)


def add_libraries(parser):
    """The options that name other libraries."""
    for (option, (_, what)), path in zip(CRATES.items(), LIBRARIES):
        parser.add_argument(f"--{option.replace('_', '-')}", type=Path, default=path, metavar="FILE", help=what)


def libraries_of(options):
    """The libraries that the options name."""
    return tuple(getattr(options, option) for option in CRATES)


def build(kind, libraries=LIBRARIES, name=None):
    """Compiles compare.c with the libraries; returns the program's path. Two libraries of one kind in one run need two names."""
    for path, (crate, _) in zip(libraries, CRATES.values()):
        if not path.exists():
            raise SystemExit(f"there is no {path}: run `tools/build {crate}` first")
    program = Path(own_folder().name) / f"compare_{name or kind}"
    subprocess.run(["cc", "-std=c11", "-D_GNU_SOURCE", "-Wall", "-Wextra", "-Werror", *FLAGS[kind],
                    "-I", ROOT / "include", ROOT / "tests/host/compare.c", *libraries, "-lm", "-o", program],
                   check=True)
    return program


def reachable(length):
    """Whether so many bytes go through the stream."""
    return length <= LONGEST


def bytes_of(call):
    """A call in the stream."""
    head = CALL.pack(call.peak, call.format, len(call.row), call.dst_len, call.first, call.end, call.options)
    return head + bytes(call.row) if reachable(call.row_bytes) else head


def answers_in(stream, calls):
    """The answers of a stream, one a call, as far as they are whole."""
    at = 0
    for call in calls:
        length = call.dst_len if reachable(call.dst_len) else 0
        if len(stream) < at + ANSWER.size + length:
            return
        number, harm = ANSWER.unpack_from(stream, at)
        at += ANSWER.size
        yield Answer(number, harm, stream[at:at + length])
        at += length


def ask(command, calls):
    """The engine's answers to a list of calls, from one run of a program."""
    run = subprocess.run(command, input=b"".join(map(bytes_of, calls)), capture_output=True)
    answers = list(answers_in(run.stdout, calls))
    if len(answers) < len(calls):
        raise Broken(f"ended with {run.returncode} at: {calls[len(answers)]}\n{run.stderr.decode(errors='replace')}")
    if run.returncode:
        raise Broken(f"ended with {run.returncode} after the last call\n{run.stderr.decode(errors='replace')}")
    return answers
