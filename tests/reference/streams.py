"""Standard input and output of the programs as filters."""

import os
import sys


def input_of(program):
    """Reads standard input: `read(n)` gives n bytes, fewer only at its end. A read error counts as the end; it is told on standard error, once."""
    ended = False

    def read(n):
        nonlocal ended
        data = b""
        try:
            while not ended and len(data) < n:
                part = sys.stdin.buffer.read1(n - len(data))
                data, ended = data + part, not part
        except OSError:
            ended = True
            print(f"{program}: the input could not be read to its end", file=sys.stderr)
        return data
    return read


def output(data):
    """All of the bytes to standard output, past its buffer, which would fail once more at the end."""
    while data:
        data = data[os.write(sys.stdout.fileno(), data):]
