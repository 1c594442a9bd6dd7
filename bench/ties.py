"""Times the program `measure` on titles in which many rows share the largest light, beside ones in which none does.

    python3 -m bench.ties FOLDER [BUILT ...]

Writes the titles to FOLDER and removes them again. Each BUILT is a folder that has the program, target/bin where none is named; with several, they
take turns. A time is the median of ROUNDS, in CPU time of the whole process, by programs.py. Prints a table; no time is asserted.
"""

import sys
from pathlib import Path
from random import Random
from statistics import median

from .programs import answer, time_program
from .tables import table

WIDTH, ROWS, ROUNDS = 1_920, 800, 9
OPENING = b"\x01" + (4_000).to_bytes(2, "big") + WIDTH.to_bytes(2, "big")


def row(codes):
    return b"".join(code.to_bytes(2, "big") for code in codes)


def titles(random):
    """Name and rows. A dark row gets one red highlight at a place drawn by lot."""
    dark = [random.randrange(64, 120) for _ in range(3 * WIDTH)]

    def lit(code):
        codes = list(dark)
        codes[3 * random.randrange(WIDTH)] = code
        return row(codes)

    yield "all pixels equal", [row([500] * 3 * WIDTH)] * ROWS
    yield "random codes", [row(random.randrange(4, 1_020) for _ in range(3 * WIDTH)) for _ in range(40)] * (ROWS // 40)
    yield "in each row one highlight, all of one light", [lit(random.choice((940, 950, 1_000))) for _ in range(ROWS)]
    yield "each row brighter than the last", [lit(130 + i) for i in range(ROWS)]
    yield "the brightest row first", [lit(900)] + [lit(500)] * (ROWS - 1)


def main(folder, *built):
    builds = [Path(each).resolve() for each in built or ("target/bin",)]
    rows = []
    for name, data in titles(Random(9)):
        path = Path(folder) / "ties.title"
        path.write_bytes(OPENING + b"".join(data))
        print(f"{name}: measured {', '.join(answer(each / 'measure', path) for each in builds)}", flush=True)
        rounds = [[time_program(each / "measure", path, WIDTH * ROWS) for each in builds] for _ in range(ROUNDS)]
        path.unlink()
        rows.append([name, *(f"{median(times):.1f}" for times in zip(*rounds))])
    table("ns a pixel of `measure`", ["title", *map(str, builds)], rows)


if __name__ == "__main__":
    main(*sys.argv[1:])
