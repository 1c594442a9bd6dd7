"""Times the programs `measure` and `convert` on the pictures as titles, and the row calls alone on the same rows.

    python3 -m bench.programs FOLDER [BUILT]

FOLDER has the pictures and the program `rows`, as bench/run makes them; BUILT has the programs, target/bin where none is named.
Titles are files, output goes to /dev/null. All ways take the same rows in turns; a time is the median of ROUNDS, in CPU time, of a
program that of its whole process. Prints a table; no time is asserted.
"""

import os
import subprocess
import sys
from pathlib import Path
from statistics import median

from .pictures import HEIGHT, WIDTH
from .result import PICTURES, three_digits
from .tables import table

PEAK = 4_000
WIDTHS = (1_920, 16)                     # a whole line of the picture, and narrow rows of the same pixels
ROUNDS = 7
PIXELS = WIDTH * HEIGHT
PROGRAMS = ("measure", "convert")
WAYS = (*PROGRAMS, "row_call")


def write_title(folder, picture, width):
    """A picture as a title of MaxCLL 4,000 and that width."""
    path = folder / f"{picture}_{width}.title"
    path.write_bytes(b"\x01" + PEAK.to_bytes(2, "big") + width.to_bytes(2, "big") + (folder / f"{picture}.rgb").read_bytes())
    return path


def time_program(program, path, pixels=PIXELS):
    """Nanoseconds a pixel of one run, user and system time of the process."""
    with open(path, "rb") as title:
        run = subprocess.Popen([program], stdin=title, stdout=subprocess.DEVNULL)
        _, status, used = os.wait4(run.pid, 0)
        run.returncode = os.waitstatus_to_exitcode(status)
    if run.returncode:
        raise SystemExit(f"{program} ended with {run.returncode} on {path}")
    return 1e9 * (used.ru_utime + used.ru_stime) / pixels


def time_rows(folder, picture, width):
    """Nanoseconds a pixel of the row calls in one pass over the picture in memory."""
    return float(subprocess.run([folder / "rows", str(PEAK), str(width), folder / f"{picture}.rgb"],
                                check=True, capture_output=True).stdout)


def answer(program, path):
    """The last line that a program prints; a refused title would time nothing."""
    with open(path, "rb") as title, subprocess.Popen([program], stdin=title, stdout=subprocess.PIPE) as run:
        last = b""
        for line in run.stdout:
            last = line
    if last.startswith(b"refused"):
        raise SystemExit(f"{program} answered {last!r} on {path}")
    return last.decode().strip()


def times_of(folder, built, picture, width):
    """The rounds of each way, in turns."""
    title = write_title(folder, picture, width)
    print(f"{picture}, width {width}: measured {answer(built / 'measure', title)}")
    answer(built / "convert", title)
    rounds = {way: [] for way in WAYS}
    for _ in range(ROUNDS):
        for program in PROGRAMS:
            rounds[program].append(time_program(built / program, title))
        rounds["row_call"].append(time_rows(folder, picture, width))
    title.unlink()
    for way, times in rounds.items():
        print(f"{way} {median(times):.2f} ns/pixel (rounds {min(times):.2f} to {max(times):.2f})", flush=True)
    return {way: median(times) for way, times in rounds.items()}


def main(folder, built="target/bin"):
    folder, built = Path(folder), Path(built).resolve()
    found = {(width, picture): times_of(folder, built, picture, width) for width in WIDTHS for picture in PICTURES}
    table(f"ns a pixel of the programs and of the row calls alone, peak {PEAK:,}",
          ["width", "picture", *(f"`{way}`" for way in WAYS), "`measure` / `convert`", "`measure` / `row_call`"],
          [[f"{width:,}", picture, *(three_digits(times[way]) for way in WAYS),
            three_digits(times["measure"] / times["convert"]), three_digits(times["measure"] / times["row_call"])]
           for (width, picture), times in found.items()])


if __name__ == "__main__":
    main(*sys.argv[1:3])
