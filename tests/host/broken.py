"""Shows that the comparison can fail: each fault of broken.c must be found.

    python3 -m tests.host.broken [--seed N] [--call CALL] [--library FILE] [--return-library FILE] [--srgb-library FILE]

Prints what the comparison reports of each; fails if one passes for right.
"""

import argparse
import re
import subprocess
import sys
from contextlib import redirect_stdout
from io import StringIO
from pathlib import Path

from .compare import SHORT, Difference, run
from .engine import ROOT, Broken, add_libraries, libraries_of, own_folder

SOURCE = ROOT / "tests/host/broken.c"
HEADINGS = {"CALL": "WRONG_ROW", "YCBCR_CALL": "WRONG_YCBCR", "RETURN_CALL": "WRONG_RETURN", "LINEAR_CALL": "WRONG_LINEAR", "SRGB_CALL": "WRONG_SRGB"}
RIGHT = {"pq_hlg_convert_row": "right_row", "pq_hlg_convert_row_ycbcr": "right_ycbcr", "pq_hlg_convert_row_linear": "right_linear",
         "hlg_pq_convert_row": "right_return", "srgb_hlg_convert_row": "right_srgb"}
# in turn, until one finds the fault
PARTS = ("damaged", "random", "greys")
OTHER_PARTS = {"WRONG_RETURN": ("return_damaged", "round_trip", "return_delicate"), "WRONG_LINEAR": ("linear_damaged", "linear_random", "linear_delicate"),
               "WRONG_SRGB": ("srgb_damaged", "srgb_random", "srgb_delicate")}


def faults():
    """The faults in the file's order: the name of each, and of the call that has it."""
    found = re.findall(rf"^static uint64_t (\w+)\(({'|'.join(HEADINGS)})\)", SOURCE.read_text(), re.M)
    if {heading for _, heading in found} != set(HEADINGS):
        raise SystemExit("broken.c does not name faults of every call")
    return [(name, HEADINGS[heading]) for name, heading in found]


def build_broken(fault, call, libraries):
    """The static libraries, of which the first has every call with one fault among them, and the others the right ones."""
    folder = Path(own_folder().name)
    built, part = [folder / f"lib{i}.a" for i in range(len(libraries))], folder / "broken.o"
    built[0].unlink(missing_ok=True)
    for library, renamed in zip(libraries, built):
        subprocess.run(["objcopy", *(f"--redefine-sym={name}={right_name}" for name, right_name in RIGHT.items()), library, renamed], check=True)
    subprocess.run(["cc", "-std=c11", "-O1", "-w", "-I", ROOT / "include", f"-D{call}={fault}",
                    "-c", SOURCE, "-o", part], check=True)
    subprocess.run(["ar", "r", built[0], part], check=True, capture_output=True)
    return built


def reported(fault, call, seed, libraries):
    """What the comparison says of a fault, or nothing."""
    built = build_broken(fault, call, libraries)
    for part in OTHER_PARTS.get(call, PARTS):
        try:
            with redirect_stdout(StringIO()):
                run(SHORT, seed, (part,), built)
        except (Difference, Broken) as found:
            return f"{part}: " + str(found).strip().split("\n")[0]
    return None


def main(arguments):
    parser = argparse.ArgumentParser(description=__doc__.split("\n")[0])
    parser.add_argument("--seed", type=int, default=1, help="what is drawn by lot (1)")
    add_libraries(parser)
    parser.add_argument("--call", choices=HEADINGS.values(), help="faults of this call alone")
    options = parser.parse_args(arguments)
    missed = 0
    for fault, call in faults():
        if options.call not in (None, call):
            continue
        words = reported(fault, call, options.seed, libraries_of(options))
        missed += words is None
        print(f"{fault}: {words or 'NOT FOUND'}", flush=True)
    print(f"{missed} faults not found" if missed else "every fault found")
    return 1 if missed else 0


if __name__ == "__main__":
    sys.exit(main(sys.argv[1:]))
