"""Shows that nothing rests on the values of the hints: libraries with spoiled ones are proved as before and
give the same numbers and bytes, only slower.

    python3 -m tests.host.spoiled [--kind KIND] [--seed N] [--library FILE] [--return-library FILE] [--srgb-library FILE]
        [--spoiled FILE FILE FILE]

Copies the crates to a temporary folder, spoils every number of its tables of hints there, has the prover build all libraries, and
asks the sound and the spoiled ones the same calls. Of what was proved on this machine only span, return_span, srgb_hlg and the crates
above them are proved again. --spoiled names three libraries that are built already. How much slower they are, is printed; no time is
asserted.
"""

import argparse
import re
import shutil
import subprocess
import sys
from array import array
from collections import Counter
from pathlib import Path
from random import Random
from resource import RUSAGE_CHILDREN, getrusage
from tempfile import TemporaryDirectory
from typing import NamedTuple

from tests.reference.linear_cases import draw_signal
from tests.reference.sample_format import FORMATS, TEN_NARROW
from tests.reference.samples import MARKED_PEAKS

from . import linear_rows, return_path, srgb_rows
from .compare import ROW_PIXELS, Difference, adversarial_rows, batches, damaged_calls, hold, in_both, random_rows, row_of, share
from .engine import LIBRARIES, LINEAR, RETURN, ROOT, SRGB, Broken, Call, add_libraries, ask, build, libraries_of

ENTRY = re.compile(r"(?<=\s)(\d+)(?=,)")
RUN = 16                                 # entries in a row that are spoiled alike: a guess takes two neighbours
PIXELS = {"random": 40_000, "adversarial": 40_000}      # of ten-bit narrow range, the return path, linear values and sRGB; of each other format a quarter
DAMAGED = 2_000                          # calls, of the return path a quarter, and as many on linear values and on sRGB
KINDS = {0: "in RGB and in Y'CbCr", RETURN: "of the return path", LINEAR: "of linear values", SRGB: "of sRGB"}      # by what the options have
TIMED, LONG = 20, 8_192                  # rows whose time is taken, and their pixels


class Hints(NamedTuple):
    """A crate that guesses by tables of hints, and the library that is built on it."""
    crate: str
    library: str
    slope_bits: int                      # so many low bits of a hint are a line's slope
    layout: int                          # so many first hints of a table say where the others lie
    files: tuple

    @property
    def proved(self):
        """The crates that are proved again, the library's last."""
        return list(dict.fromkeys((self.crate, self.library, self.library + "_c")))

    @property
    def tables(self):
        """The files with the hints."""
        return [f"crates/{self.crate}/src/{name}" for name in self.files]


HINTS = (Hints("span", "pq_hlg", 20, 0, ("hint_table.rt", "cell_table.rt")), Hints("return_span", "hlg_pq", 20, 0, ("hint_table.rt",)),
         Hints("srgb_hlg", "srgb_hlg", 0, 130, ("hint_table.rt",)))


def off_by_a_little(random, hint, bits, slope_bits):
    """A hint that is nearly right: some of these still pass their test, some just fail it. Its slope remains."""
    return hint + random.choice((-1, 1)) * (hint >> random.randrange(bits // 8, bits // 8 * 5) >> slope_bits << slope_bits)


SPOILERS = {
    "zero": lambda random, hint, bits, slope_bits: 0,
    "random": lambda random, hint, bits, slope_bits: random.randrange(2**bits),
    "little": off_by_a_little,
}


def kind_of(place, layout, kind):
    """How a hint is spoiled: in one way, or in all of them by turns; those that say where the others lie are then all off by a little, since else
    no other one would be read where it belongs."""
    if kind != "mixed":
        return kind
    return "little" if place < layout else list(SPOILERS)[place // RUN % len(SPOILERS)]


def spoiled_text(text, name, hinted, kind, random):
    """A table of hints with every number spoiled."""
    head, entries = text.split(" = [\n")
    hints = list(map(int, ENTRY.findall(entries)))
    declared = re.search(r"static [A-Z_]+: \[u(\d+); (\d+)\]", text)
    if not declared or int(declared[2]) != len(hints):
        raise SystemExit(f"{name} does not look as it should")
    bits = int(declared[1])
    spoiled = iter([min(SPOILERS[kind_of(i, hinted.layout, kind)](random, hint, bits, hinted.slope_bits), 2**bits - 1)
                    for i, hint in enumerate(hints)])
    return head + " = [\n" + ENTRY.sub(lambda _: str(next(spoiled)), entries)


def copy_tree(folder):
    """The crates, without what was built of them: the prover finds again what it has proved on this machine."""
    shutil.copy(ROOT / "crates.txt", folder)
    shutil.copytree(ROOT / "crates", folder / "crates", ignore=shutil.ignore_patterns("out"))


def prove_library(folder, hinted):
    """A static library of a tree; nothing is built from what isn't proved."""
    crate = hinted.library + "_c"
    run = subprocess.run(["rt", "lib"], cwd=folder / "crates" / crate, capture_output=True, text=True)
    if run.returncode:
        raise Difference(f"with spoiled hints {' or '.join(hinted.proved)} is not proved\n{run.stdout[-4_000:]}{run.stderr[-4_000:]}")
    print(f"spoiled hints, proved all the same: {', '.join(hinted.proved)}", flush=True)
    return folder / "crates" / crate / f"out/lib{crate}.a"


def build_spoiled(folder, kind, random):
    """The libraries, their hints spoiled."""
    copy_tree(folder)
    for hinted in HINTS:
        for name in hinted.tables:
            table = folder / name
            table.write_text(spoiled_text(table.read_text(encoding="utf-8"), name, hinted, kind, random), encoding="utf-8")
    return [prove_library(folder, hinted) for hinted in HINTS]


def calls_to_compare(random):
    """Pixels drawn evenly and where it is delicate and all greys under marked peaks, in RGB and in Y'CbCr, and damaged calls of either; then
    the same of the return path, of linear values and of sRGB."""
    for form in FORMATS:
        yield from in_both(random_rows(random, share("random", PIXELS["random"], form), form))
        yield from in_both(adversarial_rows(random, share("adversarial", PIXELS["adversarial"], form), form))
        greys = row_of((D, D, D) for D in form.taken)
        peaks = MARKED_PEAKS if form == TEN_NARROW else (1_000, 4_000)
        yield from in_both(Call(L, greys, len(greys), 0, len(form.taken), format=form.number) for L in peaks)
    yield from damaged_calls(random, DAMAGED)
    yield from return_path.random_rows(random, PIXELS["random"], ROW_PIXELS)
    yield from return_path.delicate_rows(random, PIXELS["adversarial"], ROW_PIXELS)
    yield from return_path.damaged_calls(random, DAMAGED // 4)
    yield from linear_rows.random_rows(random, PIXELS["random"], ROW_PIXELS)
    yield from linear_rows.delicate_rows(random, PIXELS["adversarial"], ROW_PIXELS)
    yield from linear_rows.damaged_calls(random, DAMAGED // 4)
    yield from srgb_rows.random_rows(random, PIXELS["random"], ROW_PIXELS)
    yield from srgb_rows.delicate_rows(random, PIXELS["adversarial"], ROW_PIXELS)
    yield from srgb_rows.damaged_calls(random, DAMAGED // 4)


def compare(sound, spoiled, random):
    """Fails where the two answer differently; counts the calls and the pixels converted, of each kind of calls."""
    calls, pixels = Counter(), Counter()
    for batch in batches(calls_to_compare(random)):
        for call, wanted, given in zip(batch, ask([sound], batch), ask([spoiled], batch)):
            hold(call, given, (wanted.number, wanted.destination))
            kind = call.options & (RETURN | LINEAR | SRGB)
            calls[kind] += 1
            pixels[kind] += 0 if wanted.number else call.end - call.first
    return calls, pixels


def timed_row(random, options):
    """A long row of codes or of sRGB values drawn evenly, or of linear values drawn evenly by their signals."""
    if options & SRGB:
        return random.randbytes(3 * LONG)
    if options & LINEAR:
        return array("I", [draw_signal(random) for _ in range(3 * LONG)])
    return b"".join(code.to_bytes(2, "big") for code in random.choices(TEN_NARROW.taken, k=3 * LONG))


def time_a_pixel(program, options, random):
    """Nanoseconds of CPU a pixel, on such rows."""
    rows = [timed_row(random, options) for _ in range(TIMED)]
    start = getrusage(RUSAGE_CHILDREN).ru_utime
    ask([program], [Call(4_000, row, 6 * LONG, 0, LONG, options) for row in rows])
    return 1e9 * (getrusage(RUSAGE_CHILDREN).ru_utime - start) / TIMED / LONG


def run(libraries, spoiled, random):
    """Compares the sound libraries with the spoiled ones and prints what was found."""
    programs = [build("pages", *each) for each in ((libraries, "sound"), (spoiled, "spoiled"))]
    calls, pixels = compare(*programs, random)
    for options, name in KINDS.items():
        print(f"{calls[options]:,} calls and {pixels[options]:,} pixels {name}: every number and byte as with sound hints")
        sound, slow = (time_a_pixel(program, options, Random(1)) for program in programs)
        print(f"about {sound:,.0f} ns a pixel with sound hints, {slow:,.0f} with spoiled ones")


def main(arguments):
    parser = argparse.ArgumentParser(description=__doc__.split("\n")[0])
    parser.add_argument("--kind", choices=(*SPOILERS, "mixed"), default="mixed", help="how hints are spoiled (mixed)")
    parser.add_argument("--seed", type=int, default=1, help="what is drawn by lot (1)")
    add_libraries(parser)
    parser.add_argument("--spoiled", type=Path, nargs=len(LIBRARIES), metavar="FILE", help="all with spoiled hints, instead of building them")
    options = parser.parse_args(arguments)
    random = Random(f"spoiled {options.seed}")
    try:
        with TemporaryDirectory(prefix="spoiled-") as folder:
            if not options.spoiled:
                options.spoiled = build_spoiled(Path(folder), options.kind, random)
            run(libraries_of(options), options.spoiled, random)
    except (Difference, Broken) as found:
        print(f"DIFFERENT: {found}")
        return 1
    return 0


if __name__ == "__main__":
    sys.exit(main(sys.argv[1:]))
