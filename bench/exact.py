"""Times the exact `hlg_codes` by itself, of this tree and of others in turns.

    python3 -m bench.exact [TREE..]

The static library hands only rows on, so each tree's crates are copied to a temporary folder with one crate more, which hands
`hlg_codes` on to C and is proved and built there; what a tree has proved already is not proved again. Each line that is printed
has one figure a tree, this one's first; no time is asserted.
"""

import shutil
import subprocess
import sys
from pathlib import Path
from tempfile import TemporaryDirectory

ROOT = Path(__file__).resolve().parent.parent
CRATE = "exact_bench"
SOURCE = """// The exact codes of three mapped components, for C to time.
#![tactic(auto)]

use hlg::hlg_codes;
use hlg_steps::step_of;
use quantity::USED;

// The sum of the three codes.
#[unsafe(no_mangle)]
pub extern "C" fn exact_codes(red: u64, green: u64, blue: u64) -> u64 {
    let codes = hlg_codes(LIGHTS);
    codes.red.wrapping_add(codes.green).wrapping_add(codes.blue)
}

// A step.
#[unsafe(no_mangle)]
pub extern "C" fn exact_step(code: u64) -> u64 {
    step_of(code).0
}
"""
# how a tree's `hlg_codes` takes the lights of a pixel: together, and before there was an `Rgb` of them one by one
TOGETHER = "pub fn hlg_codes(p: Rgb<DisplayLight>)"
LIGHTS = "Rgb { red: DisplayLight(red), green: DisplayLight(green), blue: DisplayLight(blue) }"
ONE_BY_ONE = "DisplayLight(red), DisplayLight(green), DisplayLight(blue)"


def source_of(tree):
    """The crate that hands a tree's `hlg_codes` on."""
    together = TOGETHER in (tree / "crates/hlg/src/lib.rt").read_text(encoding="utf-8")
    used, lights = ("{DisplayLight, Rgb}", LIGHTS) if together else ("DisplayLight", ONE_BY_ONE)
    return SOURCE.replace("USED", used).replace("LIGHTS", lights)


def build_library(tree, folder):
    """The static library of a tree's `hlg_codes`."""
    shutil.copytree(tree / "crates", folder / "crates", ignore=shutil.ignore_patterns("out"))
    source = folder / "crates" / CRATE / "src/lib.rt"
    source.parent.mkdir(parents=True)
    source.write_text(source_of(tree), encoding="utf-8")
    crates = (tree / "crates.txt").read_text(encoding="utf-8")
    (folder / "crates.txt").write_text(f"{crates}\n{CRATE} staticlib: quantity hlg_steps hlg\n", encoding="utf-8")
    run = subprocess.run(["rt", "lib"], cwd=source.parents[1], capture_output=True, text=True)
    if run.returncode:
        raise SystemExit(f"{tree}: not built\n{run.stdout[-2_000:]}{run.stderr[-2_000:]}")
    return source.parents[1] / f"out/lib{CRATE}.a"


def build_program(libraries, folder):
    """The timing program, with the functions of each library under names of their own."""
    for i, library in enumerate(libraries):
        names = [f"--redefine-sym=exact_{name}=exact_{name}_{i}" for name in ("codes", "step")]
        subprocess.run(["objcopy", *names, library], check=True)
    each = " ".join(f"X({i})" for i in range(len(libraries)))
    program = folder / "exact"
    subprocess.run(["cc", "-std=c11", "-D_GNU_SOURCE", "-O2", "-Wall", "-Wextra", "-Werror", f"-DEACH(X)={each}", "-I", ROOT / "bench",
                    ROOT / "bench/exact.c", ROOT / "bench/timing.c", *libraries, "-o", program], check=True)
    return program


def main(trees):
    trees = [ROOT, *map(Path, trees)]
    with TemporaryDirectory(prefix="exact-") as folder:
        folder = Path(folder)
        libraries = [build_library(tree, folder / str(i)) for i, tree in enumerate(trees)]
        subprocess.run([build_program(libraries, folder)], check=True)


if __name__ == "__main__":
    main(sys.argv[1:])
