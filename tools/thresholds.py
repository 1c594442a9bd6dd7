#!/usr/bin/env python3
"""The thresholds of PQ codes: for each code D from 65 to 940 the light, in units, from which a rounded code is D or more. It is entry
4(D - 64) - 2 of the light table, half a code below D.

    python3 tools/thresholds.py source    print crates/inverse_eotf/src/thresholds.rt
    python3 tools/thresholds.py specs     print crates/inverse_eotf/specs/ThresholdTable.antt
    python3 tools/thresholds.py --check   compare both files with what would be printed
"""
import sys

from generated import ROOT, run
from hlg_steps import grouped, require
from light_table import light_table

BLACK, FIRST, LAST = 64, 65, 940
SOURCE = ROOT / "crates/inverse_eotf/src/thresholds.rt"
SPECS = ROOT / "crates/inverse_eotf/specs/ThresholdTable.antt"


def source(thresholds):
    yield (
        "// Made by `python3 tools/thresholds.py source`. Entry D - 65 is the threshold of the PQ code D: the light half a code below it, "
        "in 1/16,777,216 cd/m2."
    )
    yield f"// {len(thresholds)} entries from {grouped(thresholds[0])} to {grouped(thresholds[-1])}, rising."
    yield f"pub static TABLE: [u64; {len(thresholds)}] = ["
    for light in thresholds:
        yield f"    {light},"
    yield "];"


def specs(thresholds):
    yield "-- The thresholds of the PQ codes (request 08): the light from which a rounded code is D or more, for each D from 65 to 940, in units."
    yield (
        f"-- {len(thresholds)} entries from {grouped(thresholds[0])} to {grouped(thresholds[-1])}, rising. "
        "Made by `python3 tools/thresholds.py specs`; `Code.threshold_light` is the rule."
    )
    yield "use Rattle.std.specs.Prelude.{List, [], ◌∷◌, ℕ}"
    yield ""
    yield "unfoldable pub threshold_table : List ℕ"
    yield "threshold_table ="
    for i in range(0, len(thresholds), 8):
        yield "    " + " ".join(f"{light} ∷" for light in thresholds[i : i + 8])
    yield "    []"


def made(form):
    lights = light_table()
    thresholds = [lights[4 * (code - BLACK) - 2] for code in range(FIRST, LAST + 1)]
    require(all(low < high for low, high in zip(thresholds, thresholds[1:])), "rising thresholds")
    return form(thresholds)


if __name__ == "__main__":
    sys.exit(run(sys.argv[1:], __doc__, {"source": (SOURCE, lambda: made(source)), "specs": (SPECS, lambda: made(specs))}))
