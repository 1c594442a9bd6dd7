#!/usr/bin/env python3
"""Greys sent to PQ and converted again, ten bits and narrow range: for each HLG code from 64 to 940 its PQ code, and the HLG code that comes
back under a peak of 1,000 cd/m2.

    python3 tools/grey_codes.py hints      print crates/round_trip/proofs/GreyHints.antt
    python3 tools/grey_codes.py --check    compare that file with what would be printed

Both say on standard error how many come back equal, below and above.

A code is searched for among all, by the inequality that defines it, on the tables that the other tools make. Whole numbers only. Both
codes of a grey are then put to the test that the proof computes: each is reached, and the one after it is not.
"""
import sys
from pathlib import Path

sys.path.insert(0, str(Path(__file__).resolve().parent))
import hlg_steps
import light_table
import scene_lights
from generated import ROOT, run

HINTS = ROOT / "crates/round_trip/proofs/GreyHints.antt"
BLACK, PEAK, LAST = 64, 940, 1019
THOUSAND = 1000 << 24  # 1,000 cd/m2 in units of light
WHOLE = hlg_steps.UNIT**6  # the sixth power of the scene's range


def last_reached(reached, last):
    """The largest code up to that one which is reached, else that of black; a code that is missed leaves all above it."""
    low, high = BLACK, last + 1
    while high - low > 1:
        middle = (low + high) // 2
        low, high = (middle, high) if reached(middle) else (low, middle)
    return low


def sent(lights, s):
    """The PQ code of a grey of scene light s: c is reached where c^5 2^240 is at most A^5 s^6."""
    def reached(code):
        return code == BLACK or lights[4 * (code - BLACK) - 2] ** 5 * WHOLE <= THOUSAND**5 * s**6

    code = last_reached(reached, PEAK)
    hlg_steps.require(code < PEAK and reached(code) and not reached(code + 1), f"PQ code of the scene light {s}")
    return code


def returned(lights, steps, code):
    """The HLG code of a PQ grey: a step T is reached where T^6 A^5 is at most 2^240 r^5, r being its light, at most 1,000 cd/m2, and above 0."""
    r = min(lights[4 * (code - BLACK)], THOUSAND)

    def reached(d):
        return d == BLACK or (r > 0 and steps[d] ** 6 * THOUSAND**5 <= WHOLE * r**5)

    d = last_reached(reached, LAST)
    hlg_steps.require(d < LAST and reached(d) and not reached(d + 1), f"HLG code of the PQ grey {code}")
    return d


def codes():
    lights = light_table.light_table()
    steps = {d: hlg_steps.step(d) for d in range(BLACK + 1, LAST + 1)}
    sent_codes = [sent(lights, scene_lights.scene_light(d)) for d in range(BLACK, PEAK + 1)]
    return sent_codes, [returned(lights, steps, code) for code in sent_codes]


def rows(numbers):
    for i in range(0, len(numbers), 24):
        yield "    " + " ".join(f"{n} ∷" for n in numbers[i : i + 24])
    yield "    []"


def hints():
    sent_codes, returned_codes = codes()
    far = [e - d for d, e in enumerate(returned_codes, BLACK)]
    counts = ", ".join(f"{far.count(k)} by {k:+}" if k else f"{far.count(0)} equal" for k in sorted(set(far)))
    print(f"{len(far)} greys: {counts}", file=sys.stderr)
    yield "-- For each grey of an HLG code from 64 to 940, in order, its PQ code, and the HLG code that comes back under a peak of 1,000 cd/m2. Made by"
    yield "-- `python3 tools/grey_codes.py hints`; nothing is believed of them: `RoundTripTests` tests each."
    yield "use mathlib.Core.List.{List, [], ◌∷◌}"
    yield "use Prim.Native.Nat.{ℕ}"
    yield ""
    yield "unfoldable pub sent_codes : List ℕ"
    yield "sent_codes ="
    yield from rows(sent_codes)
    yield ""
    yield "unfoldable pub returned_codes : List ℕ"
    yield "returned_codes ="
    yield from rows(returned_codes)


if __name__ == "__main__":
    sys.exit(run(sys.argv[1:], __doc__, {"hints": (HINTS, hints)}))
