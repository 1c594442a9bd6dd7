#!/usr/bin/env python3
"""The HLG steps: for each code d from 65 to 1,019 the smallest scene light, in 1/2^40, whose HLG signal is at least (2d - 129)/1752.

    python3 tools/hlg_steps.py source    print crates/hlg_steps/src/steps.rt
    python3 tools/hlg_steps.py specs     print crates/hlg_steps/specs/StepTable.antt
    python3 tools/hlg_steps.py --check   compare both files with what would be printed

Whole numbers only. Up to code 502 the OETF is the square root of 3E, and a step is one division rounded up. From 503 on it is
a ln(12E - b) + c: the exponential is enclosed between a partial sum of its series and that sum with its last term once more, and terms
are added until both ends give the same step. Each step is then tested again, with the light one below it.
"""
import sys

from generated import ROOT, run

FIRST, LAST, LAST_SQUARE = 65, 1019, 502
UNIT = 2**40  # scene light is counted in 1/UNIT
DECIMALS = 10**8  # a, b and c have eight decimals
A, B, C = 17883277, 28466892, 55991073
SOURCE = ROOT / "crates/hlg_steps/src/steps.rt"
SPECS = ROOT / "crates/hlg_steps/specs/StepTable.antt"


def require(holds, what):
    if not holds:
        raise ArithmeticError(what)


def ceiling(n, d):
    return -(-n // d)


def exponential(p, q, terms):
    """Whole numbers (low, high, den) with low/den <= exp(p/q) <= high/den, for p of 0 or more and q above 0."""
    # each later term is at most half of the one before it, so together they are at most the last one
    require(2 * p <= (terms + 1) * q, "too few terms for the rest of the series to be bounded")
    total, power, den = 1, 1, 1
    for n in range(1, terms + 1):
        power *= p
        total = total * n * q + power
        den *= n * q
    return total, total + power, den


def signal_exponential(n, m, terms):
    """Fractions, as pairs, below and above exp((e - c)/a) at the signal e = n/m."""
    y, q = n * DECIMALS - C * m, A * m
    low, high, den = exponential(abs(y), q, terms)
    return ((low, den), (high, den)) if y >= 0 else ((den, high), (den, low))


def reaches(s, bound):
    """12s/2^40 - b is at least the fraction."""
    n, m = bound
    return (12 * s * DECIMALS - B * UNIT) * m >= n * UNIT * DECIMALS


def least_reaching(bound):
    n, m = bound
    return ceiling((n * DECIMALS + B * m) * UNIT, 12 * m * DECIMALS)


def step(d):
    if d <= LAST_SQUARE:
        square, scale = (2 * d - 129) ** 2 * UNIT, 3 * 1752**2
        s = ceiling(square, scale)
        require(s * scale >= square > (s - 1) * scale, f"step of {d}")
        return s
    terms = 16
    while True:
        low, high = signal_exponential(2 * d - 129, 1752, terms)
        s = least_reaching(high)
        if s == least_reaching(low):
            require(reaches(s, high) and not reaches(s - 1, low), f"step of {d}")
            return s
        terms += 8


def grouped(n):
    return f"{n:,}"


def source(steps):
    yield "// Made by `python3 tools/hlg_steps.py source`. Entry d - 65 is the step T[d] of the HLG code d: the smallest scene light whose signal"
    yield f"// rounds to d or more, in 1/2^40 of the nominal range. {len(steps)} entries from {grouped(steps[0])} to {grouped(steps[-1])}, rising."
    yield f"pub static TABLE: [u64; {len(steps)}] = ["
    for s in steps:
        yield f"    {s},"
    yield "];"


def specs(steps):
    yield "-- The HLG steps T (scope, HLG code: T[d]): the step of each code d from 65 to 1,019, in 1/2^40 of the scene's range."
    yield (
        f"-- {len(steps)} entries from {grouped(steps[0])} to {grouped(steps[-1])}, rising. "
        "Made by `python3 tools/hlg_steps.py specs`; `Steps.IsStep` is the rule."
    )
    yield "use Rattle.std.specs.Prelude.{List, [], ◌∷◌, ℕ, min, ◌-◌, get_or}"
    yield ""
    yield "unfoldable pub step_table : List ℕ"
    yield "step_table ="
    for i in range(0, len(steps), 8):
        yield "    " + " ".join(f"{s} ∷" for s in steps[i : i + 8])
    yield "    []"
    yield ""
    yield "-- T[d]; below 65 that of 65, above 1,019 that of 1,019"
    yield "unfoldable pub step : ℕ → ℕ"
    yield f"step d = get_or step_table (min (d - {FIRST}) {len(steps) - 1}) 0"


def made(form):
    steps = [step(d) for d in range(FIRST, LAST + 1)]
    require(all(s < t for s, t in zip(steps, steps[1:])), "rising steps")
    return form(steps)


if __name__ == "__main__":
    sys.exit(run(sys.argv[1:], __doc__, {"source": (SOURCE, lambda: made(source)), "specs": (SPECS, lambda: made(specs))}))
