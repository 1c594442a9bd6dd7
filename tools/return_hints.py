#!/usr/bin/env python3
"""The hints of the return path's row call: guesses that a test confirms each time, so nothing rests on their values.

    python3 tools/return_hints.py source    print crates/return_span/src/hint_table.rt
    python3 tools/return_hints.py --check   compare that file with what would be printed
    python3 tools/return_hints.py slack     how near the powers of guessed roots come, and what guesses leave to the long ways

1,541 entries, two tables after one another. 32 zeros come first, so that no place needs a subtraction.
    864 lines, 27 octaves of 32: the PQ code (before it is rounded down) of a display light c in units, c from 2^8 to below
        2^35, in a straight line over each 32nd of an octave, as in hints.py
    645 roots, 5 times 129, for a luminance shifted by its z leading zeros to fill 64 bits: with j = z modulo 5 and t its
        leading eight bits, 128 to 256, the fifth root of 2^225 times 2 x 5^11 N, N = t 2^(56 - j), raised by half of what
        the curve lies above the chord to the next one in the middle. Between two entries lies a straight line
Decimals of 50 digits make the lines, whole numbers the rest.
"""
import sys
from bisect import bisect_right
from decimal import Decimal, getcontext
from pathlib import Path
from random import Random

sys.path.insert(0, str(Path(__file__).resolve().parent))
from generated import ROOT, run
from hints import chord
from light_table import light_table
from scene_lights import scene_light

SOURCE = ROOT / "crates/return_span/src/hint_table.rt"
PART, NEAR, ROUNDED = 20, 18, 4          # of root.rt: the bounds of a root, and how near its power must come
WEIGHT, SCENE = 2**34 * 5**11, 2**23     # of root.rt and near.rt
getcontext().prec = 50


def code_at(c):
    """The PQ code of a light of c units before it is rounded down."""
    w = (Decimal(c) / (10_000 * 2**24)) ** (Decimal(1305) / 8192)
    signal = ((3424 + 77216 * w) / (4096 + 76544 * w)) ** (Decimal(2523) / 32)
    return 876 * signal + Decimal("64.5")


def line(octave, top):
    """The line over the lights from top 2^(octave + 3) on."""
    return chord(top, *(code_at(2 * top + half << octave + 2) for half in range(3)))


def fifth_root(n):
    """Rounded down."""
    low, high = 0, 1 << 64
    while high - low > 1:
        middle = (low + high) // 2
        low, high = (middle, high) if middle**5 <= n else (low, middle)
    return low


def root_at(n):
    """The root of the luminance n, which is scaled to fill a word."""
    return fifth_root(2**226 * 5**11 * n)


def root(top, j):
    """The entry of luminances with the leading bits top. A chord of the rising curve lies below it."""
    start, middle, end = (root_at(2 * top + half << 55 - j) for half in range(3))
    return start + (middle - (start + end) // 2) // 2


def entries():
    yield from [0] * 32
    yield from (line(octave, top) for octave in range(27) for top in range(32, 64))
    yield from (root(top, j) for j in range(5) for top in range(128, 257))


def source():
    hints = list(entries())
    yield (
        "// Made by `python3 tools/return_hints.py source`. Hints: a test confirms each one's use, so nothing rests on these "
        "values. Entries 32 to 895 are"
    )
    yield "// lines of codes, 896 to 1,540 roots of luminances."
    yield f"pub static HINTS: [u64; {len(hints)}] = ["
    for h in hints:
        yield f"    {h},"
    yield "];"


def upper_word(u, v):
    return u * v >> 64


def zeros(x):
    return 64 - x.bit_length()


def guessed_root(hints, n, z):
    i = 768 + 129 * (z % 5) + (n >> 56)
    return hints[i] + upper_word(hints[i + 1] - hints[i], n % 2**56 * 256)


def powers(hints, n, z):
    """The guess for a luminance that z zeros were taken from, its power, and that of the root."""
    guess = guessed_root(hints, n, z)
    square = upper_word(guess, guess)
    return guess, upper_word(upper_word(square, square), guess), upper_word(n >> z % 5, WEIGHT)


def farthest(hints):
    """How far the power of a guess lies from that of the root at the most, as a part of it, at 17 places of each line."""
    places = ((top << 56) + part * (2**56 - 1) // 16 for top in range(128, 256) for part in range(17))
    return max(abs(Decimal(fifth) / power - 1) for n in places for z in range(5) for _, fifth, power in [powers(hints, n, z)])


def roots(hints, y):
    """Bounds of the root of a luminance, as root.rt finds them; nothing where it finds none."""
    if y == 0:
        return 0, 1
    z = zeros(y)
    guess, fifth, power = powers(hints, y << z, z)
    if power < fifth - (fifth >> NEAR) + ROUNDED or fifth <= power - (power >> NEAR):
        return None
    part, shift = (guess >> PART) + 1, 26 + z // 5
    return guess - part >> shift, (guess >> shift) + (part >> shift) + 2


def guessed_code(hints, light):
    z = zeros(light)
    if not 29 <= z <= 55:
        return 64
    line = hints[(55 - z) * 32 + (light << z >> 58)]
    return (line + line % 2**20 * (light << z >> 38)) % 2**64 >> 32


def left_open(colours):
    """Of the codes of so many colours drawn evenly from 4 to 1,019: how many have no root, a wrong guess, a threshold between their bounds."""
    hints, lights, thresholds = list(entries()), [scene_light(d) for d in range(64, 1020)], light_table()[2:3504:4]
    random, rootless, searched, compared = Random(1), 0, 0, 0
    for _ in range(colours):
        scene = [lights[max(random.randint(4, 1019), 64) - 64] for _ in range(3)]
        bounds = roots(hints, 2627 * scene[0] + 6780 * scene[1] + 593 * scene[2])
        if bounds is None:
            rootless += 3
            continue
        for s in scene:
            low, high = (upper_word(SCENE * s, bound) for bound in bounds)
            code, next_code = (64 + bisect_right(thresholds, light) for light in (low, high))
            searched += code == next_code != guessed_code(hints, low)
            compared += code != next_code
    return rootless, searched, compared


def slack():
    far, colours = farthest(list(entries())), 300_000
    rootless, searched, compared = left_open(colours)
    share = 100_000 / (3 * colours)
    print(f"powers must come within 1/{2**NEAR:,} of each other; guesses need 1/{int(1 / far):,} ({float(far * 2**NEAR):.3f})")
    print(f"of 100,000 codes drawn evenly {searched * share:.0f} go to halving and {compared * share:.0f} to the exact comparison; {rootless} have no root")
    return 0 if far * 2**NEAR < 1 else 1


if __name__ == "__main__":
    sys.exit(slack() if sys.argv[1:] == ["slack"] else run(sys.argv[1:], __doc__, {"source": (SOURCE, source)}))
