"""How often the guesses of the row call, and of the call on sRGB, fail on the pictures, and what they fall back on.

    python3 -m bench.fallbacks [PEAK]

A replay in whole numbers of the guesses and tests of crates/span/src, block by block, and of crates/srgb_hlg/src, on
TAKEN rows of each picture, evenly spread. Functions have the names that they have there. Every code is held to the
second implementation's, and the constants to those files. Nothing here depends on the machine.
"""

import re
import sys
from collections import Counter
from pathlib import Path

from tests.reference import srgb
from tests.reference.pixel import hlg_codes as true_codes

from .pictures import HEIGHT, PICTURES, WIDTH, rows_of, srgb_rows_of
from .result import SRGB_PICTURES

ROOT = Path(__file__).resolve().parent.parent
sys.path.insert(0, str(ROOT / "tools"))
import hints as hint_tool
import hlg_steps
import light_table
import srgb_hints
import srgb_lights

TAKEN = 10                               # rows of a picture
WORD = 2**64
UNITS, THOUSAND, TEN_THOUSAND = 2**24, 1_000 * 2**24, 10_000 * 2**24
BLOCK = 32                               # pixels
BLACK, DARK = (64, 64, 64), (0, 0, 0)    # codes, and no light
THOUSAND_POSITION, LAST_POSITION = 674_406, 897_024
WHOLE, SIXTH = 12_379_400_392_853_802, 2_236_962_133_333_333_333
LEAST, SPREAD, GUESS = 12_378_400_392_853_802, 2_000_000_000_000, 4_611_686_018_427_387_904

# what of the above, and of the numbers below, stands in which file
CONSTANTS = {
    "span/src/block.rt": (BLOCK, *DARK),
    "span/src/cell.rt": (256, 3_503, 3_504),
    "span/src/hints.rt": (800, 33, 2**58, 64, 30, 32, 2**20, 2**38, 2**32, 26, 31, 1_024, 546, 876, 484),
    "span/src/mapping.rt": (4, 64, 940, 1_024),
    "span/src/near.rt": (2**17, 64, 1_019),
    "span/src/root.rt": (47, WHOLE, SIXTH, LEAST, SPREAD, GUESS, 128, 38),
    "eetf/src/lib.rt": (1_000, THOUSAND_POSITION, 674_504, 27),
    "hlg_steps/src/lib.rt": (65,),
    "position/src/lib.rt": (256,),
    "quantity/src/sample_format.rt": (16, 4),
    "quantity/src/lib.rt": (UNITS, THOUSAND, TEN_THOUSAND, LAST_POSITION, 2_627, 6_780, 593),
    "srgb_hlg/src/hints.rt": (64, 65, 953),
    "srgb_hlg/src/code.rt": (64,),
}

LIGHTS = light_table.light_table()
STEPS = [hlg_steps.step(d) for d in range(hlg_steps.FIRST, hlg_steps.LAST + 1)]


def code_of(file):
    """A file of the engine without its comments and contracts."""
    code = re.sub(r"//.*", "", (ROOT / "crates" / file).read_text(encoding="utf-8"))
    return re.sub(r"\b(requires|ensures)\b[\w ]*\{([^{}]|\{[^{}]*\})*\}", "", code)


def constants_of(file):
    """The constants of such a file by their names: a number, or those of a struct."""
    found = {name: tuple(map(int, re.findall(r"\b\d+\b", value))) for name, value in re.findall(r"\bconst (\w+): \w+ = ([^;]*);", code_of(file))}
    return {name: numbers if len(numbers) > 1 else numbers[0] for name, numbers in found.items()}


def check_constants():
    """Fails unless the engine's files have the numbers that are used here."""
    for file, numbers in CONSTANTS.items():
        code = code_of(file)
        written = set(map(int, re.findall(r"\b\d+(?=\b|u64)", code)))
        if missing := set(numbers) - written:
            raise SystemExit(f"crates/{file} has no {sorted(missing)}: the replay is not of this engine")


# ---- words


def upper_word(u, v):
    return u * v >> 64


def leading_zeros(x):
    return 64 - x.bit_length()


# ---- laws, hlg_steps, pq, position and eetf: nothing is guessed there


def largest(passes, low, last):
    """The last of low + 1 .. last that passes, else low, by halving."""
    while low < last:
        middle = last - (last - low) // 2
        low, last = (middle, last) if passes(middle) else (low, middle - 1)
    return low


def nearest_entry(table, i):
    return table[min(i, len(table) - 1)]


def step_of(d):
    return nearest_entry(STEPS, max(d - 65, 0))


def light_entry(k):
    return nearest_entry(LIGHTS, k)


def light_at(q):
    low, high = light_entry(q // 256), light_entry(q // 256 + 1)
    return low + (high - low) * (q % 256) // 256


def bent_light(w, peak, m1, m):
    if peak <= 1_000:
        return min(m1, THOUSAND)
    end = min(max(w, 674_504), LAST_POSITION)
    at = min(m, end)
    if 2 * at + end < 3 * THOUSAND_POSITION:
        return m1
    square = 27 * (end - THOUSAND_POSITION) ** 2
    return light_at((square * THOUSAND_POSITION - 4 * (end - at) ** 3) // square)


# ---- the replay


class Replay:
    """The passes of a block under one peak, and a count of what was sought and of what failed."""

    def __init__(self, peak, hints, cells):
        self.peak, self.hints, self.cells = peak, hints, cells
        self.w = self.position_by_cell(peak * UNITS)
        self.seen = Counter()

    # cell.rt: once a call, for its peak

    def is_cell(self, k, light):
        return k < 3_504 and light_entry(k) <= light < light_entry(k + 1)

    def cell_of(self, light):
        hinted = self.cell_hint(light)
        for k in (hinted, (hinted + 1) % WORD):
            if self.is_cell(k, light):
                return k
        return largest(lambda k: light_entry(k) <= light, 0, 3_503)

    def position_by_cell(self, light):
        if light >= TEN_THOUSAND:
            return LAST_POSITION
        k = self.cell_of(light)
        low, following = light_entry(k), light_entry(k + 1)
        return 256 * k + (256 * (light - low + 1) - 1) // (following - low)

    # hints.rt

    def root_hint(self, n, z):
        i = 800 + 33 * (z % 6) + n // 2**58
        fall = (self.hints[i] - self.hints[i + 1]) % WORD
        return (self.hints[i] - upper_word(fall, n % 2**58 * 64)) % WORD

    def code_hint(self, p):
        z = leading_zeros(p)
        if not 6 <= z <= 30:
            return 0
        n = p << z
        return self.height(self.hints[(30 - z) * 32 + n // 2**58], n)

    def height(self, line, n):
        return (line + line % 2**20 * (n // 2**38)) % WORD // 2**32

    def cell_hint(self, light):
        z = leading_zeros(light)
        if not 26 <= z <= 31:
            return 0
        n = light << z
        return self.height(self.cells[(31 - z) * 32 + n // 2**58], n)

    def factor_hint(self, m, m2):
        if not 546 <= m // 1_024 <= 876:
            return 0
        return (upper_word(m2 << 30, self.hints[484 + m // 1_024]) + 1) % WORD

    # mapping.rt

    def scaled(self, c, m1, m2, factor):
        self.seen["quotients"] += 1
        q = upper_word(4 * c, factor)
        if 0 <= c * m2 - q * m1 < m1:
            return q
        self.seen["divided"] += 1
        return c * m2 // m1

    def ten_bit_above(self, d):
        return min(max(d, 64), 940) - 64

    def map_codes(self, pixel):
        lights = tuple(light_entry(4 * self.ten_bit_above(d)) for d in pixel)
        m1, m = max(lights), 1_024 * self.ten_bit_above(max(pixel))
        m2 = bent_light(self.w, self.peak, m1, m)
        if m1 == m2:
            return lights
        factor = self.factor_hint(m, m2)
        return tuple(self.scaled(c, m1, m2, factor) for c in lights)

    # root.rt

    def weigh(self, mapped):
        r, g, b = mapped
        return 2_627 * r + 6_780 * g + 593 * b

    def lower_root(self, y):
        z = leading_zeros(y)
        if z > 47:
            return None
        n = y << z
        w = self.root_hint(n, z)
        square = upper_word(w, w) + 1
        weighed = upper_word(square, n >> z % 6) + 1
        fourth = upper_word(square, square) + 1
        power = upper_word(fourth, weighed) + 1
        if (power - LEAST) % WORD > SPREAD or w < GUESS:
            return None
        return upper_word(upper_word(w, SIXTH), (7 * WHOLE - power) * 128) >> 38 - z // 6

    # near.rt

    def is_settled(self, s, u, d):
        return 64 < d < 1_019 and step_of(d) <= s and u < step_of(d + 1)

    def searched_code(self, s, u):
        d = largest(lambda d: step_of(d) <= s, 64, 1_019)
        return None if d < 1_019 and step_of(d + 1) <= u else d

    def near_code(self, r, g):
        low = r * g
        s, u, d = low >> 17, low + 2 * r >> 17, self.code_hint(low)
        self.seen["codes"] += r > 0
        if self.is_settled(s, u, d):
            return d
        if r == 0:
            return 64
        self.seen["halved"] += 1
        d = self.searched_code(s, u)
        self.seen["open"] += d is None
        return d

    def codes_by_root(self, root, mapped):
        """The codes, or nothing where the tests leave one open: those after it are not sought."""
        if root is None:
            return None
        codes = []
        for r in mapped:
            code = self.near_code(r, root)
            if code is None:
                return None
            codes.append(code)
        return codes

    def near_codes(self, root, mapped):
        """The codes, or nothing where the exact comparison makes them."""
        codes = self.codes_by_root(root, mapped)
        if codes is None and mapped == DARK:
            return [64] * 3
        self.seen["compared"] += codes is None
        return codes

    # block.rt

    def map_pixels(self, pixels):
        last, mapped = BLACK, DARK
        for pixel in pixels:
            if pixel == last:
                self.seen["equal"] += 1
            else:
                last, mapped = pixel, self.map_codes(pixel)
            yield mapped

    def find_roots(self, words):
        luminance, root = 0, None
        for mapped in words:
            y = self.weigh(mapped)
            if y != luminance:
                luminance, root = y, self.lower_root(y)
                self.seen["roots"] += y > 0
                self.seen["rootless"] += y > 0 and root is None
            yield root

    def code_pixels(self, words, roots):
        last, found = DARK, [64] * 3
        for mapped, root in zip(words, roots):
            if mapped != last:
                last, found = mapped, self.near_codes(root, mapped)
            yield found

    def convert_block(self, pixels):
        """The codes of a block; nothing for a pixel of the exact comparison."""
        self.seen["pixels"] += len(pixels)
        words = list(self.map_pixels(pixels))
        return list(self.code_pixels(words, list(self.find_roots(words))))

    def row(self, pixels):
        """A row, block by block; each code is held to the second implementation's."""
        for start in range(0, len(pixels), BLOCK):
            block = pixels[start:start + BLOCK]
            for pixel, codes in zip(block, self.convert_block(block)):
                if codes is not None and tuple(codes) != true_codes(self.peak, pixel):
                    raise SystemExit(f"peak {self.peak}, pixel {pixel}: the replay found {codes}")


class CaptionReplay:
    """The walk over a row of sRGB values, and a count of what was sought and of what failed."""

    def __init__(self):
        self.hints, self.lights = srgb_hints.made(), [srgb_lights.light(v) for v in range(256)]
        self.spread = constants_of("srgb_hlg/src/code.rt")["SPREAD"]
        self.scene = constants_of("srgb_hlg/src/scene.rt")
        self.weights = [self.scene[name][3:] for name in ("RED", "GREEN", "BLUE")]  # after the shares
        self.seen = Counter()

    # hints.rt

    def reached_hint(self, light):
        z = leading_zeros(light)
        place = self.hints[z + 65] + (light >> self.hints[z] % 64)
        return self.hints[place] if place < len(self.hints) and self.hints[place] <= 953 else None

    # scene.rt

    def lower_light(self, weights, lights):
        return sum(weight * (light // self.scene["SPLIT"]) for weight, light in zip(weights, lights)) // self.scene["WEIGHT"]

    # code.rt

    def guess(self, light):
        hint = self.reached_hint(light)
        return 0 if hint is None else hint + (STEPS[hint] <= light)

    def near_code(self, low):
        reached = self.guess(low)
        settled = (reached == 0 or STEPS[reached - 1] <= low) and low + self.spread < STEPS[reached]
        return 64 + reached if settled else None

    # span.rt

    def row(self, row):
        """A row, pixel after pixel; each code is held to the second implementation's."""
        last = (0, 0, 0)
        for pixel in zip(row[::3], row[1::3], row[2::3]):
            self.seen["pixels"] += 1
            if pixel == last:
                self.seen["equal"] += 1
                continue
            last, lights = pixel, [self.lights[v] for v in pixel]
            codes = [self.near_code(self.lower_light(weights, lights)) for weights in self.weights]
            for code, true_code in zip(codes, srgb.convert_pixel(pixel)):
                self.seen["codes"] += 1
                self.seen["halved"] += code is None
                if code not in (None, true_code):
                    raise SystemExit(f"sRGB, pixel {pixel}: the replay found {codes}")


def pixels_of(row):
    samples = [int.from_bytes(row[i:i + 2], "big") for i in range(0, len(row), 2)]
    return [tuple(samples[i:i + 3]) for i in range(0, len(samples), 3)]


# what is printed: what failed, of what
SHARES = (("pixels that equal the one before", "equal", "pixels"),
          ("roots whose guess fails", "rootless", "roots"),
          ("codes whose hint fails: halving", "halved", "codes"),
          ("codes that halving leaves open", "open", "codes"),
          ("pixels of the exact comparison", "compared", "pixels"),
          ("quotients that fail: division", "divided", "quotients"))


# the same of captions
CAPTION_SHARES = (("pixels that equal the one before", "equal", "pixels"),
                  ("codes that are not guessed: halving", "halved", "codes"))


def show(name, seen, shares):
    """What was found on a picture."""
    print(name)
    for words, part, whole in shares:
        print(f"    {words}: {100 * seen[part] / max(seen[whole], 1):.3g} % ({seen[part]:,} of {seen[whole]:,})", flush=True)


def main(peak):
    check_constants()
    hints, cells, chosen = list(hint_tool.entries()), list(hint_tool.cells()), {y * HEIGHT // TAKEN for y in range(TAKEN)}
    print(f"peak {peak:,}, {TAKEN * WIDTH:,} pixels of each picture; percent, and of how many")
    for name in PICTURES:
        replay = Replay(peak, hints, cells)
        for row in rows_of(name, chosen):
            replay.row(pixels_of(row))
        show(name, replay.seen, SHARES)
    print("sRGB, as many pixels")
    for name in SRGB_PICTURES:
        replay = CaptionReplay()
        for row in srgb_rows_of(name, chosen):
            replay.row(row)
        show(name, replay.seen, CAPTION_SHARES)


if __name__ == "__main__":
    main(int(sys.argv[1]) if len(sys.argv) > 1 else 4_000)
