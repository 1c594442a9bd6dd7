#!/usr/bin/env python3
"""The light table: entry k, from 0 to 3,504, is the light of the PQ signal k/3504 to the nearest unit, 1/16,777,216 cd/m2.

    python3 tools/light_table.py source     print crates/pq/src/table.rt
    python3 tools/light_table.py specs      print crates/pq/specs/LightTable.antt
    python3 tools/light_table.py hints      print crates/pq/proofs/TableHints.antt
    python3 tools/light_table.py --check    compare all three with what is stored

Light l has the PQ value V with V^32 = r^2523, r = (3424 + 77216w)/(4096 + 76544w), w^8192 = (l/F)^1305, F being 10,000 cd/m2.
Decimals only suggest an entry. Whole numbers decide it: bounds of V^32, every step rounded down or every step rounded up, compare V with
k/3504, and an entry is taken when V(p - 1/2) <= k/3504 < V(p + 1/2); a comparison that the bounds leave open is an error.
So halves go up, though no entry shows it: none is an exact half.
Each hint is put to the test that the proof computes, in a second copy written here.
"""
import math
import os
import sys
from decimal import Decimal, getcontext

LAST = 3504
TEN_THOUSAND = 10000 << 24
ROOT = os.path.join(os.path.dirname(os.path.abspath(__file__)), "..")


# ---- bounds of V^32, in 1/2^512: the smallest that is compared is (1/3504)^32, about 2^-377

BITS = 512
ONE = 1 << BITS


def divided(n, d, up):
    return -(-n // d) if up else n // d


def power(x, n, up):
    result = ONE
    for digit in bin(n)[2:]:
        result = divided(result * result, ONE, up)
        if digit == "1":
            result = divided(result * x, ONE, up)
    return result


def root(x, up):
    r = math.isqrt(x << BITS)
    return r + 1 if up and r * r < x << BITS else r


def light_w(halves, up):
    """(light/F)^(1305/8192), the light in half units: thirteen square roots, then the power."""
    w = divided(halves << BITS, 2 * TEN_THOUSAND, up)
    for _ in range(13):
        w = root(w, up)
    return power(w, 1305, up)


def value_power(w, up):
    """V^32 of a w in 1/2^512; r grows with w."""
    return power(divided((3424 * ONE + 77216 * w) << BITS, 4096 * ONE + 76544 * w, up), 2523, up)


def at_most(halves, k):
    """Is V of so many half units at most k/3504?"""
    signal = k**32 << BITS
    if value_power(light_w(halves, True), True) * LAST**32 <= signal:
        return True
    if value_power(light_w(halves, False), False) * LAST**32 > signal:
        return False
    raise ArithmeticError(f"index {k}, light {halves}/2: {BITS} bits do not decide")


# ---- suggestions, to 60 decimals

getcontext().prec = 60


def signal_w(k):
    r = (Decimal(k) / LAST) ** (Decimal(32) / 2523)
    return (4096 * r - 3424) / (77216 - 76544 * r)


def light_table():
    table = [0]
    for k in range(1, LAST + 1):
        p = int(TEN_THOUSAND * signal_w(k) ** (Decimal(8192) / 1305))
        while not at_most(2 * p - 1, k):
            p -= 1
        while at_most(2 * p + 1, k):
            p += 1
        table.append(p)
    assert table[LAST] == TEN_THOUSAND
    return table


# ---- the proof's test of an entry, on numbers of 64 bits rounded to one side after each product


def rounded(q, c, up):
    return (q - 1) // c + 1 if up else q // c


def short_power(x, n, up):
    """x^n from one side as m and e of m * 2^e."""
    m, e = x, 0
    for digit in bin(n)[3:]:
        q = m * m * x if digit == "1" else m * m
        k = 126 + min(q >> 190, 2) if digit == "1" else 63 + (q >> 127)
        m, e = rounded(q, 1 << k, up), 2 * e + k
    return m, e


def scaled(x, p, y, q):
    """x * 2^p and y * 2^q without the twos that both have."""
    return x << max(p - q, 0), y << max(q - p, 0)


def short_test(halves, k, a, b, j, up):
    """a/2^b is at least the w of the light and its V at most k/3504 (up), or at most that w and its V above k/3504."""
    m, e = short_power(rounded(halves << j, 2 * TEN_THOUSAND, up), 1305, up)
    n, f = short_power(a, 8192, not up)
    x, y = scaled(m, e + b * 8192, n, f + j * 1305)
    unit = 1 << b
    m, e = short_power(rounded((3424 * unit + 77216 * a) << 64, 4096 * unit + 76544 * a, up), 2523, up)
    v, s = scaled(m * LAST**32, e, k**32, 64 * 2523)
    return x <= y and v <= s if up else x >= y and v > s


def entry_hint(k, p):
    """a, b, j: a/2^b at most the w of k/3504 and (a + 1024)/2^b above it, a of 64 bits; p * 2^j / F has 64 bits."""
    j = 63
    while (p << j) // TEN_THOUSAND < 1 << 63:
        j += 1
    w = signal_w(k)
    b = 63
    while int(w * (1 << b)) < 1 << 63:
        b += 1
    # halfway, but at the end, where w is 1 itself and leaves no room below
    a = int(w * (1 << b)) - (512 if k < LAST else 0)
    if not (short_test(2 * p - 1, k, a, b, j, True) and short_test(2 * p + 1, k, a + 1024, b, j, False)):
        raise ArithmeticError(f"index {k}: the proof's test refuses entry {p}")
    return a, b, j


# ---- the three files


def source(table):
    return (
        "// The light table P (scope, Light: light table). Made by `python3 tools/light_table.py source`.\n"
        "// Entry k is the light of the PQ signal k/3504 to the nearest 1/16,777,216 cd/m2 (request 05); 3,505 entries, rising from 0 to\n"
        "// 167,772,160,000.\n"
        f"pub static LIGHT_TABLE: [u64; {len(table)}] = [\n" + "".join(f"    {p},\n" for p in table) + "];\n"
    )


def rows(items, width):
    return "".join("    " + " ".join(f"{item} ∷" for item in items[i : i + width]) + "\n" for i in range(0, len(items), width)) + "    []\n"


def specs(table):
    return (
        "-- The light table P (scope, Light: light table; request 05): entry k is the light of the PQ signal k/3504 to the nearest 1/16,777,216 cd/m2.\n"
        "-- 3,505 entries from 0 to 167,772,160,000, rising. Made by `python3 tools/light_table.py specs`; `Pq.IsEntry` is the rule.\n"
        "use Rattle.std.specs.Prelude.{List, [], ◌∷◌, ℕ, min, get_or}\n\n"
        "unfoldable pub light_table : List ℕ\n"
        "light_table =\n" + rows(table, 10) + "\n"
        "-- P[k]; past the table its last entry\n"
        "unfoldable pub light_entry : ℕ → ℕ\n"
        "light_entry k = get_or light_table (min k 3504) 0\n"
    )


def hints(table):
    found = [entry_hint(k, table[k]) for k in range(1, LAST + 1)]
    return (
        "-- What the test of each entry of the light table from 1 on is given. Made by `python3 tools/light_table.py hints`; nothing is believed of it.\n"
        "use mathlib.Core.List.{List, [], ◌∷◌}\n"
        "use Rattle.pq.proofs.PqTests.{Hint, hint}\n\n"
        "unfoldable pub hints : List Hint\n"
        "hints =\n" + rows([f"hint {a} {b} {j}" for a, b, j in found], 3)
    )


FILES = {
    "source": (source, "crates/pq/src/table.rt"),
    "specs": (specs, "crates/pq/specs/LightTable.antt"),
    "hints": (hints, "crates/pq/proofs/TableHints.antt"),
}


def check():
    table = light_table()
    same = True
    for make, path in FILES.values():
        with open(os.path.join(ROOT, path), encoding="utf-8", newline="") as file:
            equal = file.read() == make(table)
        print(f"{path}: {'as computed' if equal else 'DIFFERS'}")
        same = same and equal
    return 0 if same else 1


def main(words):
    if words == ["--check"]:
        return check()
    if len(words) == 1 and words[0] in FILES:
        sys.stdout.buffer.write(FILES[words[0]][0](light_table()).encode())
        return 0
    print(__doc__, file=sys.stderr)
    return 2


if __name__ == "__main__":
    sys.exit(main(sys.argv[1:]))
