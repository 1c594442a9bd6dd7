"""Compares the built programs with the second implementation on titles and records drawn by lot, sound and damaged ones.

    python3 -m tests.program.compare [--short] [--built FOLDER] [SEED]

README.md says what is drawn. Ends with status 1 after a line that starts with DIFFERENT.
"""

import argparse
import subprocess
import sys
import time
from collections import Counter
from pathlib import Path
from random import Random

from tests.reference.cases import title, word
from tests.reference.content_light import ENDS, Record, as_read
from tests.reference.format_cases import card as maxcll_card
from tests.reference.light import light_at, light_of_code
from tests.reference.row import PIXEL_BYTES, WIDEST, pixels_of, samples_of
from tests.reference.sample_format import FORMATS, format_of
from tests.reference.samples import draw_measured_row, draw_palette, draw_row, with_bad_samples
from tests.reference.vectors import converted, format_record_line, measured, record_answer, record_question, rewritten

BUILT = Path(__file__).resolve().parents[2] / "target" / "bin"
FULL = {"titles": 60_000, "records": 60_000}
SHORT = {"titles": 1_500, "records": 4_000}
CHEAP = 64                               # pixels that are converted as well, every fourth title
BATCH = 2_000                            # records of one run
PATIENCE = 60                            # seconds that a run may take before it counts as hanging

ANSWERS = {"measured", *(f"refused {number}" for number in (1, 2, 3, 4, 17, 9, 10, 11, 12))}
REWRITINGS = {"same", "rewritten", *(f"refused {number}" for number in (1, 2, 3, 4))}
RECORD_ANSWERS = {"accepted", *(f"refused {number}" for number in (6, 9, 12, 13))}


class Difference(Exception):
    """A program and the second implementation disagree."""


def draw_card(random):
    """A card of any format: mostly sound, a field of 0 among the others, else with an unknown bit or a field out of range."""
    bits, lot = random.randrange(32), random.random()
    fields = [random.choice((0, 1, 1_000, 10_000, random.randint(1, 10_000))) for bit in (1, 2) if bits & bit]
    if lot < 0.03:
        bits |= random.choice((32, 64, 128))
    elif lot < 0.07 and fields:
        fields[random.randrange(len(fields))] = random.choice((10_001, 65_535))
    return bytes([bits]) + b"".join(map(word, fields))


def draw_width(random):
    """A width: mostly small, now and then the widest or a refused one."""
    lot = random.random()
    if lot < 0.03:
        return random.choice((0, WIDEST + 1, 65_535))
    if lot < 0.035:
        return random.choice((WIDEST - 1, WIDEST))
    return random.randint(100, 400) if lot < 0.06 else random.randint(1, 9)


def draw_title(random):
    """A title. Rows are drawn from few codes, so that their brightest pixels are often equal."""
    card, width = draw_card(random), draw_width(random)
    form = format_of(card[0])
    least, most, black, white = form.taken[0], form.taken[-1], form.black, form.white
    codes = random.choice((*[draw_palette(random, form)] * 4, *[range(least, white)] * 3, range(least, black + 1), range(white - 10, most + 1)))
    rows = [draw_row(random, codes, width if width <= WIDEST else 1) for _ in range(random.choice((0, 1, 2, 3, 5, 8, 30) if width < 10 else (1, 2)))]
    lot = random.random()
    if rows and width and lot < 0.15:
        at = random.randrange(len(rows))
        rows[at] = with_bad_samples(random, rows[at], form)
    data = title(card, width, *rows)
    if rows and width and 0.10 < lot < 0.22:
        return data[:-random.randrange(1, len(rows[-1]))]
    return data[:random.randrange(len(card) + 2)] if lot > 0.95 else data


def run(built, name, data, told=b""):
    """What a program prints; it must tell no more than it should, and end well."""
    done = subprocess.run([built / name], input=data, capture_output=True, timeout=PATIENCE)
    if done.returncode or done.stderr != told:
        raise Difference(f"{name} ended with {done.returncode} and said {done.stderr!r}, should be {told!r}, on {shown(data)}")
    return done.stdout


def shown(data):
    """A title in words, cut where it is long."""
    return f"{len(data)} bytes {data[:400].hex(' ', 2)}"


def hold(built, name, data, owed, told=b""):
    """Fails unless a program prints what it owes, and tells what it should."""
    given = run(built, name, data, told)
    if given != owed:
        raise Difference(f"{name} printed {given[-200:]!r}, should be {owed[-200:]!r}, on {shown(data)}")


def opening_length(data):
    """Bytes of the card and the width of a sound title."""
    return 3 + 2 * (data[0] & 1) + (data[0] & 2)


def brightest(data):
    """How many pixels of a sound title have its largest light."""
    form = format_of(data[0])
    lights = [light_of_code(max(pixel), form) for pixel in pixels_of(samples_of(data[opening_length(data):]))]
    return lights.count(max(lights))


def hold_rewritten(built, data):
    """Fails unless `rewrite` copies and tells what it should; the title to go on with, and which answer it was."""
    copy, told = rewritten(data)
    hold(built, "rewrite", data, copy, told)
    if told:
        return data, told.decode().strip()
    return copy, "same" if copy == data else "rewritten"


def compare_titles(random, count, built):
    """Titles through `measure`, the cheap ones also through `convert`; half of these with the measured peak on the card.

    Every second title, by lot, goes through `rewrite` first and on as it was rewritten."""
    seen, rewritings, forms, equal, conversions, pixels = Counter(), Counter(), Counter(), 0, 0, 0
    for number in range(count):
        data = draw_title(random)
        if random.randrange(2):
            data, rewriting = hold_rewritten(built, data)
            rewritings[rewriting] += 1
        owed = measured(data)
        hold(built, "measure", data, owed)
        refused = owed.startswith(b"refused")
        seen[owed.decode().strip() if refused else "measured"] += 1
        if not refused:
            forms[format_of(data[0])] += 1
            equal += brightest(data) > 1
            pixels += (len(data) - opening_length(data)) // PIXEL_BYTES
        if number % 4 == 0 and len(data) <= PIXEL_BYTES * CHEAP:
            if not refused and number % 8 == 0:
                data = maxcll_card(format_of(data[0]), int(owed.split()[0])) + data[opening_length(data) - 2:]
            hold(built, "convert", data, converted(data))
            conversions += 1
    print(f"titles: {count:,} measured as they should be, {pixels:,} pixels; {counts(seen)}; of those measured {equal:,} have several "
          f"brightest pixels; {conversions:,} converted too; {rewritings.total():,} rewritten before; {counts(rewritings)}")
    if set(seen) != ANSWERS or set(rewritings) != REWRITINGS:
        raise Difference(f"titles: not every answer occurred, but {sorted(seen)} and {sorted(rewritings)}")
    if set(forms) != set(FORMATS):
        raise Difference(f"titles: not every format was measured, but {sorted(forms)}")
    if 3 * equal < seen["measured"]:
        raise Difference(f"titles: equal brightest pixels are rare, {equal} of {seen['measured']}")


def draw_field(random, end):
    """A field of a record: in its range, at its ends, past it."""
    return random.choice((0, 1, random.randint(0, min(end, 200)), random.randint(0, end), end - 1, end, end + 1, end + random.randrange(2**32),
                          random.randrange(2**64), 2**64 - 1))


def draw_record(random, codes, form):
    """Five fields; the position often at or beside that of one of the row's codes, the rows seldom at their end."""
    rows, pixels, position, row, pixel = (draw_field(random, end) for end in ENDS)
    if random.random() < 0.7:
        position = max(0, form.position(random.choice(codes)) + random.choice((-1, 0, 0, 0, 1)))
    if random.random() < 0.7:
        rows = random.randrange(1_000)
    return rows, random.choice((pixels, 0, 1)), position, row, pixel


def draw_question(random):
    """The number of a format, a record and a row, which may be refused. The record's position is often that of a row in another format.

    One row in eight is of dark codes alone, and the record's position then at that of the brightest or up to three above it: some share its light.
    """
    number = random.randrange(256)
    form, before = format_of(number), random.choice(FORMATS)
    codes = draw_palette(random, form)
    record = draw_record(random, codes, form) if random.randrange(3) else draw_record(random, draw_palette(random, before), before)
    if random.randrange(8) == 0:
        codes = range(form.taken[0], form.black + random.randint(1, 3))
        record = *record[:2], form.position(codes[-1]) + random.randrange(4), *record[3:]
    return number, record, draw_measured_row(random, codes, random.choice((0, 1, 1, 2, 4, 7)), form)


def ties_apart(number, record, row):
    """Whether the largest light of an accepted row is the record's, at a position that no code of the row has."""
    form, read = format_of(number), as_read(Record(*record))
    codes = [max(pixel) for pixel in pixels_of(samples_of(row))]
    return bool(read.pixels and codes and light_of_code(max(codes), form) == light_at(read.position) and form.position(max(codes)) != read.position)


def compare_records(random, count, built):
    """Records and rows through the test program of the record's calls."""
    seen, apart, left = Counter(), 0, count
    while left:
        questions = [draw_question(random) for _ in range(min(BATCH, left))]
        given = run(built, "record_vectors", b"".join(record_question(*question) for question in questions)).decode().splitlines()
        for question, line in zip(questions, [*given, *[None] * (len(questions) - len(given))]):
            owed = record_answer(*question)
            if line != owed:
                raise Difference(f"record_vectors answered {line!r}, should be {owed!r}: {format_record_line(*question, '')}")
            apart += not owed.startswith("refused") and ties_apart(*question)
            for part in owed.split(" : "):
                seen[" ".join(part.split()[:2]) if part.startswith("refused") else "accepted"] += 1
        left -= len(questions)
    print(f"records: {count:,} answered as they should be, each by both calls; {counts(seen)}; {apart:,} rows tie at another position")
    if set(seen) != RECORD_ANSWERS:
        raise Difference(f"records: not every answer occurred, but {sorted(seen)}")
    if 500 * apart < count:
        raise Difference(f"records: rows that tie at another position are rare, {apart} of {count}")


def counts(seen):
    """How often each answer came."""
    return ", ".join(f"{name}: {times:,}" for name, times in sorted(seen.items()))


def main(arguments):
    parser = argparse.ArgumentParser(description=__doc__.split("\n")[0])
    parser.add_argument("seed", type=int, nargs="?", default=1, help="what is drawn by lot (1)")
    parser.add_argument("--short", action="store_true", help="the gate's sample instead of everything")
    parser.add_argument("--built", type=Path, default=BUILT, help="the folder of the built programs")
    options = parser.parse_args(arguments)
    sizes, start = SHORT if options.short else FULL, time.monotonic()
    built = options.built.resolve()
    for name in ("rewrite", "measure", "convert", "record_vectors"):
        if not (built / name).exists():
            sys.exit(f"{built / name} is not there: tools/build builds it")
    try:
        compare_titles(Random(f"titles {options.seed}"), sizes["titles"], built)
        compare_records(Random(f"records {options.seed}"), sizes["records"], built)
    except Difference as found:
        print(f"DIFFERENT: {found}")
        return 1
    print(f"seed {options.seed}, {time.monotonic() - start:.0f} s")
    return 0


if __name__ == "__main__":
    sys.exit(main(sys.argv[1:]))
