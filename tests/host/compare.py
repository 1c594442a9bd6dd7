"""Compares the engine's row calls, through the static libraries, with the second implementation.

    python3 -m tests.host.compare [--short] [--seed N] [--only PART ...] [--library FILE] [--return-library FILE] [--srgb-library FILE]

Every number and every destination byte is compared. README.md says what is tried.
"""

import argparse
import shutil
import sys
import time
from collections import Counter
from itertools import chain, islice, product
from random import Random

from tests.reference.curve import bend_code
from tests.reference.row import c_number, pixels_of, rgb, samples_of
from tests.reference.sample_format import FORMATS, TEN_NARROW
from tests.reference.samples import MARKED_PEAKS, draw_peaks, draw_pixel
from tests.reference.survey import LINEAR, bent_light, coded, draw_case
from tests.reference.ycbcr import luma_sum, ycbcr

from . import greys, linear_rows, return_path, srgb_rows
from .damaged import calls_of_lengths, draw_damaged, draw_format, draw_options, each_refusal, named_calls
from .distances import Distances
from .engine import DELIVERIES, HARM, YCBCR, Broken, Call, add_libraries, ask, build, libraries_of, reachable

BATCH = 500                              # calls of one run of the C program
ROW_PIXELS = 100                         # pixels drawn for one peak
RAMP = bytes(range(256)) * 401           # what destinations hold before a call
GREYS = [code.to_bytes(2, "big") * 3 for code in range(1_020)]                         # a grey's pixel in RGB
GREYS_YCBCR = [code.to_bytes(2, "big") + b"\2\0\2\0" for code in range(1_020)]         # and in Y'CbCr, both chroma 512

FULL = {"random": 1_000_000, "adversarial": 500_000, "greys": 10_000, "damaged": 150_000,
        "lengths": 49_159, "sanitizer": 5_000, "valgrind": 400, "sampled": 2_000,
        "return_delicate": 500_000, "round_trip": 1_000_000, "return_lengths": 49_159, "return_damaged": 75_000,
        "linear_random": 500_000, "linear_delicate": 500_000, "linear_lengths": 24_580, "linear_damaged": 75_000,
        "srgb_random": 1_000_000, "srgb_delicate": 500_000, "srgb_lengths": 24_580, "srgb_damaged": 75_000}
SHORT = {"random": 100_000, "adversarial": 60_000, "greys": 500, "damaged": 25_000,
         "lengths": 1_000, "sanitizer": 1_000, "valgrind": 200, "sampled": 200,
         "return_delicate": 50_000, "round_trip": 50_000, "return_lengths": 500, "return_damaged": 10_000,
         "linear_random": 50_000, "linear_delicate": 50_000, "linear_lengths": 500, "linear_damaged": 10_000,
         "srgb_random": 50_000, "srgb_delicate": 50_000, "srgb_lengths": 500, "srgb_damaged": 10_000}
# Of each format beside ten-bit narrow range so much of the above; of twelve-bit greys, four times as many a peak, a quarter of that.
SHARE = {"random": 1 / 4, "adversarial": 1 / 4, "greys": 1 / 5}
OWN_SHARE = 4                            # of the calls that memory is watched over, one in so many more is of each kind below
PARTS = ("random", "adversarial", "greys", "lengths", "damaged", "return_delicate", "round_trip", "return_lengths", "return_damaged",
         "linear_random", "linear_delicate", "linear_lengths", "linear_damaged", "srgb_random", "srgb_delicate", "srgb_lengths", "srgb_damaged",
         "sanitizer", "valgrind")
# Calls that a part makes of one kind, by what the names of such parts open with: what they are, what draws them, and their refusals in order.
OWN = {"return": ("of the return path", return_path, (6, 7, 8, 9)), "linear": ("on linear values", linear_rows, (5, 15, 7, 8, 16)),
       "srgb": ("on sRGB", srgb_rows, (18, 7, 8))}


class Difference(Exception):
    """The engine and the second implementation disagree."""


class Progress:
    """One line now and then, and one at the end of a part."""

    def __init__(self, part, whole, unit):
        self.part, self.whole, self.unit = part, whole, unit
        self.done, self.start = 0, time.monotonic()
        self.shown = self.start

    def line(self, end=""):
        seconds = time.monotonic() - self.start
        print(f"{self.part}: {self.done:,} of {self.whole:,} {self.unit}, {seconds:.0f} s{end}", flush=True)

    def step(self, count):
        self.done += count
        if time.monotonic() - self.shown > 10:
            self.shown = time.monotonic()
            self.line()


def destination_before(call):
    """A destination as compare.c fills it; one that cannot be touched has only a length."""
    start = call.options % 256
    return bytearray(RAMP[start:start + call.dst_len]) if reachable(call.dst_len) else range(call.dst_len)


def wanted_answer(call):
    """Number and destination by the second implementation."""
    destination = destination_before(call)
    if call.linear:
        number = linear_rows.wanted_number(call, destination)
    elif call.returns:
        number = return_path.wanted_number(call, destination)
    elif call.srgb:
        number = srgb_rows.wanted_number(call, destination)
    else:
        number = c_number(call.peak, call.format, call.row, destination, call.first, call.end, ycbcr if call.in_ycbcr else rgb)
    return number, bytes(destination) if reachable(call.dst_len) else b""


def first_difference(call, given, wanted):
    """Where two destinations differ, in words."""
    at = next(i for i, pair in enumerate(zip(given, wanted)) if pair[0] != pair[1])
    pixel = at // 6
    words = f"byte {at} is {given[at]}, should be {wanted[at]}"
    if call.first <= pixel < call.end <= call.dst_len // 6:
        got, due = (tuple(samples_of(data[6 * pixel:6 * pixel + 6])) for data in (given, wanted))
        source = (tuple(f"{bits:08x}" for bits in call.row[3 * pixel:3 * pixel + 3]) if call.linear
                  else tuple(call.row[3 * pixel:3 * pixel + 3]) if call.srgb else tuple(samples_of(call.row[6 * pixel:6 * pixel + 6])))
        words += f"; pixel {pixel}, {source}, became {got}, should be {due}"
    return words


def hold(call, answer, wanted):
    """Fails unless an answer is the wanted one and nothing else was written."""
    number, destination = wanted
    if answer.harm:
        raise Difference(f"{call}: " + ", ".join(what for bit, what in HARM.items() if answer.harm & bit))
    if answer.number != number:
        raise Difference(f"{call}: number {answer.number}, should be {number}")
    if answer.destination != destination:
        raise Difference(f"{call}: " + first_difference(call, answer.destination, destination))


def batches(calls, size=BATCH):
    """Lists of calls."""
    calls = iter(calls)
    while batch := list(islice(calls, size)):
        yield batch


def compared(command, calls):
    """Each call with its answer, once the answer was found right."""
    for batch in batches(calls):
        for call, answer in zip(batch, ask(command, batch)):
            hold(call, answer, wanted_answer(call))
            yield call, answer


def row_of(pixels):
    """The bytes of a row."""
    return b"".join(sample.to_bytes(2, "big") for pixel in pixels for sample in pixel)


def whole_row(random, L, pixels, form):
    """A call that converts all of a row."""
    row = row_of(pixels)
    return Call(L, row, len(row), 0, len(pixels), draw_options(random), draw_format(random, form))


def share(part, count, form):
    """How much of a part is tried in a format."""
    if form == TEN_NARROW:
        return count
    return int(count * SHARE[part] / (form.step if part == "greys" else 1))


def in_both(calls):
    """Each call in RGB, then the same in Y'CbCr."""
    for call in calls:
        yield call
        yield call._replace(options=call.options | YCBCR)


def random_rows(random, count, form=TEN_NARROW):
    """Pixels drawn evenly from all accepted ones, a random peak to each row."""
    for _ in range(count // ROW_PIXELS):
        yield whole_row(random, random.randint(1, 10_000),
                        [tuple(random.choices(form.taken, k=3)) for _ in range(ROW_PIXELS)], form)


def adversarial_rows(random, count, form=TEN_NARROW):
    """Pixels where it is delicate: beside the knee and the peak, above it, a bright component beside
    dim ones, blacks; and the ones that the survey of distances draws."""
    peaks = draw_peaks(random, 2_000)
    for _ in range(count // ROW_PIXELS):
        L, pixel = draw_case(random, peaks, form)
        yield whole_row(random, L, [pixel] + [draw_pixel(random, L, form) for _ in range(ROW_PIXELS - 1)], form)


def luma_is_half(codes):
    """Whether the luma of RGB codes lies just between two code values."""
    return luma_sum(*(code - 64 for code in codes)) % 10_000 == 5_000


def compare_pixels(part, draw, random, count, form, engine, distances):
    """Rows of drawn pixels of a format in RGB and in Y'CbCr, with the distances of the RGB codes. Returns the pixels of each."""
    progress, pixels, halves = Progress(f"{part}, {form}", count, "pixels in RGB and in Y'CbCr"), Counter(), 0
    for call, answer in compared(engine, in_both(draw(random, count, form))):
        pixels[call.in_ycbcr] += call.end
        if call.in_ycbcr:
            progress.step(call.end)
            continue
        for pixel, codes in zip(*(pixels_of(samples_of(data)) for data in (call.row, answer.destination))):
            distances.add(call.peak, pixel, codes, coded(form))
            halves += luma_is_half(codes)
        bend_code.cache_clear()
        bent_light.cache_clear()
    progress.line(f", no difference; {halves} with a luma of a half")
    return pixels


def draw_grey_peaks(random, count):
    """Every peak, or the marked ones and others; of fewer than these, some of them."""
    if count >= 10_000:
        return range(1, 10_001)
    return sorted({*random.sample(MARKED_PEAKS, min(count, len(MARKED_PEAKS))),
                   *random.sample(range(1, 10_001), max(0, count - len(MARKED_PEAKS)))})


def compare_greys(random, count, form, engine, distances):
    """Every grey that a format takes under each peak, or under `count` peaks, in RGB and in Y'CbCr. Returns the pixels of each."""
    peaks, taken = draw_grey_peaks(random, count), form.taken
    row = row_of((D, D, D) for D in taken)
    calls = in_both(Call(L, row, len(row), 0, len(taken), draw_options(random), draw_format(random, form)) for L in peaks)
    progress, pixels = Progress(f"greys, {form}", len(peaks), f"peaks with {len(taken):,} codes each, in RGB and in Y'CbCr"), Counter()
    codes = measured = None
    for batch in batches(calls, 200):
        for call, answer in zip(batch, ask(engine, batch)):
            pixels[call.in_ycbcr] += call.end
            if call.in_ycbcr:               # its RGB call was just before
                hold(call, answer, (0, b"".join([GREYS_YCBCR[code] for code in codes])))
                progress.step(1)
                continue
            codes = greys.grey_codes(call.peak, form)
            hold(call, answer, (0, b"".join([GREYS[code] for code in codes])))
            if codes != sorted(codes):
                raise Difference(f"{call}: a larger grey has a smaller code")
            if codes != measured or call.peak > 1_000:      # low peaks all give the same codes
                measured = codes
                for D in form.nominal:
                    code = codes[D - taken[0]]
                    distances.add(call.peak, (D, D, D), (code, code, code), coded(form))
                bent_light.cache_clear()
    progress.line(", no difference")
    return pixels


def damaged_calls(random, count):
    """Every refusal of either call in every format, named calls, then calls with things wrong by lot."""
    sure = list(each_refusal(random))
    named = [*sure, *islice(named_calls(random), (count - len(sure)) // 2)]
    yield from named
    for _ in range(count - len(named)):
        yield draw_damaged(random)


def compare_calls(part, calls, count, engine):
    """Calls that may be refused. Returns the pixels converted by either call, and how often each gave each number, by format."""
    progress, seen, pixels = Progress(part, count, "calls"), Counter(), Counter()
    for call, answer in compared(engine, calls):
        seen[call.form, call.in_ycbcr, answer.number % 256] += 1
        pixels[call.in_ycbcr] += 0 if answer.number else call.end - call.first
        progress.step(1)
        if progress.done % BATCH == 0:
            bend_code.cache_clear()
    def times(call, number):
        return sum(seen[form, call, number] for form in FORMATS)
    progress.line(", no difference; " + "; ".join("{}: accepted {}, refused {}".format(
        name, times(call, 0), ", ".join(f"{number}: {times(call, number)}" for number in range(5, 10)))
        for call, name in enumerate(DELIVERIES)))
    return pixels, seen


def compare_damaged(part, random, count, engine):
    """Damaged calls; each refusal of each call must have occurred in each format."""
    pixels, seen = compare_calls(part, damaged_calls(random, count), count, engine)
    if missing := set(product(FORMATS, (False, True), (0, 5, 6, 7, 8, 9))) ^ set(seen):
        raise Difference(f"{part}: not every refusal occurred in RGB and in Y'CbCr and in every format, or another one did: {sorted(missing)}")
    return pixels


def compare_delicate(random, count, engine):
    """Greys and delicate colours through the return path; greys must not fall. Returns the pixels."""
    progress, pixels = Progress("return_delicate", count, "pixels of the return path"), 0
    for call, answer in compared(engine, return_path.delicate_rows(random, count, ROW_PIXELS)):
        if pixels == 0 and samples_of(answer.destination) != sorted(samples_of(answer.destination)):     # the first row has all greys
            raise Difference(f"{call}: a larger grey has a smaller code")
        pixels += call.end
        progress.step(call.end)
    progress.line(", no difference")
    return pixels


def compare_round_trip(random, count, engine):
    """Colours through the return path and back under a peak of 1,000, each way compared; prints how far they come back. Greys from 64 to 940
    must come back at most two codes away. Returns the pixels."""
    progress, pixels, found = Progress("round_trip", count, "colours there and back"), 0, return_path.RoundTrip()
    greys_row = return_path.whole_row(random, [(d, d, d) for d in return_path.NOMINAL])
    for batch in batches(chain([greys_row], return_path.random_rows(random, count, ROW_PIXELS))):
        there = list(compared(engine, batch))
        back = list(compared(engine, [return_path.there_and_back(*each) for each in there]))
        for (call, answer), (_, again) in zip(there, back):
            colours, pq, codes = (pixels_of(samples_of(data)) for data in (call.row, answer.destination, again.destination))
            if call is greys_row:
                far = [(was, became) for (was, *_), (became, *_) in zip(colours, codes) if abs(was - became) > return_path.FARTHEST_GREY]
                if far:
                    raise Difference(f"round trip: grey {far[0][0]} came back as {far[0][1]}")
                continue
            for each in zip(colours, pq, codes):
                found.add(*each)
            pixels += call.end
            progress.step(call.end)
    progress.line(", no difference; greys from 64 to 940 at most two codes away")
    found.report()
    return pixels


def compare_linear_pixels(part, calls, count, engine, distances):
    """Rows of linear values, with the distances of their codes. Returns the pixels converted."""
    progress, pixels, refused = Progress(part, count, "pixels of linear values"), 0, 0
    for call, answer in compared(engine, calls):
        progress.step(call.end)
        if answer.number:
            refused += 1
            continue
        span = slice(call.first, call.end)
        for pixel, codes in zip(pixels_of(call.row)[span], pixels_of(samples_of(answer.destination))[span]):
            distances.add(call.peak, pixel, codes, LINEAR)
        pixels += call.end - call.first
    progress.line(f", no difference; {refused} rows refused")
    return pixels


def compare_srgb_pixels(part, calls, count, engine):
    """Rows of sRGB colours. Returns the pixels converted."""
    progress, pixels = Progress(part, count, "pixels of sRGB"), 0
    for call, _ in compared(engine, calls):
        pixels += call.end
        progress.step(call.end)
    progress.line(", no difference")
    return pixels


def compare_own_calls(own, part, random, count, engine):
    """Calls of one kind, of all lengths or damaged; of the latter each refusal must have occurred. Returns the pixels converted."""
    name, draws, refusals = OWN[own]
    lengths = part.endswith("lengths")
    progress, seen, pixels = Progress(part, count, f"calls {name}"), Counter(), 0
    for call, answer in compared(engine, (draws.calls_of_lengths if lengths else draws.damaged_calls)(random, count)):
        seen[answer.number % 256] += 1
        pixels += 0 if answer.number else call.end - call.first
        progress.step(1)
    progress.line(", no difference; accepted {}, refused {}".format(seen[0], ", ".join(f"{number}: {seen[number]}" for number in refusals)))
    if not lengths and set(seen) != {0, *refusals}:
        raise Difference(f"{part}: not every refusal of the calls {name} occurred, or another one did: {sorted(seen)}")
    return pixels


def watched_by_valgrind(program):
    """A command whose reads and writes outside the heap's blocks make it fail."""
    if not shutil.which("valgrind"):
        raise SystemExit("valgrind is not installed; leave it out by --only")
    return ["valgrind", "-q", "--error-exitcode=9", program]


def compare_own_pixels(part, random, count, engine, distances):
    """Colours of the return path, rows of linear values or of sRGB. Returns the pixels converted."""
    if part == "return_delicate":
        return compare_delicate(random, count, engine)
    if part == "round_trip":
        return compare_round_trip(random, count, engine)
    draws = OWN[own_kind(part)][1]
    calls = (draws.random_rows if part.endswith("random") else draws.delicate_rows)(random, count, ROW_PIXELS)
    if part.startswith("srgb"):
        return compare_srgb_pixels(part, calls, count, engine)
    return compare_linear_pixels(part, calls, count, engine, distances)


def own_kind(part):
    """The kind of call that a part makes, nothing if it makes those to HLG."""
    return "return" if part == "round_trip" else next((own for own in OWN if part.startswith(own)), None)


def run(sizes, seed, parts, libraries):
    """All parts; prints what was compared. True if demand 3's bounds hold as well."""
    engine = [build("pages", libraries)]
    distances = Distances(max(1, (sizes["random"] + sizes["adversarial"]) // sizes["sampled"]))
    pixels, calls, own_pixels, own_calls = Counter(), 0, Counter(), Counter()

    def add_own_calls(own, part, random, count, engine):
        own_pixels[own] += compare_own_calls(own, part, random, count, engine)
        own_calls[own] += count
    for part in parts:
        size, random, own = sizes[part], Random(f"{part} {seed}"), own_kind(part)
        if part in ("random", "adversarial"):
            draw = random_rows if part == "random" else adversarial_rows
            for form in FORMATS:
                pixels += compare_pixels(part, draw, random, share(part, size, form), form, engine, distances)
        elif part == "greys":
            greys.check(random, 500)
            for form in FORMATS:
                pixels += compare_greys(random, share(part, size, form), form, engine, distances)
        elif own and part.endswith(("lengths", "damaged")):
            add_own_calls(own, part, random, size, engine)
        elif own:
            own_pixels[own] += compare_own_pixels(part, random, size, engine, distances)
        else:
            calls += size
            if part == "lengths":
                pixels += compare_calls(part, calls_of_lengths(random, size), size, engine)[0]
            elif part == "damaged":
                pixels += compare_damaged(part, random, size, engine)
            else:
                watched = [build(part, libraries)] if part == "sanitizer" else watched_by_valgrind(build("heap", libraries))
                pixels += compare_damaged(part, random, size, watched)
                for each in OWN:
                    add_own_calls(each, part, random, size // OWN_SHARE, watched)
    sound = distances.report() if distances.count else True
    others = "".join(f", {own_pixels[own]:,} pixels and {own_calls[own]:,} such calls {name}" for own, (name, *_) in OWN.items())
    print(f"{pixels[False]:,} pixels in RGB, {pixels[True]:,} in Y'CbCr and {calls:,} calls of either, damaged or not{others} compared: "
          "every number and byte equal")
    return sound


def main(arguments):
    parser = argparse.ArgumentParser(description=__doc__.split("\n")[0])
    parser.add_argument("--short", action="store_true", help="the gate's sample instead of everything")
    parser.add_argument("--seed", type=int, default=1, help="what is drawn by lot (1)")
    parser.add_argument("--only", nargs="+", choices=PARTS, default=PARTS, metavar="PART", help=", ".join(PARTS))
    add_libraries(parser)
    options = parser.parse_args(arguments)
    start, libraries = time.monotonic(), libraries_of(options)
    print(f"seed {options.seed}, {', '.join(path.name for path in libraries)}")
    try:
        sound = run(SHORT if options.short else FULL, options.seed, options.only, libraries)
    except (Difference, Broken) as found:
        print(f"DIFFERENT: {found}")
        return 1
    print(f"{time.monotonic() - start:.0f} s")
    if not sound:
        print("DIFFERENT: a code is farther from its exact value than is promised")
    return 0 if sound else 1


if __name__ == "__main__":
    sys.exit(main(sys.argv[1:]))
