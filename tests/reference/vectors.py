"""Stored vectors: what the second implementation answers, for the engine to be run against.

    python3 -m tests.reference.vectors            writes tests/vectors and the files of the programs
    python3 -m tests.reference.vectors --check    compares only, and fails on any difference

The files of a program are stdin and stdout in its crate's folder; they are skipped where that
folder does not exist. README.md gives the forms of the files.
"""

import re
import sys
from functools import partial
from io import BytesIO
from itertools import groupby
from pathlib import Path
from random import Random
from typing import NamedTuple

from . import linear, linear_cases, returned, srgb, srgb_cases
from .cases import UNIT_PIXELS, cards, light_questions, measured_titles, records, row_calls, titles, ycbcr_codes
from .content_light import Record, measure_row, measured_peak
from .curve import position_of_code
from .display_light import display_lights, has_light
from .format_cases import format_cards, format_light_questions, format_pixels, format_records, format_row_calls, format_titles, measured_format_titles
from .light import light_at, light_entry, light_of_code, position_of
from .measure import measure_title
from .metadata import after_metadata, rewritten_opening, source_of_metadata
from .pixel import convert_pixel
from .program import convert_title
from .refusal import Refused
from .return_cases import colours, return_row_calls, stage_questions
from .rewrite import rewrite_title
from .row import MOST_ROWS, c_number, rgb, samples_of
from .sample_format import FULL_RANGE, TWELVE_BITS, format_of
from .samples import delicate_pixels, draw_peaks, draw_pixel
from .scene_light import scene_light
from .ycbcr import convert_codes, ycbcr

ROOT = Path(__file__).resolve().parents[2]
FOLDER = "tests/vectors"
SEED = 2_100
PEAKS, DRAWN = 240, 76
FILL = 0xA5                    # what a destination holds before the row call
LIGHT_CALLS = {"entry": light_entry, "code": light_of_code, "light": light_at, "position": position_of}
CODE_CALLS = {"code": light_of_code, "position": position_of_code}      # on a code of any format
CALL_NUMBERS = {light_entry: 0, light_of_code: 1, light_at: 2, position_of: 3, position_of_code: 4}
# The stages of the return path, in the order of their numbers; its pixel call is the next number.
STAGES = {"scene": lambda numbers: [scene_light(*numbers)], "lights": display_lights, "code": lambda numbers: [returned.pq_code(*numbers)],
          "reached": lambda numbers: [int(has_light(*numbers))]}
LARGE = (2**16 + 64, 2**32 + 500, 2**63 + 100, 2**64 - 1, 2**64 - 64)


def refused_pixels():
    """Refusals 5 and 9 of the pixel call, with numbers up to 64 bits."""
    for L in (1, 1_000, 10_000):
        for bad in (0, 3, 1_020, 1_023, 1_024, *LARGE):
            for pixel in ((bad, 64, 940), (4, bad, 1_019), (500, 600, bad), (bad, bad, bad), (64, bad, bad)):
                yield L, pixel
    for L in (0, 10_001, 10_002, 65_535, 2**16 + 1_000, 2**32 + 4_000, 2**63, 2**64 - 1):
        for pixel in ((64, 64, 64), (723, 64, 64), (3, 64, 64), (64, 64, 2**64 - 1)):
            yield L, pixel


def pixel_cases():
    """Peaks and pixels of the pixel file."""
    random = Random(SEED)
    for L in draw_peaks(random, PEAKS):
        for pixel in delicate_pixels(L):
            yield L, pixel
        for _ in range(DRAWN):
            yield L, draw_pixel(random, L)
    for L, pixels in UNIT_PIXELS.items():
        for pixel in pixels:
            yield L, pixel
    yield from refused_pixels()


def answer(call, *arguments):
    """A call's numbers, or `refused NUMBER PLACE`."""
    try:
        return " ".join(map(str, call(*arguments)))
    except Refused as refused:
        return f"refused {refused.number} {refused.place}"


def pixel_line(L, pixel, answer):
    """`peak r g b`, then the answer."""
    return " ".join(map(str, (L, *pixel, answer)))


def words(*numbers):
    """Numbers of 8 bytes each, high byte first."""
    return b"".join(number.to_bytes(8, "big") for number in numbers)


def format_bits(number, unread=0):
    """What one byte has room for of a format's number: its bits 3 and 4, and what is asked for of the others."""
    return number & (TWELVE_BITS | FULL_RANGE | unread)


def pixel_question(L, pixel):
    """A byte of 0, then peak, red, green and blue."""
    return b"\0" + words(L, *pixel)


def format_pixel_question(number, L, pixel):
    """A byte with the format in its bits 3 and 4, and bits 5 to 7 as they stand, which are not read; then as above."""
    return bytes([format_bits(number, 0xE0)]) + words(L, *pixel)


def format_pixel_line(number, L, pixel, given):
    """The format's number, then as above."""
    return f"{number} {pixel_line(L, pixel, given)}"


def codes_line(codes, given):
    """`r g b`, then the answer."""
    return " ".join(map(str, (*codes, given)))


def codes_question(codes):
    """A byte of 1, then a peak that is not read, red, green and blue."""
    return b"\1" + words(0, *codes)


def light_line(call, number, given):
    """`entry`, `code`, `light` or `position`, a number, then the answer."""
    return f"{call} {number} {given}"


def light_question(call, number):
    """The call in one byte, then the number."""
    return bytes([CALL_NUMBERS[LIGHT_CALLS[call]]]) + words(number)


def format_light_line(number, call, D, given):
    """The format's number, `code` or `position`, a code, then the answer."""
    return f"{number} {call} {D} {given}"


def format_light_question(number, call, D):
    """The call in one byte with the format in its bits 3 and 4, then the code."""
    return bytes([CALL_NUMBERS[CODE_CALLS[call]] | format_bits(number)]) + words(D)


def stage_line(stage, numbers, given):
    """`scene`, `lights`, `code` or `reached`, its numbers, then the answer; 1 for a light that is reached, else 0."""
    return " ".join(map(str, (stage, *numbers, given)))


def return_question(call, numbers):
    """The call in one byte, then three numbers; a call on one number does not read the others."""
    return bytes([call]) + words(*numbers, *[0] * (3 - len(numbers)))


def stage_question(stage, numbers):
    """A question to a stage of the return path."""
    return return_question(list(STAGES).index(stage), numbers)


def colour_question(codes):
    """One to its pixel call."""
    return return_question(len(STAGES), codes)


def value_answer(bits):
    """`light`, `negative` or `too bright`, the value given and its whole light, or the refusal."""
    return answer(lambda: (*linear.class_of(bits), linear.whole_light(bits)))


def value_line(bits, given):
    """`value BITS`, then the answer."""
    return f"value {bits} {given}"


def linear_pixel_line(L, pixel, given):
    """`pixel peak r g b`, then the answer."""
    return f"pixel {pixel_line(L, pixel, given)}"


def linear_question(call, floats, L=0):
    """The call in one byte, three floats as their 4 bytes each, high byte first, then the peak; a call on one value reads neither the others nor the peak."""
    return bytes([call]) + b"".join(bits.to_bytes(4, "big") for bits in (*floats, 0, 0)[:3]) + words(L)


def value_question(bits):
    """A question about one value."""
    return linear_question(0, [bits])


def linear_pixel_question(L, pixel):
    """One to the pixel call."""
    return linear_question(1, pixel, L)


def runs(numbers, width):
    """Numbers as hexadecimal digits, so many each; from the seventeenth of equal ones on as COUNT*DIGITS, parts of either sort joined by +; `-` for none."""
    parts, apart = [], True
    for number, equal in groupby(numbers):
        text, count = f"{number:0{width}x}", sum(1 for _ in equal)
        if count > 16:
            parts.append(f"{count}*{text}")
        elif apart:
            parts.append(text * count)
        else:
            parts[-1] += text * count
        apart = count > 16
    return "+".join(parts) or "-"


def sample_runs(data):
    """The samples of bytes as runs."""
    return runs(samples_of(data), 4)


def linear_row_line(L, row, length, first, end):
    """`peak first end row length number destination`; row and destination as runs, of floats and of samples."""
    return f"{L} {call_line(partial(linear.c_number, L), row, length, first, end, partial(runs, width=8), sample_runs)}"


def srgb_question(call, values):
    """The call in one byte, then three values; a call on one value does not read the others."""
    return bytes((call, *values, 0, 0)[:4])


def srgb_light_line(v, given):
    """A value, then the answer."""
    return f"{v} {given}"


def srgb_light_question(v):
    """A question about the light of one value."""
    return srgb_question(0, [v])


def srgb_pixel_question(pixel):
    """One to the pixel call."""
    return srgb_question(1, pixel)


def srgb_row_line(*call):
    """As `call_line`; row and destination as runs, of bytes and of samples."""
    return call_line(srgb.c_number, *call, partial(runs, width=2), sample_runs)


def digits(data):
    """Bytes as hexadecimal digits, `-` for none, COUNT*BYTE for one byte many times."""
    if len(data) > 64 and len(set(data)) == 1:
        return f"{len(data)}*{data[0]:02x}"
    return data.hex() or "-"


def call_line(call, row, length, first, end, row_text=digits, destination_text=digits):
    """`first end row length number destination` of a row call; the destination is `same` if nothing was written."""
    destination = bytearray([FILL]) * length
    answered = call(row, destination, first, end)
    after = "same" if destination == bytearray([FILL]) * length else destination_text(destination)
    return f"{first} {end} {row_text(row)} {length} {answered} {after}"


def row_line(L, row, length, first, end, written=rgb, number=0):
    """The peak, then as above."""
    return f"{L} {call_line(partial(c_number, L, number, written=written), row, length, first, end)}"


def format_row_line(number, *call, written=rgb):
    """The format's number, then as above."""
    return f"{number} {row_line(*call, written, number)}"


def result_answer(record):
    """`peak row pixel`, or `refused 12`."""
    try:
        return "%d %d %d" % measured_peak(record)
    except Refused as refused:
        return f"refused {refused.number}"


def record_answer(number, record, row):
    """`rows pixels position row pixel` of the record with the row in it, or its refusal; then the result of the record as it was given."""
    return f"{answer(measure_row, Record(*record), row, format_of(number))} : {result_answer(Record(*record))}"


def record_question(number, record, row):
    """The format's number in one byte, the record's fields, the row's length in two bytes, the row."""
    return bytes([number]) + words(*record) + len(row).to_bytes(2, "big") + row


def record_line(record, row, given):
    """`rows pixels position row pixel ROW`, then the answer. Long runs of one byte stand apart in the row, joined to the rest by +."""
    parts = re.finditer(rb"(?s)(.)\1{64,}|(?:(?!(.)\2{64,}).)+", row)
    return f"{' '.join(map(str, record))} {'+'.join(digits(part[0]) for part in parts) or '-'} {given}"


def format_record_line(number, record, row, given):
    """The format's number, then as above."""
    return f"{number} {record_line(record, row, given)}"


def source_answer(data):
    """`peak PEAK` or `refused NUMBER`, then how many bytes follow the card; of an accepted one `twelve` and `full` where it declares them."""
    length = len(after_metadata(data))
    try:
        peak, form = source_of_metadata(data)
    except Refused as refused:
        return f"refused {refused.number} {length}"
    return f"peak {peak} {length}" + " twelve" * (form.bits == 12) + " full" * form.full


def rewriting_answer(data):
    """The three bytes that a card is rewritten to, `nothing` where it is not, or `refused NUMBER`."""
    try:
        opening = rewritten_opening(data)
    except Refused as refused:
        return f"refused {refused.number}"
    return "nothing" if opening is None else " ".join(map(str, opening))


def card_answer(data):
    """The answers of the card's calls."""
    return f"{source_answer(data)} : {rewriting_answer(data)}"


def card_question(data):
    """The number of bytes in one byte, the bytes."""
    return bytes([len(data)]) + data


def card_line(data, given):
    """The bytes, then the answer."""
    return f"{digits(data)} {given}"


def printed(program, data, most_rows):
    """What a program prints for an input."""
    texts = []
    program(BytesIO(data).read, texts.append, most_rows)
    return "".join(texts).encode()


def converted(data, most_rows=MOST_ROWS):
    """What `convert` prints for an input."""
    return printed(convert_title, data, most_rows)


def measured(data, most_rows=MOST_ROWS):
    """What `measure` prints for an input."""
    return printed(measure_title, data, most_rows)


def rewritten(data):
    """What `rewrite` writes for an input, to standard output and to standard error."""
    blocks, told = [], []
    rewrite_title(BytesIO(data).read, blocks.append, told.append)
    return b"".join(blocks), "".join(told).encode()


def rewriting_line(name, data):
    """The name of a title, then `same`, `refused NUMBER`, or `NEW for OLD`: the bytes that it opens with when rewritten, and those of its card."""
    try:
        opening = rewritten_opening(data)
    except Refused as refused:
        return f"{name} refused {refused.number}"
    card = data[:len(data) - len(after_metadata(data))]
    return f"{name} same" if opening is None else f"{name} {opening.hex()} for {card.hex()}"


def lines(each):
    """Lines of a text file, once each and in their order."""
    return "".join(line + "\n" for line in dict.fromkeys(each)).encode()


class Answers(NamedTuple):
    """What is asked and answered, by the name of its file: each question, as the arguments of a call, with its answer."""
    lights: dict
    pixels: dict
    ycbcr: dict
    records: dict
    cards: dict
    format_lights: dict
    format_pixels: dict
    format_records: dict
    stages: dict
    colours: dict
    values: dict
    linear_pixels: dict
    srgb_lights: dict
    srgb_pixels: dict


def answers():
    """All of them."""
    return Answers(
        {case: str(LIGHT_CALLS[case[0]](case[1])) for case in light_questions()},
        {case: answer(convert_pixel, *case) for case in pixel_cases()},
        {(codes,): answer(convert_codes, codes) for codes in ycbcr_codes()},
        {case: record_answer(0, *case) for case in records()},
        {(data,): card_answer(data) for data in (*cards(), *(data[:8] for _, data in format_cards()))},
        {(number, call, D): str(CODE_CALLS[call](D, format_of(number))) for number, call, D in format_light_questions()},
        {(number, L, pixel): answer(convert_pixel, L, pixel, format_of(number)) for number, L, pixel in format_pixels()},
        {case: record_answer(*case) for case in format_records()},
        {(stage, numbers): answer(STAGES[stage], numbers) for stage, numbers in stage_questions(Random(SEED))},
        {(colour,): answer(returned.convert_pixel, colour) for colour in colours(Random(SEED))},
        {(bits,): value_answer(bits) for bits in linear_cases.values(Random(SEED))},
        {case: answer(linear.convert_pixel, *case) for case in linear_cases.pixels(Random(SEED))},
        {(v,): str(s) for v, s in enumerate(srgb.LIGHTS)},
        {(colour,): answer(srgb.convert_pixel, colour) for colour in srgb_cases.colours(Random(SEED))})


def vector_files(answered):
    """Every file of tests/vectors: its path and its bytes."""
    for name, line, cases in (("lights", light_line, answered.lights), ("pixels", pixel_line, answered.pixels), ("ycbcr", codes_line, answered.ycbcr),
                              ("records", record_line, answered.records), ("cards", card_line, answered.cards),
                              ("formats/lights", format_light_line, answered.format_lights), ("formats/pixels", format_pixel_line, answered.format_pixels),
                              ("formats/records", format_record_line, answered.format_records),
                              ("return/stages", stage_line, answered.stages), ("return/pixels", codes_line, answered.colours),
                              ("srgb/lights", srgb_light_line, answered.srgb_lights), ("srgb/pixels", codes_line, answered.srgb_pixels)):
        yield f"{FOLDER}/{name}.txt", lines(line(*case, given) for case, given in cases.items())
    for name, written in (("rows", rgb), ("ycbcr_rows", ycbcr)):
        yield f"{FOLDER}/{name}.txt", lines(row_line(*case, written) for case in row_calls())
        yield f"{FOLDER}/formats/{name}.txt", lines(format_row_line(*case, written=written) for case in format_row_calls())
    yield f"{FOLDER}/linear.txt", lines(line(*case, given) for line, cases in (
        (value_line, answered.values), (linear_pixel_line, answered.linear_pixels)) for case, given in cases.items())
    yield f"{FOLDER}/linear_rows.txt", lines(linear_row_line(*case) for case in linear_cases.row_calls(Random(SEED)))
    yield f"{FOLDER}/return/rows.txt", lines(call_line(returned.c_number, *case) for case in return_row_calls(Random(SEED)))
    yield f"{FOLDER}/srgb/rows.txt", lines(srgb_row_line(*case) for case in srgb_cases.row_calls(Random(SEED)))
    all_converted, all_measured = (*titles(), *format_titles()), (*measured_titles(), *measured_format_titles())
    for name, data in all_converted:
        yield f"{FOLDER}/convert/{name}.in", data
        yield f"{FOLDER}/convert/{name}.out", converted(data)
        yield f"{FOLDER}/measure/{name}.out", measured(data)
    for name, data in all_measured:
        yield f"{FOLDER}/measure/{name}.in", data
        yield f"{FOLDER}/measure/{name}.out", measured(data)
    yield f"{FOLDER}/rewrite.txt", lines(rewriting_line(*named) for named in (*all_converted, *all_measured))


def programs(answered):
    """What each program is run on: its crate, its input and the output that it owes."""
    sample = dict(titles())["sample"]
    yield "convert", sample, converted(sample)
    yield "measure", sample, measured(sample)
    # the longest card that is rewritten
    unnamed = dict(format_titles())["no_peak_named_twelve_bits_full_range_maxcll_zero_mastering_peak_zero"]
    yield "rewrite", unnamed, rewritten(unnamed)[0]
    # two rows and what would be refused in a third
    past_limit = sample + sample[5:] + bytes.fromhex("00 00 FF")
    yield "title_limit", past_limit, converted(past_limit, 2)
    # two rows and a brighter third
    brighter = dict(measured_titles())["three_rows_brightest_last"]
    yield "measure_limit", brighter, measured(brighter, 2)
    for crate, *asked in (
            ("light_vectors", (light_question, answered.lights), (format_light_question, answered.format_lights)),
            ("pixel_vectors", (pixel_question, answered.pixels), (codes_question, answered.ycbcr), (format_pixel_question, answered.format_pixels)),
            ("record_vectors", (partial(record_question, 0), answered.records), (record_question, answered.format_records)),
            ("card_vectors", (card_question, answered.cards)),
            ("return_vectors", (stage_question, answered.stages), (colour_question, answered.colours)),
            ("linear_vectors", (value_question, answered.values), (linear_pixel_question, answered.linear_pixels)),
            ("srgb_vectors", (srgb_light_question, answered.srgb_lights), (srgb_pixel_question, answered.srgb_pixels))):
        yield (crate, b"".join(question(*case) for question, cases in asked for case in cases),
               "".join(given + "\n" for _, cases in asked for given in cases.values()).encode())


def program_files(answered):
    """Standard input and output of the programs whose crates are there; says which are not."""
    for crate, given, owed in programs(answered):
        if (ROOT / "crates" / crate).is_dir():
            yield f"crates/{crate}/stdin", given
            yield f"crates/{crate}/stdout", owed
        else:
            print(f"skipped: crates/{crate} does not exist")


def files():
    """Every stored file: its path in the repository and its bytes."""
    answered = answers()
    yield from vector_files(answered)
    yield from program_files(answered)


def differences(stored):
    """What is missing, different or left over."""
    for path, data in stored.items():
        file = ROOT / path
        if not file.is_file():
            yield f"missing: {path}"
        elif file.read_bytes() != data:
            yield f"differs: {path}"
    for file in sorted(ROOT.glob(f"{FOLDER}/*/*")):
        if str(file.relative_to(ROOT)) not in stored:
            yield f"left over: {file.relative_to(ROOT)}"


def main(arguments):
    stored = dict(files())
    if "--check" in arguments:
        found = list(differences(stored))
        print("\n".join(found) if found else f"{len(stored)} files as stored")
        return 1 if found else 0
    for path, data in stored.items():
        (ROOT / path).parent.mkdir(parents=True, exist_ok=True)
        (ROOT / path).write_bytes(data)
    print(f"{len(stored)} files, {sum(map(len, stored.values()))} bytes")
    return 0


if __name__ == "__main__":
    sys.exit(main(sys.argv[1:]))
