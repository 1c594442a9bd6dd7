"""Draws the highlight curve and the distances from the exact value, from the engine's own answers, and the round trip of greys.

    python3 -m docs.plots.draw [LIBRARIES]

Greys go through the static library. Exact values come from the second implementation, and so does the round trip.
"""

import math
import sys
from pathlib import Path

from tests.host.engine import LIBRARIES, Call, ask, build
from tests.reference import exact
from tests.reference.samples import knee_code
from tests.reference.survey import bent_light, code_light, distance_of

from . import round_trip
from .svg import COLOURS, INK, Frame, Picture

FOLDER = Path(__file__).resolve().parent
PEAKS = (1_000, 2_000, 4_000, 10_000)
CODES = range(64, 941)
ROW = b"".join(D.to_bytes(2, "big") * 3 for D in CODES)
TICKS = (64, 200, 300, 400, 500, 600, 700, 800, 940)
a, b, c = 0.17883277, 0.28466892, 0.55991073


def grey_codes(engine, peaks):
    """For each peak the HLG codes that the engine gives to the greys from 64 to 940."""
    calls = [Call(L, ROW, len(ROW), 0, len(CODES)) for L in peaks]
    for answer in ask(engine, calls):
        if answer.number:
            raise SystemExit(f"the engine refused a row of greys: {answer.number}")
        yield [int.from_bytes(answer.destination[at:at + 2], "big") for at in range(0, len(ROW), 6)]


def display_light(code):
    """Light of a grey HLG code on a 1,000 cd/m2 display: inverse OETF, then gamma 1.2."""
    signal = (code - 64) / 876
    E = signal * signal / 3 if signal <= 0.5 else (math.exp((signal - c) / a) + b) / 12
    return 1_000 * E**1.2


def draw_curve(codes):
    """Light in against light out, both logarithmic and to the same scale."""
    picture = Picture(800, 470, "The highlight curve under four peaks")
    low, high, top = math.log10(100), math.log10(10_000), math.log10(1_150)
    frame = Frame(picture, 75, 45, 690, 690 * (top - low) / (high - low),
                  lambda x: (math.log10(x) - low) / (high - low), lambda y: (math.log10(y) - low) / (top - low))
    frame.grid((100, 200, 500, 1_000, 2_000, 5_000, 10_000), (100, 200, 300, 500, 700, 1_000),
               "light of the PQ grey, cd/m2", "light of the HLG grey, cd/m2")
    picture.words(75, 28, "Highlight curve: greys through the engine, shown on a 1,000 cd/m2 HLG display", bold=True, size=13)
    picture.path(frame.points([(100, 100), (1_150, 1_150)]), "#999999", 1)
    picture.words(frame.x(1_150) + 5, frame.y(1_150) + 9, "unchanged", size=11, colour="#777777")
    for i, (L, colour) in enumerate(zip(PEAKS, COLOURS)):
        seen = [(code_light(D), display_light(code)) for D, code in zip(CODES, codes[L]) if code_light(D) >= 100]
        picture.path(frame.points(seen), colour)
        x, y = 515, 300 + 20 * i
        picture.line(x, y - 4, x + 26, y - 4, colour, 2.5)
        knee = f"bends from {code_light(knee_code(L)):,.0f} cd/m2" if L > 1_000 else "cut at 1,000 cd/m2"
        picture.words(x + 34, y, f"peak {L:,}: {knee}", size=11)
    return picture


def grey(value):
    """Three equal ones."""
    return value, value, value


def signed_distances(L, codes):
    """How far each grey's HLG code lies above its exact value."""
    return [float(code - exact.exact_values(L, grey(D))[0]) for D, code in zip(CODES, codes)]


def largest_distances(engine, unbent):
    """For each grey code the largest distance under any peak, with that peak.

    Below the knee, and under peaks up to 1,000, the codes are those of `unbent` and
    so are the distances.
    """
    largest = [(distance_of(1_000, grey(D), grey(code)), 1_000) for D, code in zip(CODES, unbent)]
    for start in range(1, 10_001, 100):
        peaks = range(start, start + 100)
        for L, codes in zip(peaks, grey_codes(engine, peaks)):
            bent = knee_code(L) - CODES[0] if L > 1_000 else len(CODES)
            if codes[:bent] != unbent[:bent]:
                raise SystemExit(f"a grey below the knee was bent under peak {L}")
            for i in range(bent, len(CODES)):
                found = distance_of(L, grey(CODES[i]), grey(codes[i])), L
                largest[i] = max(largest[i], found)
            bent_light.cache_clear()
    return largest


def panel(picture, top, height, scale, ticks, name, last=False):
    """One frame over the grey codes, with the promised bound."""
    frame = Frame(picture, 75, top, 690, height, lambda D: (D - 64) / 876, scale)
    frame.grid(TICKS, ticks, "PQ code of the grey" if last else "", x_words=last)
    picture.words(83, top + 13, name, bold=True, size=11)
    return frame


def bound(frame, value):
    """A dashed line over the whole frame."""
    frame.picture.line(frame.left, frame.y(value), frame.left + frame.width, frame.y(value), "#b00020", 1, "5 4")


def mark_worst(frame, D, value, words):
    """A ring with words."""
    frame.picture.ring(frame.x(D), frame.y(value), INK)
    frame.picture.words(frame.left + frame.width - 4, frame.top + 13, words, "end", 11)


def draw_distances(codes, largest):
    """A panel for each of four peaks, and one for the worst of all peaks."""
    picture = Picture(800, 860, "Distance of HLG codes of greys from their exact values")
    picture.words(75, 26, "Distance from the exact value, in HLG codes, of every grey", bold=True, size=13)
    picture.line(525, 22, 560, 22, "#b00020", 1, "5 4")
    picture.words(566, 26, "9/16 (promised)", size=11)
    for i, (L, colour) in enumerate(zip(PEAKS, COLOURS)):
        frame = panel(picture, 42 + 150 * i, 135, lambda y: (y + 0.9) / 1.8, (-0.5, 0, 0.5), f"peak {L:,}")
        distances = signed_distances(L, codes[L])
        for side in (-9 / 16, 9 / 16):
            bound(frame, side)
        picture.dots(frame.points(zip(CODES, distances)), colour)
        D, worst = max(zip(CODES, distances), key=lambda found: abs(found[1]))
        mark_worst(frame, D, worst, f"worst {abs(worst):.5f} at code {D}")
    frame = panel(picture, 642, 165, lambda y: y / 0.7, (0, 0.25, 0.5), "largest under any peak from 1 to 10,000", True)
    bound(frame, 9 / 16)
    picture.dots(frame.points((D, distance) for D, (distance, _) in zip(CODES, largest)), INK)
    D, (worst, L) = max(zip(CODES, largest), key=lambda found: found[1])
    mark_worst(frame, D, worst, f"worst {worst:.5f} at code {D}, peak {L:,}")
    picture.words(28, 380, "HLG code − exact value", "middle", 12, turned=True)
    return picture


def main(*libraries):
    engine = [build("pages", libraries or LIBRARIES)]
    codes = dict(zip(PEAKS, grey_codes(engine, PEAKS)))
    draw_curve(codes).save(FOLDER / "highlight_curve.svg")
    draw_distances(codes, largest_distances(engine, codes[1_000])).save(FOLDER / "distance.svg")
    round_trip.main()


if __name__ == "__main__":
    main(*map(Path, sys.argv[1:]))
