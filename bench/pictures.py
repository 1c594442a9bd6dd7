"""Makes the pictures of the benchmark: 1,920 x 1,080 pixels, ten-bit PQ, narrow range, and eight-bit sRGB.

    python3 -m bench.pictures FOLDER

PQ (.rgb) has three 16-bit samples a pixel, high byte first, sRGB (.srgb) three bytes. The seed
is fixed, so that every run has the same pictures. Each PQ picture is written as sRGB too, with
the nearest value to each code's signal; captions are sRGB alone.
"""

import math
import sys
from array import array
from pathlib import Path
from random import Random

WIDTH, HEIGHT = 1_920, 1_080
BLOCK = 60                               # side of a flat block, pixels

# captions, in pixels and sRGB values
CELL, LINE = 34, 72                      # width of a letter's place, height of a line
LETTERS = 38                             # to a line, with the spaces between words
STROKE = 3.2                             # half the breadth of a letter's strokes
CLEAR, BOX = (0, 0, 0), (24, 24, 32)     # transparent black, and an opaque box
BOX_ROWS, BOX_PIXELS = range(852, 1_020), range(274, 1_646)
LINES = ((96, (0, 255, 255), CLEAR), (864, (255, 255, 255), BOX), (936, (255, 255, 0), BOX))      # first row, colour, what lies behind


def bytes_of(samples):
    """Samples high byte first."""
    row = array("H", samples)
    if sys.byteorder == "little":
        row.byteswap()
    return row.tobytes()


def clipped(code):
    """A code inside the accepted range."""
    return min(max(code, 4), 1_019)


def noise(random, spread):
    """An endless supply of small whole numbers about 0, from a list that is drawn once."""
    drawn = [round(random.gauss(0, spread)) for _ in range(65_536)]
    while True:
        start = random.randrange(4_096)
        yield from drawn[start:]


def gradients(random):
    """Ramps of red from left to right, green from top to bottom and blue askew, with noise."""
    grain = noise(random, 6)
    for y in range(HEIGHT):
        green = 64 + 876 * y // HEIGHT
        yield bytes_of(clipped(code + next(grain)) for x in range(WIDTH)
                       for code in (64 + 876 * x // WIDTH, green, 64 + (x + y) % 876))


def blocks(random):
    """Flat blocks of colours drawn evenly, with black and grey ones between."""
    for _ in range(0, HEIGHT, BLOCK):
        row = []
        for _ in range(0, WIDTH, BLOCK):
            grey = random.randint(64, 940)
            row += random.choice((
                [random.randint(64, 940) for _ in range(3)], [grey] * 3, [64] * 3)) * BLOCK
        yield from [bytes_of(row)] * BLOCK


def glints(random):
    """Places, sizes and heights of highlights; some pass the peak."""
    return [(random.randrange(WIDTH), random.randrange(HEIGHT), random.uniform(4, 60), random.randint(150, 560))
            for _ in range(120)]


def film(random):
    """Dim and middle tones with soft shapes and grain, and highlights that fall off from their middle."""
    grain, spots = noise(random, 3), glints(random)
    waves = [[90 * math.sin(x / length) for x in range(WIDTH)] for length in (97, 151, 211)]
    for y in range(HEIGHT):
        shade = 330 + 70 * math.sin(y / 170)
        lift = [0.0] * WIDTH
        for x0, y0, size, height in spots:
            reach = int(3 * size)
            if abs(y - y0) < reach:
                for x in range(max(0, x0 - reach), min(WIDTH, x0 + reach)):
                    lift[x] += height * math.exp(-((x - x0) ** 2 + (y - y0) ** 2) / (size * size))
        yield bytes_of(clipped(int(shade + wave[x] + lift[x]) + next(grain)) for x in range(WIDTH) for wave in waves)


def evenly(random):
    """Codes drawn evenly from all accepted ones: no pixel is like the one before it."""
    for _ in range(HEIGHT):
        yield bytes_of(random.choices(range(4, 1_020), k=3 * WIDTH))


PICTURES = {"gradients": gradients, "blocks": blocks, "film": film, "random": evenly}


def rows_of(name, chosen=None):
    """The rows of a picture, or the chosen ones."""
    rows = PICTURES[name](Random(name))
    return rows if chosen is None else (row for y, row in enumerate(rows) if y in chosen)


def value_of_code(code):
    """The sRGB value nearest to a PQ code's signal; sub-blacks read as black, super-whites as full signal."""
    return (255 * (min(max(code, 64), 940) - 64) + 438) // 876


VALUES = [value_of_code(code) for code in range(1_024)]


def srgb_row(row):
    """A row of a PQ picture in sRGB values."""
    return bytes(VALUES[high << 8 | low] for high, low in zip(row[::2], row[1::2]))


def distance(point, start, end):
    """From a point to the straight stroke between two, all as complex numbers."""
    along = ((point - start) * (end - start).conjugate()).real / abs(end - start) ** 2
    return abs(point - start - min(max(along, 0), 1) * (end - start))


def letter(random):
    """How far each pixel of a letter is covered, 0 to 1, row by row: a stem, and strokes and perhaps a bowl by lot. Edges are antialiased."""
    stem = random.choice((7, 17, 27))
    strokes = [(complex(stem, 12), complex(stem, 58))]
    for _ in range(random.randint(1, 2)):
        strokes.append([complex(x, random.choice((12, 35, 58))) for x in random.sample((7, 17, 27), 2)])
    bowl = random.choice((None, 22, 48))                        # the row of its middle

    def cover(point):
        nearest = min(distance(point, *stroke) for stroke in strokes)
        if bowl:
            nearest = min(nearest, abs(abs(point - complex(17, bowl)) - 10))
        return min(max(STROKE + 0.5 - nearest, 0), 1)

    return [[cover(complex(x, y)) for x in range(CELL)] for y in range(LINE)]


def words(random, letters):
    """The letters of a line, with nothing for a space."""
    line = []
    while len(line) < LETTERS:
        line += [*random.choices(letters, k=random.randint(2, 9)), None]
    return line[:LETTERS]


def captions(random):
    """A subtitle in sRGB: two lines in an opaque box, one line without, all else transparent black."""
    letters = [letter(random) for _ in range(26)]
    texts = [words(random, letters) for _ in LINES]
    first = (WIDTH - LETTERS * CELL) // 2
    for y in range(HEIGHT):
        row = [BOX if y in BOX_ROWS and x in BOX_PIXELS else CLEAR for x in range(WIDTH)]
        for (top, colour, ground), text in zip(LINES, texts):
            if top <= y < top + LINE:
                row[first:first + LETTERS * CELL] = [tuple(round(g + (c - g) * part) for c, g in zip(colour, ground))
                                                     for glyph in text for part in (glyph[y - top] if glyph else [0] * CELL)]
        yield bytes(value for pixel in row for value in pixel)


def srgb_rows_of(name, chosen=None):
    """The rows of a picture in sRGB, or the chosen ones."""
    if name in PICTURES:
        return map(srgb_row, rows_of(name, chosen))
    return (row for y, row in enumerate(captions(Random(name))) if chosen is None or y in chosen)


def main(folder):
    folder = Path(folder)
    folder.mkdir(parents=True, exist_ok=True)
    for name in PICTURES:
        with open(folder / f"{name}.rgb", "wb") as pq, open(folder / f"{name}.srgb", "wb") as srgb:
            for row in rows_of(name):
                pq.write(row)
                srgb.write(srgb_row(row))
    with open(folder / "captions.srgb", "wb") as srgb:
        srgb.writelines(srgb_rows_of("captions"))


if __name__ == "__main__":
    main(sys.argv[1])
