"""What is stored of request 13 and drawn for it: colours of sRGB values and row calls.

A colour is three bytes. Scene light is in 1/2**40.
"""

from bisect import bisect_left, bisect_right
from itertools import product

from .hlg import FIRST, T
from .refusal import MOST_BYTES
from .samples import shuffled
from .srgb import LIGHTS, PARTS, WHITE, WHOLE_SCALE, WHOLE_TO_BT2020, WHOLE_TO_XYZ, convert_pixel, times

TOP = 2**64 - 1
BRIGHTEST_CODE = max(convert_pixel((WHITE,) * 3))
# What a unit of each light counts in each scene light, of which a unit is so many of these.
UNIT = PARTS**3
WEIGHTS = [[WHOLE_SCALE * weight for weight in weights]
           for weights in zip(*(times(WHOLE_TO_BT2020, times(WHOLE_TO_XYZ, one)) for one in ((1, 0, 0), (0, 1, 0), (0, 0, 1))))]
CORNERS = tuple(product((0, WHITE), repeat=3))
# All colours of which a scene light lies less than 300 units above a step, or at most 300 below one, the nearest first. Found by trying all 2^24.
NEAR_COLOURS = (
    (6, 107, 50), (129, 56, 21), (177, 55, 183), (218, 78, 98), (17, 20, 67), (98, 20, 232), (143, 189, 194), (63, 43, 3), (2, 11, 35), (17, 6, 41),
    (134, 53, 42), (31, 3, 104), (151, 153, 11), (215, 173, 163), (15, 3, 10), (238, 199, 168), (131, 56, 110), (96, 206, 98), (44, 145, 186),
    (32, 107, 6), (195, 51, 125), (214, 48, 242), (48, 38, 246), (219, 141, 32), (27, 50, 247), (228, 82, 51), (24, 30, 51), (15, 16, 96),
    (154, 206, 90), (215, 79, 61), (90, 1, 72), (132, 61, 22), (2, 4, 154), (25, 2, 112), (41, 187, 165), (45, 174, 229), (121, 89, 231),
    (80, 174, 115), (76, 90, 249), (91, 94, 63), (235, 52, 28), (102, 145, 70), (141, 140, 131), (5, 34, 32), (133, 44, 171), (241, 136, 233),
    (86, 24, 206), (98, 3, 234), (191, 149, 158), (228, 132, 21), (130, 55, 4), (237, 102, 50), (199, 177, 24), (92, 95, 5), (19, 100, 103),
    (4, 8, 37), (118, 213, 59), (189, 99, 65), (211, 54, 144), (60, 6, 116), (162, 23, 17), (168, 9, 34), (1, 126, 251), (162, 86, 244),
    (243, 95, 130), (50, 116, 34), (162, 44, 3), (209, 145, 37), (0, 0, 32), (228, 81, 13), (47, 204, 82), (2, 2, 29), (195, 91, 37), (174, 167, 18),
    (22, 1, 16), (32, 6, 198), (7, 96, 114), (83, 26, 13), (61, 107, 0), (89, 87, 73), (130, 166, 137), (73, 7, 16), (207, 61, 116), (54, 84, 82),
    (123, 161, 148), (158, 102, 19), (90, 117, 226), (110, 28, 182), (58, 203, 67), (247, 112, 2), (224, 72, 122), (97, 86, 144))


def grey(v):
    """A colour of three equal values."""
    return v, v, v


# Colours drawn by lot

def fitting(weight, least, most):
    """The values whose light has so much weight, both ends included."""
    return range(bisect_left(LIGHTS, -(-least // weight)), bisect_right(LIGHTS, most // weight))


def beside_step(random):
    """A colour of which a scene light lies as near to a step as the value of least weight can bring it, on either side."""
    weights = random.choice(WEIGHTS)
    slight, middle, heavy = sorted(range(3), key=weights.__getitem__)
    room = weights[slight] * LIGHTS[WHITE]
    due, colour = UNIT * T[random.randint(FIRST, BRIGHTEST_CODE)], [0, 0, 0]
    for place, beyond in ((heavy, room + weights[middle] * LIGHTS[WHITE]), (middle, room), (slight, 0)):
        values = fitting(weights[place], due - beyond, due) if beyond else fitting(weights[place], 0, due)[-1:]
        colour[place] = random.choice(values or (WHITE,))
        due -= weights[place] * LIGHTS[colour[place]]
    colour[slight] = min(colour[slight] + random.randrange(2), WHITE)
    return tuple(colour)


def draw_even(random):
    """Any colour, each as likely as another."""
    return tuple(random.randbytes(3))


def draw_colour(random):
    """One colour of a kind drawn by lot."""
    v = random.randrange(WHITE + 1)
    kinds = (
        lambda: draw_even(random),
        lambda: grey(v),
        lambda: tuple(min(max(v + random.randint(-2, 2), 0), WHITE) for _ in range(3)),
        lambda: beside_step(random),
        lambda: beside_step(random),
        lambda: beside_step(random),
        lambda: tuple(random.randrange(12) for _ in range(3)),
        lambda: tuple(random.randint(240, WHITE) for _ in range(3)),
        lambda: shuffled(random, v, 0, 0),
        lambda: shuffled(random, v, 0, WHITE),
        lambda: shuffled(random, v, v, random.randrange(WHITE + 1)),
        lambda: shuffled(random, v, random.randrange(12), random.randint(200, WHITE)),
        lambda: random.choice(NEAR_COLOURS),
    )
    return random.choice(kinds)()


# Stored questions

def colours(random):
    """Colours of the pixel file."""
    yield from map(grey, range(WHITE + 1))
    yield from CORNERS
    yield from NEAR_COLOURS
    for v in range(1, WHITE, 4):
        yield from ((v, 0, 0), (0, v, 0), (0, 0, v), (v, v, 0), (0, v, v), (v, 0, v), (WHITE, v, 0), (0, v, WHITE))
    yield from product((0, 1, 127, 128, 254), repeat=3)
    for _ in range(700):
        yield draw_even(random)
    for _ in range(800):
        yield beside_step(random)
    for _ in range(700):
        yield draw_colour(random)


def row(*colours):
    """The bytes of a row."""
    return bytes(v for colour in colours for v in colour)


def row_calls(random):
    """Arguments of the row call: row, bytes of the destination, first, end."""
    four, corners = row(*(draw_even(random) for _ in range(4))), row(*CORNERS)
    for data in (four, corners):
        count = len(data) // 3
        yield from ((data, 2 * len(data), first, end) for first in range(count + 1) for end in range(first, count + 1))
    for length in (1, 2, 4, 5, 7, 11):                      # 18, also where 7 and 8 would refuse
        for call in ((2 * length, 0, 0), (length, 0, 0), (2 * length, 1, 0), (24, 2, 1), (0, TOP, TOP)):
            yield four[:length], *call
    for length in (MOST_BYTES - 1, MOST_BYTES + 1, MOST_BYTES + 2, MOST_BYTES + 3, 32_766):
        for call in ((2 * length, 0, 0), (2 * length, 0, length // 3), (length, 1, 0)):
            yield bytes(length), *call
    for v in (0, WHITE):
        for first, end in ((0, 0), (0, 1), (0, 8_192), (4_095, 4_097), (8_191, 8_192), (8_192, 8_192), (8_192, 8_193), (8_193, 8_193), (1, 0)):
            yield bytes([v]) * MOST_BYTES, 2 * MOST_BYTES, first, end
    for length in (MOST_BYTES, 2 * MOST_BYTES - 6, 2 * MOST_BYTES - 1, 2 * MOST_BYTES + 1, 2 * MOST_BYTES + 6):
        yield bytes(MOST_BYTES), length, 0, 8_192
        yield bytes(MOST_BYTES), length, 0, 8_193
    for length in (0, 6, 12, 18, 23, 25, 30, 36, 48):       # 7, also where 8 would refuse
        for first, end in ((0, 4), (4, 4), (3, 2), (0, 5), (TOP, 0)):
            yield four, length, first, end
    for first, end in ((1, 0), (4, 3), (5, 5), (0, 5), (0, 8), (0, 12), (5, 4), (0, TOP), (TOP, TOP), (TOP, 0), (2**63, 2**63), (0, 2**32), (2**32, 2**32 + 1),
                       (2**64 // 3 + 1, 2**64 // 3 + 1), (0, 2**64 // 6 + 1), (2**64 // 6 + 1, 2**64 // 6 + 2)):
        yield four, 24, first, end
    for first, end in ((0, 0), (0, 1), (1, 1), (1, 0), (TOP, TOP)):
        yield b"", 0, first, end
    for length in (1, 6):
        yield b"", length, 0, 0
    for start in range(0, len(NEAR_COLOURS), 23):
        some = row(*NEAR_COLOURS[start:start + 23])
        yield some, 2 * len(some), 0, len(some) // 3
    for count in (1, 2, 3, 8, 15, 16, 17, 31, 33, 64):
        some = row(*(draw_colour(random) for _ in range(count)))
        yield from ((some, 6 * count, *span) for span in ((0, count), (count // 3, count - count // 4)))
