"""What is stored of request 08 and drawn for it: HLG colours, lights and row calls of the return path.

A colour is three HLG codes. Scene light is in 1/2**40, display light in units of 1/16,777,216 cd/m2.
"""

from bisect import bisect_right
from itertools import product

from .cases import CORNER_CODES, row, row_calls
from .display_light import display_light
from .hlg import WEIGHTS, luminance
from .light import A, BRIGHTEST
from .returned import LOWEST, TAKEN, THRESHOLDS, pq_code
from .samples import shuffled
from .scene_light import S

TOP = 2**64 - 1
LIGHTS = list(S.values())
SAMPLES = 65_535                         # the largest that a row holds
# Where a code is read otherwise than the one beside it, or by the other half of the formula, and the ends of what is taken.
ENDS = (4, 63, 64, 65, 502, 503, 940, 1_019)
REFUSED = (0, 3, 1_020, 1_023, 1_024, 4_079, SAMPLES)
LARGE = (2**16 + 64, 2**32 + 500, 2**63 + 100, TOP - 63, TOP)

# Colours of which a code hangs on one unit of display light: a light is the threshold of its code, or a unit less than the next one. Of the first
# five a code also moves if scene lights are rounded down, or up. Found by trying all codes from 64 to 1,019.
UNIT_COLOURS = (
    (140, 436, 503), (172, 677, 247), (213, 744, 155), (177, 557, 248), (527, 488, 513), (140, 183, 782), (128, 743, 501), (127, 750, 940),
    (457, 624, 133), (476, 748, 135), (715, 141, 846), (877, 138, 549), (141, 649, 741), (828, 142, 700), (140, 626, 147), (173, 219, 77),
    (613, 166, 759), (540, 578, 174), (657, 186, 554), (75, 132, 241), (191, 303, 921), (137, 181, 234), (97, 214, 675), (222, 221, 346),
    (755, 198, 493), (751, 199, 200), (412, 223, 372), (209, 498, 565), (486, 236, 269), (852, 209, 586), (195, 907, 792), (655, 237, 628),
    (372, 257, 841), (256, 551, 682), (666, 263, 615), (284, 248, 709), (217, 809, 254), (321, 254, 168), (293, 478, 343), (757, 496, 287),
    (186, 418, 317), (540, 320, 499), (238, 311, 346), (476, 708, 324), (535, 782, 374), (425, 478, 708), (415, 456, 1_014), (609, 747, 487),
    (675, 901, 457), (958, 977, 447), (450, 225, 595), (486, 873, 787), (555, 192, 593), (545, 648, 141), (572, 568, 310), (563, 669, 699),
    (876, 723, 536), (464, 587, 435), (466, 592, 537), (577, 779, 617), (735, 610, 598), (624, 452, 821), (483, 621, 153), (400, 593, 627),
    (574, 908, 508), (65, 649, 74), (525, 838, 607), (373, 641, 882), (895, 80, 645), (685, 212, 513), (636, 884, 178), (780, 678, 234),
    (172, 726, 525), (477, 695, 759), (833, 120, 257), (774, 822, 506), (870, 419, 128), (995, 928, 337))


def grey(d):
    """A colour of three equal codes."""
    return d, d, d


# Colours drawn by lot

def beside_threshold(random):
    """A colour of which a light lies as near to a threshold as the two others can bring it, on either side."""
    own, *others = random.sample(range(3), 3)
    heavy, slight = sorted(others, key=WEIGHTS.__getitem__, reverse=True)
    colour = [random.randint(64, 1_019) for _ in range(3)]
    light, spare = S[max(colour[own], 65)], WEIGHTS[slight] * S[colour[slight]]
    colour[own] = max(colour[own], 65)
    low, high = (pq_code(display_light(WEIGHTS[own] * light + spare + WEIGHTS[heavy] * other, light)) for other in (0, LIGHTS[-1]))
    if low < high:
        threshold = THRESHOLDS[random.randint(low + 1, high) - LOWEST]
        Y = -(-threshold**5 * 10_000 * 2**240 // (A**5 * light**5))            # the least luminance that reaches it
        colour[heavy] = code_below((Y - WEIGHTS[own] * light - spare) // WEIGHTS[heavy])
        rest = Y - WEIGHTS[own] * light - WEIGHTS[heavy] * S[colour[heavy]]
        colour[slight] = min(code_below(rest // WEIGHTS[slight]) + random.randrange(2), 1_019)
    return tuple(colour)


def code_below(scene):
    """The last code whose scene light is not above one given."""
    return 63 + max(1, bisect_right(LIGHTS, scene))


def draw_colour(random):
    """One accepted colour of a kind drawn by lot."""
    dim, bright = random.randint(64, 110), random.randint(700, 1_019)
    kinds = (
        lambda: tuple(random.choices(TAKEN, k=3)),
        lambda: tuple(random.randint(64, 940) for _ in range(3)),
        lambda: grey(random.choice(TAKEN)),
        lambda: beside_threshold(random),
        lambda: beside_threshold(random),
        lambda: beside_threshold(random),
        lambda: shuffled(random, bright, dim, random.randint(64, 110)),
        lambda: shuffled(random, bright, bright, dim),
        lambda: shuffled(random, bright, random.choice(ENDS), random.choice(TAKEN)),
        lambda: tuple(random.randint(64, 110) for _ in range(3)),
        lambda: tuple(random.randint(60, 68) for _ in range(3)),
        lambda: tuple(random.randint(499, 506) for _ in range(3)),
        lambda: tuple(random.randint(936, 944) for _ in range(3)),
        lambda: tuple(random.choices(ENDS, k=3)),
        lambda: shuffled(random, random.randint(4, 63), random.choice(TAKEN), random.choice(TAKEN)),
    )
    return random.choice(kinds)()


# Stored questions

def stage_questions(random):
    """Questions to the stages: the stage, and its number or its three numbers."""
    for d in (*range(1_025), *LARGE):
        yield "scene", (d,)
    yield from (("lights", scenes) for scenes in scene_triples(random))
    lights = [threshold + beside for threshold in THRESHOLDS for beside in (-1, 0, 1)]
    for light in (0, 1, 2, *lights, A - 1, A, A + 1, BRIGHTEST - 1, BRIGHTEST, BRIGHTEST + 1, *LARGE):
        yield "code", (light,)
    yield from (("reached", numbers) for numbers in comparisons(random))


def comparisons(random):
    """Luminance, scene light and display light: the light that a component has, the next one, and numbers past their ranges."""
    for _ in range(150):
        scenes = [random.randint(0, LIGHTS[-1] >> random.randrange(41)) for _ in range(3)]
        Y = luminance(scenes)
        for scene in scenes:
            c = display_light(Y, scene)
            yield from ((Y, scene, c), (Y, scene, c + 1))
    white, last = 10_000 * LIGHTS[-1], display_light(10_000 * LIGHTS[-1], LIGHTS[-1])
    for Y, scene, c in product((0, 1, white, white + 1, 2**63), (0, 1, LIGHTS[-1], LIGHTS[-1] + 1, 2**64 - 1), (0, 1, last, last + 1, 10 * A, 2**64 - 1)):
        yield Y, scene, c


def scene_triples(random):
    """Scene lights of three components: of codes, of none, past that of code 1,019, and such that both sides of the inequality are equal."""
    for colour in (*product((64, 65, 502, 503, 1_019), repeat=3), *CORNER_CODES, *UNIT_COLOURS):
        yield tuple(S[d] for d in colour)
    for d in range(64, 1_020, 25):
        yield grey(S[d])
    for power in range(0, 45, 5):           # of 2**20, 2**25 and so on both sides are equal
        for beside in (-1, 0, 1):
            yield grey(max(0, 2**power + beside))
    for scenes in product((0, 1, LIGHTS[-1] - 1, LIGHTS[-1] + 1, 2**63), repeat=3):
        yield scenes
    for scene in (*LARGE, 2**41):
        yield from ((scene, 0, 0), (0, scene, 1), (5, 2**40, scene), grey(scene))
    for _ in range(250):
        yield tuple(random.randint(0, LIGHTS[-1] >> random.randrange(41)) for _ in range(3))


def refused_colours():
    """Refusal 9 of the pixel call, with numbers up to 64 bits."""
    for bad in (*REFUSED, *LARGE):
        for colour in ((bad, 64, 940), (4, bad, 1_019), (500, 600, bad), grey(bad), (64, bad, bad), (bad, 3, 64)):
            yield colour


def colours(random):
    """Colours of the pixel file."""
    yield from map(grey, TAKEN)
    yield from product(ENDS, repeat=3)
    yield from CORNER_CODES
    yield from UNIT_COLOURS
    for d in range(65, 1_020, 9):
        yield from ((d, 64, 64), (64, d, 64), (64, 64, d), (d, d, 64), (1_019, d, 64), (d, 64, 1_019))
    for _ in range(1_200):
        yield tuple(random.choices(TAKEN, k=3))
    for _ in range(2_600):
        yield draw_colour(random)
    yield from refused_colours()


def return_row_calls(random):
    """Arguments of the row call: row, bytes of the destination, first, end. Those of the outward call without its peak, then some of its own."""
    yield from dict.fromkeys(tuple(call) for _, *call in row_calls())
    ends = row(*map(grey, ENDS))
    for first in range(len(ENDS) + 1):
        yield ends, len(ends), first, len(ENDS)
        yield ends, len(ends), 0, first
    for start in range(0, len(UNIT_COLOURS), 20):
        some = row(*UNIT_COLOURS[start:start + 20])
        yield some, len(some), 0, len(some) // 6
    for sample in REFUSED:
        for place in range(9):
            codes = [random.choice(TAKEN) for _ in range(9)]
            codes[place] = sample
            data = row(tuple(codes[:3]), tuple(codes[3:6]), tuple(codes[6:]))
            yield data, 18, 0, 3
            yield data, 18, 1, 2
