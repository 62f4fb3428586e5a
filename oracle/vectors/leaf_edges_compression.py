"""Edges of the leaves of compression, request S-6."""

from functools import cache
from itertools import cycle, product
from math import ceil, floor

from model import compression
from model.arithmetic import greatest_root
from model.compression import ARGUMENT_PARTS, LAST_ENTRY, MOST_ELASTIC
from vectors.leaf_points import COEFFICIENT, D, H, NET, U64, even_draw, neighbours

# --- Edges of the compression leaves ------------------------------------------


def entry_edges(_rng):
    """Every entry, and places past the last one."""
    past = LAST_ENTRY + 1
    for i in (*range(past), past, 1_000, 2**32, 2**32 + 1, U64[1]):
        yield (i,)


def water_for(i, diameter, t):
    """The least H with an argument of so many ten-thousandths."""
    return ceil(i / (ARGUMENT_PARTS * compression.exact_argument(1, diameter, t)))


@cache
def whole_arguments():
    """H, D and t with an argument of just i ten-thousandths, for each i that t = 433 k and
    H = 433 h reach, the last one found: h (D / 400 k) (D / 400 k) is then 870 i."""
    found = {}
    for i in range(1, LAST_ENTRY + 1):
        for h, k in product(range(3, 178), range(1, 5)):
            root = greatest_root(1, 870 * i * h)
            if root * root == 870 * i * h and 400 * k * root % h == 0:
                diameter = 400 * k * root // h
                if D[0] <= diameter <= D[1]:
                    found[i] = 433 * h, diameter, 433 * k
    return found


# Past 640, and 433, which other plates reach as well.
MORE_WHOLE_ARGUMENTS = {433: (3_480, 12_000, 60), 866: (1_740, 12_000, 30)}


def argument_edges(rng):
    yield from product(H, D, NET)
    whole = {**whole_arguments(), **MORE_WHOLE_ARGUMENTS}
    for i in (10, 24, 125, 320, 433, 640, 866):
        level, diameter, t = whole[i]
        yield from ((level, diameter, t), (level - 1, diameter, t), (level + 1, diameter, t),
                    (level, diameter - 1, t), (level, diameter, t + 1))
    for i in (1, 2, 639, 640, 641) * 3:
        level = 0
        while not H[0] < level <= H[1]:
            diameter, t = even_draw(rng, D), even_draw(rng, NET)
            level = water_for(i, diameter, t)
        yield level - 1, diameter, t
        yield level, diameter, t


ELASTIC_EQUALITY = (1_943, 125_000)         # t and D; the only one
INELASTIC_EQUALITIES = ((750, 12_000), (1_001, 16_016), (2_000, 32_000))
TOLD_APART = (372, 868, 1_389)              # with these e the two sides of the first one differ
WHOLE_ALLOWED = (           # t, D and e with an exact allowed stress of whole psi
    (160, 12_500, 5_528), (2_000, 156_250, 5_528),                                  # elastic
    (731, 33_456, 0), (1_135, 30_960, 0), (480, 15_328, 1_765), (1_645, 30_100, 100),
    (1_000, 13_330, 100), (1_200, 14_964, 5_440), (1_750, 17_980, 480),             # plastic
)
NEARLY_WHOLE_ALLOWED = (    # less than a part in 100,000 of a psi off
    (1_615, 154_935, 0), (975, 63_523, 0), (348, 25_987, 6_538), (729, 131_066, 1_402),
    (1_636, 58_419, 0), (1_313, 28_634, 0), (1_174, 30_667, 56), (1_080, 18_044, 2_453),
    (1_689, 12_237, 6_633), (1_826, 25_644, 2_692),
)


def allowed_edges(rng):
    yield from product(NET, D, (0, 1, COEFFICIENT[1]))
    for equality in (ELASTIC_EQUALITY, *INELASTIC_EQUALITIES):
        for (t, diameter), e in zip(neighbours(*equality), cycle((0, 1, COEFFICIENT[1]))):
            yield t, diameter, e
        for e in (0, COEFFICIENT[1], even_draw(rng, COEFFICIENT)):
            yield *equality, e
    for e in TOLD_APART:
        yield *ELASTIC_EQUALITY, e
    for diameter in (12_000, 60_000, 128_600):
        t = floor(diameter * MOST_ELASTIC * 5)
        for near, e in product((t, t + 1), (0, even_draw(rng, COEFFICIENT))):
            yield near, diameter, e
    for t, diameter, e in WHOLE_ALLOWED:
        yield from ((t, diameter, e), (t, diameter, e + 1), (t, diameter, e - 1),
                    (t, diameter + 1, e), (t - 1, diameter, e))
    yield from NEARLY_WHOLE_ALLOWED
