"""What the leaves' points are made with: the ranges of their arguments, and draws."""

from math import gcd

from model import ground
from model.arithmetic import SIDE_LIMIT
from model.compression import MOST_COEFFICIENT
from model.fields import FIELD_RANGES, NUMBER_OF
from model.ground import MOST_MAPPED

EDGE_DRAWS = 30        # for each kind of edge

# --- Ranges -------------------------------------------------------------------

SIGN = (0, 1)                               # 1 means minus
BYTE = (0, 255)
U32 = (0, 2**32 - 1)
U64 = (0, 2**64 - 1)
WORD = (0, 18_446_744_073_709_551_609)      # "all below 18446744073709551610"
SIZE = (0, 2**63 - 1)
SIDE = (0, SIDE_LIMIT - 1)                  # of a comparison


def from_one(limits):
    return 1, limits[1]


D, H, W, FY, V, KZ, I, AV, MS, N, B_FIELD, PLATE, C, S, E = (
    FIELD_RANGES[NUMBER_OF[name]] for name in "D H W Fy V Kz I Av Ms N B t c s E".split())
B = from_one(B_FIELD)                       # of an anchored tank
HEIGHT = (0, 76_800)                        # h, or Hs
NEED = (0, 6_660)                           # hoop need, in S-7's steps
REQUIRED = (0, 6_910)
P = (0, 6_480)
MOMENT = (0, 1_000_000_000)
TB = (0, 500)
WT = (0, 31_830_985)
WL = (0, 1_638_400)
T = (0, 13_387_754_000)
LEAST_PULL = -1_666_666                     # W greatest, no moment, N 6
PULL = (0, 800_000_000_000)                 # moment greatest, B 1, N 6
A = (1, 2_500)
PARTS = 10_000                              # of a pound, in which leaves 51 and 52 tell a weight
WEIGHT_PARTS = (0, PARTS * W[1])
PLACES = (0, 21)                # in the list of refusals; leaf_slender.py, leaf_size_6.py have more
MAPPED = (0, MOST_MAPPED)                   # Ss or S1, where it is not refused
CLASSES = tuple(map(ord, ground.CLASSES))
NET = (1, PLATE[1])                         # a course's plate less its allowance
COEFFICIENT = (0, MOST_COEFFICIENT)
HALF = 2**32                                # one more than a half of leaf 7's or 8's answer holds

# Numbers that are no method's: beside the two; such as a narrower or a signed type would take for
# one of them or its negative; the digits' ASCII codes; 100 and 650.
NO_METHODS = (0, 3, 4, 7, ord("1"), ord("2"), 100, 650, 255, *range(2**8, 2**8 + 3),
              2**16 - 1, *range(2**16, 2**16 + 3), 2**24 + 1, 2**24 + 2, *range(2**31, 2**31 + 3),
              2**32 - 2, 2**32 - 1)


# --- Making points ------------------------------------------------------------


def ends(limits):
    """The two ends of a range and one inside each, without repeats."""
    least, greatest = limits
    inner = (least, least + 1, greatest - 1, greatest)
    return sorted({figure for figure in inner if least <= figure <= greatest})


def no_ends(_limits):
    """Where the edges have those that are worth a line."""
    return ()


def even_draw(rng, limits):
    return rng.randint(*limits)


def small_draw(rng, limits):
    """A figure whose distance from the least has any bit length alike."""
    least, greatest = limits
    width = greatest - least
    distance = rng.getrandbits(rng.randint(0, width.bit_length()))
    return least + min(distance, width)


def round_draw(rng, limits, unit):
    """A multiple of the unit."""
    least, greatest = limits
    return unit * rng.randint(-(-least // unit), greatest // unit)


def neighbours(*point):
    """The point, and with each argument in turn one less and one more."""
    yield point
    for place, figure in enumerate(point):
        for near in (figure - 1, figure + 1):
            yield point[:place] + (near,) + point[place + 1:]


def beside(figure):
    return figure - 1, figure, figure + 1


def whole_at(rng, factor, divisor, limits):
    """A figure x above 0 in the range, with factor * x / divisor whole; else None."""
    step = divisor // gcd(factor, divisor)
    least, greatest = limits
    fewest, most = max(-(-least // step), 1), greatest // step
    return step * rng.randint(fewest, most) if fewest <= most else None
