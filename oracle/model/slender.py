"""Request S-9 of document 02: the earthquake moment Ms of a slender tank.

Written from the request and from the source document behind it, 003 (AWWA D100-11, Sec. 13.5.2: Eq
13-23 for the moment, 13-25 and 13-29 for the impulsive weight and its height, 13-27 for the water).
Every figure is an exact Fraction in D100's units: feet, pounds, multiples of g. Five are rounded,
each of them up and from the exact fraction of what it is made from: the two weights to a pound, then
the two moments and the root of their squares to a foot-pound. A moment is made from its rounded
weight and the root from the rounded moments, as "then" and "likewise" say.

What the request leaves open, and what is decided here:

- "Slender" is the request's D x 1,000 < 1,333 x H, in the sheet's units: 1.333 as printed in D100,
  not 4/3. At equality the tank isn't slender.
- The water is 62.4 x gravity x H x 355/113 x D x D / 4. Eq 13-27's right side, 49 G H D D, is the
  rounded form of the same and isn't used.
- The convective weight lacks Eq 13-26's tanh and stands at H in place of Eq 13-30: the house rule.
- The roof's height is a figure of its own, in place of Eq 13-23's Ht. Neither height is held
  against H or a shell, which the question doesn't have.
- Field 3 is the weight of shell and roof together; here its range is each weight's own, from 1, and
  their sum isn't looked at.
- A figure of field 1, 2, 3 or 20 outside its range is 40 too, not 16, and 40 gives no field.
- 45 looks at the answer: the rounded moment. 1,000,000,000 is allowed. With an unrounded figure of
  1,000,000,000 or somewhat less, the rounded one may be above, and then it is 45.
"""

from fractions import Fraction
from math import ceil, isqrt
from typing import NamedTuple

from model.arithmetic import root_up
from model.compression import CIRCLE, feet
from model.fields import FIELD_RANGES, NUMBER_OF
from model.tank_rules import times_water


class Figures(NamedTuple):
    """In the sheet's units: lengths and heights in hundredths of an inch, weights in pounds, gravity
    and accelerations in thousandths."""
    D: int
    H: int
    gravity: int
    Ws: int     # shell
    Xs: int     # the height of its centre of gravity
    Wr: int     # roof
    Xr: int
    Ai: int     # impulsive acceleration
    Ac: int     # convective


# --- Ranges and slenderness ---------------------------------------------------

WEIGHT = FIELD_RANGES[NUMBER_OF["W"]]
MOST_HEIGHT = 76_800
MOST_ACCELERATION = 1_000
RANGES = Figures(
    D=FIELD_RANGES[NUMBER_OF["D"]], H=FIELD_RANGES[NUMBER_OF["H"]],
    gravity=FIELD_RANGES[NUMBER_OF["gravity"]],
    Ws=WEIGHT, Xs=(0, MOST_HEIGHT), Wr=WEIGHT, Xr=(0, MOST_HEIGHT),
    Ai=(0, MOST_ACCELERATION), Ac=(0, MOST_ACCELERATION),
)
MOST_MOMENT = FIELD_RANGES[NUMBER_OF["Ms"]][1]      # the request says it too


def within_ranges(figures):
    return all(least <= figure <= greatest
               for figure, (least, greatest) in zip(figures, RANGES, strict=True))


def slender(D, H):
    return 1_000 * D < 1_333 * H


# --- Weights: Eq 13-25, 13-27 and the house rule ------------------------------

POUNDS_PER_CUBIC_FOOT = Fraction("62.4")


def shape(figures):
    """D / H."""
    return Fraction(figures.D, figures.H)


def water_weight(figures):
    area = CIRCLE * feet(figures.D) ** 2 / 4
    return POUNDS_PER_CUBIC_FOOT * times_water(figures.gravity) * feet(figures.H) * area


def exact_impulsive_weight(figures):
    return (1 - Fraction("0.218") * shape(figures)) * water_weight(figures)


def exact_convective_weight(figures):
    return Fraction("0.23") * shape(figures) * water_weight(figures)


# --- Moments: Eq 13-23 and 13-29, of a given weight ---------------------------


def impulsive_height(figures):
    return (Fraction("0.5") - Fraction("0.094") * shape(figures)) * feet(figures.H)


def impulsive_moment(figures, weight):
    """ "Shell and roof in it". """
    turning = figures.Ws * feet(figures.Xs) + figures.Wr * feet(figures.Xr) \
        + weight * impulsive_height(figures)
    return Fraction(figures.Ai, 1_000) * turning


def convective_moment(figures, weight):
    return Fraction(figures.Ac, 1_000) * weight * feet(figures.H)


# --- The rounded moment -------------------------------------------------------


class Rounded(NamedTuple):
    """All that is rounded, in turn."""
    impulsive_weight: int
    convective_weight: int
    impulsive_moment: int
    convective_moment: int
    moment: int


def rounded(figures):
    """Of a slender tank, whatever its moment."""
    impulsive_weight = ceil(exact_impulsive_weight(figures))
    convective_weight = ceil(exact_convective_weight(figures))
    impulsive = ceil(impulsive_moment(figures, impulsive_weight))
    convective = ceil(convective_moment(figures, convective_weight))
    return Rounded(impulsive_weight, convective_weight, impulsive, convective,
                   root_up(impulsive * impulsive + convective * convective))


# --- The question -------------------------------------------------------------


def refusal_of(figures):
    """Order: 40, 44, 45."""
    if not within_ranges(figures):
        return 40, 0
    if not slender(figures.D, figures.H):
        return 44, 0
    if rounded(figures).moment > MOST_MOMENT:
        return 45, 0
    return None


def moment(figures):
    """Of figures that are not refused."""
    return rounded(figures).moment


# --- What is claimed of a moment ----------------------------------------------

TOO_FAR_ABOVE = 100     # the unrounded figure, in foot-pounds


def exact_square(figures):
    """Of the unrounded figure: neither a weight, nor a moment, nor the root is rounded."""
    return impulsive_moment(figures, exact_impulsive_weight(figures)) ** 2 \
        + convective_moment(figures, exact_convective_weight(figures)) ** 2


def safely_rounded(figures, found):
    """ "At or above the unrounded figure and less than 100 ft-lb above it", by squares; a figure
    below 100 ft-lb is above found - 100 anyway."""
    square = exact_square(figures)
    return square <= found**2 and (found < TOO_FAR_ABOVE or (found - TOO_FAR_ABOVE) ** 2 < square)


# --- The same in the sheet's units, as whole numbers; a cross-check -----------


def whole_rounded(figures):
    """62.4 x 355 / 113 / 4 is 5,538 / 113, and 5,538 is 6 x 923; 1,200 cubed is 1,728,000,000."""
    D, H, gravity, Ws, Xs, Wr, Xr, Ai, Ac = figures
    impulsive_weight = -(-923 * gravity * D * D * (500 * H - 109 * D)
                         // 16_272_000_000_000_000)
    convective_weight = -(-21_229 * gravity * D**3 // 3_254_400_000_000_000)
    turning = 500 * (Ws * Xs + Wr * Xr) + impulsive_weight * (250 * H - 47 * D)
    impulsive = -(-Ai * turning // 600_000_000)
    convective = -(-Ac * convective_weight * H // 1_200_000)
    found = isqrt(impulsive**2 + convective**2)
    while found**2 < impulsive**2 + convective**2:
        found += 1
    return Rounded(impulsive_weight, convective_weight, impulsive, convective, found)


# --- Self test: worked by hand ------------------------------------------------

# 10 ft across, 10 ft of water: 62.4 x 250 x 355/113 is 5,538,000/113 or 49,008 96/113 pounds. 0.782
# of that is 38,324.92, at 5 - 0.94 or 4.06 ft; 0.23 of that is 11,272.04, at 10 ft. The shell turns
# with 5,000 x 6 ft, the roof with 1,000 x 12 ft, the water with 38,325 x 4.06 or 155,599.5: all
# 197,599.5. A fifth of that is 39,519.9, a twentieth of 112,730 is 5,636.5. The squares of 39,520
# and 5,637 come to 1,593,606,169, which is 231 less than 39,920 squared.
BY_HAND = Figures(12_000, 12_000, 1_000, 5_000, 7_200, 1_000, 14_400, 200, 50)
ROUNDED_BY_HAND = Rounded(38_325, 11_273, 39_520, 5_637, 39_920)

# The same tank with gravity 1,130: 55,380 pounds and no fraction; 43,307.16 and 12,737.4 of it.
# 43,308 x 4.06 is 175,830.48, with shell and roof 217,830.48; by a fifth 43,566.096. 127,380 by a
# twentieth is 6,369 (from 12,738) and no fraction. The squares of 43,567 and
# 6,369 come to 1,938,647,650, which is 6,750 more than 44,030 squared.
HEAVIER = BY_HAND._replace(gravity=1_130)
ROUNDED_HEAVIER = Rounded(43_308, 12_738, 43_567, 6_369, 44_031)


def check_by_hand():
    assert water_weight(BY_HAND) == Fraction(5_538_000, 113)
    assert exact_impulsive_weight(BY_HAND) == Fraction(4_330_716, 113)
    assert exact_convective_weight(BY_HAND) == Fraction(1_273_740, 113)
    assert impulsive_height(BY_HAND) == Fraction("4.06")
    assert impulsive_moment(BY_HAND, 38_325) == Fraction("39519.9")
    assert convective_moment(BY_HAND, 11_273) == Fraction("5636.5")
    assert water_weight(HEAVIER) == 55_380
    for figures, by_hand in ((BY_HAND, ROUNDED_BY_HAND), (HEAVIER, ROUNDED_HEAVIER)):
        assert rounded(figures) == whole_rounded(figures) == by_hand, rounded(figures)
        assert moment(figures) == by_hand.moment and refusal_of(figures) is None
        assert safely_rounded(figures, by_hand.moment)
        assert not safely_rounded(figures, by_hand.moment + 100)
        assert not safely_rounded(figures, by_hand.moment - 3)
    # one acceleration alone: its own moment; none: 0
    assert moment(BY_HAND._replace(Ac=0)) == 39_520
    assert moment(BY_HAND._replace(Ai=0)) == 5_637
    assert moment(BY_HAND._replace(Ai=0, Ac=0)) == 0


def check_refusals():
    for D, H, found in ((15_996, 12_000, False), (15_995, 12_000, True), (15_996, 12_001, True),
                        (15_997, 12_000, False), (15_996, 11_999, False)):
        assert slender(D, H) == found
        assert (refusal_of(BY_HAND._replace(D=D, H=H)) is None) == found
    assert refusal_of(BY_HAND._replace(D=240_000)) == (44, 0)
    assert refusal_of(BY_HAND._replace(D=240_001)) == (40, 0)       # 40 first
    for name, (least, greatest) in zip(Figures._fields, RANGES):
        for outside in {max(least - 1, 0), greatest + 1, 2**32 - 1} - {least}:
            assert refusal_of(BY_HAND._replace(**{name: outside})) == (40, 0), (name, outside)
    # the shell turns with 10,000,000 x 64 ft, the water with 155,599.5: 359,844,400.5 are left
    heavy = BY_HAND._replace(Ws=10_000_000, Xs=76_800, Wr=10_000_000, Ai=1_000, Ac=0)
    assert refusal_of(heavy._replace(Xr=43_181)) is None        # the roof: 359,841,666 2/3
    assert refusal_of(heavy._replace(Xr=43_182)) == (45, 0)     # 359,850,000
    assert refusal_of(heavy._replace(D=16_000, Xr=76_800)) == (44, 0)       # 44 before 45


def self_test():
    assert RANGES == ((12_000, 240_000), (1_200, 76_800), (1_000, 1_300), (1, 10_000_000),
                      (0, 76_800), (1, 10_000_000), (0, 76_800), (0, 1_000), (0, 1_000))
    assert MOST_MOMENT == 1_000_000_000
    check_by_hand()
    check_refusals()
