"""Demand 3 with request S-8: sheets on which need, cap and yield have to have gravity, each in its
own way, and the margins stand as before. Nearly all of them have gravity 1,137, which is 3 x 379.
"""

from fractions import Fraction

from model.demand_3 import (
    FULL_HEADS, FULL_HEADS_A_FOOT_UP, HALF_IS_LITTLE, LOW_WATER_COURSE, MARGIN_COUNTS, NO_MARGINS,
    borne_out, check_margin_counts, exact_need, given_margins, liquor_in, meets, plated,
    with_courses, with_plate_margin, with_plates, word_on,
)
from model.filling_in import EXAMPLE, SELF_ANCHORED, sheet_of
from model.judging import judge
from model.refusals import API_650, D100, METHODS
from model.tank_rules import times_water

GRAVITY = 1_137

# --- Sheets -------------------------------------------------------------------


def filled_with(gravity, sheet):
    return sheet._replace(tank=sheet.tank._replace(gravity=gravity))


def with_stress(factor, sheet):
    """The sheet with the design stress of each course multiplied by this, which is to be whole."""
    courses = []
    for course in sheet.courses[:sheet.count]:
        s = course.s * Fraction(factor)
        assert s.denominator == 1
        courses.append(course._replace(s=s.numerator))
    return with_courses(sheet, courses)


# s is 17,055, and 13 h x 1.137 / (72 x 17,055 x 85) is what it was with water and 15,000: the needs
# are 260, 195, 130 and 65, nothing rounded, and with c every course requires its t.
HEAVY_HEADS, HEAVY_HEADS_A_FOOT_UP = (
    with_stress(times_water(GRAVITY), filled_with(GRAVITY, sheet))
    for sheet in (FULL_HEADS, FULL_HEADS_A_FOOT_UP))

# Nothing is rounded in wt, wL and T, but the yield. By its cap wL is 15,000 x 12,000 x 1.137 /
# 11,250 = 18,192, wt 69,608 and T 87,800. By its root it is that of 6,241 x 400 x 36,000 x 12,000 /
# 12,000,000, which is 9,480, wt 49,720 and T 59,200; Fy x 1.137 is 36,000.831.
CALM_SITE = (96, 109, 115, 0, 0)
HEAVY_BY_CAP = sheet_of((12_000, 15_000, 21_868, 250, 0, 36_000, GRAVITY), CALM_SITE,
                        SELF_ANCHORED, [LOW_WATER_COURSE] * 3)
HEAVY_BY_ROOT = sheet_of((12_000, 12_000, 15_620, 120, 100, 31_663, GRAVITY), CALM_SITE,
                         SELF_ANCHORED, [LOW_WATER_COURSE] * 3)


def shaken(sheet, Ms):
    return sheet._replace(site=sheet.site._replace(Ms=Ms))


# A foot-pound over, by the root. Fy x gravity / 1,000 is 49,570.926, 34,291.92, 56,683.998,
# 53,454.918 and 43,902.981: with the unrounded yield every rule would hold, margins and all.
OVER_BY_THE_YIELD = tuple(
    sheet_of((D, 28_800, W, 250, 0, Fy, GRAVITY), (60, 50, 100, 27, Ms), SELF_ANCHORED,
             [(9_600, 2_000, 0, 40_000, 100)] * 3)
    for D, W, Fy, Ms in ((100_000, 288_763, 43_598, 34_706_252),
                         (144_000, 276_366, 30_160, 55_813_444),
                         (100_000, 272_474, 49_854, 35_645_438),
                         (100_000, 223_290, 47_014, 32_946_054),
                         (72_000, 291_333, 38_613, 19_715_296)))

# A margin, and a sheet called short that meets every rule with half of it and the others whole. In
# the first two wL is short of its exact self by .96 and .97, and wt by .95 and .9999. The exact
# need of the last two is 13 x 58,000 x 12,000 / (72 x 40,000 x 100) x 1.137 = 35.72, made 40.
HALF_IS_LITTLE_IN_LIQUOR = (
    ("resistance", sheet_of((144_000, 9_850, 200_889, 500, 0, 50_000, GRAVITY),     # by its cap
                            (60, 50, 100, 27, 43_478_931), SELF_ANCHORED,
                            [(9_600, 400, 0, 40_000, 100)] * 3)),
    ("resistance", sheet_of((144_000, 9_616, 200_691, 120, 100, 36_041, GRAVITY),   # by its root
                            (60, 50, 100, 27, 13_685_254), SELF_ANCHORED,
                            [(9_600, 400, 0, 40_000, 100)] * 3)),
    *((margin, filled_with(GRAVITY, sheet)) for margin, sheet in HALF_IS_LITTLE
      if margin in ("moment", "pull")),
    ("plate", filled_with(GRAVITY, plated(12_000, 58_000, 209, 170, 40_000, 100))),
    ("plate", filled_with(GRAVITY, plated(12_000, 58_000, 209, 170, 40_000, 100, (6, 12_000, 8)))),
)

# A margin, and a sheet called sound that this margin alone would break. 1.54 x 87,800 is 135,212,
# 1.54 x 59,200 is 91,168.
MARGIN_COUNTS_IN_LIQUOR = (
    ("plate", HEAVY_HEADS),
    ("resistance", shaken(HEAVY_BY_CAP, 135_212)),
    ("resistance", shaken(HEAVY_BY_ROOT, 91_168)),
    *((margin, filled_with(GRAVITY, sheet)) for margin, sheet in MARGIN_COUNTS
      if margin in ("moment", "pull")),
)

# The exact need of the bottom course is a step, and as little past it as s, E and gravity permit; a
# method, a t that is short of the next step with c by a mil, and how far past.
PAST_STEPS_IN_LIQUOR = tuple(
    (D100, filled_with(gravity, plated(D, H, step + 4 + c, c, s, 100)), past)
    for gravity, step, c, H, D, s, past in (
        (1_137, 190, 160, 63_961, 49_357, 34_110, Fraction(1, 216_000_000)),
        (1_300, 185, 170, 26_339, 119_543, 39_949, Fraction(1, 221_256_000))))


# --- Self test ----------------------------------------------------------------


def without(part, tank):
    """The liquor whose need, cap or yield has no gravity."""
    of_water = liquor_in(tank._replace(gravity=1_000))
    return liquor_in(tank)._replace(**{part: getattr(of_water, part)})


def twice(part, tank):
    """The same with gravity applied twice."""
    liquor, heavier = liquor_in(tank), times_water(tank.gravity)
    again = getattr(liquor, part) * heavier
    return liquor._replace(**{part: again})


# A sheet, a method, the word on it, the part on which the word hangs, and by which reading of it
# the word would not be borne out.
PART_COUNTS = (
    *((with_plates(sheet, 259), method, "short", "of_need", without)
      for sheet, method in ((HEAVY_HEADS, D100), (HEAVY_HEADS_A_FOOT_UP, API_650))),
    (HEAVY_HEADS, D100, "sound", "of_need", twice),
    (HEAVY_HEADS_A_FOOT_UP, API_650, "sound", "of_need", twice),
    (shaken(HEAVY_BY_CAP, 135_212), D100, "sound", "of_cap", without),
    (shaken(HEAVY_BY_CAP, 135_213), D100, "short", "of_cap", twice),
    (shaken(HEAVY_BY_CAP, 135_212), API_650, "sound", "of_cap", without),
    (shaken(HEAVY_BY_ROOT, 91_168), D100, "sound", "yield_stress", without),
    (shaken(HEAVY_BY_ROOT, 91_169), D100, "short", "yield_stress", twice),
    (shaken(HEAVY_BY_ROOT, 91_169), API_650, "short", "yield_stress", twice),
)


def check_parts():
    """Each of need, cap and yield has to have gravity, once."""
    for sheet, method, word, part, reading in PART_COUNTS:
        assert word_on(sheet, method) == word, (sheet, word)
        assert not borne_out(sheet, method, word, reading(part, sheet.tank)), (part, reading)
    for sheet, T in ((HEAVY_BY_CAP, 87_800), (HEAVY_BY_ROOT, 59_200)):
        assert judge(sheet, D100).report.standing.T == T


def check_yield():
    """The margin is measured from the rounded yield: with the unrounded one the word would not be
    borne out."""
    for sheet in OVER_BY_THE_YIELD:
        unrounded = sheet.tank.Fy * times_water(GRAVITY)
        liquor = liquor_in(sheet.tank)._replace(yield_stress=unrounded)
        assert 0 < unrounded - liquor_in(sheet.tank).yield_stress < 1
        for method in METHODS:
            assert word_on(sheet, method) == "short"
            assert not borne_out(sheet, method, "short", liquor)
            assert judge(sheet, method).report.standing.lift == "over"


def check_margins():
    """As in demand_3.py: half of each would not do, and each counts."""
    for name, sheet in HALF_IS_LITTLE_IN_LIQUOR:
        margins = given_margins(sheet)
        halved = margins._replace(**{name: getattr(margins, name) / 2})
        assert word_on(sheet, D100) == "short"
        assert meets(sheet, D100, halved), f"half the margin of {name} is enough"
    for name, sheet in MARGIN_COUNTS_IN_LIQUOR:
        check_margin_counts(name, sheet, D100)
    check_margin_counts("plate", HEAVY_HEADS_A_FOOT_UP, API_650)


def check_steps():
    """What S-7's steps add is borne out by four mils of margin, and by no less."""
    for method, sheet, past in PAST_STEPS_IN_LIQUOR:
        first = sheet.courses[0]
        of_water = exact_need(method, sheet.tank.H, sheet.tank.D, first.s, first.E)
        assert of_water * times_water(sheet.tank.gravity) == first.t - 4 - first.c + past
        assert word_on(sheet, method) == "short"
        assert meets(sheet, method, with_plate_margin(sheet, 4 - past))
        assert not meets(sheet, method, with_plate_margin(sheet, 4))


def check_water():
    """With gravity 1,000 demand 3 is what it was."""
    assert liquor_in(EXAMPLE.tank) == (1, 1, 36_000)
    assert liquor_in(EXAMPLE.tank._replace(gravity=1_300)) \
        == (Fraction("1.3"), Fraction("1.3"), 46_800)
    for sheet, Ms in ((HEAVY_BY_CAP, 135_212), (HEAVY_BY_ROOT, 91_168)):
        assert meets(shaken(sheet, Ms), D100, NO_MARGINS)
        assert not meets(filled_with(1_000, shaken(sheet, Ms)), D100, NO_MARGINS)


def self_test():
    check_parts()
    check_yield()
    check_margins()
    check_steps()
    check_water()
