"""Demand 3 in fractions: document 01's paragraph of that name, and the mission's margins.

With S-3, S-5, S-7 and S-8. `meets` takes the fields only, nothing of the report and nothing that is
rounded but S-8's yield; `borne_out` is the claim about the sheet judged and the word on it. Of S-8
the self test is demand_3_liquor.py's.
"""

from fractions import Fraction
from functools import cache
from typing import NamedTuple

from model.fields import Anchors
from model.filling_in import EXAMPLE, SELF_ANCHORED, sheet_of, shell_height
from model.judging import bottom_edges, judge, word
from model.refusals import API_650, D100, METHODS
from model.tank_rules import BOLT_CHART, house_floor, times_water, yield_in_root

# --- "Demand 3 in fractions" --------------------------------------------------


class Liquor(NamedTuple):
    """What the gravity of a tank comes to in demand 3."""
    of_need: Fraction       # what the need is multiplied by
    of_cap: Fraction        # and the cap on wL
    yield_stress: int       # in wL's root, rounded


@cache
def liquor_in(tank):
    """S-8: demand 3's rules "take the need, the cap and this yield in the same way, the yield alone
    being rounded". The yield is the report's own."""
    heavier = times_water(tank.gravity)
    return Liquor(heavier, heavier, yield_in_root(tank.Fy, tank.gravity))


class Margins(NamedTuple):
    plate: Fraction
    moment: Fraction
    resistance: Fraction
    pull: Fraction


NO_MARGINS = Margins(*map(Fraction, (0, 0, 0, 0)))


def given_margins(sheet):
    """The mission's; S-7: "The plate margin is five mils from here on"."""
    D, Hs = sheet.tank.D, shell_height(sheet)
    return Margins(
        plate=Fraction(5),
        moment=Fraction(D * Hs * Hs, 345_600_000_000) + 1,
        resistance=Fraction(D * D, 72_000_000) + 1,
        pull=Fraction(1),
    )


def exact_need(method, h, D, s, E):
    """By water: document 01's fraction or, as S-3 has it, 2.6 D (h - 1 ft) / (s E) in feet and
    inches; S-7's steps are rounding, of which the need has none here."""
    if method == D100:
        return Fraction(13 * h * D, 72 * s * E)
    feet = max(Fraction(h, 1_200) - 1, 0)
    return Fraction("2.6") * Fraction(D, 1_200) * feet / (s * Fraction(E, 100)) * 1_000


def courses_meet(sheet, method, margins, liquor):
    D, H = sheet.tank.D, sheet.tank.H
    for edge, course in bottom_edges(sheet):
        need = exact_need(method, max(H - edge, 0), D, course.s, course.E) * liquor.of_need
        if course.t < house_floor(D) or course.t < need + margins.plate + course.c:
            return False
    return True


def exact_wind_moment(sheet, margins):
    """M, with its margin."""
    site, D, Hs = sheet.site, sheet.tank.D, shell_height(sheet)
    p = max(Fraction(6 * site.Kz * site.I * site.V * site.V, 390_625), Fraction(1_800))
    return p * D * Hs * Hs / 345_600_000_000 + margins.moment


def self_anchored_meets(sheet, margins, liquor):
    """The root of wL is compared by squares; S-8: "the margin is measured from that yield"."""
    D, H, W = sheet.tank.D, sheet.tank.H, sheet.tank.W
    Av, Ms = sheet.site.Av, sheet.site.Ms
    tb = sheet.tank.plate - sheet.tank.allowance
    wt = Fraction(2_712_000 * W * (10_000 - 4 * Av), 710_000 * D)
    x = 144_000_000 * (Fraction(1_000 * Ms, 1_540) + margins.resistance) / (D * D) - wt
    return 3_600 * exact_wind_moment(sheet, margins) <= W * D \
        and x <= Fraction(H * D, 11_250) * liquor.of_cap \
        and (x <= 0 or 12_000_000 * x * x <= 6_241 * tb * tb * liquor.yield_stress * H)


def anchored_meets(sheet, margins, _liquor):
    """S-5: "the reduced weight, unrounded, for Ms, and W as before for M"."""
    W, N, B = sheet.tank.W, sheet.anchors.N, sheet.anchors.B
    reduced = Fraction(W * (10_000 - 4 * sheet.site.Av), 10_000)
    held_down = ((exact_wind_moment(sheet, margins), W), (Fraction(sheet.site.Ms), reduced))
    pulls = [(4_800 * moment - weight * B) / (N * B) + margins.pull
             for moment, weight in held_down]
    return 355 * B <= 1_356_000 * N \
        and all(1_000 * pull <= 19_950 * BOLT_CHART[sheet.anchors.d] for pull in pulls)


def meets(sheet, method, margins, liquor=None):
    """All the rules, over the fields only, with nothing rounded but the yield. The liquor is the
    tank's own, if no other reading of S-8 is handed in."""
    liquor = liquor or liquor_in(sheet.tank)
    standing_meets = self_anchored_meets if sheet.anchors.N == 0 else anchored_meets
    return courses_meet(sheet, method, margins, liquor) and standing_meets(sheet, margins, liquor)


def borne_out(sheet, method, word_on_it, liquor=None):
    """The claim about the sheet judged, by this method, and the word on it."""
    if word_on_it == "sound":
        return meets(sheet, method, NO_MARGINS, liquor)
    return not meets(sheet, method, given_margins(sheet), liquor)


# --- Sheets that try demand 3 -------------------------------------------------
#
# Of each margin half would not do, as HALF_IS_LITTLE shows. Of plate four mils would do: the exact
# need is less than five below the need in steps, and a t that is short of the latter with c is so
# by a mil or more, for both are whole. Next to nothing less would not do, as JUST_PAST shows.

EXAMPLE_BOTTOM = (250, 0, 36_000)
LOW_WATER_COURSE = (9_600, 250, 0, 40_000, 100)

# D is 60,000 and h 30,600, 22,950, 15,300, 7,650, so that the need is 13 h / 1,530 mils: 260,
# 195, 130, 65, nothing rounded, for these are steps. With c every course requires its t.
FULL_HEADS = sheet_of((60_000, 30_600, 25_000, *EXAMPLE_BOTTOM), (105, 109, 115, 27, 30_000),
                      SELF_ANCHORED,
                      [(7_650, 260, 65 * place, 15_000, 85) for place in range(4)])

# The same by API 650: a foot of water more, and a shell that is higher by it.
FULL_HEADS_A_FOOT_UP = sheet_of(FULL_HEADS.tank._replace(H=31_800), FULL_HEADS.site,
                                FULL_HEADS.anchors,
                                [*FULL_HEADS.courses[:3],
                                 FULL_HEADS.courses[3]._replace(width=8_850)])


def plated(D, H, t, c, s, E, anchors=SELF_ANCHORED):
    """A tank that stands as it is, whatever its D; this t is its bottom course's, and the others
    have the greatest."""
    courses = [(12_800, t if place == 0 else 2_000, c, s, E) for place in range(6)]
    return sheet_of((D, H, 150_000, *EXAMPLE_BOTTOM), (60, 109, 115, 27, 0), anchors, courses)


# The exact need of the bottom course is 200.044, which S-7 makes 205.
STEPPED = plated(14_400, 38_470, 204, 0, 10_000, 50)

# It is 175 and this, as little past a step as any s and E permit, and S-7 makes it 180.
LEAST_PAST = Fraction(1, 72 * 40_000 * 100)
JUST_PAST = plated(87_163, 44_479, 389, 210, 40_000, 100)

# A method, a sheet that it calls short for want of a mil, and how far the exact need is past a
# step. By API 650 they are the same two with a foot of water more.
PAST_STEPS = (
    (D100, STEPPED, Fraction("0.044")), (D100, JUST_PAST, LEAST_PAST),
    (API_650, plated(14_400, 39_670, 204, 0, 10_000, 50), Fraction("0.044")),
    (API_650, plated(87_163, 45_679, 389, 210, 40_000, 100), LEAST_PAST),
)

# Its exact wind pull is 37,905, what its bolts bear.
WIND_PULL_FULL = sheet_of((14_400, 9_600, 141_210, *EXAMPLE_BOTTOM), (125, 150, 125, 27, 0),
                          (6, 14_400, 14), [LOW_WATER_COURSE] * 8)


def pulled(W, Av, Ms, anchors=EXAMPLE.anchors):
    """The example tank with other figures in its earthquake pull."""
    return EXAMPLE._replace(tank=EXAMPLE.tank._replace(W=W),
                            site=EXAMPLE.site._replace(Av=Av, Ms=Ms),
                            anchors=Anchors._make(anchors))


# An exact earthquake pull is whole or at least 1 / (2,500 N B) off: this, at the least.
LEAST_OFF = Fraction(1, 2_500 * 200 * 299_999)

# Called short: the exact earthquake pull is 9,216, the most that the rounded one may be, and this.
# Called sound: it is 37,905 or 49,875, all that the bolts bear; the last two have 8,800.8 and
# 8,803.2 pounds left on their anchors.
JUST_ABOVE = pulled(3_964_537, 27, 360_306_299, (200, 299_999, 7))
JUST_FULL = pulled(7_500_000, 27, 937_496_875, (200, 299_999, 14))
FRACTIONS_LEFT = (pulled(11_001, 500, 1_789_629, (7, 24_000, 16)),
                  pulled(11_004, 500, 1_789_641, (7, 24_000, 16)))

# A margin, and a sheet called short that meets every rule with half of it and the others whole. Of
# those for plate the exact need is 35.75, or 35.1 by API 650; both are made 40.
HALF_IS_LITTLE = (
    ("moment", sheet_of((14_400, 9_600, 27_691, *EXAMPLE_BOTTOM), (129, 109, 115, 27, 0),
                        SELF_ANCHORED, [LOW_WATER_COURSE] * 3)),
    ("moment", sheet_of((14_400, 9_600, 182_923, *EXAMPLE_BOTTOM), (129, 109, 115, 27, 0),
                        (6, 14_800, 8), [LOW_WATER_COURSE] * 8)),
    ("resistance", sheet_of((144_000, 9_796, 200_005, 500, 0, 50_000),    # wL by its cap
                            (60, 50, 100, 27, 39_443_786), SELF_ANCHORED,
                            [(9_600, 400, 0, 40_000, 100)] * 3)),
    ("resistance", sheet_of((144_000, 9_620, 200_005, 120, 100, 36_000),  # by its root
                            (60, 50, 100, 27, 13_519_821), SELF_ANCHORED,
                            [(9_600, 400, 0, 40_000, 100)] * 3)),
    ("pull", pulled(11_000, 27, 257_197)),
    ("pull", JUST_ABOVE),
    ("plate", plated(12_000, 66_000, 209, 170, 40_000, 100)),
    ("plate", plated(12_000, 66_000, 209, 170, 40_000, 100, (6, 12_000, 8))),
)

# A margin, and a sheet called sound that this margin alone would break.
MARGIN_COUNTS = (
    ("plate", FULL_HEADS),
    ("moment", sheet_of((14_400, 28_800, 15_552, *EXAMPLE_BOTTOM), (96, 109, 115, 27, 0),
                        SELF_ANCHORED, [LOW_WATER_COURSE] * 3)),
    ("moment", WIND_PULL_FULL),
    ("resistance", sheet_of((12_000, 10_000, 17_750, 120, 100, 30_000),
                            (96, 109, 115, 0, 99_176), SELF_ANCHORED,
                            [LOW_WATER_COURSE] * 3)),
    ("resistance", sheet_of((12_000, 28_800, 19_880, *EXAMPLE_BOTTOM),
                            (96, 109, 115, 0, 144_760), SELF_ANCHORED,
                            [LOW_WATER_COURSE] * 3)),
    ("pull", pulled(11_000, 27, 257_196)),
    ("pull", JUST_FULL),
)

# A sheet, and a weight by a wrong reading of S-5, with which the word on it would not be borne out.
WEIGHT_COUNTS = (
    (pulled(11_000, 500, 250_780), 11_000),                 # called short; W for Ms as well
    (pulled(11_000, 1, 204_400, (6, 14_800, 7)), 11_000),
    (JUST_ABOVE, 3_964_537),
    (pulled(11_279, 500, 192_971, (6, 14_401, 7)), 9_024),  # called short; 9,023.2 rounded up
    (FRACTIONS_LEFT[0], 8_800),                             # called sound; rounded down
    (FRACTIONS_LEFT[1], 8_803),                             # called sound; to the nearest
    (WIND_PULL_FULL, 139_685),                              # called sound; reduced for M as well
)


# --- Self test of demand 3 ----------------------------------------------------


def word_on(sheet, method):
    """It is borne out."""
    refusal, report = judge(sheet, method)
    assert refusal is None and borne_out(sheet, method, word(report))
    return word(report)


def check_margin_counts(name, sheet, method):
    alone = NO_MARGINS._replace(**{name: getattr(given_margins(sheet), name)})
    assert word_on(sheet, method) == "sound"
    assert not meets(sheet, method, alone), f"the margin of {name} counts for nothing"


def check_margins():
    """The claim has teeth: it fails with half a margin, by either method, and each margin is
    part of `meets`."""
    for name, sheet in HALF_IS_LITTLE:
        margins = given_margins(sheet)
        halved = margins._replace(**{name: getattr(margins, name) / 2})
        for method in METHODS:
            assert word_on(sheet, method) == "short"
            assert meets(sheet, method, halved), f"half the margin of {name} is enough"
    for name, sheet in MARGIN_COUNTS:
        check_margin_counts(name, sheet, D100)
    # the bolts of JUST_ABOVE bear 9,216.9: a margin of nine tenths, but for next to nothing
    nearly = given_margins(JUST_ABOVE)._replace(pull=Fraction(9, 10) - LEAST_OFF)
    assert meets(JUST_ABOVE, D100, nearly)
    check_margin_counts("plate", FULL_HEADS_A_FOOT_UP, API_650)


def with_courses(sheet, courses):
    return sheet_of(sheet.tank, sheet.site, sheet.anchors, courses)


def with_plate_margin(sheet, mils):
    """The sheet's margins with this one for plate."""
    return given_margins(sheet)._replace(plate=Fraction(mils))


def check_steps():
    """What a step adds to the exact need is borne out by four mils of margin, and by no less. A mil
    more of plate makes the sheets sound."""
    for method, sheet, past in PAST_STEPS:
        first, *others = sheet.courses[:sheet.count]
        t, c = first.t, first.c
        need = exact_need(method, sheet.tank.H, sheet.tank.D, first.s, first.E)
        assert need == t - 4 - c + past
        assert word_on(sheet, method) == "short"
        assert meets(sheet, method, with_plate_margin(sheet, 4 - past))
        assert not meets(sheet, method, with_plate_margin(sheet, 4))
        thicker = with_courses(sheet, [first._replace(t=t + 1), *others])
        assert word_on(thicker, method) == "sound"
        assert judge(sheet, method).report.courses[0].plates() == (t + 1 - c, t + 1, t)


# --- More of the self test ----------------------------------------------------


def exact_earthquake_pull(sheet):
    """Per anchor, with W less 0.4 Av of it, Av being a part of g."""
    W, N, B = sheet.tank.W, sheet.anchors.N, sheet.anchors.B
    left = W * (1 - Fraction("0.4") * Fraction(sheet.site.Av, 1_000))
    return (4_800 * sheet.site.Ms - left * B) / (N * B)


def with_plates(sheet, t):
    """The sheet with this t in every course held."""
    return with_courses(sheet, [course._replace(t=t) for course in sheet.courses[:sheet.count]])


def check_methods():
    """The claim would catch the other method's need, whichever way the two are exchanged. Of
    FULL_HEADS every course requires 260 by D100, 250 by API 650."""
    for t, by_d100, by_api_650 in ((249, "short", "short"), (250, "short", "sound"),
                                   (255, "short", "sound"), (259, "short", "sound"),
                                   (260, "sound", "sound")):
        sheet = with_plates(FULL_HEADS, t)
        assert (word_on(sheet, D100), word_on(sheet, API_650)) == (by_d100, by_api_650)
        assert borne_out(sheet, D100, by_api_650) == (by_d100 == by_api_650)
    assert not borne_out(with_plates(FULL_HEADS, 255), API_650, "short")
    assert exact_need(D100, 30_600, 60_000, 15_000, 85) == 260
    assert exact_need(API_650, 31_800, 60_000, 15_000, 85) == 260
    assert [exact_need(API_650, h, 60_000, 15_000, 85) for h in (0, 1_199, 1_200, 1_201)] \
        == [0, 0, 0, Fraction(13, 1_530)]


def with_weight(sheet, weight):
    """The sheet, held down by this weight in wind and earthquake."""
    return sheet._replace(tank=sheet.tank._replace(W=weight), site=sheet.site._replace(Av=0))


def check_weights():
    """The claim would catch another weight for Ms than the reduced one, unrounded, and another
    than W for M."""
    for sheet, pull in ((JUST_ABOVE, 9_216 + LEAST_OFF), (JUST_FULL, 37_905),
                        *((full, 49_875) for full in FRACTIONS_LEFT)):
        assert exact_earthquake_pull(sheet) == pull
    for sheet, weight in WEIGHT_COUNTS:
        other = with_weight(sheet, weight)
        given = word_on(sheet, D100)
        assert not borne_out(other, D100, given), (sheet, weight)
        if weight == sheet.tank.W:
            assert (given, word_on(other, D100)) == ("short", "sound")


def check_exact():
    """The needs, the margins, none and given, and M with either are Fractions: with the least
    pressure (V 96) and with one above it."""
    for method in METHODS:
        for h in (0, 1_200, 28_800):
            assert type(exact_need(method, h, 14_400, 15_000, 85)) is Fraction
    for V in (96, 97):
        sheet = EXAMPLE._replace(site=EXAMPLE.site._replace(V=V))
        for margins in (NO_MARGINS, given_margins(sheet)):
            assert {type(figure) for figure in (*margins, exact_wind_moment(sheet, margins))} \
                == {Fraction}


# --- Self test of demand 3, all -----------------------------------------------


def self_test():
    # the mission's margins with S-7's for plate, on a tank of 12 ft by 24 ft
    assert given_margins(EXAMPLE) \
        == (5, Fraction(12 * 24 * 24, 200) + 1, Fraction(12 * 12, 50) + 1, 1)
    check_exact()
    check_margins()
    check_steps()
    check_methods()
    check_weights()
