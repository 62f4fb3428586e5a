"""Judging: nutrient liquor, request S-8, and readings of it that go astray."""

from itertools import cycle, product

from model.arithmetic import rounded_down
from model.demand_3_liquor import (
    GRAVITY, HALF_IS_LITTLE_IN_LIQUOR, HEAVY_BY_CAP, HEAVY_BY_ROOT, HEAVY_HEADS,
    HEAVY_HEADS_A_FOOT_UP, MARGIN_COUNTS_IN_LIQUOR, OVER_BY_THE_YIELD, PART_COUNTS,
    PAST_STEPS_IN_LIQUOR, filled_with,
)
from model.fields import FIELD_RANGES, GRAVITY_FIELD, TANK_FIELDS, WATER
from model.printing import refusal_word
from model.refusals import API_650, D100, FIELD_REFUSAL, METHODS
from model.sheet_bytes import LAYOUTS, VERSION_2, VERSION_AT, bytes_as_figures
from model.tank_rules import house_floor, water_on_rim_cap, water_on_rim_root
from vectors.byte_changes import damaged_by, longer_by_one_throughout, with_byte
from vectors.judge_cases import (
    EXAMPLE, GROWER, SELF, changed, course_changed, handed_in, needing, outcome, refused, report_on,
    self_anchored, short, sound, sound_if, with_figure, with_widths,
)
from vectors.judge_equality import (
    BREAKS, heads_at_equality, self_wind_at_equality, spacing_at_equality, strength_at_equality,
)
from vectors.judge_need_steps import TIED_DOWN, UPRIGHT, at_required_and_less, on_first_of, on_point
from vectors.leaf_points import beside
from vectors.liquor_points import LARGEST, beside_steps, whole_ones
from vectors.liquor_readings import IN_COURSES, IN_RESISTANCE, courses_read, resistance_read
from vectors.need_points import Point
from vectors.records import forged, judge, mark
from vectors.scripts import U32_MOST, just_outside, subsets, unstated
from vectors.start_sheets import FULL, widths_to

# --- Groups: the example tank, and both versions ------------------------------


def example_in_liquor():
    """The exact needs, 58.7, 39.2 and 19.6, and the cap of 36,864 with gravity; the root is not
    reached. T with 1,300 is 110,571: 785 of it is 86,798,235, 1,540 of it 170,279,340."""
    for gravity, needs, T in ((1_000, (60, 40, 20), 94_646), (1_001, (60, 40, 20), 94_698),
                              (1_021, (60, 40, 20), 95_761), (1_022, (65, 45, 25), 95_814),
                              (1_137, (70, 45, 25), 101_918), (1_300, (80, 55, 30), 110_571)):
        numbered, tank = dict(enumerate(needs, start=1)), filled_with(gravity, EXAMPLE)
        yield needing(numbered, sound(tank, "wind 2123 73371 anchored 2133 -191"))
        yield needing(numbered, short(self_anchored(tank), "wind", shows=f"{T} none"))
    standing = self_anchored(filled_with(1_300, EXAMPLE))
    for Ms, word, *rules in ((86_798, "none holds"), (86_799, "lift holds"),
                             (170_279, "lift holds"), (170_280, "over short", "earthquake")):
        yield short(changed(standing, Ms=Ms), "wind", *rules, shows=f"110571 {word}")
    # what is 55, 35, 20 and 50, 35, 15 by water
    for method, needs in ((D100, {1: 70, 2: 45, 3: 25}), (API_650, {1: 65, 2: 45, 3: 20})):
        for tank in (GROWER, self_anchored(GROWER)):
            yield needing(needs, short(filled_with(1_300, tank), "course 1", method=method))


def both_versions_judged():
    """Water by version 1, by version 2 and as it is: one line."""
    for sheet in (EXAMPLE, SELF, GROWER, self_anchored(EXAMPLE), changed(EXAMPLE, Ms=257_197),
                  changed(SELF, H=76_800), changed(EXAMPLE, B=22_919), FULL,
                  with_widths(changed(SELF, W=200_000), [6_400] * 12), HEAVY_BY_CAP,
                  changed(HEAVY_BY_ROOT, Ms=91_168)):
        water = filled_with(WATER, sheet)
        records = (*(mark(layout.sheet_as_bytes(water)) for layout in LAYOUTS), judge(water))
        assert len({outcome(record).line() for record in records}) == 1
        yield records


# --- Groups: courses ----------------------------------------------------------


def course_at_equality_in_liquor():
    """Exact needs of just 260, 195, 130 and 65 with gravity 1,137 and s 17,055, by either method;
    with the next gravity every course requires a step more, with the last one none does."""
    for sheet, method in ((HEAVY_HEADS, D100), (HEAVY_HEADS_A_FOOT_UP, API_650)):
        yield from heads_at_equality(sheet, method)
        for gravity in beside(GRAVITY):
            every = [f"course {number}" for number in range(1, 5)]
            yield sound_if(gravity <= GRAVITY, filled_with(gravity, sheet), *every, method=method)


def needs_beside_steps_in_liquor():
    """As judge_need_steps.py's: next to steps, at them, and one to four mils past."""
    pasts, bases = cycle((1, 2, 3, 4)), cycle((UPRIGHT, TIED_DOWN, UPRIGHT))
    numbers = cycle(((1, 2), (2, 1), (7, 1)))
    for method in METHODS:
        found = (*beside_steps(), *list(whole_ones())[method::4])
        for (gravity, need, point), base, places, past in zip(found, bases, numbers, pasts):
            number, sheet = on_first_of(places, filled_with(gravity, base), point, method)
            c = min(max(house_floor(point.D) - need, 0) + past, 250)
            yield from at_required_and_less(sheet, number, need, c, method)


# A reading of IN_COURSES, the method, gravity, D, H, s, E and c of course 1; its need and what it
# requires, and what it would require if it were read so.
COURSES_ASTRAY = (
    ("need without", API_650, 1_137, 144_000, 57_600, 17_055, 85, 125, 1_155, 1_280, 1_140),
    ("need without", API_650, 1_050, 14_400, 28_600, 17_055, 70, 130, 65, 195, 190),
    ("need twice", D100, 1_300, 200_000, 33_200, 25_000, 70, 0, 895, 895, 1_160),
    ("need twice", D100, 1_200, 144_000, 50_500, 15_000, 70, 0, 1_505, 1_505, 1_805),
    ("need in steps first", API_650, 1_300, 60_000, 46_200, 12_000, 100, 0, 530, 530, 535),
    ("need in steps first", API_650, 1_001, 60_000, 23_300, 17_055, 85, 125, 170, 295, 300),
    ("need in steps first, then up to a mil", D100, 1_050, 200_000, 12_300, 17_055, 70, 130, 395,
     525, 524),
    ("need in steps first, then up to a mil", D100, 1_137, 60_001, 24_600, 20_000, 85, 130, 180,
     310, 312),
    ("need up to a mil first", API_650, 1_137, 60_001, 38_700, 12_000, 70, 0, 550, 550, 555),
    ("need up to a mil first", D100, 1_050, 144_000, 48_100, 12_000, 100, 0, 1_095, 1_095, 1_100),
    ("need up to a mil", API_650, 1_001, 144_000, 38_500, 15_000, 100, 63, 650, 713, 711),
    ("need up to a mil", API_650, 1_200, 36_000, 31_500, 21_000, 85, 63, 135, 198, 196),
    ("need rounded down", API_650, 1_001, 200_000, 26_900, 20_000, 85, 130, 550, 680, 675),
    ("need rounded down", D100, 1_200, 24_000, 21_500, 15_000, 85, 125, 90, 215, 210),
    ("need to the nearest", API_650, 1_001, 144_000, 22_200, 21_000, 85, 125, 310, 435, 430),
    ("need to the nearest", API_650, 1_300, 144_000, 37_400, 25_000, 85, 0, 580, 580, 575),
    ("need with gravity in hundredths", API_650, 1_137, 24_000, 52_600, 15_000, 70, 125, 245, 370,
     365),
    ("need with gravity in hundredths", D100, 1_137, 200_000, 49_200, 20_000, 85, 130, 1_190, 1_320,
     1_315),
    ("need divided", API_650, 1_200, 200_000, 21_400, 25_000, 70, 125, 505, 630, 475),
    ("need divided", API_650, 1_200, 36_000, 12_900, 17_055, 85, 130, 65, 195, 188),
    ("head before the foot", API_650, 1_137, 200_000, 42_900, 12_000, 85, 0, 1_680, 1_680, 1_685),
    ("head before the foot", API_650, 1_200, 60_001, 50_600, 21_000, 85, 100, 360, 460, 465),
    ("allowance too", D100, 1_137, 24_000, 58_100, 12_000, 70, 100, 345, 445, 459),
    ("allowance too", API_650, 1_137, 12_000, 40_400, 20_000, 85, 130, 60, 190, 208),
    ("floor too", API_650, 1_200, 12_000, 54_100, 25_000, 100, 0, 60, 188, 226),
    ("floor too", API_650, 1_050, 144_000, 11_100, 20_000, 100, 63, 140, 250, 263),
    ("required plate too", D100, 1_137, 14_400, 58_300, 20_000, 85, 100, 105, 205, 234),
    ("required plate too", D100, 1_137, 60_001, 2_500, 17_055, 100, 63, 20, 250, 285),
)


def courses_read_astray():
    """With a plate of what is required, and a mil less, whatever another reading would require."""
    for name, method, gravity, D, H, s, E, c, need, required, astray in COURSES_ASTRAY:
        base = filled_with(gravity, changed(with_widths(UPRIGHT, widths_to(76_800, 6)), D=D, H=H,
                                            s=40_000, E=100, t=2_000))
        sheet = course_changed(base, 1, s=s, E=E, c=c)
        (_need, wrong), *_above = courses_read(sheet, method, IN_COURSES[name])
        assert wrong == astray != required
        for t in (required, required - 1):
            yield needing({1: need}, sound_if(t == required, course_changed(sheet, 1, t=t),
                                              "course 1", shows=f"| {need} {required} {t}",
                                              method=method))


# --- Groups: wL ---------------------------------------------------------------

WHOLE_T = ((HEAVY_BY_CAP, 87_800), (HEAVY_BY_ROOT, 59_200))     # nothing rounded but the yield


def lift_at_equality_in_liquor():
    """None up to 785 T, lift up to 1,540 T and over past it, with T whole; with a gravity less it
    is over at 1,540 T, with a gravity more it holds past it."""
    for sheet, T in WHOLE_T:
        none, lift = 157 * T // 200, 77 * T // 50
        for Ms in beside(none):
            yield sound(changed(sheet, Ms=Ms), f"{T} {'none' if Ms <= none else 'lift'} holds")
        for Ms in beside(lift):
            yield sound_if(Ms <= lift, changed(sheet, Ms=Ms), "earthquake",
                           shows=f"{T} {'lift holds' if Ms <= lift else 'over short'}")
        for gravity in beside(GRAVITY):
            yield sound_if(gravity >= GRAVITY, changed(sheet, Ms=lift, gravity=gravity),
                           "earthquake")
            yield sound_if(gravity > GRAVITY, changed(sheet, Ms=lift + 1, gravity=gravity),
                           "earthquake")
        for W in beside(sheet.tank.W):
            yield sound_if(W >= sheet.tank.W, changed(sheet, Ms=lift, W=W), "earthquake")
    for Fy in beside(31_663):       # the yields are 35,999, 36,000 and 36,001
        yield sound_if(Fy >= 31_663, changed(HEAVY_BY_ROOT, Ms=91_168, Fy=Fy), "earthquake")


def cap_and_root_in_liquor():
    """wL by its cap and by its root: with tb 40, H 12,000 and Fy 31,663, the yield being 36,000,
    the root is 18,960 exactly, and so is the cap from D 15,634 on. T is at equality and one past
    it."""
    base = changed(HEAVY_BY_ROOT, plate=140, allowance=100, t=2_000, W=200_000)
    assert water_on_rim_root(40, 31_663, 12_000, GRAVITY) == 18_960
    assert [water_on_rim_cap(12_000, D, GRAVITY) for D in (15_632, 15_633, 15_634)] \
        == [18_958, 18_959, 18_960]
    for D in range(15_630, 15_638):
        for gravity in (WATER, GRAVITY, 1_300):
            sheet = changed(base, D=D, gravity=gravity)
            most = rounded_down(1_540 * report_on(sheet).standing.T, 1_000)
            yield sound(changed(sheet, Ms=most), "holds")
            yield short(changed(sheet, Ms=most + 1), "earthquake")


# A reading of IN_RESISTANCE; D, H, W, plate, allowance, Fy and gravity; T, and what it would be.
RESISTANCES_ASTRAY = (
    ("cap without", 12_000, 12_000, 20_000, 100, 50, 36_000, 1_050, 76_414, 75_774),
    ("cap without", 12_000, 14_400, 200_000, 250, 0, 30_007, 1_001, 645_119, 645_104),
    ("cap twice", 36_000, 12_000, 100_000, 100, 0, 36_012, 1_300, 1_393_893, 1_431_081),
    ("cap twice", 14_400, 14_400, 200_000, 100, 0, 43_598, 1_001, 782_259, 782_285),
    ("cap rounded first", 100_000, 12_000, 200_000, 250, 0, 43_598, 1_300, 14_877_430, 14_877_361),
    ("cap rounded first", 100_000, 9_600, 50_000, 400, 0, 36_012, 1_137, 8_049_722, 8_049_652),
    ("cap rounded up", 14_400, 28_800, 50_000, 250, 0, 40_000, 1_300, 257_931, 257_932),
    ("cap rounded up", 12_000, 28_800, 200_000, 400, 0, 36_000, 1_001, 660_494, 660_495),
    ("cap to the nearest", 24_000, 14_400, 200_000, 250, 0, 40_000, 1_001, 1_382_488, 1_382_492),
    ("cap to the nearest", 72_000, 19_200, 200_000, 400, 0, 50_000, 1_137, 8_808_156, 8_808_192),
    ("yield without", 100_000, 14_400, 200_000, 100, 0, 30_007, 1_300, 9_001_319, 8_539_861),
    ("yield without", 36_000, 28_800, 100_000, 100, 50, 36_012, 1_200, 1_306_647, 1_275_111),
    ("yield twice", 72_000, 28_800, 200_000, 100, 50, 50_000, 1_137, 5_439_420, 5_549_544),
    ("yield twice", 60_000, 19_200, 50_000, 100, 0, 30_007, 1_137, 2_246_350, 2_343_100),
    ("yield unrounded", 100_000, 14_400, 50_000, 100, 50, 43_598, 1_137, 3_427_500, 3_427_569),
    ("yield unrounded", 36_000, 9_600, 50_000, 100, 80, 36_012, 1_050, 550_503, 550_512),
    ("yield rounded up", 36_000, 19_200, 20_000, 100, 50, 43_598, 1_300, 527_445, 527_454),
    ("yield rounded up", 100_000, 19_200, 50_000, 100, 50, 43_598, 1_001, 3_604_027, 3_604_097),
    ("yield to the nearest", 72_000, 12_000, 20_000, 100, 50, 31_663, 1_200, 1_254_312, 1_254_348),
    ("yield to the nearest", 100_000, 14_400, 20_000, 250, 0, 31_663, 1_001, 8_982_986, 8_983_125),
    ("root too", 12_000, 14_400, 20_000, 100, 80, 36_000, 1_050, 73_615, 74_147),
    ("root too", 100_000, 14_400, 50_000, 250, 0, 36_012, 1_050, 10_550_625, 10_645_277),
    ("root alone, after it is rounded", 100_000, 12_000, 20_000, 100, 50, 50_000, 1_300, 2_736_180,
     3_046_180),
    ("root alone, after it is rounded", 14_400, 19_200, 20_000, 100, 80, 43_598, 1_200, 96_383,
     98_370),
    ("smaller of those by water, then gravity", 36_000, 14_400, 100_000, 100, 50, 36_012, 1_050,
     1_184_076, 1_189_989),
    ("smaller of those by water, then gravity", 72_000, 12_000, 50_000, 100, 80, 30_007, 1_001,
     1_256_328, 1_256_472),
    ("wt too", 100_000, 19_200, 100_000, 250, 0, 36_000, 1_300, 14_492_152, 15_279_305),
    ("wt too", 72_000, 19_200, 20_000, 400, 0, 43_598, 1_001, 4_805_892, 4_806_252),
)


def resistances_read_astray():
    """The greatest moment that T bears and one more, whatever another reading would bear."""
    strong = changed(SELF, s=40_000, E=100, t=2_000)
    for name, D, H, W, plate, allowance, Fy, gravity, T, astray in RESISTANCES_ASTRAY:
        sheet = changed(strong, D=D, H=H, W=W, plate=plate, allowance=allowance, Fy=Fy,
                        gravity=gravity)
        assert resistance_read(sheet, IN_RESISTANCE[name]) == astray != T
        most = rounded_down(1_540 * T, 1_000)
        yield sound(changed(sheet, Ms=most), f"{T} lift holds")
        yield short(changed(sheet, Ms=most + 1), "earthquake", shows=f"{T} over short")


# --- Groups: what gravity does not touch, margins and the largest figures -----


def without_earthquake(standing):
    """The verdicts that gravity leaves as they are."""
    return {name: verdict for name, verdict in standing.rules().items() if name != "earthquake"}


def verdicts_gravity_leaves():
    """Wind, spacing and strength at equality and one past it are with gravity 1,137 what they are
    by water."""
    for group in (self_wind_at_equality, spacing_at_equality, strength_at_equality):
        for *_bytes, record in group():
            *figures, method = bytes_as_figures(record.payload)
            sheet = filled_with(GRAVITY, changed(forged(figures), s=40_000))
            by_water = outcome(record).judged.report.standing
            assert without_earthquake(report_on(sheet).standing) == without_earthquake(by_water)
            yield handed_in(sheet, method)


def several_short_in_liquor():
    """Each subset of a course's rule and the two of a way of standing, with gravity 1,137."""
    both_ways = ((SELF, ("wind", "earthquake")), (EXAMPLE, ("spacing", "strength")))
    for base, standing_rules in both_ways:
        for rules in subsets(("course 2", *standing_rules)):
            sheet = filled_with(GRAVITY, base)
            for rule in rules:
                sheet = BREAKS[rule](sheet)
            yield sound_if(not rules, sheet, *rules)


def demand_3_in_liquor():
    """Sheets whose word one of need, cap and yield would change without its gravity, or with it
    twice, or unrounded; sheets that bear out demand 3 by little (see demand_3_liquor.py)."""
    for sheet, method, word, *_reading in PART_COUNTS:
        records = handed_in(sheet, method)
        assert all(outcome(record).judged.word() == word for record in records)
        yield records
    for sheet, method in product(OVER_BY_THE_YIELD, METHODS):
        yield short(sheet, "earthquake", shows="over", method=method)
        lower = changed(sheet, Ms=sheet.site.Ms - 1)
        yield sound(lower, "lift", method)
    for _name, sheet in (*HALF_IS_LITTLE_IN_LIQUOR, *MARGIN_COUNTS_IN_LIQUOR):
        yield handed_in(sheet)
        yield handed_in(sheet, API_650)
    for method, sheet, _past in PAST_STEPS_IN_LIQUOR:
        yield short(sheet, "course 1", method=method)
        yield sound(course_changed(sheet, 1, t=sheet.courses[0].t + 1), method=method)


def largest_in_liquor():
    """Needs of 8,655 and 8,520 with gravity 1,300, required plates of 250 more; with water they are
    6,660 and 6,555. And T with the greatest of everything, by root: 400 x (1,591,549 + 805,645)."""
    for need, point in LARGEST:
        for c in (0, 250):
            base = filled_with(1_300, TIED_DOWN)
            sheet = course_changed(on_point(base, point, D100, 1), 1, c=c)
            yield needing({1: need}, short(sheet, "course 1", shows=f"| {need} {need + c} 2000"))
    by_api_650 = course_changed(on_point(filled_with(1_300, TIED_DOWN), Point(*LARGEST[1][1]),
                                         API_650, 1), 1, c=250)
    yield needing({1: 8_520}, short(by_api_650, "course 1", method=API_650))
    most = changed(with_widths(UPRIGHT, widths_to(76_800, 6)), D=240_000, H=76_800, W=10_000_000,
                   Av=0, plate=500, allowance=0, Fy=50_000, s=40_000, E=100, t=2_000, gravity=1_300)
    for Ms, word in ((752_718_916, "none"), (752_718_917, "lift"), (1_000_000_000, "lift")):
        yield sound(changed(most, Ms=Ms), f"958877600 {word}")


# --- Groups: refusals ---------------------------------------------------------


def gravity_refused():
    """30 for what no run of steps leaves, before 42 and whatever else is wrong; in bytes 16 with
    field 20, after field 6, before 17 and field 7, also where H is above Hs."""
    for gravity in (0, 999, 1_301, 1_000 + 2**16, U32_MOST):
        for sheet in (EXAMPLE, SELF, FULL):
            wrong = filled_with(gravity, sheet)
            yield refused("refused 30", judge(wrong), judge(wrong, 3))
            yield refused("refused 16 20", mark(VERSION_2.sheet_as_bytes(wrong)))
            yield refused("refused 30", judge(changed(unstated(wrong), H=76_800), API_650))
    high = changed(filled_with(GRAVITY, EXAMPLE), H=28_801)
    yield refused("refused 37", *handed_in(high), judge(high, API_650))
    yield refused("refused 38", judge(unstated(high)))
    yield refused("refused 42", judge(high, 0))
    for field in FIELD_RANGES:
        for figure, gravity in zip(just_outside(field), just_outside(GRAVITY_FIELD)):
            outside = with_figure(filled_with(gravity, high), field, figure)
            first = field if field in TANK_FIELDS else GRAVITY_FIELD
            yield refused(refusal_word(FIELD_REFUSAL, first),
                          mark(VERSION_2.sheet_as_bytes(outside)))
    content = VERSION_2.sheet_as_bytes(high)
    yield refused("refused 11", mark(content[:-1]))
    yield refused("refused 12", mark(content + b"\0"))
    yield refused("refused 13", damaged_by(content, longer_by_one_throughout))
    yield refused("refused 14", mark(with_byte(content, VERSION_AT, 1)))
    yield refused("refused 15", mark(with_byte(content, VERSION_2.count_at(), 2)))
    yield refused("refused 17", mark(VERSION_2.sheet_as_bytes(changed(high, allowance=250))))

