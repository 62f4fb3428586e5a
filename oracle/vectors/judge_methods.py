"""Judging by either method: request S-3."""

from itertools import product

from model.demand_3 import FULL_HEADS_A_FOOT_UP, HALF_IS_LITTLE, MARGIN_COUNTS
from model.filling_in import EMPTY, sheet_of
from model.refusals import API_650, D100, METHODS
from model.tank_rules import hoop_need
from vectors.judge_cases import (
    EXAMPLE, GROWER, SELF, SOURCE_TANK, changed, course_changed, handed_in, needing, refused,
    report_on, reported, self_anchored, short, sound, sound_if, with_widths,
)
from vectors.judge_equality import heads_at_equality
from vectors.judge_figures import floor_cases, twelve_told_apart
from vectors.leaf_points import NO_METHODS, beside
from vectors.records import judge
from vectors.scripts import U32_MOST, unstated, with_slot

# --- Groups: the methods of request S-3 ---------------------------------------


def source_document_002():
    """12 ft across, 24 ft of water, 21,000 psi, 0.70, 8 ft steps: by API 650 it "needs 49, 32
    and 15 mils", which S-7 makes "50, 35, 15", by D100 50.94, 33.96 and 16.98 rounded up. The
    document's own third course is a quarter of an inch lower, its water is not."""
    by_d100, by_api_650 = {1: 55, 2: 35, 3: 20}, {1: 50, 2: 35, 3: 15}
    lower = course_changed(SOURCE_TANK, 3, width=9_575)
    for sheet in (SOURCE_TANK, self_anchored(changed(SOURCE_TANK, W=18_345)),
                  changed(lower, H=28_775)):
        yield needing(by_d100, sound(sheet))
        yield needing(by_api_650, sound(sheet, method=API_650))
    for method in METHODS:
        yield refused("refused 37", *handed_in(lower, method))
    for sheet in (GROWER, self_anchored(GROWER)):
        yield needing(by_d100, short(sheet, "course 1", shows="| 55 193 188 short"))
        yield needing(by_api_650, sound(sheet, "| 50 188 188 holds", API_650))


FIRST_FOOT = (      # water over the bottom edge, 65 mils for 750 of it; by D100, by API 650
    (0, 0, 0), (1, 5, 0), (1_199, 105, 0), (1_200, 105, 0), (1_201, 105, 5), (1_202, 105, 5),
    (1_949, 170, 65), (1_950, 170, 65), (1_951, 170, 70), (2_249, 195, 95), (2_250, 195, 95),
    (2_251, 200, 95),
)


def first_foot():
    """The water ends above the bottom edge of the first, a middle or the last course. A foot of
    1,199 or 1,201, or a foot more, would show in its need, at the first step and at a later one. H
    is never less than a foot."""
    for foot, over in ((1_199, 1_200), (1_199, 1_950), (1_201, 1_201), (1_201, 1_951), (0, 1),
                       (0, 1_201), (0, 1_951), (2_400, 2_249)):
        _over, _by_d100, need = next(row for row in FIRST_FOOT if row[0] == over)
        assert hoop_need(over - foot, 240_000, 10_000, 50) != need
    base = changed(with_widths(SELF, [4_800] * 5), D=240_000, W=1_000_000, s=10_000, E=50, t=2_000)
    for number, edge in ((1, 0), (3, 9_600), (5, 19_200)):
        for over, by_d100, by_api_650 in FIRST_FOOT:
            sheet = changed(base, H=edge + over)
            if edge + over < 1_200:
                yield refused("refused 30", *(judge(sheet, method) for method in METHODS))
                continue
            yield needing({number: by_d100}, sound(sheet))
            yield needing({number: by_api_650}, sound(sheet, method=API_650))
    most = with_widths(changed(base, H=76_800), [12_800] * 6)
    for method, need in ((D100, 6_660), (API_650, 6_555)):     # exactly 6,656 and 6,552
        yield needing({1: need}, handed_in(most, method))


def course_at_equality_by_api_650():
    yield from heads_at_equality(FULL_HEADS_A_FOOT_UP, API_650)
    for number, need in ((1, 50), (2, 35), (3, 15)):    # with c, beside the floor
        for c in beside(188 - need):
            sheet = course_changed(changed(SOURCE_TANK, t=188), number, c=c)
            yield sound_if(need + c <= 188, sheet, f"course {number}", method=API_650)
    # with a foot of water there is no need: c alone is below the floor, at it and above it
    for c, t in ((187, 188), (188, 189), (189, 190)):
        yield sound(changed(SOURCE_TANK, H=1_200, c=c, t=t), f"| 0 {max(c, 188)} {t}", API_650)


def sound_by_api_650_alone():
    """One course, the first, a middle or the last, has t beside what either method requires; the
    others have enough. Every need with c is above the floor."""
    both_ways = (changed(EXAMPLE, N=24, B=61_000), SELF)
    for base, n in product(both_ways, (1, 2, 3, 12)):
        sheet = changed(with_widths(base, [6_000] * n), D=60_000, H=6_000 * n, W=250_000, t=1_000,
                        c=150)
        for number in sorted({1, (n + 1) // 2, n}):
            least, most = (report_on(sheet, method).courses[number - 1].required
                           for method in (API_650, D100))
            assert 188 < least < most - 9       # two steps or three
            for t in (least - 1, least, most - 1, most):
                one = course_changed(sheet, number, t=t)
                yield sound_if(t >= most, one, f"course {number}")
                yield sound_if(t >= least, one, f"course {number}", method=API_650)


def floors_by_api_650():
    return floor_cases(API_650)


def courses_told_apart_by_api_650():
    return twelve_told_apart(API_650)


def several_short_by_api_650():
    """The rules of its way of standing are the same, whatever the courses need."""
    for base, *rules in ((GROWER,), (self_anchored(GROWER),),
                         (changed(GROWER, B=22_919), "spacing"),
                         (changed(GROWER, Ms=900_000), "strength"),
                         (changed(self_anchored(GROWER), W=18_342), "wind"),
                         (changed(self_anchored(GROWER), Ms=200_000), "earthquake")):
        yield short(base, "course 1", *rules)
        yield reported(base, rules, "", API_650)
        corroded = course_changed(base, 1, c=139)
        yield short(corroded, "course 1", *rules, method=API_650)


def margins_by_api_650():
    for _name, sheet in (*HALF_IS_LITTLE, *MARGIN_COUNTS):
        yield handed_in(sheet, API_650)


def method_numbers():
    """On sheets that are sound by both methods, by API 650 alone and by neither."""
    for sheet in (EXAMPLE, GROWER, changed(SELF, W=18_342)):
        yield handed_in(sheet)
        yield handed_in(sheet, API_650)
        for number in NO_METHODS:
            yield refused("refused 42", judge(sheet, number))


def no_method_and_more():
    """42 before what the sheet lacks, 30 before 42."""
    tank_only = sheet_of(EXAMPLE.tank, None, None, ())
    lacking_something = (EMPTY, tank_only, tank_only._replace(site=EXAMPLE.site),
                         EXAMPLE._replace(site=None), unstated(EXAMPLE), changed(EXAMPLE, H=28_801))
    left_by_no_run = (EXAMPLE._replace(count=4), EXAMPLE._replace(tank=None),
                      EMPTY._replace(count=1), EMPTY._replace(site=EXAMPLE.site),
                      with_slot(EXAMPLE, 11, (0, 0, 0, 0, 1)), changed(EXAMPLE, D=11_999),
                      changed(unstated(EXAMPLE), allowance=250))
    for number in (0, 3, 7, 2**8 + 2, U32_MOST):
        for sheet in lacking_something:
            yield refused("refused 42", judge(sheet, number))
        for sheet in left_by_no_run:
            yield refused("refused 30", judge(sheet, number))
