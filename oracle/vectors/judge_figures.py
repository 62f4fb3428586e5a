"""Judging: floors, water levels and courses, wind and anchors, and the ends of the ranges."""

from itertools import product

from model.arithmetic import rounded_down
from model.demand_3 import HALF_IS_LITTLE, MARGIN_COUNTS
from model.fields import ANCHOR_FIELDS, NUMBER_OF
from model.filling_in import shell_height
from model.refusals import D100
from model.tank_rules import BOLT_CHART, water_on_rim_cap, water_on_rim_root
from vectors.judge_cases import (
    EXAMPLE, FIFTHS, SELF, TALL_FIFTHS, TALL_UPWARD, UPWARD, WHOLE_BY_CAP, WHOLE_BY_ROOT, changed,
    course_changed, handed_in, needing, outcome, refused, report_on, self_anchored, short, sound,
    sound_if, with_courses, with_figure, with_widths,
)
from vectors.leaf_points import beside
from vectors.random_sheets import most_borne
from vectors.start_sheets import FULL_COURSES, courses_to, widths_to
from vectors.steps_forged import all_at
from vectors.version_1 import FIELD_RANGES

# --- Groups: courses and water ------------------------------------------------


def floor_cases(method):
    low = changed(self_anchored(with_widths(EXAMPLE, [1_200] * 2)), H=1_200, W=10_000, s=40_000)
    for D, floor in ((60_000, 188), (60_001, 250), (144_000, 250), (144_001, 313)):
        for t in (187, 188, 189, 249, 250, 251, 312, 313, 314):
            for c in (0, 120):
                yield sound_if(t >= floor, changed(low, D=D, t=t, c=c), "course 1",
                               "course 2", shows=f"| 0 {floor} {t}", method=method)


def floors():
    """An allowance is no part of the floor."""
    return floor_cases(D100)


def water_levels():
    """At the top and one past; at each edge and one to either side; the least level."""
    for sheet in (EXAMPLE, SELF):
        for number in (1, 2):
            edge = 9_600 * number
            for H in beside(edge):
                need = 5 if H > edge else 0     # of the course above: 1 of h makes a step
                yield needing({number + 1: need}, sound(changed(sheet, H=H), f"| {need} 188 250"))
        for H in (28_799, 28_800):
            yield sound(changed(sheet, H=H))
        for H in (28_801, 76_800):
            yield refused("refused 37", *handed_in(changed(sheet, H=H)))
        yield sound(changed(sheet, H=1_200), "| 5 188 250")
    far_below = changed(with_widths(SELF, [6_400] * 12), H=6_401, W=200_000)
    yield sound(far_below, "| 5 188 250")
    yield sound(changed(far_below, H=6_400), "| 0 188 250")
    # with no need, c alone is below the floor, at it and above it; course 1, which has one, has
    # just what it requires
    yield sound(changed(far_below, H=1_200, c=187, t=192), "| 0 188 192")
    yield sound(changed(far_below, H=1_200, c=188, t=193), "| 0 188 193")
    yield sound(changed(far_below, H=1_200, c=189, t=194), "| 0 189 194")
    for H in (76_799, 76_800):
        yield sound(changed(far_below, H=H))


def course_counts():
    """One to twelve, with widths the same and differing, from either end; Hs 76,800."""
    for n in range(1, 13):
        same = with_widths(changed(EXAMPLE, W=150_000), [6_400] * n)
        differing = with_courses(same, FULL_COURSES[:n])
        reverse = with_courses(same, FULL_COURSES[:n][::-1])
        for sheet in (same, differing, reverse):
            Hs = shell_height(sheet)
            yield sound(changed(sheet, H=Hs), f"courses {n}")
            yield handed_in(changed(self_anchored(sheet), H=max(Hs // 2, 1_200)))
            if Hs < 76_800:     # else H is outside its range
                yield refused("refused 37", *handed_in(changed(sheet, H=Hs + 1)))
    for n in range(6, 13):
        sheet = with_courses(changed(EXAMPLE, W=150_000, H=76_800), courses_to(76_800, n))
        yield sound(sheet, f"courses {n}")
        yield handed_in(changed(self_anchored(sheet), H=12_800))


def twelve_told_apart(method):
    sheet = with_courses(changed(EXAMPLE, D=100_000, H=70_000, W=400_000, N=40, B=100_000),
                         FULL_COURSES)
    for number, course in enumerate(report_on(sheet, method).courses, start=1):
        sheet = course_changed(sheet, number, t=course.required)
    yield sound(sheet, method=method)
    for number, course in enumerate(report_on(sheet, method).courses, start=1):
        yield short(course_changed(sheet, number, t=course.t - 1), f"course {number}",
                    method=method)
    for place in range(11):         # two neighbours change places
        slots = list(sheet.courses)
        slots[place], slots[place + 1] = slots[place + 1], slots[place]
        yield handed_in(with_courses(sheet, slots), method)


def courses_told_apart():
    """Twelve courses of other figures each, every one just enough; each in turn one mil short."""
    return twelve_told_apart(D100)


# --- Groups: wind and anchors -------------------------------------------------


def pressures():
    """At the least, 1,800: below it, met exactly and just passed; whole and rounded up."""
    for Kz, I, V, p in ((75, 100, 125, 1_800), (75, 100, 126, 1_829), (75, 100, 124, 1_800),
                        (76, 100, 125, 1_824), (60, 125, 125, 1_800), (61, 125, 125, 1_830),
                        (50, 100, 60, 1_800), (150, 125, 150, 6_480), (150, 125, 125, 4_500),
                        (109, 115, 96, 1_800), (109, 115, 97, 1_812), (109, 115, 150, 4_333)):
        for sheet in (EXAMPLE, SELF):
            records = handed_in(changed(sheet, Kz=Kz, I=I, V=V))
            assert outcome(records[0]).judged.report.p == p
            yield records


def pulls():
    """Each of the two negative, 0 and positive, whole and rounded up; on FIFTHS six pounds of W
    move the wind's by one, and fifteen foot-pounds the earthquake's."""
    aims = (*product((-400, -1, 0, 1, 400), (0, 5), (-300, 0, 500), (0, 14)),
            *product((-400, 0, 400), (1,), (-1, 0, 1), (0, 1, 14)))
    for wind, heavier, earthquake, less in aims:
        W = UPWARD - 6 * wind + heavier             # the exact pull is less by a sixth of it
        Ms = 15 * earthquake + 2 * W - less         # and by a fifteenth of this
        yield sound(changed(FIFTHS, W=W, Ms=Ms), f"anchored {wind} {earthquake}")
    # both are 1,622 2/3; then by the same moment
    yield sound(changed(FIFTHS, Ms=46_340), "anchored 1623 1623")
    yield sound(changed(FIFTHS, Ms=51_840), "anchored 1623 1990")
    # the least there are, with the whole of the greatest W and with what is left of it
    for Av, earthquake in ((0, -1_666_666), (500, -1_333_333)):
        yield sound(changed(FIFTHS, W=10_000_000, Av=Av, Ms=0), f"anchored -1663210 {earthquake}")


def bolt_sizes():
    """Each size with the greatest pull that it bears and one more, by either pull; the wind
    pull needs a taller tank for the larger ones."""
    for d in BOLT_CHART:
        most = most_borne(d)
        Ms = 15 * most + 2 * 11_000
        yield sound(changed(FIFTHS, d=d, Ms=Ms), f"{most} holds")
        yield short(changed(FIFTHS, d=d, Ms=Ms + 1), "strength", shows=f"{most + 1} holds")
        yield short(changed(FIFTHS, d=d, Ms=Ms + 15), "strength", shows=f"{most + 1} holds")
        W = TALL_UPWARD - 6 * most
        yield sound(changed(TALL_FIFTHS, d=d, W=W), f"anchored {most}")
        yield short(changed(TALL_FIFTHS, d=d, W=W - 1), "strength")
        yield sound(changed(EXAMPLE, d=d), "anchored 2133 -191")
        yield sound(changed(EXAMPLE, d=d, W=100_000, Ms=0))        # both negative: use 0


# --- Groups: the ends of the ranges -------------------------------------------


def end_sheet(field, figure, anchored):
    """Hs is 60,000, or 76,800 where H is the field; D may be anything."""
    height = 76_800 if field == 2 else 60_000
    sheet = with_widths(changed(EXAMPLE, H=20_000, W=300_000, plate=500, t=1_000),
                        widths_to(height, 6))
    sheet = changed(sheet, N=100, B=300_000, d=12) if anchored else self_anchored(sheet)
    if field == 15:
        return course_changed(sheet, 2, width=figure)
    return with_figure(sheet, field, figure)


def field_ends():
    """One field at a time at either end. B and d of 0 make anchored sheets that are refused;
    one past an end is in reading_before_judging and forged_as_in_scripts."""
    for anchored in (True, False):
        for field in FIELD_RANGES:
            if anchored or field not in ANCHOR_FIELDS:
                for figure in FIELD_RANGES[field]:
                    yield handed_in(end_sheet(field, figure, anchored))
    for D in (12_000, 240_000):         # the least B is D
        yield handed_in(changed(end_sheet(1, D, True), B=D))
    for end, widths in ((0, [1_200]), (0, [1_200] * 12), (1, [12_800] * 6), (1, [6_400] * 12)):
        every = all_at(end, widths)
        for sheet in (every, self_anchored(every)):
            yield handed_in(sheet)
            yield handed_in(changed(sheet, Ms=FIELD_RANGES[NUMBER_OF["Ms"]][1 - end]))
            yield handed_in(changed(sheet, W=FIELD_RANGES[NUMBER_OF["W"]][1 - end]))
            yield handed_in(changed(sheet, plate=500, allowance=0))


def water_on_rim():
    """wL by its cap, by its root, and the two the same: 12,640 exactly. Then tb 1."""
    equal = changed(SELF, D=14_220, H=10_000, plate=132, allowance=100, Fy=30_000)
    assert water_on_rim_root(32, 30_000, 10_000) == water_on_rim_cap(10_000, 14_220) \
        == 12_640
    nearby = [changed(equal, allowance=allowance) for allowance in beside(100)]
    nearby += [changed(equal, D=D) for D in beside(14_220)]
    nearby += [changed(equal, H=H) for H in beside(10_000)]
    nearby += [changed(equal, Fy=30_001), changed(equal, plate=133), changed(equal, plate=131)]
    thin = [changed(SELF, plate=plate, allowance=plate - 1) for plate in (100, 101, 250, 251)]
    thin += [changed(thin[0], H=1_200), changed(thin[0], Fy=30_000), changed(thin[0], Fy=50_000)]
    for sheet in (*nearby, *thin, WHOLE_BY_ROOT, WHOLE_BY_CAP):
        most = rounded_down(1_540 * report_on(sheet).standing.T, 1_000)
        yield handed_in(sheet)
        for Ms in (most, most + 1):
            yield handed_in(changed(sheet, Ms=Ms))


def margins():
    """Sheets that bear out demand 3 by little (see demand_3.py)."""
    for _name, sheet in (*HALF_IS_LITTLE, *MARGIN_COUNTS):
        yield handed_in(sheet)
