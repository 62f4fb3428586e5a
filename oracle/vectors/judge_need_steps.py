"""Judging: hoop need in steps of five mils, request S-7, and readings of it that go astray."""

from fractions import Fraction
from itertools import cycle, product
from typing import NamedTuple

from model import demand_3, judging
from model.arithmetic import Verdict, use_bits
from model.demand_3 import PAST_STEPS
from model.fields import field_in_range
from model.filling_in import SELF_ANCHORED
from model.judging import CourseReport
from model.refusals import API_650, D100, METHODS
from model.tank_rules import house_floor
from vectors.judge_cases import (
    EXAMPLE, changed, course_changed, needing, self_anchored, short, sound_if, with_widths,
)
from vectors.leaf_texts import verdict_text
from vectors.need_points import (
    LARGEST_BY_BOTH, LARGEST_BY_D100, LEAST_NEEDED, MOST_PLATED, STEPS, beside_step, half_steps,
    of_mils, whole_mils,
)
from vectors.random_sheets import NEED_STARTS
from vectors.start_sheets import widths_to

# --- Groups: the steps of request S-7 -----------------------------------------

# Both stand as they are, whatever D is.
UPRIGHT = changed(self_anchored(EXAMPLE), W=150_000, V=60, Ms=0)
TIED_DOWN = changed(EXAMPLE, W=150_000, V=60, Ms=0, N=79, B=300_000)


def on_point(base, point, method, number):
    """The sheet on which the course of this number has the h of a point, as the method has it, and
    its s and E. Those below have the least width; the others' s, E and t are the greatest. None if
    H is outside its range."""
    edge = 1_200 * (number - 1)
    H = edge + NEED_STARTS[method] + point.h
    if not field_in_range(2, H):
        return None
    widths = [1_200] * (number - 1) + widths_to(76_800 - edge, 6)
    sheet = changed(with_widths(base, widths), D=point.D, H=H, s=40_000, E=100, t=2_000)
    return course_changed(sheet, number, s=point.s, E=point.E)


def on_first_of(numbers, base, point, method):
    """The first of these numbers with which there is such a sheet, and this."""
    sheets = ((number, on_point(base, point, method, number)) for number in numbers)
    return next((number, sheet) for number, sheet in sheets if sheet is not None)


def plates_about(required, c):
    """What is required and a mil less, as far as they are above c; else the least plate that is."""
    return [t for t in (required, required - 1) if t > c] or [c + 1]


def at_required_and_less(sheet, number, need, c, method):
    """This course has each of these plates. With every other c the order is turned, so that a case
    in turn is not of one verdict alone."""
    required = max(need + c, house_floor(sheet.tank.D))
    for t in plates_about(required, c)[::1 if c % 2 else -1]:
        one = course_changed(sheet, number, t=t, c=c)
        use = verdict_text(Verdict(t >= required, use_bits(required, t)))
        yield needing({number: need}, sound_if(t >= required, one, f"course {number}",
                                               shows=f"| {need} {required} {t} {use}",
                                               method=method))


def needs_about_steps():
    """The need and a point of which it is the need."""
    yield 5, LEAST_NEEDED
    for step in STEPS:
        if step <= MOST_PLATED:
            yield from beside_step(step)
    yield from (*whole_mils(), *half_steps())


def needs_beside_steps():
    """In the first, the second or the seventh course. If c can bring it there, the required plate
    is past the floor by one to four mils."""
    for method in METHODS:
        bases = cycle((UPRIGHT, UPRIGHT, TIED_DOWN, TIED_DOWN))
        numbers = cycle(((1, 2), (2, 1), (7, 1)))
        pasts = cycle((1, 2, 3, 4))
        for (need, point), base, places, past in zip(needs_about_steps(), bases, numbers, pasts):
            number, sheet = on_first_of(places, base, point, method)
            c = min(max(house_floor(point.D) - need, 0) + past, 250)
            yield from at_required_and_less(sheet, number, need, c, method)


FLOORS_NEARED = {       # D to needs in steps; with 250 more none is below the floor
    60_000: (5, 60, 120, 185), 144_000: (5, 100, 245, 250), 240_000: (65, 100, 310, 315),
}


def allowances_beside_floors():
    """The need with c is two mils short of the floor, one, at it, and past it by one to five. The
    exact need is short of the need by whole mils, none to four."""
    for method in METHODS:
        offs = cycle(range(5))
        for D, needs in FLOORS_NEARED.items():
            for need, past in product(needs, range(-2, 6)):
                c = house_floor(D) + past - need
                point = of_mils(need - next(offs), D)
                if 0 <= c <= 250:
                    number, sheet = on_first_of((1, 2), UPRIGHT, point, method)
                    yield from at_required_and_less(sheet, number, need, c, method)


def no_need_no_step():
    """The water ends at the bottom edge of course 2 or, by API 650, up to a foot above it: the need
    is 0, and c alone is short of the floor, at it or past it. With a step it would be past floors
    of 188 and 250 from a c of 184 and 246 on."""
    for method, over in ((D100, 0), (API_650, 0), (API_650, 1), (API_650, 1_200)):
        for D, allowances in ((60_000, (0, 183, 184, 187, 188, 189, 250)),
                              (144_000, (0, 246, 249, 250)), (240_000, (0, 250))):
            sheet = changed(with_widths(UPRIGHT, [1_200, 1_200, 9_600]), D=D, H=1_200 + over,
                            t=2_000)
            for c in allowances:
                yield from at_required_and_less(sheet, 2, 0, c, method)


def largest_needs():
    """Of plates that are required, 2,000 is the largest that a course can have. Then the largest
    needs and required plates of all, 6,660 and 6,910, by API 650 6,555 and 6,805."""
    for method in METHODS:
        for step, c in ((1_750, 250), (1_745, 249), (2_000, 0)):
            for (need, point), t in product(beside_step(step), (1_999, 2_000)):
                sheet = course_changed(on_point(UPRIGHT, point, method, 1), 1, t=t, c=c)
                yield needing({1: need}, sound_if(t >= need + c, sheet, "course 1",
                                                  shows=f"| {need} {need + c} {t}",
                                                  method=method))
        by_d100 = LARGEST_BY_D100 if method == D100 else ()
        for (need, point), c in product((*LARGEST_BY_BOTH, *by_d100), (0, 248, 250)):
            sheet = course_changed(on_point(TIED_DOWN, point, method, 1), 1, c=c)
            yield needing({1: need}, short(sheet, "course 1", shows=f"| {need} {need + c} 2000",
                                           method=method))


def short_by_a_step():
    """Demand 3 bears out the word with five mils of margin. With half of it, the exact need being
    little past a step, it would not where t is one or two mils short (see demand_3.py)."""
    for (method, short_sheet, past), anchors in product(
            PAST_STEPS, (SELF_ANCHORED, TIED_DOWN.anchors)):
        sheet = short_sheet._replace(anchors=anchors)
        first = sheet.courses[0]
        c, need = first.c, first.t + 1 - first.c
        for less in (6, 5, 4, 3, 2, 1, 0):
            one = course_changed(sheet, 1, t=need + c - less)
            halved = demand_3.with_plate_margin(one, Fraction(5, 2))
            assert demand_3.meets(one, method, halved) == (less + past <= Fraction(5, 2))
            yield sound_if(less == 0, one, "course 1", shows=f"| {need} {need + c}", method=method)


# --- Readings of S-7 ----------------------------------------------------------

# A group to how many of its records are called short although every rule holds with half of the
# plate's margin and the others whole.
SHORT_WITHIN_HALF = {
    "margins": 4, "margins_by_api_650": 2, "random_self_anchored": 1, "random_anchored": 3,
    "sound_by_api_650_alone": 24, "needs_beside_steps": 52, "allowances_beside_floors": 22,
    "short_by_a_step": 24,
}


class CourseRead(NamedTuple):
    """Of a judged sheet."""
    edge: int               # at its bottom
    exact: Fraction         # the need
    c: int
    D: int
    parts: int              # of a mil, in which every exact need with its s and E is told
    reported: CourseReport


def courses_of(result, least_edge=0, off=0):
    """Those whose bottom edge is no lower than this, read as if it were higher by so much."""
    D, H = result.sheet.tank.D, result.sheet.tank.H
    edges = judging.bottom_edges(result.sheet)
    return [CourseRead(edge, demand_3.exact_need(result.method, max(H - edge - off, 0), D, one.s,
                                                 one.E), one.c, D, 72 * one.s * one.E, report)
            for (edge, one), report in zip(edges, result.report.courses, strict=True)
            if edge >= least_edge]


def told_by(reading, tanks):
    """How many of these, each with its courses, would be reported with other figures if S-7 were
    read so, and how many with another verdict on a course."""
    otherwise = turned = 0
    for courses in tanks:
        read = [(reading.course(one.exact, one.c, one.D), one.reported) for one in courses]
        otherwise += any(figures != (course.need, course.required) for figures, course in read)
        turned += any((required <= course.t) != course.verdict.holds
                      for (_need, required), course in read)
    return otherwise, turned


def short_with_plate_margin(mils, results):
    """Those called short although every rule holds with this margin for plate."""
    return [result for result in results if result.word() == "short" and demand_3.meets(
        result.sheet, result.method, demand_3.with_plate_margin(result.sheet, mils))]
