"""Document 01's "Filling in": the sheet, what each step leaves, and refusal 30.

Written from the document alone, and from two requests of document 02: S-1 tells anchors that were
never stated from N = 0; S-10 ends size 6, which comes in with bytes of version 1 and nothing else.
The papers are silent on what such a reading does in a run; decided: accepted, it leaves the sheet
that was read, and refused, the sheet as it was. Refusals are as in refusals.py. Figures may be any
whole number that a u32 holds.
"""

from functools import cache
from itertools import product
from typing import Callable, NamedTuple

from model import example, refusals
from model.fields import (
    ANCHOR_FIELDS, COURSE_FIELDS, FIELD_RANGES, SITE_FIELDS, TANK_FIELDS, WATER, Anchors, Course,
    Site, Tank, field_in_range,
)
from model.refusals import MOST_COURSES, MOST_SHELL_HEIGHT, range_refusal
from model.tank_rules import BOLT_CHART

# --- How the sheet is held (document 01 leaves it open) -----------------------


class Sheet(NamedTuple):
    tank: Tank | None           # None is not stated
    site: Site | None           # None is not stated
    anchors: Anchors | None     # None is not stated
    courses: tuple              # twelve slots, each a Course, from the bottom up
    count: int                  # of the slots that hold a course


def all_of(entry, figure):
    """The entry, a NamedTuple, whose every figure is this one."""
    return entry._make([figure] * len(entry._fields))


SELF_ANCHORED = all_of(Anchors, 0)      # N = 0, stated
NO_COURSE = all_of(Course, 0)           # what a blank slot holds
EMPTY = Sheet(None, None, None, (NO_COURSE,) * MOST_COURSES, 0)


def made(entry, figures):
    """The entry with these figures in turn, or None if there are none."""
    return None if figures is None else entry(*figures)


def sheet_of(tank, site, anchors, courses):
    """A sheet of these parts, whether a run of steps leaves it or not. Each may be told by its
    figures in turn; they become entries here."""
    blanks = (NO_COURSE,) * (MOST_COURSES - len(courses))
    return Sheet(made(Tank, tank), made(Site, site), made(Anchors, anchors),
                 (*(Course(*course) for course in courses), *blanks), len(courses))


DROPPED_SIZE = 6            # S-10: three quarters of an inch


def has_size_6(anchors):
    """Of anchors that may be unstated."""
    return anchors is not None and anchors.d == DROPPED_SIZE


def shell_height(sheet):
    """Hs, the sum of widths; a blank slot adds 0."""
    return sum(course.width for course in sheet.courses)


# --- "Order": tank, site, anchors, course, each from its second place on ------


def tank_refusal(sheet, tank):
    """Order: 31, 16, 17."""
    if sheet.tank is not None:
        return 31, 0
    outside = range_refusal(TANK_FIELDS, tank)
    if outside is not None:
        return outside
    if tank.allowance >= tank.plate:
        return 17, 0
    return None


def site_refusal(sheet, site):
    """Order: 32, 16."""
    if sheet.tank is None:
        return 32, 0
    return range_refusal(SITE_FIELDS, site)


def anchors_agree(anchors, D):
    """18 turned round: with each other, with the tank and with the bolt chart."""
    if anchors.N == 0:
        return anchors.B == 0 and anchors.d == 0
    return anchors.B >= D and anchors.d in BOLT_CHART


def anchors_refusal_in_version_1(sheet, anchors):
    """Order: 32, 16, 18. The chart still has size 6, which is judged."""
    if sheet.tank is None:
        return 32, 0
    outside = range_refusal(ANCHOR_FIELDS, anchors)
    if outside is not None:
        return outside
    return None if anchors_agree(anchors, sheet.tank.D) else (18, 0)


def anchors_refusal(sheet, anchors):
    """S-10: 39 "when anchors are stated or read in version 2, straight after 18"."""
    refusal = anchors_refusal_in_version_1(sheet, anchors)
    if refusal is None and has_size_6(anchors):
        return 39, 0
    return refusal


def course_refusal(sheet, course):
    """Order: 32, 33, 16, 17, 34."""
    return refusals.course_refusal(sheet.tank is not None, sheet.count, shell_height(sheet), course)


# --- The steps ----------------------------------------------------------------


def with_tank(sheet, tank):
    return sheet._replace(tank=tank)


def with_site(sheet, site):
    """The later one counts; likewise the anchors."""
    return sheet._replace(site=site)


def with_anchors(sheet, anchors):
    return sheet._replace(anchors=anchors)


def with_course(sheet, course):
    """It goes into the slot numbered by the count."""
    below, above = sheet.courses[:sheet.count], sheet.courses[sheet.count + 1:]
    return sheet._replace(courses=(*below, course, *above), count=sheet.count + 1)


class Step(NamedTuple):
    entry: type             # what it states
    fields: tuple           # of the entry, by their numbers
    refusal: Callable       # of the sheet and the entry, once 30 is out
    accepted: Callable      # of the same: the sheet after it


TANK = Step(Tank, TANK_FIELDS, tank_refusal, with_tank)
SITE = Step(Site, SITE_FIELDS, site_refusal, with_site)
ANCHORS = Step(Anchors, ANCHOR_FIELDS, anchors_refusal, with_anchors)
COURSE = Step(Course, COURSE_FIELDS, course_refusal, with_course)
ANCHORS_IN_VERSION_1 = ANCHORS._replace(refusal=anchors_refusal_in_version_1)


class Answer(NamedTuple):
    refusal: tuple | None
    sheet: Sheet            # after it; refused: as it was


def next_in_run(sheet, step, entry):
    """The step within a run from the empty sheet, where 30 cannot be."""
    refusal = step.refusal(sheet, entry)
    if refusal is not None:
        return Answer(refusal, sheet)
    return Answer(None, step.accepted(sheet, entry))


def take_step(sheet, step, entry):
    """The step on a sheet handed in: "30 is first wherever a sheet is handed in"."""
    if not left_by_a_run(sheet):
        return Answer((30, 0), sheet)
    return next_in_run(sheet, step, entry)


def read_in_turn(entries):
    """Reading: "an empty sheet, then tank, site, anchors and the courses in turn; the first refusal
    ends it and the answer holds an empty sheet". Each entry comes with its step."""
    sheet = EMPTY
    for step, entry in entries:
        refusal, sheet = next_in_run(sheet, step, entry)
        if refusal is not None:
            return Answer(refusal, EMPTY)
    return Answer(None, sheet)


def next_by_version_1(sheet, entries):
    """S-10: reading version 1 as a step within a run."""
    refusal, read = read_in_turn(entries)
    return Answer(refusal, sheet if refusal is not None else read)


# --- 30: "a sheet is handed in that no run of steps leaves" -------------------


def run_to(sheet):
    """The one run of document 01's steps worth trying. Whatever run leaves this sheet, its
    accepted steps that still show are these: the tank (there is but one), the last site, the last
    anchors and the courses in turn. What makes a step refused is the tank and the courses below,
    so these steps in this order fare the same."""
    if sheet.tank is not None:
        yield TANK, sheet.tank
    if sheet.site is not None:
        yield SITE, sheet.site
    if sheet.anchors is not None:
        yield ANCHORS, sheet.anchors
    for course in sheet.courses[:sheet.count]:
        yield COURSE, course


def version_1_of(sheet):
    """What bytes of version 1 come closest to this sheet: they have every part, a course, and no
    gravity. None if there are none."""
    if None in (sheet.tank, sheet.site, sheet.anchors) or sheet.count == 0:
        return None
    steps = {ANCHORS: ANCHORS_IN_VERSION_1}
    return [(steps.get(step, step), entry._replace(gravity=WATER) if step == TANK else entry)
            for step, entry in run_to(sheet)]


@cache
def left_by_a_run(sheet):
    """By steps alone or, with size 6, by a reading of version 1. That one is the only other run
    worth trying: steps after a reading state the site again or add courses, and the bytes could
    have had these; anchors stated again have no size 6, and then steps alone do."""
    left = EMPTY
    for step, entry in run_to(sheet):
        left = next_in_run(left, step, entry).sheet
    if left == sheet:
        return True
    entries = version_1_of(sheet)
    return entries is not None and next_by_version_1(EMPTY, entries).sheet == sheet


def could_be_version_1(sheet):
    """A reading leaves every part stated and a course or more; nothing makes them fewer, and no
    step changes the gravity."""
    return sheet.site is not None and sheet.count > 0 and sheet.tank.gravity == WATER


def left_by_description(sheet):
    """The same said part by part; a cross-check, nothing else asks it."""
    if sheet.tank is None:
        return sheet == EMPTY
    if sheet.count > MOST_COURSES:
        return False
    courses, blanks = sheet.courses[:sheet.count], sheet.courses[sheet.count:]
    fields = [*zip(TANK_FIELDS, sheet.tank), *zip(SITE_FIELDS, sheet.site or ()),
              *zip(ANCHOR_FIELDS, sheet.anchors or ())]
    for course in courses:
        fields += zip(COURSE_FIELDS, course)
    return all(field_in_range(field, figure) for field, figure in fields) \
        and sheet.tank.allowance < sheet.tank.plate \
        and all(course.c < course.t for course in courses) \
        and (sheet.anchors is None or anchors_agree(sheet.anchors, sheet.tank.D)) \
        and (not has_size_6(sheet.anchors) or could_be_version_1(sheet)) \
        and sum(course.width for course in courses) <= MOST_SHELL_HEIGHT \
        and all(slot == NO_COURSE for slot in blanks)


# --- Self test of filling in: "The example tank" ------------------------------

EXAMPLE = sheet_of(example.TANK, example.SITE, example.ANCHORS, example.COURSES)


ONE_BY_ONE = {      # what check_runs makes runs of
    TANK: (example.TANK, example.TANK._replace(gravity=1_001)),
    SITE: (example.SITE, example.SITE._replace(V=60)),
    ANCHORS: (example.ANCHORS, example.ANCHORS._replace(d=6), SELF_ANCHORED,
              Anchors(N=6, B=14_399, d=6), Anchors(N=0, B=0, d=6)),
    COURSE: (example.COURSES[0], example.COURSES[0]._replace(width=14_400)),
}


def in_all_ways(most):
    """Every sheet of these parts with so many courses at most, whether a run leaves it or not."""
    tanks, sites, anchors, courses = ((None, *entries) for entries in ONE_BY_ONE.values())
    shells = [shell for n in range(most + 1) for shell in product(courses[1:], repeat=n)]
    return [sheet_of(*parts) for parts in product(tanks, sites, anchors, shells)]


def check_runs(most=2):
    """Every sheet that any run of these parts leaves, a step at a time from the empty sheet, is one
    that left_by_a_run calls so, and there is no other; of those with more courses nothing is asked.
    A reading gives the same whatever sheet it finds, or leaves that as it was."""
    steps = [(step, entry) for step, entries in ONE_BY_ONE.items() for entry in entries]
    every = in_all_ways(most)
    readings = [entries for entries in map(version_1_of, every) if entries is not None]
    left = {EMPTY, *(next_by_version_1(EMPTY, entries).sheet for entries in readings)}
    new = left
    while new:
        new = {sheet for before in new for sheet in (next_in_run(before, *one).sheet
                                                     for one in steps)
               if sheet.count <= most} - left
        left |= new
    assert left == {sheet for sheet in every if left_by_a_run(sheet)}
    assert left == {sheet for sheet in every if left_by_description(sheet)}
    size_6 = {sheet for sheet in left if has_size_6(sheet.anchors)}
    assert len(size_6) == 2 * (2 + 4)           # two sites; one or two courses, of two kinds
    assert len(left) == 1 + 2 * 3 * 3 * (1 + 2 + 4) + len(size_6)


def check_size_6():
    """39 by a step, and after 18; a sheet with it is left by reading alone."""
    size_6 = EXAMPLE._replace(anchors=example.ANCHORS._replace(d=6))
    unstated = EXAMPLE._replace(anchors=None)
    for figures, refusal in (((6, 14_800, 6), (39, 0)), ((6, 14_400, 6), (39, 0)),
                             ((6, 14_399, 6), (18, 0)), ((0, 0, 6), (18, 0)),
                             ((5, 14_800, 6), (16, 12)), ((6, 14_800, 5), (18, 0)),
                             ((6, 14_800, 7), None)):
        for sheet in (EXAMPLE, unstated, size_6):
            answer = take_step(sheet, ANCHORS, Anchors(*figures))
            assert answer.refusal == refusal and (refusal is None or answer.sheet == sheet)
    assert next_by_version_1(EMPTY, version_1_of(size_6)) == (None, size_6)
    low = version_1_of(size_6._replace(anchors=Anchors(6, 14_399, 6)))
    assert next_by_version_1(EXAMPLE, low) == ((18, 0), EXAMPLE)
    heavy = size_6.tank._replace(gravity=1_001)
    for sheet, left in ((size_6, True), (size_6._replace(site=None), False),
                        (size_6._replace(courses=EMPTY.courses, count=0), False),
                        (size_6._replace(tank=heavy), False), (size_6._replace(count=2), False),
                        (size_6._replace(tank=None), False),
                        (size_6._replace(anchors=Anchors(6, 14_399, 6)), False)):
        assert left_by_a_run(sheet) == left_by_description(sheet) == left


def self_test():
    sheet = EMPTY
    for step, entry in run_to(EXAMPLE):
        refusal, sheet = take_step(sheet, step, entry)
        assert refusal is None
    assert sheet == EXAMPLE and shell_height(sheet) == 28_800
    assert [field for step in (TANK, SITE, ANCHORS, COURSE) for field in step.fields] \
        == list(FIELD_RANGES)

    unstated, self_anchored = (EXAMPLE._replace(anchors=one) for one in (None, SELF_ANCHORED))
    for sheet, left in ((EMPTY, True), (EXAMPLE, True), (unstated, True), (self_anchored, True),
                        (EXAMPLE._replace(count=4), False), (EXAMPLE._replace(tank=None), False),
                        (unstated._replace(tank=None), False),
                        (EMPTY._replace(anchors=SELF_ANCHORED), False)):
        assert left_by_a_run(sheet) == left_by_description(sheet) == left
    refusal, stated = take_step(unstated, ANCHORS, SELF_ANCHORED)
    assert refusal is None and stated == self_anchored != unstated
    check_size_6()
    check_runs()
