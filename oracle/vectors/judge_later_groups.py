"""The groups of judging that came after the cases that people can read, and are stored after them,
so that no record before them moved; and the checks over them.
"""

from collections import Counter
from functools import cache
from itertools import product

from model import demand_3
from model.demand_3 import liquor_in
from model.demand_3_liquor import twice, without
from model.fields import GRAVITY_FIELD
from model.judging import Anchored, SelfAnchored
from model.refusals import API_650, D100, METHODS, MOST_COURSES
from vectors import need_points
from vectors.judge_cases import outcome
from vectors.judge_checks import (
    check_beside_d100, check_beside_writing, check_demand_3, check_sides,
)
from vectors.judge_groups import past_a_step
from vectors.judge_high_edges import HIGH, high_edges_at_steps
from vectors.judge_liquor import (
    both_versions_judged, cap_and_root_in_liquor, course_at_equality_in_liquor, courses_read_astray,
    demand_3_in_liquor, example_in_liquor, gravity_refused, largest_in_liquor,
    lift_at_equality_in_liquor, needs_beside_steps_in_liquor, resistances_read_astray,
    several_short_in_liquor, verdicts_gravity_leaves,
)
from vectors.judge_liquor_random import (
    random_anchored_in_liquor, random_by_both_methods_in_liquor, random_even_in_liquor,
    random_self_anchored_in_liquor,
)
from vectors.judge_need_steps import courses_of, told_by
from vectors.liquor_readings import IN_COURSES, IN_RESISTANCE, RIGHT
from vectors.liquor_readings import told_by as told_by_liquor
from vectors.records import JUDGE, MARK, in_turn

COURSES_IN_LIQUOR = (
    course_at_equality_in_liquor, needs_beside_steps_in_liquor, courses_read_astray,
)
RESISTANCES_IN_LIQUOR = (
    lift_at_equality_in_liquor, cap_and_root_in_liquor, resistances_read_astray,
)
RANDOM_IN_LIQUOR = (
    random_self_anchored_in_liquor, random_anchored_in_liquor, random_even_in_liquor,
    random_by_both_methods_in_liquor,
)
IN_LIQUOR = (
    example_in_liquor, both_versions_judged, *COURSES_IN_LIQUOR, *RESISTANCES_IN_LIQUOR,
    verdicts_gravity_leaves, several_short_in_liquor, demand_3_in_liquor, largest_in_liquor,
    gravity_refused, *RANDOM_IN_LIQUOR,
)
GROUPS = (high_edges_at_steps, *IN_LIQUOR)
ALL_OF_EACH = (     # cases all of whose records are stored
    example_in_liquor, both_versions_judged, gravity_refused, random_by_both_methods_in_liquor,
)


def records_of(group):
    """Every record of each case or, to save bytes, the next one in turn."""
    if group in ALL_OF_EACH:
        return [record for case in group() for record in case]
    return [case[number % len(case)] for number, case in enumerate(group())]


@cache
def group_records():
    """Name of the group to its records."""
    return {group.__name__: records_of(group) for group in GROUPS}


def all_records():
    return in_turn(group_records())


@cache
def all_outcomes():
    return [outcome(record) for record in all_records()]


# --- Self test: courses with high edges ---------------------------------------

BESIDE = {      # how far an exact need is past a step
    "below": (-1, "parts"), "at": (0, "mils"), "above": (1, "parts"),
}
SPARE = (0, -1)         # a plate that just holds, and a mil less


def check_high_edges():
    """Each record has a course above 60,000 that is at a step or next to it; by either method there
    are many of each kind, with either plate, on edges around 65,536 and up to the highest. An edge
    that is off by 1, lower or higher, would show in many reports, and in many verdicts."""
    records = group_records()["high_edges_at_steps"]
    assert {record.opcode for record in records} == {MARK, JUDGE}
    every = [outcome(record).judged for record in records]
    assert all(6 < result.sheet.count <= MOST_COURSES for result in every)
    for method, highest in ((D100, 75_600), (API_650, 75_480)):
        results = [result for result in every if result.method == method]
        tanks = [courses_of(result, HIGH) for result in results]
        beside = [[course for course in courses
                   if course.exact > 0 and past_a_step(course) in BESIDE.values()]
                  for courses in tanks]
        assert all(beside)
        nearest = [course for courses in beside for course in courses]
        kinds = Counter((past_a_step(course), course.reported.t - course.reported.required)
                        for course in nearest)
        for kind in product(BESIDE.values(), SPARE):
            assert kinds[kind] >= 20, (method, kind, kinds[kind])
        edges = {course.edge for course in nearest}
        assert {HIGH, 65_535, 65_536, 65_537, highest} <= edges
        assert (min(edges), max(edges)) == (HIGH, highest)
        for off in (-1, 0, 1):
            astray = [courses_of(result, HIGH, off) for result in results]
            otherwise, turned = told_by(need_points.RIGHT, astray)
            if off == 0:
                assert (otherwise, turned) == (0, 0)
            else:
                assert otherwise >= 60 and turned >= 24, (method, off, otherwise, turned)


# --- Self test: nutrient liquor -----------------------------------------------


def judged_in(*groups):
    """Those that get a report."""
    results = (outcome(record).judged for group in groups
               for record in group_records()[group.__name__])
    return [result for result in results if result.refusal is None]


def check_liquor_readings():
    """Every report is that of S-8's words. Each other reading is told apart by many reports that
    are not drawn at random, and by verdicts; of the courses by both methods, but for one that is
    API 650's own."""
    assert told_by_liquor(RIGHT, judged_in(*IN_LIQUOR)) == (0, 0)
    for name, reading in IN_COURSES.items():
        for method in METHODS:
            results = [result for result in judged_in(*COURSES_IN_LIQUOR)
                       if result.method == method]
            otherwise, turned = told_by_liquor(reading, results)
            if name == "head before the foot" and method == D100:
                assert otherwise == 0
            else:
                assert otherwise >= 12 and turned >= 4, (name, method, otherwise, turned)
    for name, reading in IN_RESISTANCE.items():
        otherwise, turned = told_by_liquor(reading, judged_in(*RESISTANCES_IN_LIQUOR))
        assert otherwise >= 4 and turned >= 2, (name, otherwise, turned)


def check_demand_3_parts():
    """Demand 3 catches each of need, cap and yield without its gravity, and with it twice, by some
    word of a group not drawn at random."""
    for part, reading in product(liquor_in(outcome(all_records()[0]).judged.sheet.tank)._fields,
                                 (without, twice)):
        caught = [result for result in judged_in(demand_3_in_liquor, *COURSES_IN_LIQUOR,
                                                 lift_at_equality_in_liquor)
                  if not demand_3.borne_out(result.sheet, result.method, result.word(),
                                            reading(part, result.sheet.tank))]
        assert len(caught) >= 3, (part, reading, len(caught))


def check_liquor_shares():
    """Of the random ones: many gravities, both words, both ways of standing, every count."""
    results = judged_in(*RANDOM_IN_LIQUOR)
    words = Counter(result.word() for result in results)
    ways = Counter(type(result.report.standing) for result in results)
    gravities = Counter(result.sheet.tank.gravity for result in results)
    assert min(words["sound"], words["short"]) >= len(results) / 5, words
    assert min(ways[SelfAnchored], ways[Anchored]) >= len(results) / 4
    assert min(gravities[gravity] for gravity in (1_000, 1_001, 1_300)) >= 20
    assert len(gravities) >= 150
    assert {result.sheet.count for result in results} == {*range(1, MOST_COURSES + 1)}
    words = {outcome(record).word for record in group_records()["gravity_refused"]}
    assert {"refused 30", "refused 37", "refused 38", "refused 42", f"refused 16 {GRAVITY_FIELD}"} \
        <= words


def self_test():
    check_demand_3(all_outcomes())
    check_beside_writing(all_records(), all_outcomes())
    check_beside_d100(all_outcomes())
    check_sides(all_outcomes())
    check_high_edges()
    check_liquor_readings()
    check_demand_3_parts()
    check_liquor_shares()
