"""All groups of judging, and the checks over all of them."""

from collections import Counter
from fractions import Fraction
from functools import cache
from itertools import product

from model import demand_3
from model.arithmetic import use_bits
from model.filling_in import EMPTY
from model.judging import Anchored, SelfAnchored
from model.refusals import API_650, D100, MOST_COURSES
from model.tank_rules import house_floor, weight_in_earthquake
from vectors import need_points
from vectors.judge_cases import EXAMPLE, outcome
from vectors.judge_checks import (
    check_beside_d100, check_beside_writing, check_demand_3, check_sides,
)
from vectors.judge_equality import (
    course_at_equality, lift_boundaries, one_course_short, one_standing_rule_short,
    self_earthquake_at_equality, self_wind_at_equality, several_short, spacing_at_equality,
    strength_at_equality,
)
from vectors.judge_figures import (
    bolt_sizes, course_counts, courses_told_apart, field_ends, floors, margins, pressures, pulls,
    water_levels, water_on_rim,
)
from vectors.judge_lighter_tank import (
    ACCELERATIONS, RIGHT, RIGHT_ABOVE, RIGHT_BELOW, ROUNDED_ASTRAY, W_FOR_BOTH, WEIGHED_ASTRAY,
    earthquake_pulls, earthquake_pulls_nearest, larger_pull_changes, no_vertical_motion,
    strength_at_equality_in_earthquake, strength_nearest_in_earthquake, told_apart, turned,
    weights_that_count, wind_pull_unmoved,
)
from vectors.judge_methods import (
    course_at_equality_by_api_650, courses_told_apart_by_api_650, first_foot, floors_by_api_650,
    margins_by_api_650, method_numbers, no_method_and_more, several_short_by_api_650,
    sound_by_api_650_alone, source_document_002,
)
from vectors.judge_need_steps import (
    SHORT_WITHIN_HALF, allowances_beside_floors, courses_of, largest_needs, needs_beside_steps,
    no_need_no_step, short_by_a_step, short_with_plate_margin, told_by,
)
from vectors.judge_random import (
    random_anchored, random_by_both_methods, random_damage, random_ends, random_even,
    random_self_anchored, random_unstated,
)
from vectors.judge_refusals import (
    blank_slot_rubbish, broken_slots, counts_astray, example_cases, forged_as_in_scripts,
    incomplete, judge_order, left_by_a_run, reading_as_in_scripts, reading_before_judging,
    reading_singly, readings_astray, stated_in_turn, unstated_anchors,
)
from vectors.leaf_texts import hexadecimal
from vectors.need_points import ASTRAY, NEAREST
from vectors.records import JUDGE, MARK, forge, in_turn, judge, to_judge
from vectors.scripts import U32_MOST
from vectors.version_1 import FIELD_RANGES

LEAST_RANDOM_SHEETS = 2_000

# --- All groups ---------------------------------------------------------------

RANDOM_SHEETS = (random_self_anchored, random_anchored, random_ends, random_even)
IN_TURN = (
    one_course_short, floors, course_counts, courses_told_apart, pressures, pulls, bolt_sizes,
    field_ends, water_on_rim,
    earthquake_pulls, earthquake_pulls_nearest, larger_pull_changes,
    strength_at_equality_in_earthquake, strength_nearest_in_earthquake,
    needs_beside_steps, allowances_beside_floors,
)
LIGHTER_TANK = (
    earthquake_pulls, earthquake_pulls_nearest, no_vertical_motion, wind_pull_unmoved,
    larger_pull_changes, strength_at_equality_in_earthquake, strength_nearest_in_earthquake,
    weights_that_count,
)
IN_STEPS = (
    needs_beside_steps, allowances_beside_floors, no_need_no_step, largest_needs, short_by_a_step,
)
GROUPS = (
    example_cases, readings_astray,
    judge_order, incomplete, unstated_anchors, stated_in_turn,
    broken_slots, blank_slot_rubbish, counts_astray,
    forged_as_in_scripts, left_by_a_run,
    reading_singly, reading_as_in_scripts, reading_before_judging,
    course_at_equality, self_wind_at_equality, self_earthquake_at_equality,
    spacing_at_equality, strength_at_equality, lift_boundaries,
    one_course_short, one_standing_rule_short, several_short,
    floors, water_levels, course_counts, courses_told_apart,
    pressures, pulls, bolt_sizes, field_ends, water_on_rim, margins,
    *RANDOM_SHEETS, random_unstated, random_damage,
    source_document_002, first_foot, course_at_equality_by_api_650, sound_by_api_650_alone,
    floors_by_api_650, courses_told_apart_by_api_650, several_short_by_api_650,
    margins_by_api_650, method_numbers, no_method_and_more, random_by_both_methods,
    *LIGHTER_TANK, *IN_STEPS,
)


def records_of(group):
    """Every record of each case or, to save bytes, the next one in turn."""
    if group in IN_TURN:
        return [case[number % len(case)] for number, case in enumerate(group())]
    return [record for case in group() for record in case]


@cache
def group_records():
    """Name of the group to its records."""
    return {group.__name__: records_of(group) for group in GROUPS}


def all_records():
    return in_turn(group_records())


@cache
def all_outcomes():
    return [outcome(record) for record in all_records()]


# --- Self test, over all vectors ----------------------------------------------


def check_forms():
    """JUDGE's figures are FORGE's and the method; of MARK the method is D100."""
    for sheet in (EXAMPLE, EMPTY):
        for number in (0, 1, 2, U32_MOST):
            record = judge(sheet, number)
            assert record == (JUDGE, forge(sheet).payload + number.to_bytes(4, "big"))
            judged = outcome(record).judged
            assert (judged.sheet, judged.method) == (sheet, number)
    assert judge(EXAMPLE) == to_judge(forge(EXAMPLE)) == judge(EXAMPLE, 1)
    for record, result in zip(all_records(), all_outcomes(), strict=True):
        assert record.opcode == JUDGE or result.judged.method == D100


def check_lines():
    """The example's line and the one stated value, spelled out."""
    plate, spacing, strength = (hexadecimal(use_bits(*sides)) for sides in (
        (188, 250), (355 * 14_800, 1_356_000 * 6), (1_000 * 2_133, 19_950 * 606)))
    assert outcome(judge(EXAMPLE)).line() == (
        f"accepted sound wind 2123 73371 anchored 2133 -191 holds {spacing} holds {strength} "
        f"uses {spacing} {strength} courses 3 | 60 188 250 holds {plate} "
        f"| 40 188 250 holds {plate} | 20 188 250 holds {plate} . . . . . . . . .")
    assert outcome(judge(EMPTY)).line() == (
        "refused 32 short wind 0 0 self short 0000000000000000 0 over short 0000000000000000 "
        "uses 0000000000000000 0000000000000000 courses 0 . . . . . . . . . . . .")


# --- More of the self test ----------------------------------------------------


def check_refusals():
    """All that judging has are there, and those of reading, 16 with every field."""
    words = {result.word for result in all_outcomes()}
    numbers = (*range(11, 16), 17, 18, 30, 32, 34, *range(35, 39), 42)
    fields = {f"refused 16 {field}" for field in FIELD_RANGES}
    assert words == {"accepted", *(f"refused {number}" for number in numbers), *fields}


# --- The rest of the self test ------------------------------------------------


def anchored_results(results):
    """Of those judged, the ones that have two pulls in their report."""
    return [result.judged for result in results
            if result.word == "accepted"
            and isinstance(result.judged.report.standing, Anchored)]


def results_in(*groups):
    return anchored_results(outcome(record) for group in groups
                            for record in group_records()[group.__name__])


def shaken_by(Av, results):
    return [result for result in results if result.sheet.site.Av == Av]


def exact_pulls(results):
    """In an earthquake."""
    return [demand_3.exact_earthquake_pull(result.sheet) for result in results]


def check_pulls(results):
    """They are those of S-5's words; with Av 0 those of document 01 alone, W being for both."""
    anchored = anchored_results(results)
    still = shaken_by(0, anchored)
    assert still and not told_apart(RIGHT, anchored) and not told_apart(W_FOR_BOTH, still)


def check_earthquake_pulls():
    """With each Av they are -1, 0 and 1 exactly, also with a fraction of a pound left of W, and
    off these by no more than the step, less and more."""
    for group, step in ((earthquake_pulls, Fraction(1, 15)),
                        (earthquake_pulls_nearest, Fraction(1, 192 * 299_999))):
        for Av, pull in product(ACCELERATIONS, (-1, 0, 1)):
            off = {exact - pull for exact in exact_pulls(shaken_by(Av, results_in(group)))}
            assert 0 in off and any(0 < one <= step for one in off) \
                and any(-step <= one < 0 for one in off), (group, Av, pull)
    for Av, pull in product(ACCELERATIONS[1:], (-1, 0, 1)):
        results = shaken_by(Av, results_in(earthquake_pulls))
        fractions = [result for result in results
                     if weight_in_earthquake(result.sheet.tank.W, Av).denominator > 1]
        assert pull in exact_pulls(fractions), (Av, pull)


def check_readings_astray():
    """Each is told apart by pulls below 0 and above, as far as it is not right there, with each Av
    above 0; by a verdict on the strength, if pulls above 0 show it; and, where the weight is not
    the right one, by every sheet that is there with Av 0 and 500."""
    every = {**WEIGHED_ASTRAY, **ROUNDED_ASTRAY, **RIGHT_BELOW, **RIGHT_ABOVE}
    for (name, reading), Av in product(every.items(), ACCELERATIONS[1:]):
        apart = told_apart(reading, shaken_by(Av, results_in(earthquake_pulls)))
        assert name in RIGHT_BELOW or min(exact_pulls(apart)) < 0, (name, Av)
        assert name in RIGHT_ABOVE or max(exact_pulls(apart)) > 0, (name, Av)
    for name, reading in every.items():
        assert name in RIGHT_ABOVE \
            or any(turned(reading, result) for result in results_in(*LIGHTER_TANK)), name
    shaken = shaken_by(500, results_in(wind_pull_unmoved))
    for name, reading in WEIGHED_ASTRAY.items():
        assert told_apart(reading, shaken) == shaken, name


def judged_in(group):
    """Those that get a report."""
    results = (outcome(record).judged for record in group_records()[group.__name__])
    return [result for result in results if result.refusal is None]


def past_a_step(course):
    """How far its exact need is, in mils if they are whole, else in parts; these may be below 0."""
    if course.exact.denominator == 1:
        return course.exact % 5, "mils"
    return (course.exact - NEAREST(course.exact)) * course.parts, "parts"


def check_step_needs(tanks, most):
    """No need, the least and the largest; exact ones that are none to four mils past a step, and
    such as are off it by one part, below and above. None and others with an allowance that brings
    them to the floor, a mil short of it and a mil past it."""
    courses = [course for tank in tanks for course in tank]
    needs = {course.reported.need for course in courses}
    assert {0, 5} <= needs and max(needs) == most
    assert max(course.reported.required for course in courses) == most + 250
    kinds = Counter(map(past_a_step, courses))
    for kind in (*product(range(5), ("mils",)), (-1, "parts"), (1, "parts")):
        assert kinds[kind] >= 20, (kind, kinds[kind])
    past_floors = {(course.reported.need > 0,
                    course.reported.need + course.c - house_floor(course.D))
                   for course in courses}
    assert {*product((False, True), (-1, 0, 1))} <= past_floors


def check_steps():
    """Every report has the needs and required plates of S-7's words. By either method each other
    reading is told apart by many reports, and by many verdicts."""
    every = [courses_of(result) for group in GROUPS for result in judged_in(group)]
    assert told_by(need_points.RIGHT, every) == (0, 0)
    for method, most in ((D100, 6_660), (API_650, 6_555)):
        tanks = [courses_of(result) for group in IN_STEPS for result in judged_in(group)
                 if result.method == method]
        check_step_needs(tanks, most)
        for name, reading in ASTRAY.items():
            otherwise, turned = told_by(reading, tanks)
            assert otherwise >= 100 and turned >= 25, (name, method, otherwise, turned)


def check_plate_margin():
    """Half of it would not do, four mils would (see demand_3.py)."""
    found = {}
    for group in GROUPS:
        within_half = short_with_plate_margin(Fraction(5, 2), judged_in(group))
        assert not short_with_plate_margin(4, within_half)
        if within_half:
            found[group.__name__] = len(within_half)
    assert found == SHORT_WITHIN_HALF, found


def check_shares():
    """Of the random sheets: both words, both ways of standing, both opcodes, every count."""
    records = [record for group in RANDOM_SHEETS for record in group_records()[group.__name__]]
    results = [result.judged for result in map(outcome, records) if result.word == "accepted"]
    words = Counter(result.word() for result in results)
    ways = Counter(type(result.report.standing) for result in results)
    assert len(results) >= LEAST_RANDOM_SHEETS
    assert min(words["sound"], words["short"]) >= len(results) / 4
    assert min(ways[SelfAnchored], ways[Anchored]) >= len(results) / 3
    assert {record.opcode for record in records} == {MARK, JUDGE}
    assert {result.sheet.count for result in results} == {*range(1, MOST_COURSES + 1)}


def check_shares_by_method():
    """Of the sheets drawn for both: by each method both words, and many on which they differ."""
    cases = [tuple(map(outcome, case)) for case in random_by_both_methods()]
    assert len(cases) >= 400
    words = Counter(tuple(result.judged.word() for result in case) for case in cases)
    assert {*words} == {("sound", "sound"), ("short", "sound"), ("short", "short")}
    by_d100, differing = words["sound", "sound"], words["short", "sound"]
    for sound_ones in (by_d100, by_d100 + differing):
        assert len(cases) / 4 <= sound_ones <= len(cases) * 3 / 4
    assert differing >= len(cases) / 10
    assert {case[0].judged.sheet.count for case in cases} == {*range(1, MOST_COURSES + 1)}


def self_test():
    check_forms()
    check_lines()
    check_demand_3(all_outcomes())
    check_refusals()
    check_beside_writing(all_records(), all_outcomes())
    check_beside_d100(all_outcomes())
    check_sides(all_outcomes())
    check_pulls(all_outcomes())
    check_earthquake_pulls()
    check_readings_astray()
    check_steps()
    check_plate_margin()
    check_shares()
    check_shares_by_method()
