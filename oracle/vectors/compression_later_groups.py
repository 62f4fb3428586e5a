"""The groups of COMPRESSION that came after the cases that people can read, and are stored after
them; and the checks over them.
"""

from collections import Counter
from functools import cache, partial
from itertools import product

from model import compression, judging
from model.compression import BRANCHES
from model.refusals import D100, METHODS
from vectors.compression_cases import figures_on, outcome
from vectors.compression_liquor import (
    ASTRAY, arguments_past_64_bits, entries_in_liquor, example_in_liquor, lift_by_gravity_alone,
    order_in_liquor, place_in_64_bits, place_read, random_in_liquor, stress_at_allowed_in_liquor,
    told_apart, whole_entries_in_liquor,
)
from vectors.records import in_turn

GROUPS = (
    example_in_liquor, lift_by_gravity_alone, entries_in_liquor, whole_entries_in_liquor,
    arguments_past_64_bits, stress_at_allowed_in_liquor, order_in_liquor, random_in_liquor,
)


@cache
def group_records():
    """Name of the group to its records."""
    return {group.__name__: list(group()) for group in GROUPS}


def all_records():
    return in_turn(group_records())


@cache
def all_outcomes():
    return [outcome(record) for record in all_records()]


# --- Self test, over all of these ---------------------------------------------


def asked_in(*groups):
    return [outcome(record).asked for group in groups for record in group_records()[group.__name__]]


def answered_in(*groups):
    return [asked for asked in asked_in(*groups) if asked.refusal is None]


def check_replies():
    """As compression_groups.py has them, with gravity in the exact argument."""
    for asked in answered_in(*GROUPS):
        figures = figures_on(asked.sheet)
        assert compression.safely_rounded(figures, asked.reply), asked
        assert compression.within_printed(figures, asked.reply), asked
        assert compression.same_in_whole_numbers(figures, asked.reply), asked
        by_d100, by_api_650 = (compression.ask(asked.sheet, method) for method in METHODS)
        assert by_d100 == by_api_650, asked


def check_refusals():
    """Judge's own, and 43 by a lift; many by either lift."""
    for asked in asked_in(*GROUPS):
        refusal, report = judging.judge(asked.sheet, asked.method)
        if asked.refusal == (43, 0):
            assert refusal is None and report.standing.lift in ("lift", "over")
        else:
            assert asked.refusal == refusal
    numbers = Counter(asked.refusal and asked.refusal[0] for asked in asked_in(*GROUPS))
    assert min(numbers[number] for number in (30, 37, 38, 42)) >= 1 and numbers[43] >= 30, numbers


def check_readings_astray():
    """Each is told apart by many that are not drawn at random; a product of 64 bits, too."""
    answers = answered_in(*(group for group in GROUPS if group is not random_in_liquor))
    for name in ASTRAY:
        assert len(told_apart(answers, partial(place_read, name))) >= 10, name
    assert len(told_apart(answers, place_in_64_bits)) >= 10
    places = Counter(figures_on(asked.sheet).argument() for asked in answers)
    assert {0, 639, 640, 641} <= {*places} and max(places) > 2**33


def check_lift_by_gravity():
    """The same moment with and without 43."""
    by_moment = {}
    for asked in asked_in(lift_by_gravity_alone):
        by_moment.setdefault(asked.sheet.site.Ms, set()).add(asked.refusal)
    assert sum(refusals == {None, (43, 0)} for refusals in by_moment.values()) >= 5
    assert {judging.report_of(asked.sheet, D100).standing.lift
            for asked in answered_in(lift_by_gravity_alone)} == {"none"}


def check_equality():
    """Stress and allowed stress the same, and one apart, by both ways and on every branch."""
    gaps = Counter((figures_on(asked.sheet).anchored, figures_on(asked.sheet).branch(),
                    asked.reply.stress - asked.reply.allowed)
                   for asked in answered_in(stress_at_allowed_in_liquor))
    for kind in product((False, True), BRANCHES, (0, 1)):
        assert gaps[kind] >= 1, (kind, gaps)


def self_test():
    check_equality()
    check_replies()
    check_refusals()
    check_readings_astray()
    check_lift_by_gravity()
