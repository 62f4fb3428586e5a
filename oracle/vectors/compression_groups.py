"""All groups of COMPRESSION and COMPRESSION_HELD, and the checks over all of them."""

from collections import Counter
from fractions import Fraction
from functools import cache
from itertools import product

from model import compression, judging
from model.compression import BRANCHES, CHART, MOST_ELASTIC, MOST_INELASTIC
from model.fields import FIELD_RANGES, NUMBER_OF
from model.filling_in import EMPTY
from model.judging import SelfAnchored
from model.refusals import D100, METHODS
from vectors.compression_cases import EXAMPLE, SELF, figures_on, outcome, resisting
from vectors.compression_current_sheet import (
    held_and_restated, held_beside_others, held_forged, held_in_orders, held_random_fills,
)
from vectors.compression_fields import (
    ENTRIES, allowances_told_apart, arguments_past_32_bits, branch_edges, chart_ends, example_cases,
    field_ends, many_entries, net_plates, other_courses, short_and_sound, whole_entries,
    with_effect, without_effect,
)
from vectors.compression_random import random_anchored, random_as_in_judging, random_self_anchored
from vectors.compression_readings import ASTRAY, read_as, read_astray
from vectors.compression_refusals import (
    by_both_methods, left_by_no_run, moments_unstated, no_methods, order_of_refusals,
)
from vectors.compression_stresses import (
    ALLOWED_NEARLY_WHOLE, ALLOWED_WHOLE, accelerations, allowed_whole, exactly_allowed,
    lift_boundaries, stress_at_allowed, stress_of_weight, stress_whole,
)
from vectors.record_answers import outcomes
from vectors.records import (
    ASKING, COMPRESSION, COMPRESSION_HELD, ask, ask_held, in_turn, judge, record_as_bytes,
)
from vectors.script_checks import check_outcomes
from vectors.scripts import records_by_name

LEAST_RANDOM_SHEETS = 2_000
MOST_RECORDS = 4_500

# --- All groups ---------------------------------------------------------------

SCRIPTS = (held_in_orders, held_and_restated, held_beside_others, held_forged, held_random_fills)
RANDOM_SHEETS = (random_self_anchored, random_anchored, random_as_in_judging)
GROUPS = (
    example_cases, branch_edges, many_entries, whole_entries, chart_ends, arguments_past_32_bits,
    net_plates, allowances_told_apart, field_ends, without_effect, with_effect, other_courses,
    short_and_sound, stress_whole, stress_of_weight, accelerations, allowed_whole,
    stress_at_allowed, exactly_allowed, lift_boundaries,
    order_of_refusals, moments_unstated, no_methods, left_by_no_run, by_both_methods,
    *RANDOM_SHEETS,
)


@cache
def group_records():
    """Name of the group to its records."""
    return {**records_by_name(SCRIPTS),
            **{group.__name__: list(group()) for group in GROUPS}}


def all_records():
    return in_turn(group_records())


@cache
def all_outcomes():
    return list(outcomes(all_records()))


def counted(words):
    """How many are answered with yes, answered with no and refused."""
    kinds = Counter(word.split()[-1] if word.startswith("stress") else "refused" for word in words)
    return ", ".join(f"{kinds[kind]} {kind}" for kind in ("yes", "no", "refused"))


# --- Self test, over all vectors ----------------------------------------------


def asked_in(*groups):
    """What the records of these groups ask, or those of all."""
    by_name = group_records()
    names = [group.__name__ for group in groups] or by_name
    return [outcome(record).asked for name in names for record in by_name[name]
            if record.opcode == COMPRESSION]


def answered_in(*groups):
    return [asked for asked in asked_in(*groups) if asked.refusal is None]


def figures_in(*groups):
    return [figures_on(asked.sheet) for asked in answered_in(*groups)]


def all_asked():
    """Of all records, those that ask about the current sheet too."""
    return [result.asked for result in all_outcomes() if result.asked is not None]


def check_forms():
    """The records and lines, spelled out: the length of a payload, 4 x 80 bytes, is typed by hand,
    for the layout is what is checked here."""
    assert record_as_bytes(ask_held()) == b"\x0c\0\4\0\0\0\1"
    assert ask(EXAMPLE, 2) == (COMPRESSION, judge(EXAMPLE, 2).payload)
    assert record_as_bytes(ask(EXAMPLE))[:3] == b"\x0b\x01\x40"
    assert (COMPRESSION, COMPRESSION_HELD) == ASKING == (11, 12)
    assert outcome(ask(EXAMPLE)).line() == "stress 187 allowed 11113 holds yes"
    assert outcome(ask(SELF, 2)).line() == "stress 187 allowed 13632 holds yes"
    assert outcome(ask(EMPTY)).line() == "refused 32"
    assert len(all_records()) <= MOST_RECORDS


def check_replies():
    """Of every sheet that is answered: rounded on the safe side by less than a psi, never above the
    printed equations, as whole numbers have it, and the same by either method."""
    for asked in all_asked():
        if asked.refusal is None:
            figures = figures_on(asked.sheet)
            assert compression.safely_rounded(figures, asked.reply), asked
            assert compression.within_printed(figures, asked.reply), asked
            assert compression.same_in_whole_numbers(figures, asked.reply), asked
            by_d100, by_api_650 = (compression.ask(asked.sheet, method) for method in METHODS)
            assert by_d100 == by_api_650, asked


def check_beside_judging():
    """Refused as in judging, or 43, which judging answers with a lift that is not none; judging a
    sheet goes as if it had not been asked about."""
    for asked in all_asked():
        refusal, report = judging.judge(asked.sheet, asked.method)
        if asked.refusal == (43, 0):
            assert refusal is None and report.standing.lift in ("lift", "over")
        else:
            assert asked.refusal == refusal
            lifts = isinstance(report.standing, SelfAnchored) and report.standing.lift
            assert refusal is not None or lifts in (False, "none")


def check_held():
    """The line of the current sheet is that of the same sheet handed in."""
    for record, result in zip(all_records(), all_outcomes(), strict=True):
        if record.opcode == COMPRESSION_HELD:
            assert result.line() == outcome(ask(result.sheet, result.asked.method)).line()
    opcodes = [record.opcode for record in all_records()]
    held_lines = [result.word for record, result in zip(all_records(), all_outcomes(), strict=True)
                  if record.opcode == COMPRESSION_HELD]
    numbers = {word for word in held_lines if word.startswith("refused")}
    assert numbers == {f"refused {number}" for number in (30, 42, 32, 35, 36, 38, 37, 43)}
    assert sum(word.startswith("stress") for word in held_lines) >= 80
    assert {*range(13)} == {*opcodes}


def check_branches():
    """By both ways of standing: each edge at equality and, as close as t or D can be, past it."""
    found = figures_in(branch_edges)
    for anchored in (False, True):
        of_way = [one for one in found if one.anchored == anchored]
        assert {one.branch() for one in of_way} == {*BRANCHES}
        for edge in (MOST_ELASTIC, MOST_INELASTIC):
            off = sorted({compression.slenderness(one.t, one.D) - edge for one in of_way})
            place = off.index(0)
            assert 0 < off[place + 1] < edge / 10_000 and 0 < -off[place - 1] < edge / 10_000
    at = [asked for asked in answered_in(branch_edges)
          if (asked.sheet.tank.D, figures_on(asked.sheet).t) == (125_000, 1_943)]
    apart = [asked for asked in at
             if read_astray(asked, **ASTRAY["equality inelastic"]) != asked.reply.stresses()]
    greatest = compression.stress(10**7, 500, 10**9, 125_000, 1_943)
    assert greatest < compression.allowed(1_943, 125_000, 0)
    assert len(apart) >= 4 and not any(figures_on(asked.sheet).anchored for asked in apart)


def check_chart():
    """Whole arguments with those just below; both ends; 0.0640 exactly, just past it and far past
    it; and places that 32 bits do not hold."""
    whole = {10_000 * one.exact_argument(): one for one in figures_in(whole_entries)
             if not one.anchored}
    entries = [int(argument) for argument in whole if argument.denominator == 1]
    assert len(entries) >= 50 and min(entries) <= 10 and 640 in entries
    for i in entries:
        below = [argument for argument in whole if i - 1 < argument < i]
        assert below and max(below) > i - Fraction(1, 2), i
        assert whole[max(below)].coefficient() < whole[i].coefficient() == CHART[i]
    self_ones = [one for one in figures_in(chart_ends, many_entries) if not one.anchored]
    places = Counter(one.argument() for one in self_ones)
    assert {0, *ENTRIES, 639, 640, 641} <= {*places} and max(places) > 2**33
    arguments = [one.exact_argument() for one in self_ones]
    last = Fraction("0.0640")
    assert arguments.count(last) >= 4 and min(arguments) < Fraction("0.0001")
    assert any(0 < argument - last < last / 10_000 for argument in arguments)
    assert any(0 < last - argument < last / 10_000 for argument in arguments)
    assert {one.coefficient() for one in self_ones if one.exact_argument() > last} == {7_153}
    past = [one.argument() for one in figures_in(arguments_past_32_bits)]
    assert sum(i > 2**32 and i % 2**32 < 640 for i in past) >= 10


def check_plates():
    found = figures_in(net_plates)
    for anchored in (False, True):
        nets = {one.t for one in found if one.anchored == anchored}
        assert {1, 2, 100, 1_750, 2_000} <= nets
    for asked in answered_in(allowances_told_apart):
        shell = asked.sheet.courses[:asked.sheet.count]
        lefts = [slot.t - slot.c for slot in shell]
        assert len({asked.sheet.tank.allowance, *(slot.c for slot in shell)}) > 5
        assert len({*lefts}) > 5 and lefts[0] == figures_on(asked.sheet).t


GREATEST_WITHOUT_LIFT = 721_617_844        # D, H, W, tb and Fy at their greatest, Av 0


def check_ends():
    """Of every field that plays a part both ends, by both ways of standing."""
    for anchored in (False, True):
        found = [one for one in figures_in() if one.anchored == anchored]
        for name in ("W", "Av", "D", "H"):
            ends = {*FIELD_RANGES[NUMBER_OF[name]]}
            assert ends <= {getattr(one, name) for one in found}, name
        assert {1, 2_000} <= {one.t for one in found}
        # without lift no moment is as great as the field's greatest
        assert {0, 10**9 if anchored else GREATEST_WITHOUT_LIFT} <= {one.Ms for one in found}


def check_stresses():
    """Whole, and off it by the least that there is, less and more; by weight alone as well."""
    for group, anchored in ((stress_whole, True), (stress_of_weight, False)):
        found = figures_in(group)
        assert {one.anchored for one in found} == {anchored}
        exact = [one.exact_stress() for one in found]
        assert sum(stress.denominator == 1 for stress in exact) >= 20
        if group is stress_whole:
            off = [stress - round(stress) for stress in exact]
            for side in (1, -1):
                assert sum(0 < side * one < Fraction(1, 10_000) for one in off) >= 20
                assert min(side * one for one in off if side * one > 0) < Fraction(1, 10**9)
    for Av in (0, 1, 500):
        assert sum(one.exact_stress().denominator == 1 for one in figures_in(stress_whole)
                   if one.Av == Av) >= 5
    still = {one.Av for one in figures_in(accelerations) if one.Ms == 0}
    assert {0, 1, 500} <= still


def check_allowed():
    for way, points in ALLOWED_WHOLE.items():
        for D, H, t in points:
            assert figures_on(way(D, H, t)).exact_allowed().denominator == 1, (D, H, t)
    sides = Counter()
    for way, points in ALLOWED_NEARLY_WHOLE.items():
        for D, H, t in points:
            figures = figures_on(way(D, H, t))
            exact = figures.exact_allowed()
            off = exact - round(exact)
            assert 0 < abs(off) < Fraction(1, 10**6), (D, H, t)
            sides[way, figures.branch(), off > 0] += 1
    assert len(sides) == 10         # a plastic one without help is 19,995


def check_equality():
    """Stress and allowed stress the same, and one apart, by both ways and on every branch; and both
    exact, and the same."""
    gaps = Counter((figures_on(asked.sheet).anchored, figures_on(asked.sheet).branch(),
                    asked.reply.stress - asked.reply.allowed)
                   for asked in answered_in(stress_at_allowed))
    for anchored, branch, gap in product((False, True), BRANCHES, (0, 1)):
        assert gaps[anchored, branch, gap] >= 1, (anchored, branch, gap, gaps)
    for asked in answered_in(stress_at_allowed):
        assert asked.reply.holds == (asked.reply.stress == asked.reply.allowed)
    exact = [one.exact_stress() - one.exact_allowed() for one in figures_in(exactly_allowed)]
    assert exact.count(0) == 4 and all(abs(gap) < 1 for gap in exact)


def check_lift():
    """At equality none, 1,000 Ms being 785 T, with several T; 43 a foot-pound past it and past
    1.54 T."""
    equal = Counter()
    for asked in asked_in(lift_boundaries):
        Ms = asked.sheet.site.Ms
        if asked.sheet.anchors.N == 0:
            T = resisting(asked.sheet)
            assert (asked.refusal is None) == (1_000 * Ms <= 785 * T)
            equal[1_000 * Ms - 785 * T == 0, 1_000 * (Ms - 1) - 785 * T == 0,
                  1_000 * Ms > 1_540 * T] += 1
        else:
            assert asked.refusal is None
    assert equal[True, False, False] >= 8 and equal[False, True, False] >= 8
    assert equal[False, False, True] >= 10


def check_refusals():
    """All that judging has, and 43; each alone and before each later one."""
    numbers = {asked.refusal[0] for asked in all_asked() if asked.refusal is not None}
    assert numbers == {30, 42, 32, 35, 36, 38, 37, 43}
    lifts = Counter(judging.report_of(asked.sheet, D100).standing.lift
                    for asked in all_asked() if asked.refusal == (43, 0))
    assert min(lifts["lift"], lifts["over"]) >= 20


def check_words():
    """Sheets called sound and short, by both ways of standing, with a yes and with a no."""
    kinds = Counter((judging.word(judging.report_of(asked.sheet, asked.method)),
                     figures_on(asked.sheet).anchored, asked.reply.holds)
                    for asked in answered_in())
    for kind in product(("sound", "short"), (False, True), (False, True)):
        assert kinds[kind] >= 10, (kind, kinds)


# At the one equality no load that the ranges have brings the stress near the allowed one.
NEVER_TURNED = ("equality inelastic",)


def check_readings_astray():
    """The right one is that of every reply; each other one is told apart by several that are not
    drawn at random, by yes and no as well."""
    assert all(read_as(asked.sheet) == asked.reply.stresses() for asked in answered_in())
    answers = answered_in(*(group for group in GROUPS if group not in RANDOM_SHEETS))
    for name, parts in ASTRAY.items():
        readings = [(asked, read_astray(asked, **parts)) for asked in answers]
        apart = [asked for asked, reading in readings if reading != asked.reply.stresses()]
        turned = [asked for asked, (stress, allowed) in readings
                  if (stress <= allowed) != asked.reply.holds]
        assert len(apart) >= 4, (name, len(apart))
        assert turned or name in NEVER_TURNED, name


def parts_of_chart(i):
    """0, the four quarters of the chart and past it."""
    return "0" if i == 0 else "past" if i > 640 else f"{(i - 1) // 160 * 160 + 1}.."


def random_self_ones():
    """Figures of the random self-anchored sheets that are answered."""
    return [one for one in figures_in(random_self_anchored) if not one.anchored]


def shares():
    """Of the random self-anchored sheets: refused 43, answered, by branch, by part of the chart."""
    found = random_self_ones()
    lifted = len(asked_in(random_self_anchored)) - len(found)
    branches = Counter(one.branch() for one in found)
    parts = Counter(parts_of_chart(one.argument()) for one in found)
    by_branch = ", ".join(f"{branches[name]} {name}" for name in BRANCHES)
    by_part = ", ".join(f"{parts[name]} at {name}" for name in sorted(parts))
    return f"{len(found)} answered, {lifted} refused 43; {by_branch}; entries: {by_part}"


def check_shares():
    """Of the random sheets: both ways, yes and no, every branch, every part of the chart, every
    count of courses."""
    asked = asked_in(*RANDOM_SHEETS)
    assert len(asked) >= LEAST_RANDOM_SHEETS
    by_self = [one for one in asked_in(random_self_anchored) if one.refusal != (37, 0)]
    assert {one.refusal for one in by_self} == {None, (43, 0)}
    found = random_self_ones()
    assert len(found) >= len(by_self) / 2 and len(by_self) - len(found) >= 100
    branches = Counter(one.branch() for one in found)
    assert min(branches[name] for name in BRANCHES) >= 100, branches
    parts = Counter(parts_of_chart(one.argument()) for one in found)
    assert len(parts) == 6 and min(parts.values()) >= 5, parts
    assert min(count for part, count in parts.items() if part != "0") >= 50, parts
    for group in (random_self_anchored, random_anchored):
        holds = Counter(one.reply.holds for one in answered_in(group))
        assert min(holds.values()) >= sum(holds.values()) / 5, holds
        gaps = [one.reply.stress - one.reply.allowed for one in answered_in(group)]
        assert sum(abs(gap) <= 2 for gap in gaps) >= 100
    assert {one.sheet.count for one in answered_in(*RANDOM_SHEETS)} == {*range(1, 13)}
    assert Counter(one.branch() for one in figures_in(random_anchored)).keys() == {*BRANCHES}


def self_test():
    check_forms()
    check_outcomes(all_records(), all_outcomes())
    check_replies()
    check_beside_judging()
    check_held()
    check_branches()
    check_chart()
    check_plates()
    check_ends()
    check_stresses()
    check_allowed()
    check_equality()
    check_lift()
    check_refusals()
    check_words()
    check_readings_astray()
    check_shares()
