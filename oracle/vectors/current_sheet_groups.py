"""All groups of JUDGE_HELD, sheets filled in by steps, read or forged and judged as they stand, and
the checks over all of them.
"""

from collections import Counter
from functools import cache
from itertools import cycle, permutations, product
from random import Random

from model import example, sheet_bytes
from model.filling_in import EMPTY, NO_COURSE, run_to, sheet_of
from model.refusals import API_650, D100, METHODS
from model.sheet_bytes import bytes_as_figures, write_refusal
from vectors import judge_cases
from vectors.current_sheet_scripts import (
    BETWEEN, CALM, EXAMPLE, LEFT_OUT, LETTERS, NEXT_COURSE, NO_ANCHORS, SAID, SELF, SELF_BYTES,
    SELF_SAID, SIX_ANCHORS, SIX_SAID, accepted_steps, anchored_report, from_empty,
    judged_after_each, judged_by_methods, refused_anchors, said_briefly, says, self_report,
)
from vectors.judge_cases import (
    GROWER, changed, course_changed, outcome, self_anchored, with_courses, with_widths,
)
from vectors.judge_checks import (
    check_beside_d100, check_beside_writing, check_demand_3, check_sides,
)
from vectors.leaf_points import NO_METHODS
from vectors.random_sheets import anchored_sheet, self_anchored_sheet
from vectors.record_answers import outcomes
from vectors.records import (
    JUDGE_HELD, MOST_BUFFER, OPENING, READ, STEPS, anchors, course, figures_record, forge, in_turn,
    judge, judge_held, mark, new, read, record_as_bytes, site, tank, write,
)
from vectors.script_checks import check_outcomes
from vectors.scripts import (
    U32_MOST, records_by_name, step_record, unstated, with_anchors, with_outside, with_plate,
    with_slot, write_for, write_word,
)
from vectors.start_sheets import ALMOST_BLANK, EXAMPLE_BYTES, FULL_BYTES, FULL_COURSES, LOW_COURSE
from vectors.steps_orders import BYTES_ORDER, damaged
from vectors.steps_random import drawn_site, random_run
from vectors.version_1 import sheet_as_bytes

LEAST_REPORTS = 250     # of JUDGE_HELD

# --- Groups: filled in step by step -------------------------------------------


def left_out_then_stated():
    """N = 0, then anchors, or the other way round; from then on they stay stated."""
    both = (NO_ANCHORS, SIX_ANCHORS)
    for (order, briefs), (first, last) in zip(LEFT_OUT, cycle((both, both[::-1]))):
        as_it_is, calm, higher = SAID[last]
        yield judged_after_each(
            *from_empty(order, briefs), (first, "ok", SAID[first][0]), (last, "ok", as_it_is),
            *refused_anchors(as_it_is), (CALM, "ok", calm), (NEXT_COURSE, "ok", higher))


def left_out_to_the_end():
    """38, whatever else is stated, refused or written."""
    later = (
        (tank(example.TANK), "refused 31"),
        (site(with_outside(example.SITE, 7)), "refused 16 7"), (CALM, "ok"),
        (course(with_plate(example.COURSES[0], 250, 250)), "refused 17"),
        (write_for(3, 1), "refused 38"), (write(0, 2), "refused 38"),
        *[(NEXT_COURSE, "ok")] * 5, (NEXT_COURSE, "refused 34"), (write_for(12, 3), "refused 38"),
    )
    for order, briefs in (LEFT_OUT[0], LEFT_OUT[3], LEFT_OUT[8]):
        yield judged_after_each(
            *from_empty(order, briefs), *refused_anchors("refused 38"),
            *((record, word, "refused 38") for record, word in later))


def stated_between():
    for order, briefs in BETWEEN:
        yield judged_after_each(*from_empty(order, briefs))


def twelve_courses():
    """No two of them alike, and half as high as the example: a quarter of its M."""
    courses = [one._replace(width=1_200) for one in FULL_COURSES]
    stated = anchored_report("2123 18343", "-841 -191", 12)
    yield judged_after_each(
        (new(), "held", "refused 32"),
        (tank(example.TANK._replace(H=14_400)), "ok", "refused 35"),
        (site(example.SITE), "ok", "refused 35"),
        *((course(figures), "ok", "refused 38") for figures in courses),
        (course(LOW_COURSE), "refused 33", "refused 38"),
        (NO_ANCHORS, "ok", self_report("2123 18343", "holds", "68104 none", 12)),
        (SIX_ANCHORS, "ok", stated), (course(LOW_COURSE), "refused 33", stated))


def water_above_shell():
    """Up to the last course, which is 37 only once anchors are stated."""
    for H, n, by_six, by_none in (
            (28_801, 4, anchored_report("2123 130438", "5218 -191", 4),
             self_report("2123 130438", "short", "94648 none", 4)),
            (76_800, 8, anchored_report("2123 521749", "26370 -191", 8, strength="short"),
             self_report("2123 521749", "short", "183120 none", 8))):
        filled = ((new(), "held", "refused 32"),
                  (tank(example.TANK._replace(H=H)), "ok", "refused 35"),
                  (site(example.SITE), "ok", "refused 35"),
                  *[(NEXT_COURSE, "ok", "refused 38")] * (n - 1))
        yield judged_after_each(
            *filled, *refused_anchors("refused 38"), (NO_ANCHORS, "ok", "refused 37"),
            (SIX_ANCHORS, "ok", "refused 37"), *refused_anchors("refused 37"),
            (CALM, "ok", "refused 37"), (site(example.SITE), "ok", "refused 37"),
            (NEXT_COURSE, "ok", by_six), (NO_ANCHORS, "ok", by_none))
        yield judged_after_each(*filled, (NEXT_COURSE, "ok", "refused 38"),
                                (NO_ANCHORS, "ok", by_none), (SIX_ANCHORS, "ok", by_six))


# --- Groups: read -------------------------------------------------------------

READABLE = {    # bytes, and what is said of them
    EXAMPLE_BYTES: SIX_SAID,
    SELF_BYTES: SELF_SAID,
    sheet_as_bytes(judge_cases.SELF): self_report("2123 73371", "holds", "122400 none", 3),
    sheet_as_bytes(changed(EXAMPLE, B=22_919)):
        anchored_report("2123 73371", "728 -766", 3, spacing="short"),
    sheet_as_bytes(changed(EXAMPLE, H=28_801)): "refused 37",
    sheet_as_bytes(changed(SELF, H=76_800)): "refused 37",
    FULL_BYTES: "accepted sound",
}


def read_then_judged():
    """Over an empty sheet, over one with its anchors unstated, over one that no run leaves, and
    over one that was read."""
    for content, said in READABLE.items():
        turn = (read(content), "ok", said)
        yield judged_after_each((new(), "held", "refused 32"), turn)
        yield judged_after_each((forge(unstated(EXAMPLE)), "held", "refused 38"), turn)
        yield judged_after_each((forge(EXAMPLE._replace(count=4)), "held", "refused 30"), turn,
                                (new(), "held", "refused 32"))
    for pair in permutations(list(READABLE.items())[:4], 2):
        yield judged_after_each(*((read(content), "ok", said) for content, said in pair))


def read_then_restated():
    """Site, anchors and a course on a sheet that was read; it is written, and read again."""
    tank_again = tank(example.TANK)
    no_site = site(with_outside(example.SITE, 11))
    for content, stated, other in ((EXAMPLE_BYTES, SIX_ANCHORS, NO_ANCHORS),
                                   (SELF_BYTES, NO_ANCHORS, SIX_ANCHORS)):
        as_it_is, calm, higher = SAID[stated]
        by_other, calm_by_other, _higher = SAID[other]
        opening = (read(content), "ok", as_it_is)
        restated = changed(sheet_bytes.read(content).sheet, V=96)
        yield judged_after_each(
            opening, (CALM, "ok", calm), (write_for(3, 1), write_word(3), calm),
            (read(sheet_as_bytes(restated)), "ok", calm))
        yield judged_after_each(
            opening, (write_for(3, 2), write_word(3), as_it_is),
            (tank_again, "refused 31", as_it_is),
            (no_site, "refused 16 11", as_it_is), *refused_anchors(as_it_is),
            (write_for(3, 3, -1), "refused 19", as_it_is), (CALM, "ok", calm),
            (NEXT_COURSE, "ok", higher), (write_for(4, 4), write_word(4), higher))
        yield judged_after_each(
            opening, (other, "ok", by_other), (write_for(3, 5, 30), write_word(3, 30), by_other),
            (stated, "ok", as_it_is), (write_for(3, 6), write_word(3), as_it_is),
            (CALM, "ok", calm),
            (other, "ok", calm_by_other))


def reading_refused():
    """It leaves the empty sheet, whose anchors are unstated, whatever was read before."""
    before = cycle(((EXAMPLE_BYTES, SIX_SAID), (SELF_BYTES, SELF_SAID)))
    for damage, (content, said) in zip(BYTES_ORDER, before):
        word, _change = damage
        yield judged_after_each((read(content), "ok", said),
                                (damaged((damage,)), word, "refused 32"),
                                (NO_ANCHORS, "refused 32", "refused 32"))
    for content, word in ((b"", "refused 11"), (EXAMPLE_BYTES[:-1], "refused 11"),
                          (EXAMPLE_BYTES + b"\0", "refused 12")):
        yield judged_after_each((read(EXAMPLE_BYTES), "ok", SIX_SAID),
                                (read(content), word, "refused 32"),
                                *accepted_steps("tsccc0", "35 35 38 38 38 0"))


# --- Groups: forged -----------------------------------------------------------


def left_by_no_run():
    """With the anchors stated and unstated, as far as they are not what is wrong."""
    for sheet in (EXAMPLE, unstated(EXAMPLE), changed(SELF, H=28_801)):
        for count in (0, 2, 4, 12, 13, 256 + 3, U32_MOST):
            yield sheet._replace(count=count)
        yield with_slot(sheet, 3, LOW_COURSE)
        yield with_slot(sheet, 11, ALMOST_BLANK)
        yield with_slot(sheet, 1, NO_COURSE)
        yield sheet._replace(tank=None)
        yield changed(sheet, allowance=250)
        yield course_changed(sheet, 3, c=250)
        yield sheet._replace(site=with_outside(example.SITE, 9))
        yield changed(sheet, D=11_999)
        yield with_widths(sheet, [14_400] * 5 + [4_801])
    for figures in ((5, 14_800, 8), (6, 14_399, 8), (6, 14_800, 13), (0, 0, 8), (0, 14_800, 0)):
        yield with_anchors(EXAMPLE, figures)
        yield with_anchors(EXAMPLE, figures)._replace(site=None)
    for part in ("site", "anchors"):
        yield EMPTY._replace(**{part: getattr(SELF, part)})
    yield EMPTY._replace(count=1)
    yield with_slot(EMPTY, 0, LOW_COURSE)


def forged_by_no_run():
    """30, and a step or a write that is refused for it leaves it so; reading does away with it."""
    steps = cycle((tank(example.TANK), site(example.SITE), NO_ANCHORS, SIX_ANCHORS, NEXT_COURSE,
                   write(MOST_BUFFER, 1), write(0, 2)))
    for sheet, step in zip(left_by_no_run(), steps):
        yield judged_after_each((forge(sheet), "held", "refused 30"),
                                (step, "refused 30", "refused 30"))
    yield judged_after_each((forge(EXAMPLE._replace(count=4)), "held", "refused 30"),
                            (read(b""), "refused 11", "refused 32"),
                            (forge(EXAMPLE._replace(count=2)), "held", "refused 30"),
                            (read(EXAMPLE_BYTES), "ok", SIX_SAID),
                            (forge(EXAMPLE._replace(tank=None)), "held", "refused 30"),
                            (new(), "held", "refused 32"))


def forged_then_filled_in():
    """A run leaves these; the steps go on from there."""
    tank_only = sheet_of(example.TANK, None, None, ())
    no_course = tank_only._replace(site=example.SITE)
    two_courses = with_courses(EXAMPLE, example.COURSES[:2])
    for sheet, brief, order, briefs in (
            (EMPTY, "32", "tsc6cc", "35 35 38 37 37 6"),
            (tank_only, "35", "cs6cc", "36 38 37 37 6"), (no_course, "35", "c0cc", "38 37 37 0"),
            (self_anchored(tank_only), "35", "cscc", "36 37 37 0"),
            (self_anchored(no_course), "35", "ccc", "37 37 0"),
            (unstated(EXAMPLE)._replace(site=None), "36", "s0", "38 0"),
            (EXAMPLE._replace(site=None), "36", "s", "6"), (unstated(EXAMPLE), "38", "06", "0 6"),
            (unstated(two_courses), "38", "6c", "37 6"), (two_courses, "37", "0c", "37 0"),
            (EXAMPLE, "6", "0", "0"), (SELF, "0", "6s", "6 6")):
        yield judged_after_each((forge(sheet), "held", said_briefly(brief)),
                                *accepted_steps(order, briefs))


# --- Groups: other sheets judged between --------------------------------------


def judged_beside_others():
    """What MARK and JUDGE are handed, and how it fares, is nothing to the current sheet; nor is
    its own judging."""
    others = ((mark(SELF_BYTES), "accepted"), (judge(SELF), "accepted"),
              (mark(EXAMPLE_BYTES), "accepted"), (judge(EXAMPLE), "accepted"),
              (judge(unstated(EXAMPLE)), "refused 38"), (mark(EXAMPLE_BYTES[:-1]), "refused 11"),
              (judge(EXAMPLE._replace(count=4)), "refused 30"),
              (judge(EMPTY), "refused 32"))
    for opening, word, answer, said in (
            (read(EXAMPLE_BYTES), "ok", "accepted", SIX_SAID),
            (read(SELF_BYTES), "ok", "accepted", SELF_SAID),
            (new(), "held", "refused 32", "refused 32"),
            (forge(unstated(EXAMPLE)), "held", "refused 38", "refused 38"),
            (forge(EXAMPLE._replace(count=4)), "held", "refused 30", "refused 30"),
            (forge(changed(EXAMPLE, H=28_801)), "held", "refused 37", "refused 37")):
        yield judged_after_each((opening, word, said),
                                *((record, other, said) for record, other in others),
                                (judge_held(), answer, said))


# --- The grower's tank, which is sound by API 650 alone -----------------------

GROWER_BYTES = sheet_as_bytes(GROWER)
GROWER_LETTERS = {**LETTERS, "t": tank(GROWER.tank), "c": course(GROWER.courses[0])}
GROWER_STANDS = {   # by the letter of its anchors
    "6": "wind 2123 73371 anchored 909 -1402 holds .. holds .. uses .. .. courses 3",
    "0": "wind 2123 73371 self holds .. 122400 none holds .. uses .. .. courses 3",
}
GROWER_WORDS = {    # and by the method, before that and after it
    D100: ("accepted short", "| 55 193 188 short .. | 35 188 188 holds .. | 20 188 188 holds"),
    API_650: ("accepted sound", "| 50 188 188 holds .. | 35 188 188 holds .. | 15 188 188 holds"),
}


def grower_said(brief, method):
    """30 goes before 42, and 42 before every other refusal."""
    if brief == "30":
        return "refused 30"
    if method not in METHODS:
        return "refused 42"
    if brief not in GROWER_STANDS:
        return f"refused {brief}"
    before, after = GROWER_WORDS[method]
    return f"{before} {GROWER_STANDS[brief]} {after}"


def in_many_orders():
    """Without end: what a brief says by both methods and by a number that is none, asked in one
    order after the other."""
    orders = cycle(permutations((0, 1, 2)))
    for number, order in zip(cycle(NO_METHODS), orders):
        numbers = (*METHODS, number)
        methods = [numbers[place] for place in order]
        yield lambda brief, methods=methods: {one: grower_said(brief, one) for one in methods}


# --- Groups: by either method, and by none ------------------------------------


def filled_in_by_methods():
    """Whatever it is judged by, the sheet goes on as it was."""
    for (order, briefs), said in zip((*LEFT_OUT[::4], *BETWEEN[::2]), in_many_orders()):
        yield judged_by_methods(*from_empty(order, briefs, GROWER_LETTERS, said))


def restated_by_methods():
    """Read or forged, then written, refused and stated again."""
    openings = ((read(GROWER_BYTES), "ok"), (forge(GROWER), "held"))
    for (opening, word), said in zip(openings, in_many_orders()):
        yield judged_by_methods(
            (opening, word, said("6")), (write_for(3, 1), write_word(3), said("6")),
            (NO_ANCHORS, "ok", said("0")), (write_for(3, 2, -1), "refused 19", said("0")),
            (anchors((6, 14_399, 8)), "refused 18", said("0")),
            (tank(GROWER.tank), "refused 31", said("0")), (SIX_ANCHORS, "ok", said("6")),
            (site(with_outside(example.SITE, 7)), "refused 16 7", said("6")),
            (write_for(3, 3), write_word(3), said("6")), (read(b""), "refused 11", said("32")))


def forged_by_methods():
    tank_only = sheet_of(GROWER.tank, None, None, ())
    for (sheet, brief), said in zip((
            (EMPTY, "32"), (tank_only, "35"), (tank_only._replace(site=GROWER.site), "35"),
            (self_anchored(tank_only), "35"), (GROWER._replace(site=None), "36"),
            (unstated(GROWER)._replace(site=None), "36"), (unstated(GROWER), "38"),
            (unstated(changed(GROWER, H=28_801)), "38"), (changed(GROWER, H=28_801), "37"),
            (GROWER, "6"), (self_anchored(GROWER), "0"), (GROWER._replace(count=4), "30"),
            (GROWER._replace(tank=None), "30"), (changed(GROWER, D=11_999), "30"),
            (with_slot(unstated(GROWER), 11, LOW_COURSE), "30"),
            (EMPTY._replace(site=GROWER.site), "30")), in_many_orders()):
        yield judged_by_methods((forge(sheet), "held", said(brief)))


def methods_in_turn():
    """The method of one question is nothing to the next, whichever sheet it is about; bytes are
    judged by D100 throughout."""
    by_d100, by_api_650 = (grower_said("6", method) for method in METHODS)
    questions = (
        (judge_held(API_650), by_api_650), (mark(GROWER_BYTES), by_d100),
        (judge_held(API_650), by_api_650), (judge(GROWER), by_d100), (judge_held(), by_d100),
        (judge(GROWER, API_650), by_api_650), (mark(GROWER_BYTES), by_d100),
        (judge_held(), by_d100), (judge(GROWER, 3), "refused 42"), (mark(GROWER_BYTES), by_d100),
        (judge_held(API_650), by_api_650), (judge_held(0), "refused 42"),
        (judge_held(API_650), by_api_650), (judge_held(2**8 + 1), "refused 42"),
        (judge_held(), by_d100), (judge(EMPTY, API_650), "refused 32"),
        (judge_held(API_650), by_api_650), (judge(GROWER._replace(count=4), 0), "refused 30"),
        (judge_held(API_650), by_api_650), (mark(b""), "refused 11"), (judge_held(), by_d100),
    )
    for opening in (read(GROWER_BYTES), forge(GROWER)):
        script = [opening, *(record for record, _said in questions)]
        _own, *results = outcomes(script)
        for (_record, said), result in zip(questions, results, strict=True):
            assert says(result.line(), said), (said, result.line())
        yield script


# --- Groups: at random, from fixed seeds --------------------------------------


def judged_between(rng, records):
    """After about half of them."""
    for record in records:
        yield record
        if rng.random() < 0.5:
            yield judge_held()


def random_runs():
    """The scripts' random steps and writes, in the same two ways."""
    rng = Random(21)
    for place in range(14):
        second = [NO_ANCHORS] * (place % 2)
        yield list(judged_between(rng, random_run(rng, *second)))


def filled_in(rng, sheet):
    """After the tank, the steps in any order that leaves this sheet, refused ones between."""
    first, *rest = [step_record(step, entry) for step, entry in run_to(sheet)]
    yield new()
    yield first
    opcodes = [record.opcode for record in rest]
    in_their_order = {opcode: iter([record for record in rest if record.opcode == opcode])
                      for opcode in opcodes}
    for opcode in rng.sample(opcodes, len(opcodes)):
        record = next(in_their_order[opcode])
        if rng.random() < 0.2:
            step = STEPS[opcode]
            entry = step.entry._make(bytes_as_figures(record.payload))
            yield figures_record(opcode, with_outside(entry, rng.choice(step.fields)))
        yield record


def random_fills():
    """Sheets whose checks are at equality or close to it; then another site, and theirs again."""
    rng = Random(22)
    for draw in (self_anchored_sheet, anchored_sheet) * 9:
        sheet = draw(rng)
        script = [*judged_between(rng, filled_in(rng, sheet)), judge_held(),
                  site(drawn_site(rng)), judge_held(), site(sheet.site), judge_held()]
        *_before, last = outcomes(script)
        assert last.sheet == sheet and last.word == "accepted"
        yield script


def random_fills_by_methods():
    """Drawn near what either method requires, and judged by both, and at times by neither, while
    they are filled in."""
    rng = Random(23)
    for draw, method in product((self_anchored_sheet, anchored_sheet), METHODS * 2):
        sheet = draw(rng, method)
        script = []
        for record in filled_in(rng, sheet):
            script += record, judge_held(rng.choice((*METHODS, rng.choice(NO_METHODS))))
        script += map(judge_held, rng.sample(METHODS, 2))
        *_before, last = outcomes(script)
        assert last.sheet == sheet and last.word == "accepted"
        yield script


# --- All groups ---------------------------------------------------------------

GROUPS = (
    left_out_then_stated, left_out_to_the_end, stated_between, twelve_courses, water_above_shell,
    read_then_judged, read_then_restated, reading_refused,
    forged_by_no_run, forged_then_filled_in,
    judged_beside_others,
    random_runs, random_fills,
    filled_in_by_methods, restated_by_methods, forged_by_methods, methods_in_turn,
    random_fills_by_methods,
)


@cache
def group_records():
    return records_by_name(GROUPS)


def all_records():
    return in_turn(group_records())


@cache
def all_outcomes():
    return list(outcomes(all_records()))


# --- Self test, over all vectors ----------------------------------------------


def held_results():
    return [result for record, result in zip(all_records(), all_outcomes(), strict=True)
            if record.opcode == JUDGE_HELD]


def check_same_line():
    """The line is JUDGE's for that sheet and method and, if it can be written, MARK's for its
    bytes by D100."""
    for result in held_results():
        sheet, method = result.sheet, result.judged.method
        assert result.line() == outcome(judge(sheet, method)).line()
        if method == D100 and write_refusal(sheet, MOST_BUFFER) is None:
            assert result.line() == outcome(mark(sheet_as_bytes(sheet))).line()


def check_after_reading():
    """A sheet that was read lacks nothing, whatever steps follow: 37 alone can be the answer, and
    42 if the method is none."""
    was_read = False
    for record, result in zip(all_records(), all_outcomes(), strict=True):
        if record.opcode in OPENING:
            was_read = record.opcode == READ and result.word == "ok"
        elif record.opcode == JUDGE_HELD and was_read:
            known = result.judged.method in METHODS
            assert result.word in (("accepted", "refused 37") if known else ("refused 42",))


def check_spread():
    """Every refusal of judging, both words by both ways of standing and by both methods, after
    every record."""
    results = held_results()
    words = {result.word for result in results}
    assert words == {"accepted", *(f"refused {number}" for number in (30, 32, *range(35, 39), 42))}
    reports = Counter((result.judged.word(), type(result.judged.report.standing),
                       result.judged.method)
                      for result in results if result.word == "accepted")
    assert len(reports) == 8 and sum(reports.values()) >= LEAST_REPORTS
    opcodes = [record.opcode for record in all_records()]
    before = {one for one, other in zip(opcodes, opcodes[1:]) if other == JUDGE_HELD}
    after = {other for one, other in zip(opcodes, opcodes[1:]) if one == JUDGE_HELD}
    assert before == after == {*range(JUDGE_HELD + 1)}


def self_test():
    assert record_as_bytes(judge_held()) == b"\x0a\0\4\0\0\0\1"
    assert record_as_bytes(judge_held(2**32 - 2)) == b"\x0a\0\4\xff\xff\xff\xfe"
    records, results = all_records(), all_outcomes()
    check_outcomes(records, results)
    check_demand_3(results)
    check_beside_writing(records, results)
    check_beside_d100(results)
    check_sides(results)
    check_same_line()
    check_after_reading()
    check_spread()
