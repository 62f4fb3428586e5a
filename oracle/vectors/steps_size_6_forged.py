"""Scripts of request S-10: sheets built by hand with size 6. A run leaves one only by reading bytes
of version 1: with tank, site and anchors stated, a course or more and gravity 1,000, whatever the
steps after it. What lacks one thing of these is 30 in every question.
"""

from itertools import product

from model import example
from model.fields import (
    COURSE_FIELDS, FIELD_RANGES, GRAVITY_FIELD, SITE_FIELDS, TANK_FIELDS, Anchors, with_field,
)
from model.filling_in import EMPTY, NO_COURSE, SELF_ANCHORED, has_size_6, sheet_of
from model.refusals import METHODS, MOST_COURSES
from vectors.record_answers import outcomes
from vectors.records import (
    MOST_BUFFER, anchors, ask, ask_held, course, forge, judge, judge_held, new, site, tank, write,
)
from vectors.scripts import (
    U32_MOST, answers, just_outside, unstated, with_anchors, with_outside, with_plate, with_slot,
)
from vectors.start_sheets import (
    ALMOST_BLANK, FULL_ANCHORS, FULL_COURSES, FULL_SITE, FULL_TANK, LOW_COURSE, ONE, TANK_ONLY,
    full_with, high_sheet, widths_to,
)
from vectors.steps_forged import all_at
from vectors.steps_size_6 import (
    ALMOST_SIX, SIX, SIX_EXAMPLE, SIX_FULL, SIX_ONE, SIX_THREE, with_size,
)

QUESTIONS = (       # each fine in itself; B is large enough for every tank
    write(0, 1), write(MOST_BUFFER, 2), *map(judge_held, METHODS), *map(ask_held, METHODS),
    anchors((6, 300_000, 6)), tank(example.TANK), site(example.SITE), course(LOW_COURSE),
    anchors((6, 300_000, 7)), anchors((0, 0, 0)),
)


def of_no_run(sheet):
    """30 in all of these; of the current sheet, and of one that is handed in."""
    return answers(["refused 30"] * (len(QUESTIONS) + 3), forge(sheet), *QUESTIONS, judge(sheet, 2),
                   ask(sheet, 2), judge(sheet, 3))


def of_a_run(sheet):
    """30 in none of them, nor after the steps; 39 where it is written or size 6 is stated again."""
    script = (forge(sheet), *QUESTIONS, judge(sheet, 2), ask(sheet, 2), judge(sheet, 3))
    words = [result.word for result in outcomes(script)]
    assert "refused 30" not in words and words[7] == "refused 39" and words[-1] == "refused 42"
    written = ["refused 39"] * 2 if has_size_6(sheet.anchors) else words[1:3]
    assert words[1:3] == written, words
    return script


def with_gravity(sheet, gravity):
    return sheet._replace(tank=sheet.tank._replace(gravity=gravity))


def without_courses(sheet):
    return sheet._replace(courses=EMPTY.courses, count=0)


# --- Groups -------------------------------------------------------------------


def lacking_one_thing():
    """What a reading gives and no step takes away or changes; then the same with size 7, or with
    anchors unstated, which steps leave."""
    for sheet in (SIX_ONE, SIX_EXAMPLE, SIX_FULL):
        yield of_a_run(sheet)
        for wrong in (sheet._replace(site=None), without_courses(sheet),
                      with_gravity(sheet, 1_001), with_gravity(sheet, 1_300)):
            yield of_no_run(wrong)
            yield of_a_run(with_size(wrong, 7))
            yield of_a_run(unstated(wrong))
    for sheet in (SIX_ONE, SIX_THREE):
        yield of_no_run(sheet._replace(tank=None))
        yield of_no_run(with_gravity(without_courses(sheet), 1_001))
        yield of_no_run(without_courses(sheet)._replace(site=None))
        yield of_no_run(with_gravity(sheet._replace(site=None), 1_137))
    yield of_no_run(with_anchors(EMPTY, SIX))
    yield of_no_run(with_anchors(TANK_ONLY, SIX))
    yield of_a_run(with_anchors(TANK_ONLY, SIX._replace(d=7)))
    yield of_a_run(TANK_ONLY)


def every_part_or_not():
    """Site, courses, gravity and anchors in all ways."""
    for site_figures, n, gravity, stated in product(
            (None, FULL_SITE), (0, 1, 2, 12), (1_000, 1_001),
            (None, SELF_ANCHORED, SIX, SIX._replace(d=7), SIX._replace(d=5))):
        sheet = sheet_of(FULL_TANK._replace(gravity=gravity), site_figures, stated,
                         FULL_COURSES[:n])
        right = stated is None or stated.d in (0, 7) \
            or stated.d == 6 and site_figures is not None and n > 0 and gravity == 1_000
        if right:
            yield forge(sheet), write(0, 1), judge_held(3), anchors(FULL_ANCHORS)
        else:
            yield answers(["refused 30"] * 3, forge(sheet), write(0, 1), judge_held(3),
                          anchors(FULL_ANCHORS))


def forged_gravities():
    """999, 1,000, 1,001, 1,300 and so on: water's alone, as version 1 has no other."""
    for gravity in (0, 1, 999, 1_000, 1_001, 1_002, 1_299, 1_300, 1_301, 1_000 + 2**8,
                    1_000 + 2**16, 1_000 + 2**31, U32_MOST):
        answer = of_a_run if gravity == 1_000 else of_no_run
        yield answer(with_gravity(SIX_ONE, gravity))
        good = 1_000 <= gravity <= 1_300
        yield (of_a_run if good else of_no_run)(with_gravity(with_size(SIX_ONE, 7), gravity))


def forged_anchors():
    """Their other conditions: N from 6 to 200, B from D to 300,000."""
    D = FULL_TANK.D
    for N, B in ((6, D), (200, D), (6, 300_000), (200, 300_000), (7, D + 1)):
        yield of_a_run(with_anchors(ONE, (N, B, 6)))
    for N, B in ((5, D), (201, D), (0, D), (0, 0), (1, D), (24, D - 1), (24, 0), (24, 300_001),
                 (24, U32_MOST), (U32_MOST, D), (256 + 6, D)):
        yield of_no_run(with_anchors(ONE, (N, B, 6)))
    for d in (*ALMOST_SIX, 5, 0, 13, 15, 17, U32_MOST):
        yield of_no_run(with_size(ONE, d))
    wide = SIX_ONE._replace(anchors=Anchors(6, 300_000, 6))
    for D in (12_000, 240_000):
        yield of_a_run(wide._replace(tank=FULL_TANK._replace(D=D)))
    for D in (11_999, 240_001, 300_001):
        yield of_no_run(wide._replace(tank=FULL_TANK._replace(D=D)))
    yield of_no_run(SIX_ONE._replace(tank=FULL_TANK._replace(D=SIX.B + 1)))
    yield of_a_run(SIX_ONE._replace(tank=FULL_TANK._replace(D=SIX.B)))


def forged_courses():
    """Counts, slots and heights: what is wrong with any size is wrong with this one."""
    for n in range(1, MOST_COURSES + 1):
        yield of_a_run(with_size(full_with(n)))
    for count in (0, 1, 2, 4, 11, 12, 13, 256 + 3, 2**16 + 3, U32_MOST):
        yield of_no_run(SIX_THREE._replace(count=count))
    for count in (0, 11, 13, 256 + 12, U32_MOST):
        yield of_no_run(SIX_FULL._replace(count=count))
    for place in (3, 11):
        yield of_no_run(with_slot(SIX_THREE, place, ALMOST_BLANK))
        yield of_no_run(with_slot(SIX_THREE, place, LOW_COURSE))
    for place in range(3):
        hole = with_slot(SIX_THREE, place, NO_COURSE)
        yield of_no_run(hole)
        yield (of_a_run if place == 2 else of_no_run)(hole._replace(count=2))
    for n in (6, 9, 12):
        yield of_a_run(with_size(high_sheet(76_800, n)))
        yield of_no_run(with_size(high_sheet(76_801, n)))
    for plates, answer in (((250, 250), of_no_run), ((250, 249), of_a_run)):
        for place in range(3):
            yield answer(with_slot(SIX_THREE, place, with_plate(FULL_COURSES[place], *plates)))
        yield answer(SIX_THREE._replace(tank=with_plate(FULL_TANK, *plates)))
    for sheet in (all_at(0, (1_200,)), all_at(0, (1_200,) * 12), all_at(1, widths_to(76_800, 12))):
        yield of_a_run(with_gravity(with_size(sheet), 1_000))


def forged_outside():
    for place, field in enumerate((*TANK_FIELDS, *SITE_FIELDS, *COURSE_FIELDS)):
        for figure in just_outside(field):
            if field in TANK_FIELDS:
                wrong = SIX_THREE._replace(
                    tank=with_field(FULL_TANK, field, figure),
                    anchors=SIX._replace(B=300_000))
            elif field in SITE_FIELDS:
                wrong = SIX_THREE._replace(site=with_field(FULL_SITE, field, figure))
            else:
                wrong = with_slot(SIX_THREE, place % 3,
                                  with_field(FULL_COURSES[place % 3], field, figure))
            yield of_no_run(wrong)


def forged_ends():
    """Each field of tank, site and courses at both ends, but for gravity."""
    base = SIX_THREE._replace(tank=FULL_TANK._replace(plate=500), anchors=SIX._replace(B=300_000))
    for field in (*TANK_FIELDS, *SITE_FIELDS, *COURSE_FIELDS):
        for figure in FIELD_RANGES[field]:
            if field == GRAVITY_FIELD:
                continue
            if field in TANK_FIELDS:
                sheet = base._replace(tank=with_field(base.tank, field, figure))
            elif field in SITE_FIELDS:
                sheet = base._replace(site=with_field(FULL_SITE, field, figure))
            else:
                thick = FULL_COURSES[0]._replace(t=500)
                sheet = with_slot(base, 0, with_field(thick, field, figure))
            yield answers(["refused 39", "refused 42", "refused 39", "ok"], forge(sheet),
                          write(0, 1), judge_held(3), anchors((6, 300_000, 6)), course(LOW_COURSE))


def two_things_lacking():
    """30 before every other refusal, whatever the question has of its own."""
    wrong = with_gravity(SIX_THREE, 1_001)
    script = (tank(with_outside(FULL_TANK, 1)), site(with_outside(FULL_SITE, 7)),
              anchors((5, 0, 6)), anchors((0, 0, 6)), anchors((24, 17_999, 6)),
              course(with_outside(LOW_COURSE, 15)), course(NO_COURSE), judge_held(0), ask_held(3))
    for sheet in (wrong, SIX_THREE._replace(site=None), without_courses(SIX_THREE),
                  with_anchors(EMPTY, SIX), with_anchors(TANK_ONLY, SIX)):
        yield answers(["refused 30"] * len(script), forge(sheet), *script)
    yield answers(["refused 30", "held", "refused 39", "refused 30", "held", "refused 32"],
                  forge(wrong), write(0, 1), forge(SIX_THREE), write(0, 1), judge(wrong), new(),
                  write(0, 1))


GROUPS = (
    lacking_one_thing, every_part_or_not, forged_gravities, forged_anchors, forged_courses,
    forged_outside, forged_ends, two_things_lacking,
)
