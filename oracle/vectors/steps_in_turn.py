"""Scripts of steps that follow each other: 16, 17 and 18; restating, and going on after a refusal;
anchors unstated and stated (request S-1); courses.
"""

from itertools import combinations, permutations, product

from model import example
from model.fields import ANCHOR_FIELDS, COURSE_FIELDS, SITE_FIELDS, Course, with_field
from model.filling_in import NO_COURSE, SELF_ANCHORED, sheet_of
from vectors.records import anchors, course, forge, new, read, site, tank
from vectors.scripts import (
    U32_MOST, anchors_word, answers, case, end_figures, range_word, steps_to, unstated,
    with_outside, with_plate, write_for, write_word, wrote,
)
from vectors.start_sheets import (
    EXAMPLE, FULL, FULL_ANCHORS, FULL_COURSES, FULL_SITE, FULL_TANK, LOW_COURSE, NO_TANK, ONE,
    ONE_BYTES, SELF_BYTES, TANK_ONLY, THREE, WIDE_COURSE, WIDE_TANK, courses_to, full_with,
    high_sheet,
)
from vectors.steps_orders import first_of
from vectors.version_1 import FIELD_RANGES, TANK_FIELDS, all_of

# --- Groups: 16, 17 and 18 by steps -------------------------------------------

RANGE_STEPS = (     # what goes before the step, its record, figures and fields
    ((new(),), tank, WIDE_TANK, TANK_FIELDS),
    ((new(), tank(WIDE_TANK)), site, FULL_SITE, SITE_FIELDS),
    ((new(), tank(WIDE_TANK)), anchors, FULL_ANCHORS, ANCHOR_FIELDS),
    ((new(), tank(WIDE_TANK)), course, WIDE_COURSE, COURSE_FIELDS),
)


def ranges_by_steps():
    """The anchors' ranges hang together: see anchor_cases."""
    for before, step, figures, fields in RANGE_STEPS:
        for field in fields:
            for figure in end_figures(field):
                if field not in ANCHOR_FIELDS:
                    yield case(range_word(field, figure), *before,
                               step(with_field(figures, field, figure)))


def two_fields_outside():
    """The first one is named; with all of them outside, too."""
    for before, step, figures, fields in RANGE_STEPS:
        for one, other in combinations(fields, 2):
            yield case(f"refused 16 {one}", *before, step(with_outside(figures, one, other)))
        yield case(f"refused 16 {fields[0]}", *before, step(with_outside(figures, *fields)))
        yield case(f"refused 16 {fields[0]}", *before, step(all_of(type(figures), U32_MOST)))


PLATE_CASES = (     # plate, allowance
    ("refused 17", 100, 100), ("ok", 101, 100), ("ok", 100, 99), ("refused 17", 100, 101),
    ("refused 17", 250, 250), ("ok", 251, 250), ("ok", 250, 249), ("refused 17", 249, 250),
    ("refused 17", 100, 250), ("ok", 500, 250), ("ok", 100, 0), ("refused 17", 173, 173),
    ("ok", 173, 172),
)


def allowances_by_steps():
    for word, *plates in PLATE_CASES:
        figures = with_plate(LOW_COURSE, *plates)
        yield case(word, new(), tank(with_plate(example.TANK, *plates)))
        yield case(word, new(), tank(example.TANK), course(figures))
        yield case(word, *steps_to(THREE), course(figures))


def anchor_cases(D, of_size_6="refused 39"):
    """Word and figures, on a tank of this diameter; version 1 has another word for size 6."""
    for N in (6, 7, 199, 200):
        yield "ok", (N, D, 8)
    yield "refused 18", (6, D - 1, 8)
    yield "ok", (6, D + 1, 8)
    yield "ok", (6, 300_000, 8)
    yield "refused 16 13", (6, 300_001, 8)
    yield "refused 16 13", (6, U32_MOST, 8)
    yield "refused 18", (200, 0, 16)
    yield "refused 18", (6, 1, 16)
    yield "ok", (0, 0, 0)
    for B, d in ((1, 0), (D - 1, 0), (D, 0), (300_000, 0), (0, 1), (0, 8), (0, 16), (D, 8)):
        yield "refused 18", (0, B, d)
    yield "refused 16 13", (0, 300_001, 0)
    yield "refused 16 14", (0, 0, 17)
    yield "refused 16 13", (0, U32_MOST, 17)
    for N in (1, 2, 5, 201, U32_MOST):
        yield "refused 16 12", (N, D, 8)
        yield "refused 16 12", (N, 0, 0)
        yield "refused 16 12", (N, D - 1, 13)       # 16 and 18
    for d in range(17):
        word = of_size_6 if d == 6 else "ok" if d in (7, 8, 9, 10, 11, 12, 14, 16) else "refused 18"
        yield word, (77, D, d)
    yield "refused 16 14", (6, D, 17)
    yield "refused 16 14", (6, D - 1, 17)           # 16 and 18
    yield "refused 16 14", (6, D, U32_MOST)


def anchors_by_steps():
    """One after another on the same tank, so that a refused one shows the one before it."""
    for D in (12_000, 14_400, 33_333, 240_000):
        words, figures = zip(*anchor_cases(D))
        yield answers(["ok", *words], new(), tank(FULL_TANK._replace(D=D)),
                      *map(anchors, figures))
    for word, figures in anchor_cases(14_400):
        if word == "refused 18":
            yield case(word, new(), tank(example.TANK), anchors(figures))


# --- Groups: restating, and going on after a refusal --------------------------


def restated_site():
    """Each field changed alone shows; a refused one leaves the earlier site."""
    before = steps_to(ONE)
    for field in SITE_FIELDS:
        least, greatest = FIELD_RANGES[field]
        changed = (site(with_field(FULL_SITE, field, figure)) for figure in (least, greatest))
        yield answers(["ok"] * 4 + ["ok", "ok", write_word(1)], *before, *changed,
                      write_for(1, field))
        yield answers(["ok"] * 4 + [f"refused 16 {field}", write_word(1), "ok"], *before,
                      site(with_outside(FULL_SITE, field)), write_for(1, field), site(example.SITE))


ACCEPTED_ANCHORS = (        # on the full sheet's tank; since S-10 the first is refused
    (6, 18_000, 6), (200, 300_000, 16), (0, 0, 0), (24, 18_654, 14), FULL_ANCHORS,
)
REFUSED_ANCHORS = (
    ("refused 16 12", (5, 18_000, 8)), ("refused 16 13", (6, 300_001, 8)),
    ("refused 16 14", (6, 18_000, 17)), ("refused 18", (6, 17_999, 8)),
    ("refused 18", (6, 18_000, 13)), ("refused 18", (0, 18_000, 0)), ("refused 18", (0, 0, 8)),
)


def restated_anchors():
    before = steps_to(ONE)
    words, wrong = zip(*REFUSED_ANCHORS)
    for figures in ACCEPTED_ANCHORS:
        yield answers(["ok"] * 4 + [anchors_word(figures), *words, write_word(1)], *before,
                      anchors(figures), *map(anchors, wrong), write_for(1, 2))
    yield case(write_word(1), *before, *map(anchors, ACCEPTED_ANCHORS), write_for(1, 3))
    yield case(write_word(1), *before, *map(anchors, reversed(ACCEPTED_ANCHORS)), write_for(1, 4))


def restated_before_courses():
    """Site and anchors after the tank, between courses and after them."""
    yield answers(["ok"] * 10, new(), tank(FULL_TANK), site(example.SITE), site(FULL_SITE),
                  anchors((6, 20_000, 8)), course(FULL_COURSES[0]), anchors(FULL_ANCHORS),
                  site(example.SITE), course(FULL_COURSES[1]), site(FULL_SITE),
                  anchors(SELF_ANCHORED))
    yield case(write_word(2), new(), tank(FULL_TANK), course(FULL_COURSES[0]), site(example.SITE),
               course(FULL_COURSES[1]), anchors((6, 20_000, 8)), site(FULL_SITE), write_for(2, 5))


def tank_twice():
    again = (FULL_TANK, example.TANK, with_outside(FULL_TANK, 1), NO_TANK,
             with_plate(example.TANK, 250, 250), FULL_TANK)
    for sheet in (TANK_ONLY, ONE, THREE, full_with(7)):
        steps = len(steps_to(sheet)) - 1
        yield answers(["ok"] * steps + ["refused 31"] * 6, *steps_to(sheet), *map(tank, again))


def refused_then_accepted():
    """A refused step leaves no trace: the same step, put right, is accepted."""
    for before, step, figures, fields in RANGE_STEPS:
        for field in fields:
            words = [*["ok"] * (len(before) - 1), f"refused 16 {field}", "ok"]
            yield answers(words, *before, step(with_outside(figures, field)), step(figures))
    equal = tank(with_plate(example.TANK, 250, 250))
    yield answers(["refused 17", "ok"], new(), equal, tank(example.TANK))
    yield answers(["refused 16 6", "refused 17", "refused 16 1", "ok", "refused 31"], new(),
                  tank(with_outside(FULL_TANK, 6)), equal, tank(NO_TANK), tank(FULL_TANK),
                  tank(FULL_TANK))
    for step in (site(FULL_SITE), anchors(FULL_ANCHORS), anchors((0, 0, 0)),
                 course(FULL_COURSES[0])):
        yield answers(["refused 32", "ok", "ok"], new(), step, tank(FULL_TANK), step)
    yield answers(["ok", "refused 17", "ok"], new(), tank(FULL_TANK),
                  course(with_plate(LOW_COURSE, 250, 250)), course(LOW_COURSE))
    yield answers(["ok", "refused 18", "ok", "refused 18"], new(), tank(FULL_TANK),
                  anchors((6, 17_999, 8)), anchors((6, 18_000, 8)), anchors((6, 17_999, 8)))


# --- Groups: anchors unstated and stated --------------------------------------


def unstated_then_stated():
    """38 until anchors are stated, N = 0 or more; of two statements the later one counts."""
    for sheet in (ONE, EXAMPLE):
        before = steps_to(unstated(sheet))
        n = sheet.count
        def words_with(figures):
            """Size 6 leaves them unstated, or as they were."""
            word = anchors_word(figures)
            written = write_word(n) if word == "ok" else "refused 38"
            return [*["ok"] * (len(before) - 1), "refused 38", word, written]

        for figures in ACCEPTED_ANCHORS:
            yield answers(words_with(figures), *before, write_for(n, 1), anchors(figures),
                          write_for(n, 2))
        for one, other in permutations(((0, 0, 0), (6, 18_000, 6), (24, 18_654, 12)), 2):
            yield answers([*words_with(one), anchors_word(other), write_word(n)], *before,
                          write_for(n, 3), anchors(one), write_for(n, 4), anchors(other),
                          write_for(n, 5))
    # the same steps, with N = 0 stated and without
    yield answers(["ok"] * 4 + [write_word(1), "held"] + ["ok"] * 3 + ["refused 38"], new(),
                  tank(FULL_TANK), anchors((0, 0, 0)), site(FULL_SITE), course(FULL_COURSES[0]),
                  write_for(1, 6), new(), tank(FULL_TANK), site(FULL_SITE), course(FULL_COURSES[0]),
                  write_for(1, 6))


def write_after_each_step():
    """After the tank the other three in each order: what is missing first is the answer."""
    words = {35: "refused 35", 36: "refused 36", 38: "refused 38"}
    for figures, order in product(((0, 0, 0), FULL_ANCHORS), permutations(words)):
        steps = {35: course(FULL_COURSES[0]), 36: site(FULL_SITE), 38: anchors(figures)}
        records = [new(), write_for(1, 7), tank(FULL_TANK), write_for(1, 8)]
        said = ["refused 32", "ok", "refused 35"]
        for place, number in enumerate(order, start=1):
            records += steps[number], write_for(1, place)
            said += "ok", first_of(words, order[place:], write_word(1))
        yield answers(said, *records)


def refused_anchors_stay_unstated():
    """A refused statement leaves them unstated, and the next one may be accepted."""
    before = steps_to(unstated(ONE))
    for (word, wrong), right in product(REFUSED_ANCHORS, ((0, 0, 0), FULL_ANCHORS)):
        yield answers(["ok"] * 3 + [word, "refused 38", "ok", write_word(1)], *before,
                      anchors(wrong), write_for(1, 1), anchors(right), write_for(1, 2))
    words, wrong = zip(*REFUSED_ANCHORS)
    yield answers(["ok"] * 3 + [*words, "refused 38"], *before, *map(anchors, wrong),
                  write_for(1, 3))
    no_run = unstated(ONE)._replace(site=with_outside(FULL_SITE, 7))
    for figures in ACCEPTED_ANCHORS:
        yield answers(["refused 32", "ok", "ok", "ok", "refused 38"], new(), anchors(figures),
                      tank(FULL_TANK), site(FULL_SITE), course(FULL_COURSES[0]), write_for(1, 4))
        yield answers(["refused 30", "refused 30"], forge(no_run), anchors(figures),
                      write_for(1, 5))


def stated_anchors_stay():
    """Whatever comes after them, refused or not: nothing makes them unstated again."""
    later = (("refused 31", tank(FULL_TANK)), ("refused 31", tank(NO_TANK)),
             ("refused 16 7", site(with_outside(FULL_SITE, 7))),
             ("refused 16 15", course(NO_COURSE)),
             ("refused 17", course(with_plate(LOW_COURSE, 250, 250))),
             *((word, anchors(wrong)) for word, wrong in REFUSED_ANCHORS),
             ("refused 35", write_for(12, 1)), ("ok", site(FULL_SITE)),
             ("refused 35", write_for(12, 2)),
             ("ok", course(FULL_COURSES[0])), ("refused 19", write_for(1, 3, -1)),
             (write_word(1), write_for(1, 4)), ("ok", site(example.SITE)),
             (wrote(1), write_for(12, 5)))
    words, records = zip(*later)
    for figures in ACCEPTED_ANCHORS:
        if anchors_word(figures) == "ok":
            yield answers(["ok", "ok", *words], new(), tank(FULL_TANK), anchors(figures), *records)
        else:       # none are stated; 38 goes before 19
            lacking = ["refused 38" if word in ("refused 19", write_word(1), wrote(1)) else word
                       for word in words]
            yield answers(["ok", "refused 39", *lacking], new(), tank(FULL_TANK), anchors(figures),
                          *records)
    for n, word, written in ((11, "refused 34", wrote(11)), (12, "refused 33", write_word(12))):
        for figures in ((0, 0, 0), FULL_ANCHORS):
            yield answers(["ok"] * (n + 3) + [word, written], new(), tank(FULL_TANK),
                          anchors(figures), site(FULL_SITE), *map(course, courses_to(76_800, n)),
                          course(LOW_COURSE), write_for(12, n))


def reading_states_anchors():
    """Bytes always state them. Reading that is refused leaves an empty sheet, and a new sheet
    is one: there the anchors of the sheet before are unstated."""
    again = (tank(FULL_TANK), site(FULL_SITE), course(FULL_COURSES[0]), write_for(1, 1))
    for content in (ONE_BYTES, SELF_BYTES):
        yield answers(["ok"] * 4 + [write_word(1)], *steps_to(unstated(ONE)), read(content),
                      write_for(1, 2))
        yield answers(["ok"] * 3 + ["refused 11", "refused 32"], *steps_to(unstated(ONE)),
                      read(content[:-1]), write_for(1, 3))
        yield answers(["refused 12", "ok", "ok", "ok", "refused 38"], read(content),
                      read(content + b"\0"), *again)
        yield answers(["held", "ok", "ok", "ok", "refused 38"], read(content), new(), *again)


# --- Groups: courses ----------------------------------------------------------


def thirteenth_course():
    """33, whatever the course is; the sheet of exactly 76,800 makes any course too high."""
    fine, wrong = LOW_COURSE, with_outside(LOW_COURSE, 15)
    equal, high = with_plate(LOW_COURSE, 250, 250), LOW_COURSE._replace(width=14_400)
    low_sheet = sheet_of(example.TANK, example.SITE, example.ANCHORS, (LOW_COURSE,) * 12)
    for sheet in (FULL, low_sheet, high_sheet(76_800, 12), high_sheet(75_600, 12)):
        tries = [course(figures) for figures in (fine, wrong, equal, high, NO_COURSE)]
        yield answers(["ok"] * 15 + ["refused 33"] * 5 + [write_word(12)], *steps_to(sheet), *tries,
                      write_for(12, 0))


def shell_height_at_most():
    """76,800 by six to twelve courses, and one above; fewer than six cannot reach it."""
    for n in range(6, 13):
        full = courses_to(76_800, n)
        before = [tank(FULL_TANK), site(FULL_SITE), *map(course, full[:-1])]
        one_more = course(full[-1]._replace(width=full[-1].width + 1))
        after = "refused 34" if n < 12 else "refused 33"
        yield answers(["ok"] * (n + 1) + ["refused 34", "ok", after, after], new(), *before,
                      one_more, course(full[-1]), course(LOW_COURSE), one_more)
    widths = [14_400] * 6 + [4_801, 4_800, 1_200]
    yield answers(["ok"] * 6 + ["refused 34", "refused 34", "ok", "refused 34"], new(),
                  tank(FULL_TANK), *(course(LOW_COURSE._replace(width=width)) for width in widths))
    for n in (7, 11):       # the odd width first
        full, over = courses_to(76_800, n), courses_to(76_801, n)
        yield case("ok", new(), tank(FULL_TANK), *map(course, reversed(full)))
        yield case("refused 34", new(), tank(FULL_TANK), *map(course, reversed(over)))


REFUSED_COURSES = (
    ("refused 16 15", LOW_COURSE._replace(width=1_199)),
    ("refused 16 16", LOW_COURSE._replace(t=2_001)),
    ("refused 17", with_plate(LOW_COURSE, 250, 250)),
    ("refused 16 18", LOW_COURSE._replace(s=9_999)),
    ("refused 16 19", LOW_COURSE._replace(E=101)),
    ("refused 16 15", NO_COURSE),
    ("refused 16 15", all_of(Course, U32_MOST)),
)


def refused_course_between():
    for word, wrong in REFUSED_COURSES:
        for place in (0, 1, 2):
            courses = [*FULL_COURSES[:place], wrong, *FULL_COURSES[place:3]]
            words = ["ok"] * (place + 3) + [word] + ["ok"] * (3 - place) + [write_word(3)]
            yield answers(words, new(), tank(FULL_TANK), site(FULL_SITE), anchors((0, 0, 0)),
                          *map(course, courses), write_for(3, place))
    # every other course is refused, and still twelve find room
    mixed = []
    for place, figures in enumerate(FULL_COURSES):
        mixed += [course(REFUSED_COURSES[place % 7][1]), course(figures)]
    yield case(write_word(12), new(), tank(FULL_TANK), site(FULL_SITE), anchors((0, 0, 0)), *mixed,
               write_for(12, 77))
