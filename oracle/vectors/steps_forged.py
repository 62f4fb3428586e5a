"""Scripts of sheets built by hand: those that no run of steps leaves (refusal 30), and others."""

from itertools import product

from model import example
from model.fields import (
    ANCHOR_FIELDS, COURSE_FIELDS, ENTRIES, SITE_FIELDS, Anchors, Course, Site, Tank,
    with_field,
)
from model.filling_in import EMPTY, NO_COURSE, SELF_ANCHORED, Sheet, sheet_of
from model.refusals import MOST_COURSES
from vectors.record_answers import outcomes
from vectors.records import MOST_BUFFER, anchors, course, forge, site, tank, write
from vectors.scripts import (
    U32_MOST, answers, just_outside, unstated, with_anchors, with_outside, with_plate, with_slot,
    write_word,
)
from vectors.start_sheets import (
    EXAMPLE, FULL, FULL_ANCHORS, FULL_COURSES, FULL_SITE, FULL_TANK, LOW_COURSE, NO_SITE, NO_TANK,
    ONE, TANK_ONLY, THREE, WIDE_COURSE, WIDE_TANK, courses_to, full_with, high_sheet, widths_to,
)
from vectors.steps_in_turn import PLATE_CASES
from vectors.version_1 import FIELDS_OF, FIELD_RANGES, TANK_FIELDS, all_of, bytes_with

# --- Groups: forged sheets ----------------------------------------------------


def asked(sheet):
    """The sheet, with a write and all four steps asked of it, each fine in itself."""
    size = min(bytes_with(sheet.count), MOST_BUFFER)
    return (forge(sheet), write(size, sheet.count % 256), tank(example.TANK), site(example.SITE),
            anchors((6, 240_000, 8)), course(LOW_COURSE))


def refused_30(sheet):
    return answers(["refused 30"] * 5, *asked(sheet))


def taken(sheet):
    """A run leaves this one, so that 30 is the answer to nothing."""
    records = asked(sheet)
    words = [result.word for result in outcomes(records)]
    assert "refused 30" not in words
    return records


def forged_figures():
    """Each figure pushed just outside its range, past either end. On the full sheet, whose
    lines are long, the two ends take turns. The tank is without anchors, for a D above its
    range would be above B too."""
    for field in TANK_FIELDS:
        for figure in just_outside(field):
            yield refused_30(THREE._replace(tank=with_field(FULL_TANK, field, figure),
                                            anchors=SELF_ANCHORED))
    for field in SITE_FIELDS:
        for figure in just_outside(field):
            yield refused_30(THREE._replace(site=with_field(FULL_SITE, field, figure)))
    for field in ANCHOR_FIELDS:
        for figure in just_outside(field):
            yield refused_30(THREE._replace(anchors=with_field(FULL_ANCHORS, field, figure)))
    for place, field in product((0, 2), COURSE_FIELDS):
        for figure in just_outside(field):
            figures = with_field(FULL_COURSES[place], field, figure)
            yield refused_30(with_slot(THREE, place, figures))
    for place, field in product(range(MOST_COURSES), COURSE_FIELDS):
        figure = just_outside(field)[(place + field) % 2]
        yield refused_30(with_slot(FULL, place, with_field(FULL_COURSES[place], field, figure)))


def forged_counts():
    """At and above 13 also such as a narrower number, or version 1's size in 32 bits, takes for
    less."""
    for count in (0, 11, 13, 14, 256 + 12, 2**16 + 12, 2**31 + 12, 214_748_377, U32_MOST):
        yield refused_30(FULL._replace(count=count))
    for count in (0, 1, 2, 4, 5, 11, 12, 13, 256 + 3, 2**16 + 3, 214_748_368, U32_MOST):
        yield refused_30(THREE._replace(count=count))
    for count in (1, 13, U32_MOST):
        yield refused_30(TANK_ONLY._replace(count=count))
        yield refused_30(EMPTY._replace(count=count))


def forged_slots():
    """Slots past the count that are not blank, down to one figure of 1, and holes."""
    for place in range(MOST_COURSES):
        field = COURSE_FIELDS[place % len(COURSE_FIELDS)]
        figures = with_field(NO_COURSE, field, 1)
        yield refused_30(with_slot(TANK_ONLY, place, figures))
    for place in (0, 1, 6, 11):
        yield refused_30(with_slot(EMPTY, place, LOW_COURSE))
    for place in (3, 4, 8, 11):
        yield refused_30(with_slot(THREE, place, FULL_COURSES[place]))
    for field in COURSE_FIELDS:
        yield refused_30(with_slot(THREE, 3, with_field(NO_COURSE, field, U32_MOST)))
    for field in (15, 19):
        yield refused_30(with_slot(full_with(11), 11, with_field(NO_COURSE, field, 1)))
    for place in range(3):
        hole = with_slot(THREE, place, NO_COURSE)
        yield refused_30(hole)
        answer = taken if place == 2 else refused_30      # the third of three is no hole
        yield answer(hole._replace(count=2))
    for place in (0, 6, 11):
        yield refused_30(with_slot(FULL, place, NO_COURSE))
    blank = (NO_COURSE,) * MOST_COURSES
    yield refused_30(FULL._replace(courses=blank))


def forged_without_tank():
    without = EMPTY
    yield refused_30(without._replace(site=FULL_SITE))
    yield refused_30(without._replace(anchors=FULL_ANCHORS))
    yield refused_30(sheet_of(None, None, None, FULL_COURSES[:1]))
    yield refused_30(sheet_of(None, FULL_SITE, None, FULL_COURSES[:1]))
    yield refused_30(without._replace(site=FULL_SITE, anchors=FULL_ANCHORS))
    for sheet in (EXAMPLE, ONE, THREE, FULL):
        yield refused_30(sheet._replace(tank=None))
        yield refused_30(unstated(sheet)._replace(tank=None))
    for figures in ((0, 0, 0), (1, 0, 0), (0, 1, 0), (0, 0, 1), (6, 0, 8),
                    all_of(Anchors, U32_MOST)):
        yield refused_30(with_anchors(without, figures))
    yield refused_30(without._replace(site=FULL_SITE, anchors=SELF_ANCHORED))
    yield refused_30(without._replace(site=NO_SITE))
    yield refused_30(without._replace(tank=NO_TANK))


def forged_heights():
    """76,801 by six to twelve courses, and much above."""
    for n in range(6, 13):
        yield refused_30(high_sheet(76_801, n))
    for n in (6, 9, 12):
        yield refused_30(high_sheet(14_400 * n, n))
    lower = courses_to(76_800, 8)
    for place in (0, 4, 7):
        yield refused_30(with_slot(high_sheet(76_800, 8), place,
                                   lower[place]._replace(width=9_601)))


def forged_anchors():
    """B below D, sizes that the chart does not have, N = 0 with more than N."""
    D = FULL_TANK.D
    wrong = [(24, D - 1, 12), (24, 0, 12), (24, 1, 12), (6, D - 1, 8), (0, D, 0), (0, 1, 0),
             (0, 0, 1), (0, 0, 12), (0, D, 12), (1, D, 12), (5, D, 12), (201, D, 12),
             (256, D, 12), (2**31, D, 12), (24, U32_MOST, 12), (24, D, U32_MOST)]
    wrong += [(24, D, d) for d in (0, 1, 5, 13, 15, 17)]
    for figures in wrong:
        yield refused_30(with_anchors(ONE, figures))
    for figures in wrong[:6]:
        yield refused_30(with_anchors(TANK_ONLY, figures))
    yield refused_30(ONE._replace(tank=FULL_TANK._replace(D=FULL_ANCHORS.B + 1)))


def forged_allowances():
    """Equal to the plate and above it, bottom and course."""
    for number, (word, *plates) in enumerate(PLATE_CASES):
        answer = taken if word == "ok" else refused_30
        place = number % 3
        yield answer(ONE._replace(tank=with_plate(FULL_TANK, *plates)))
        yield answer(with_slot(THREE, place, with_plate(FULL_COURSES[place], *plates)))


def forged_huge():
    """Figures that come out small again if they are added in 32 bits, and the like."""
    for widths in ((U32_MOST, 1_201), (1_201, U32_MOST), (2**31, 2**31), (2**31, 2**31 + 9_600),
                   (357_913_942,) * 12, (2**32 - 9_600, 9_600, 9_600), (U32_MOST,) * 12):
        courses = tuple(LOW_COURSE._replace(width=width) for width in widths)
        yield refused_30(sheet_of(FULL_TANK, FULL_SITE, FULL_ANCHORS, courses))
    tank_most, site_most, anchors_most, course_most = (
        all_of(entry, U32_MOST) for entry in ENTRIES)
    most = Sheet(tank_most, site_most, anchors_most, (course_most,) * MOST_COURSES,
                 U32_MOST)
    yield refused_30(most)
    yield refused_30(most._replace(count=12))
    yield refused_30(most._replace(tank=None, site=None))
    yield refused_30(unstated(most)._replace(tank=None, site=None))
    yield refused_30(unstated(most))
    yield refused_30(FULL._replace(tank=most.tank))
    yield refused_30(FULL._replace(site=most.site))
    yield refused_30(FULL._replace(anchors=most.anchors))
    yield refused_30(ONE._replace(tank=NO_TANK))
    yield refused_30(ONE._replace(site=NO_SITE))
    yield refused_30(TANK_ONLY._replace(site=NO_SITE))


def forged_ends_taken():
    """Each field at both ends of its range. Without anchors every D will do."""
    base = sheet_of(WIDE_TANK, FULL_SITE, SELF_ANCHORED, (WIDE_COURSE,) * 2)
    for field in (*TANK_FIELDS, *SITE_FIELDS, *COURSE_FIELDS):
        for figure in FIELD_RANGES[field]:
            if field in TANK_FIELDS:
                yield taken(base._replace(tank=with_field(WIDE_TANK, field, figure)))
            elif field in SITE_FIELDS:
                yield taken(base._replace(site=with_field(FULL_SITE, field, figure)))
            else:
                yield taken(with_slot(base, field % 2, with_field(WIDE_COURSE, field, figure)))
    for D, figures in ((18_000, (6, 18_000, 6)), (18_000, (200, 300_000, 16)),
                       (240_000, (6, 240_000, 16)), (240_000, (200, 300_000, 6)),
                       (12_000, (6, 12_000, 8)), (12_000, (0, 0, 0))):
        yield taken(with_anchors(base, figures)._replace(tank=WIDE_TANK._replace(D=D)))
    for d in (7, 9, 10, 11, 12, 14):
        yield taken(base._replace(anchors=Anchors(N=6, B=18_000, d=d)))


def all_at(end, widths):
    """Every figure at the same end of its range, as far as they agree with each other."""
    tank_there, site_there, course_there = (
        entry(*(FIELD_RANGES[field][end] for field in FIELDS_OF[entry]))
        for entry in (Tank, Site, Course))
    anchored = (200, 300_000, 16) if end else (6, 12_000, 6)
    return sheet_of(tank_there, site_there, anchored,
                    [course_there._replace(width=width) for width in widths])


def forged_parts_taken():
    """Every kind of sheet that a run leaves, complete or not."""
    yield taken(EMPTY)
    for parts in product((None, FULL_SITE), (None, (0, 0, 0), FULL_ANCHORS),
                         ((), FULL_COURSES[:1])):
        yield taken(sheet_of(FULL_TANK, *parts))
    for n in range(1, 13):
        yield taken(full_with(n))
    for n in range(6, 13):
        yield taken(high_sheet(76_800, n))
    yield taken(EXAMPLE)
    yield taken(all_at(0, (1_200,) * 12))
    yield taken(all_at(0, (1_200,)))
    yield taken(all_at(1, (14_400,) * 5))
    yield taken(all_at(1, widths_to(76_800, 12)))
    # water above the shell is judge's alone (37)
    yield taken(ONE._replace(tank=FULL_TANK._replace(H=76_800)))


def forged_anchors_unstated():
    """Beside every number of courses a run leaves anchors unstated, or N = 0 stated."""
    for n in range(MOST_COURSES + 1):
        last = "refused 33" if n == 12 else "ok"
        for figures, word in ((None, "refused 38"), ((0, 0, 0), write_word(n))):
            first = "refused 35" if n == 0 else word
            sheet = with_anchors(full_with(n), figures)
            yield answers([first, "refused 31", "ok", "ok", last], *asked(sheet))


def forged_wrong_and_unstated():
    """Anchors unstated beside what no run leaves."""
    sheet = unstated(THREE)
    for field in TANK_FIELDS:
        yield refused_30(sheet._replace(tank=with_outside(FULL_TANK, field)))
    for field in SITE_FIELDS:
        yield refused_30(sheet._replace(site=with_outside(FULL_SITE, field)))
    for place, field in enumerate(COURSE_FIELDS):
        course_figures = FULL_COURSES[place % 3]
        yield refused_30(with_slot(sheet, place % 3, with_outside(course_figures, field)))
    yield refused_30(sheet._replace(tank=with_plate(FULL_TANK, 250, 250)))
    yield refused_30(with_slot(sheet, 1, with_plate(FULL_COURSES[1], 250, 250)))
    for count in (0, 2, 4, 12, 13, 256 + 3, U32_MOST):
        yield refused_30(sheet._replace(count=count))
    for place in (3, 11):
        yield refused_30(with_slot(sheet, place, LOW_COURSE))
    yield refused_30(with_slot(sheet, 1, NO_COURSE))
    for n in (6, 12):
        yield refused_30(unstated(high_sheet(76_801, n)))
