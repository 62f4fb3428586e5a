"""Scripts of the orders of refusal: the example tank, the six orders of steps and writing, and that
of bytes.
"""

from itertools import combinations, permutations

from model import example
from model.fields import Anchors
from model.filling_in import SELF_ANCHORED, sheet_of
from model.sheet_bytes import VERSION_AT
from vectors.byte_changes import field_damage, longer_by_one_throughout
from vectors.records import anchors, course, forge, new, read, site, tank, write
from vectors.scripts import (
    U32_MOST, case, holding, steps_to, subsets, with_outside, with_plate, with_slot, write_for,
    write_word, wrote,
)
from vectors.start_sheets import (
    ALMOST_BLANK, EXAMPLE, EXAMPLE_BYTES, FULL_ANCHORS, FULL_COURSES, FULL_SITE, FULL_TANK,
    LOW_COURSE, ONE_BYTES, TANK_ONLY, THREE_BYTES, courses_to,
)
from vectors.version_1 import COUNT_AT, as_bytes

# --- Groups: the example tank -------------------------------------------------


def example_in_orders():
    """After the tank, the other five steps in each order that can be told apart."""
    _new, first, *rest = steps_to(EXAMPLE)
    for order in dict.fromkeys(permutations(rest)):     # without repeats
        yield case(write_word(3, 30), new(), first, *order, write_for(3, 5, 30))


def example_tank_late():
    """The tank is the second, third, ... step; the earlier ones are refused."""
    _new, first, *rest = steps_to(EXAMPLE)
    for place in range(1, len(rest) + 1):
        yield case("ok", new(), *rest[:place], first)
        yield case(write_word(3), new(), *rest[:place], first, *rest, write_for(3, 7))


def example_as_bytes():
    yield case("ok", read(EXAMPLE_BYTES))
    yield case(wrote(3), read(EXAMPLE_BYTES), write(512, 0))
    yield case(write_word(3, 1), *steps_to(EXAMPLE), write_for(3, 255), new(), read(EXAMPLE_BYTES),
               write_for(3, 1, 1))
    yield case("refused 31", read(EXAMPLE_BYTES), tank(example.TANK))
    yield case(write_word(4), read(EXAMPLE_BYTES), course(example.COURSES[0]), write_for(4, 3))
    yield case("refused 12", read(EXAMPLE_BYTES), read(EXAMPLE_BYTES + b"\0"))
    yield case(write_word(3), read(EXAMPLE_BYTES), anchors((0, 0, 0)), write_for(3, 4))
    yield case("ok", read(ONE_BYTES), read(EXAMPLE_BYTES), read(THREE_BYTES))
    yield case(write_word(3, 10), forge(EXAMPLE), write_for(3, 9, 10))


# --- Groups: the six orders ---------------------------------------------------
#
# Each subset of an order's refusals, as far as they can be present together, so that each
# comes alone and each comes before each later one.


def first_of(words, present, accepted):
    """The word of the first refusal present; `words` is in the order of refusal."""
    return next((word for number, word in words.items() if number in present), accepted)


def tank_order():
    """Any of them can be present together: 30 by a site out of range, with a tank or without."""
    words = {30: "refused 30", 31: "refused 31", 16: "refused 16 3", 17: "refused 17"}
    for present in subsets((30, 31, 16, 17)):
        sheet = sheet_of(FULL_TANK if 31 in present else None,
                         with_outside(FULL_SITE, 7) if 30 in present else None, None, ())
        figures = example.TANK
        if 16 in present:
            figures = with_outside(figures, 3)
        if 17 in present:
            figures = with_plate(figures, 250, 250)
        yield case(first_of(words, present, "ok"), *holding(sheet), tank(figures))


def site_order():
    """Any of them can be present together: 30 by anchors that do not agree."""
    words = {30: "refused 30", 32: "refused 32", 16: "refused 16 8"}
    for present in subsets((30, 32, 16)):
        sheet = sheet_of(None if 32 in present else FULL_TANK, None,
                         Anchors(N=0, B=1, d=0) if 30 in present else None, ())
        figures = with_outside(FULL_SITE, 8) if 16 in present else FULL_SITE
        yield case(first_of(words, present, "ok"), *holding(sheet), site(figures))


def anchors_order():
    """Any of them can be present together, but for 32 with "B below D": without a tank there
    is no D. So 18 is here by a d that the bolt chart does not have, then by its other halves."""
    words = {30: "refused 30", 32: "refused 32", 16: "refused 16 12", 18: "refused 18"}
    for present in subsets((30, 32, 16, 18)):
        sheet = sheet_of(None if 32 in present else FULL_TANK,
                         with_outside(FULL_SITE, 7) if 30 in present else None, None, ())
        figures = FULL_ANCHORS._replace(N=201 if 16 in present else 24,
                                        d=13 if 18 in present else 12)
        yield case(first_of(words, present, "ok"), *holding(sheet), anchors(figures))
    wrong = TANK_ONLY._replace(site=with_outside(FULL_SITE, 7))
    for figures in ((0, 1, 0), (0, 0, 8), (24, 0, 12)):
        yield case("refused 32", new(), anchors(figures))
        yield case("refused 30", forge(wrong), anchors(figures))
    yield case("refused 30", forge(wrong), anchors((24, FULL_TANK.D - 1, 12)))


def course_order_sheet(present):
    """Twelve courses for 33; for 34 a height that the lowest course brings above 76,800."""
    n = 12 if 33 in present else 11 if 34 in present else 1
    courses = courses_to(76_000 if 34 in present else 1_200 * n, n)
    if 32 in present and n == 1:
        courses = ()
    return sheet_of(None if 32 in present else FULL_TANK,
                    with_outside(FULL_SITE, 7) if 30 in present else None, None, courses)


def course_order():
    """Two pairs cannot be present without 30: 32 with 33, and 32 with 34, for a sheet without
    a tank has no course. (32 with 34 is left if the width alone is above 76,800, which is 16
    too: it comes last.)"""
    words = {30: "refused 30", 32: "refused 32", 33: "refused 33", 16: "refused 16 19",
             17: "refused 17", 34: "refused 34"}
    for present in subsets((30, 32, 33, 16, 17, 34)):
        if 32 in present and {33, 34} & set(present) and 30 not in present:
            continue
        figures = with_outside(LOW_COURSE, 19) if 16 in present else LOW_COURSE
        if 17 in present:
            figures = with_plate(figures, 250, 250)
        yield case(first_of(words, present, "ok"), *holding(course_order_sheet(present)),
                   course(figures))
    for width in (76_801, U32_MOST):
        figures = LOW_COURSE._replace(width=width)
        yield case("refused 32", new(), course(figures))
        yield case("refused 16 15", *steps_to(TANK_ONLY), course(figures))


def lacking(present, tank_figures, site_figures, courses):
    """A sheet with those of 30, 32, 35, 36 and 38 that are present. 30 is by anchors that do
    not agree or, beside 38, by a slot past the count."""
    figures = None if 38 in present else Anchors(N=0, B=0, d=1) if 30 in present \
        else SELF_ANCHORED
    sheet = sheet_of(None if 32 in present else tank_figures,
                     None if 36 in present else site_figures, figures,
                     () if 35 in present else courses)
    return with_slot(sheet, 11, ALMOST_BLANK) if {30, 38} <= set(present) else sheet


def write_order():
    """Without 30, 32 comes only with 35, 36 and 38: such a sheet is the empty one. Since S-8 either
    buffer is too short."""
    words = {30: "refused 30", 32: "refused 32", 35: "refused 35", 36: "refused 36",
             38: "refused 38", 19: "refused 19"}
    for present in subsets((30, 32, 35, 36, 38, 19)):
        if 32 in present and not {35, 36, 38} <= set(present) and 30 not in present:
            continue
        sheet = lacking(present, FULL_TANK, FULL_SITE, FULL_COURSES[:2])
        lent = write_for(sheet.count, 11, more=-1 if 19 in present else 0)
        yield case(first_of(words, present, write_word(2)), *holding(sheet), lent)


# --- Groups: the order of bytes -----------------------------------------------
#
# The sheet is of seven courses, the sixth of which would bring Hs from 70,000 to above 76,800 if it
# were wider.

ORDER_COURSES = (*courses_to(70_000, 5), LOW_COURSE, LOW_COURSE)
BYTES_ORDER = (     # in document 01's order
    ("refused 13", longer_by_one_throughout),
    ("refused 11", lambda content: content.pop()),
    ("refused 12", lambda content: content.extend((0, 0))),
    ("refused 14", lambda content: content.__setitem__(VERSION_AT, 2)),
    ("refused 15", lambda content: content.__setitem__(COUNT_AT, 6)),
    ("refused 16 1", field_damage(1, 11_999)),
    ("refused 17", field_damage(5, 250)),
    ("refused 16 11", field_damage(11, 1_000_000_001)),
    ("refused 16 12", field_damage(12, 5)),
    ("refused 18", field_damage(14, 13)),
    ("refused 16 15", field_damage(15, 1_199, 0)),
    ("refused 17", field_damage(17, 250, 0)),
    ("refused 16 18", field_damage(18, 40_001, 3)),
    ("refused 17", field_damage(17, 250, 3)),
    ("refused 34", field_damage(15, 6_801, 5)),
    ("refused 16 19", field_damage(19, 49, 6)),
    ("refused 17", field_damage(17, 250, 6)),
)


def damaged(damages):
    content = bytearray(
        as_bytes(example.TANK, example.SITE, example.ANCHORS, ORDER_COURSES))
    for _word, damage in reversed(damages):     # a cut comes after the fields that it cuts
        damage(content)
    return read(content)


def one_or_two(order):
    """Each damage of an order alone, then each pair. 11 and 12 cannot be present together."""
    for damage in order:
        yield (damage,)
    for one, other in combinations(order, 2):
        if (one[0], other[0]) != ("refused 11", "refused 12"):
            yield one, other


def all_at_once(order):
    """All damages, then all but the first, and so on; without 11, then without 12."""
    for absent in ("refused 11", "refused 12"):
        damages = [damage for damage in order if damage[0] != absent]
        for place in range(len(damages)):
            yield damages[place:]


def bytes_order():
    """11 for under two bytes comes alone, as there is no L then and nothing else to be seen
    (see everything_small). Where 13 is, L gives no n, and so 15 cannot be; the pair is tried
    all the same. In bytes 31, 32 and 33 cannot be: the tank comes first and once, and courses
    are at most twelve. The first course is never too high."""
    yield case("ok", damaged(()))
    for damages in one_or_two(BYTES_ORDER):
        yield case(damages[0][0], damaged(damages))


def bytes_order_all_at_once():
    for damages in all_at_once(BYTES_ORDER):
        yield case(damages[0][0], damaged(damages))
