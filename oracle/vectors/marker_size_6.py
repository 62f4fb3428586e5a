"""Printing: request S-10. Sheets with size 6 in version 1, which get a report, and in version 2,
which are refused 39 unless something before it is wrong; then others drawn at random from fixed
seeds.
"""

from itertools import product
from random import Random

from model import example
from model.demand_3_liquor import filled_with
from model.fields import COURSE_FIELDS, Anchors
from model.filling_in import DROPPED_SIZE, has_size_6
from model.refusals import MOST_COURSES
from model.sheet_bytes import LAYOUTS, VERSION_1, VERSION_2, VERSION_AT
from vectors.byte_changes import with_byte, with_length
from vectors.judge_cases import (
    EXAMPLE, FIFTHS, TALL_FIFTHS, TALL_UPWARD, changed, course_changed,
)
from vectors.judge_liquor_random import drawn_gravity
from vectors.judge_size_6 import MOST, SIX
from vectors.marker_cases import (
    LARGEST, LONGEST, Case, altered, damaged, printed, read_as, refused, text_of,
)
from vectors.marker_random import damage_by_addition, damage_by_move, damage_version
from vectors.marker_texts import told_apart
from vectors.marker_tries import inputs_of_size_6
from vectors.random_sheets import anchored_sheet
from vectors.scripts import just_outside, with_anchors
from vectors.start_sheets import FULL
from vectors.steps_orders import ORDER_COURSES, all_at_once, one_or_two
from vectors.steps_random import (
    damage_by_cut, damage_by_gap, damage_by_swap, damage_field, damage_length, damage_one_bit,
    damage_one_byte,
)
from vectors.steps_size_6 import ALMOST_SIX, SIZES
from vectors.steps_size_6_bytes import order_in, with_39
from vectors.steps_size_6_random import LEFT_SIZES, drawn_size, judgeable, sized_sheet

SIX_FULL = with_anchors(FULL, (24, 18_654, 6))
HIGH = changed(SIX, H=28_801)


def in_both(sheet, *parts, gravity=None):
    """Of version 1 with these parts, and of version 2 refused 39."""
    yield printed(VERSION_1.sheet_as_bytes(sheet), *parts)
    second = VERSION_2.sheet_as_bytes(sheet if gravity is None else filled_with(gravity, sheet))
    yield refused("refused 39", second)


# --- Groups -------------------------------------------------------------------


def tried_by_hand_with_size_6():
    """marker_tries.py runs the program on the same."""
    for content, last_line in inputs_of_size_6().values():
        yield printed(content, last_line)


def reports_with_size_6():
    """Sound, and short by strength, by spacing, by a course; one to twelve courses; the example's
    lines by hand, which are those of size 8."""
    lines = text_of(VERSION_1.sheet_as_bytes(SIX)).decode("ascii").splitlines()
    assert lines == ["course 1 60 188 250 ok", "course 2 40 188 250 ok", "course 3 20 188 250 ok",
                     "wind 2123 73371", "pull 2133 -191", "anchors spacing ok strength ok",
                     "tank sound"]
    yield from in_both(SIX, "pull 2133 -191", "tank sound")
    for off, word in ((-1, "ok"), (0, "ok"), (1, "short")):
        shaken = changed(FIFTHS, d=6, W=11_500, Ms=15 * (MOST + off) + 23_000)
        yield from in_both(shaken, f"{MOST + off}", f"strength {word}", gravity=1_001)
        windy = changed(TALL_FIFTHS, d=6, W=TALL_UPWARD - 6 * (MOST + off), Ms=100)
        yield from in_both(windy, f"pull {MOST + off}", f"strength {word}", gravity=1_300)
    yield from in_both(changed(SIX, B=22_918), "spacing ok")
    yield from in_both(changed(SIX, B=22_919), "spacing short", "tank short")
    yield from in_both(course_changed(SIX, 2, t=187), "course 2 40 188 187 short")
    yield from in_both(HIGH, "refused 37")
    for sheet in (SIX_FULL, LONGEST, LARGEST):
        yield from in_both(sheet, "tank")
    for n in range(1, MOST_COURSES + 1):
        sheet = told_apart(n)._replace(anchors=Anchors(6 + n, 300_000, 6))
        yield from in_both(sheet, f"course {n}")
    for N, B in product((6, 200), (14_400, 300_000)):
        yield from in_both(changed(SIX, N=N, B=B), "anchors spacing")


def sizes_printed():
    """Every size and some that are not one, in both versions; with N = 0 and with B below D."""
    for layout, d in product(LAYOUTS, (*SIZES, *ALMOST_SIX)):
        word = SIZES.get(d, "refused 16 14")
        word = "ok" if d == DROPPED_SIZE and layout == VERSION_1 else word
        was = layout.sheet_as_bytes(changed(EXAMPLE, B=14_700))
        yield read_as(was, layout.sheet_as_bytes(changed(EXAMPLE, B=14_700, d=d)), word)
    for layout, (N, B, word) in product(LAYOUTS, (
            (0, 0, "18"), (0, 14_400, "18"), (6, 14_399, "18"), (6, 0, "18"), (5, 14_400, "16 12"),
            (201, 14_400, "16 12"), (6, 300_001, "16 13"), (0, 300_001, "16 13"))):
        was = layout.sheet_as_bytes(EXAMPLE)
        yield damaged(was, layout.sheet_as_bytes(with_anchors(EXAMPLE, (N, B, 6))),
                      f"refused {word}")


def order_printed():
    """39 of version 2 beside each other refusal, and all of them; the same of version 1, where
    there is no 39."""
    for layout, d, orders in ((VERSION_2, 8, with_39(order_in(VERSION_2))),
                              (VERSION_1, 6, in_version_1())):
        was = layout.as_bytes(example.TANK, example.SITE, example.ANCHORS._replace(d=d),
                              courses=ORDER_COURSES)
        for word, damages in orders:
            content = bytearray(was)
            for _word, damage in reversed(damages):
                damage(content)
            yield damaged(was, content, word)


def in_version_1():
    order = order_in(VERSION_1)
    for number, damages in enumerate((*one_or_two(order), *all_at_once(order))):
        if len(damages) != 2 or number % 3 == 0:
            yield damages[0][0], damages


def fields_outside_printed():
    """16 with each field beside size 6; that of a course comes after 39."""
    for layout in LAYOUTS:
        was, content = (layout.sheet_as_bytes(sheet) for sheet in (EXAMPLE, SIX))
        for field in (*layout.head_fields, *COURSE_FIELDS):
            later = layout == VERSION_2 and field in COURSE_FIELDS
            if field != 14:
                for figure in just_outside(field):
                    changed_field = layout.with_field_bytes(content, field, figure, 2)
                    yield damaged(was, changed_field,
                                  "refused 39" if later else f"refused 16 {field}")


def versions_with_size_6():
    """The other version's byte, length or both; cuts and additions."""
    for layout, other in (LAYOUTS, LAYOUTS[::-1]):
        for sheet in (SIX, SIX_FULL):
            was = layout.sheet_as_bytes(changed(sheet, d=8))
            content, n = layout.sheet_as_bytes(sheet), sheet.count
            yield damaged(was, with_byte(content, VERSION_AT, other.version), "refused 14")
            longer = with_length(content, other.length_with(n))
            yield damaged(was, longer, "refused 11" if layout == VERSION_1 else "refused 12")
            both = with_byte(longer, VERSION_AT, other.version)
            yield damaged(was, both + bytes(4) if layout == VERSION_1 else both[:-4], "refused 15")
            for length in (2, layout.field_at(14), len(content) - 1):
                yield damaged(was, content[:length], "refused 11")
            yield damaged(was, content + b"\0", "refused 12")


def longest_in_version_2():
    """What S-8's largest_in_liquor had and lost: the longest text, with the least size that is
    left."""
    for sheet, gravity in product((LONGEST, LARGEST), (1_000, 1_001, 1_300)):
        for d in (7, 16):
            yield printed(VERSION_2.sheet_as_bytes(filled_with(gravity, changed(sheet, d=d))),
                          "tank short")


# --- Groups: at random, from fixed seeds --------------------------------------


def random_with_size_6():
    """Near equality: in version 1, and the same in version 2; one file of both."""
    rng = Random(111)
    for _ in range(70):
        sheet = judgeable(rng)
        yield printed(VERSION_1.sheet_as_bytes(sheet), "tank")
        yield refused("refused 39",
                      VERSION_2.sheet_as_bytes(filled_with(drawn_gravity(rng), sheet)))


def random_without_size_6():
    """Near equality, of version 2, with a size that is left."""
    rng = Random(112)
    for _ in range(60):
        sheet = anchored_sheet(rng, gravity=drawn_gravity(rng))
        if has_size_6(sheet.anchors):
            sheet = changed(sheet, d=rng.choice(LEFT_SIZES))
        yield printed(VERSION_2.sheet_as_bytes(sheet), "tank")


def random_even_with_size_6():
    """Drawn evenly, of either version."""
    rng = Random(113)
    for number in range(80):
        yield Case(LAYOUTS[number % 2].sheet_as_bytes(sized_sheet(rng)))


def random_damage_with_size_6():
    """Once, and in the anchors often."""
    rng = Random(114)
    for number in range(200):
        layout = LAYOUTS[number % 2]
        was = layout.sheet_as_bytes(sized_sheet(rng))
        content = bytearray(was)
        kind = rng.randrange(12)
        if kind < 4:
            damage_field(rng, content, layout, (12, 13, 14))
        elif kind == 4:
            damage_by_swap(rng, content, layout)
        elif kind == 5:
            content[layout.field_bytes(14)] = drawn_size(rng).to_bytes(4, "big")
        else:
            rng.choice((damage_one_bit, damage_one_byte, damage_by_gap, damage_length,
                        damage_by_cut, damage_version, damage_by_addition,
                        damage_by_move))(rng, content)
        yield altered(was, content)


GROUPS = (
    tried_by_hand_with_size_6, reports_with_size_6, sizes_printed, order_printed,
    fields_outside_printed, versions_with_size_6, longest_in_version_2, random_with_size_6,
    random_without_size_6, random_even_with_size_6, random_damage_with_size_6,
)
