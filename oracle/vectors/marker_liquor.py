"""Printing: request S-8. Both versions of the same sheets, every refusal that bytes of version 2
lead to, and texts in which gravity shows.
"""

from itertools import combinations, product

from model.arithmetic import rounded_down
from model.demand_3_liquor import (
    GRAVITY, HALF_IS_LITTLE_IN_LIQUOR, HEAVY_BY_CAP, HEAVY_BY_ROOT, HEAVY_HEADS,
    MARGIN_COUNTS_IN_LIQUOR, OVER_BY_THE_YIELD, filled_with,
)
from model.fields import (
    COURSE_FIELDS, FIELD_RANGES, GRAVITY_FIELD, HEAD_FIELDS, TANK_FIELDS, WATER, field_in_range,
)
from model.filling_in import has_size_6
from model.printing import MARKER_READS, refusal_word
from model.refusals import D100, FIELD_REFUSAL, MOST_COURSES
from model.sheet_bytes import COURSE_BYTES, LAYOUTS, VERSION_1, VERSION_2, VERSION_AT, by_length
from model.tank_rules import house_floor
from vectors.byte_changes import exchange, with_byte, with_length
from vectors.judge_cases import (
    EXAMPLE, SELF, changed, course_changed, self_anchored, with_courses, with_widths,
)
from vectors.judge_liquor import COURSES_ASTRAY, RESISTANCES_ASTRAY
from vectors.judge_need_steps import UPRIGHT, on_first_of, on_point
from vectors.leaf_points import beside
from vectors.liquor_points import LARGEST, beside_steps, whole_ones
from vectors.marker_cases import (
    LARGEST as LARGEST_OF_WATER, LONGEST, SHORTEST, Case, altered, damaged, printed, read_as,
    refused, text_of, whole,
)
from vectors.marker_texts import at_required_and_less, told_apart
from vectors.marker_tries import inputs_of_version_2
from vectors.scripts import end_figures, with_anchors, with_plate, with_slot
from vectors.start_sheets import FULL, FULL_COURSES, widths_to
from vectors.steps_in_turn import PLATE_CASES, anchor_cases
from vectors.steps_liquor import BYTES_ORDER_2, damaged_2
from vectors.steps_orders import all_at_once, one_or_two
from vectors.steps_versions import VERSION_BYTES, sheet_of_length

HEAVY_EXAMPLE, HEAVY_ONE, HEAVY_FULL = HEAVY_SHEETS = tuple(
    filled_with(GRAVITY, sheet) for sheet in
    (EXAMPLE, changed(with_widths(EXAMPLE, [9_600]), H=9_600), FULL))
HEAVY_BYTES = tuple(map(VERSION_2.sheet_as_bytes, HEAVY_SHEETS))
HEAVY_HIGH = changed(HEAVY_EXAMPLE, H=76_800)       # readable, and refused 37


def second(sheet, *parts):
    """The sheet as version 2, whatever its gravity; its text has these parts."""
    return printed(VERSION_2.sheet_as_bytes(sheet), *parts)


# --- Groups: both versions ----------------------------------------------------


def both_versions_printed():
    """As version 1 and as version 2: one text, or 39 with size 6 (S-10)."""
    sheets = (EXAMPLE, SELF, self_anchored(EXAMPLE), FULL, self_anchored(FULL), LONGEST, SHORTEST,
              LARGEST_OF_WATER, changed(EXAMPLE, H=28_801), changed(EXAMPLE, B=22_919),
              changed(EXAMPLE, V=96), changed(SELF, Ms=145_755), changed(EXAMPLE, Ms=257_197),
              *map(told_apart, range(1, MOST_COURSES + 1)),
              *(with_courses(changed(EXAMPLE, H=1_200), FULL_COURSES[:n]) for n in (1, 4, 9)),
              UPRIGHT, HEAVY_BY_CAP, HEAVY_BY_ROOT, HEAVY_HEADS)
    for sheet in sheets:
        water = filled_with(WATER, sheet)
        first, other = (layout.sheet_as_bytes(water) for layout in LAYOUTS)
        assert text_of(other) == (b"refused 39\n" if has_size_6(water.anchors) else text_of(first))
        yield Case(first)
        yield Case(other)


def example_in_liquor():
    """Needs and T by hand, as in judge_liquor.py."""
    for gravity, needs, T in ((1_000, (60, 40, 20), 94_646), (1_001, (60, 40, 20), 94_698),
                              (1_022, (65, 45, 25), 95_814), (1_137, (70, 45, 25), 101_918),
                              (1_300, (80, 55, 30), 110_571)):
        lines = [f"course {number} {need} 188 250 ok" for number, need in enumerate(needs, start=1)]
        tank = filled_with(gravity, EXAMPLE)
        yield second(tank, *lines, "wind 2123 73371", "pull 2133 -191",
                     "anchors spacing ok strength ok", "tank sound")
        yield second(self_anchored(tank), *lines, "wind 2123 73371",
                     f"self wind short resist {T} none", "tank short")
    standing = self_anchored(filled_with(1_300, EXAMPLE))
    for Ms, lift in ((86_798, "none"), (86_799, "lift"), (170_279, "lift"), (170_280, "over")):
        yield second(changed(standing, Ms=Ms), f"resist 110571 {lift}", "tank short")


def tried_by_hand_of_version_2():
    """marker_tries.py runs the program on the same."""
    for content, last_line in inputs_of_version_2().values():
        yield printed(content, last_line)


# --- Groups: every refusal that bytes of version 2 lead to --------------------

HIGH_WATER = ("refused 37", lambda content: content.__setitem__(
    VERSION_2.field_bytes(2), (76_800).to_bytes(4, "big")))
ORDER_BYTES = damaged_2(())


def refusals_of_version_2():
    """Alone, two at once, and all; 37 is no refusal of reading."""
    order = (*BYTES_ORDER_2, HIGH_WATER)
    for damages in (*one_or_two(order), *all_at_once(order)):
        content, (word, _damage) = damaged_2(damages), damages[0]
        yield refused(word, content) if word == "refused 37" \
            else damaged(ORDER_BYTES, content, word)


def put(sheet, *puts):
    """The sheet's bytes, and these with each field, figure and place put in."""
    was = content = VERSION_2.sheet_as_bytes(sheet)
    for field, figure, place in puts:
        content = VERSION_2.with_field_bytes(content, field, figure, place)
    return was, content


def fields_outside_in_version_2():
    """16 with each field past either end, a course's in the last one; of field 20 more figures, and
    beside 37."""
    for field in FIELD_RANGES:
        place = 2 if field in COURSE_FIELDS else 0
        for figure in end_figures(field):
            if not field_in_range(field, figure):
                yield damaged(*put(HEAVY_EXAMPLE, (field, figure, place)),
                              refusal_word(FIELD_REFUSAL, field))
    for figure in (1, 998, 1_302, 1_000 + 2**16, 1_000 + 2**31, 2**31, *end_figures(GRAVITY_FIELD)):
        word = "ok" if field_in_range(GRAVITY_FIELD, figure) else "refused 16 20"
        for sheet in (HEAVY_HIGH, HEAVY_FULL, self_anchored(HEAVY_ONE)):
            yield read_as(*put(sheet, (GRAVITY_FIELD, figure, 0)), word)


def above(field, place=0):
    return field, FIELD_RANGES[field][1] + 1, place


def two_fields_outside_in_version_2():
    """The first that is read is named: 20 after 6 and before 7."""
    for one, other in combinations(FIELD_RANGES, 2):
        if GRAVITY_FIELD in (one, other) or (one + other) % 4 == 0:
            yield damaged(*put(HEAVY_EXAMPLE, above(one), above(other)), f"refused 16 {one}")
    for field in TANK_FIELDS[:-1]:
        for gravity in (0, 999):
            yield damaged(*put(HEAVY_EXAMPLE, (GRAVITY_FIELD, gravity, 0), above(field)),
                          f"refused 16 {field}")


def agreement_in_version_2():
    """17, with field 20 outside too where 16 comes first; 18, and 39 (S-10)."""
    was = VERSION_2.sheet_as_bytes(HEAVY_EXAMPLE)
    for word, *plates in PLATE_CASES:
        bottom = HEAVY_EXAMPLE._replace(tank=with_plate(HEAVY_EXAMPLE.tank, *plates))
        course = with_slot(HEAVY_EXAMPLE, 1, with_plate(HEAVY_EXAMPLE.courses[1], *plates))
        for sheet in (bottom, course):
            content = VERSION_2.sheet_as_bytes(sheet)
            yield read_as(was, content, word)
            yield damaged(was, VERSION_2.with_field_bytes(content, GRAVITY_FIELD, 999),
                          "refused 16 20")
    for word, figures in anchor_cases(HEAVY_EXAMPLE.tank.D):
        content = VERSION_2.sheet_as_bytes(with_anchors(HEAVY_EXAMPLE, figures))
        yield read_as(was, content, word)


# --- Groups: lengths, cuts, versions and counts -------------------------------


def cuts_of_version_2():
    """At every place: 11."""
    for was in HEAVY_BYTES:
        for length in range(len(was)):
            yield damaged(was, was[:length], "refused 11")


def additions_to_version_2():
    for was in HEAVY_BYTES:
        for more in (*range(1, COURSE_BYTES + 2), 40, 100, 305, 1_000, 20_000):
            yield damaged(was, was + bytes(more), "refused 12")
    assert len(HEAVY_BYTES[2]) == MARKER_READS - 1 == 304


def lengths_and_versions():
    """Each L of a sheet, a whole one but for its version, under five version bytes; those beside,
    and those of no course and of thirteen."""
    for n, layout in product(range(MOST_COURSES + 2), LAYOUTS):
        for L, version in product(beside(layout.length_with(n)), VERSION_BYTES):
            was = sheet_of_length(L)
            if was is None:
                content = L.to_bytes(2, "big") + bytes((version,)) + bytes(L - 1)
                yield refused("refused 13", content)
            else:
                right = by_length(L)[0].version
                yield read_as(was, with_byte(was, VERSION_AT, version),
                              "ok" if version == right else "refused 14")


def lengths_over_version_2():
    """Every other L of a sheet over the same bytes: 11, 12 or 13."""
    lengths = sorted({near for n in range(MOST_COURSES + 2) for layout in LAYOUTS
                      for near in beside(layout.length_with(n))} | {0, 1, 256, 305, 2**15, 65_535})
    for was, n in ((HEAVY_BYTES[0], 3), (HEAVY_BYTES[2], 12)):
        right = VERSION_2.length_with(n)
        for L in lengths:
            word = "refused 13" if by_length(L) is None else "ok" if L == right \
                else "refused 12" if L < right else "refused 11"
            yield read_as(was, with_length(was, L), word)


def versions_and_counts_of_version_2():
    """14 and 15, each byte but the right one for the example."""
    for was in HEAVY_BYTES:
        some = range(256) if was == HEAVY_BYTES[0] else (0, 1, 2, 3, 11, 12, 13, 128, 255)
        for place, word in ((VERSION_AT, "refused 14"), (VERSION_2.count_at(), "refused 15")):
            for byte in some:
                if byte != was[place]:
                    yield damaged(was, with_byte(was, place, byte), word)


def other_layout():
    """The fields of one version with the other's L, its version, or both; n is not where it is
    looked for."""
    for n in range(1, MOST_COURSES + 1):
        first, second_bytes = map(sheet_of_length, (58 + 20 * n, 62 + 20 * n))
        yield damaged(first, with_byte(first, VERSION_AT, 2), "refused 14")
        yield damaged(second_bytes, with_byte(second_bytes, VERSION_AT, 1), "refused 14")
        longer = with_byte(with_length(first, VERSION_2.length_with(n)), VERSION_AT, 2)
        yield damaged(first, longer + bytes(4), "refused 15")
        shorter = with_byte(with_length(second_bytes, VERSION_1.length_with(n)), VERSION_AT, 1)
        yield damaged(second_bytes, shorter[:-4], "refused 15")
        yield damaged(second_bytes, shorter, "refused 12")


def exchanged_with_gravity():
    """Field 20 and each other field before n change places."""
    for was, field in product(HEAVY_BYTES, HEAD_FIELDS):
        if field != GRAVITY_FIELD:
            content = bytearray(was)
            exchange(content, *map(VERSION_2.field_bytes, (field, GRAVITY_FIELD)))
            yield altered(was, content)


# --- Groups: texts in which gravity shows -------------------------------------


def needs_beside_steps_in_liquor():
    """With a plate of what is required and a mil less."""
    found = (*beside_steps(), *list(whole_ones())[::5])
    for place, (gravity, need, point) in enumerate(found):
        base = filled_with(gravity, UPRIGHT)
        number, sheet = on_first_of(((1, 2), (2, 1))[place % 2], base, point, D100)
        c = min(max(house_floor(point.D) - need, 0) + 1 + place % 4, 250)
        yield from at_required_and_less(sheet, number, need, c)


def courses_read_astray():
    """Those of judge_liquor.py that are by D100."""
    for _name, method, gravity, D, H, s, E, c, need, required, _astray in COURSES_ASTRAY:
        if method == D100:
            base = changed(with_widths(UPRIGHT, widths_to(76_800, 6)), D=D, H=H, s=40_000, E=100,
                           t=2_000)
            sheet = course_changed(filled_with(gravity, base), 1, s=s, E=E, c=c)
            for t, word in ((required, "ok"), (required - 1, "short")):
                yield whole(course_changed(sheet, 1, t=t), f"course 1 {need} {required} {t} {word}",
                            f"tank {'sound' if word == 'ok' else 'short'}")


def resistances_read_astray():
    strong = changed(SELF, s=40_000, E=100, t=2_000)
    for _name, D, H, W, plate, allowance, Fy, gravity, T, _astray in RESISTANCES_ASTRAY:
        sheet = changed(strong, D=D, H=H, W=W, plate=plate, allowance=allowance, Fy=Fy,
                        gravity=gravity)
        most = rounded_down(1_540 * T, 1_000)
        yield whole(changed(sheet, Ms=most), f"resist {T} lift", "tank sound")
        yield whole(changed(sheet, Ms=most + 1), f"resist {T} over", "tank short")


def equality_in_liquor():
    """T of 87,800 by the cap and of 59,200 by the root; the courses of HEAVY_HEADS; the margins'
    sheets."""
    for sheet, T in ((HEAVY_BY_CAP, 87_800), (HEAVY_BY_ROOT, 59_200)):
        for parts, words in ((785, ("none", "lift")), (1_540, ("lift", "over"))):
            most = parts * T // 1_000
            for Ms, lift in zip((most, most + 1), words):
                yield whole(changed(sheet, Ms=Ms), f"resist {T} {lift}",
                            f"tank {'short' if lift == 'over' else 'sound'}")
    for t, gravity in product((259, 260, 265), (1_136, 1_137, 1_138)):
        sheet = changed(HEAVY_HEADS, t=t, gravity=gravity)
        word = "sound" if t >= (260 if gravity <= 1_137 else 265) else "short"
        yield whole(sheet, f"tank {word}")
    for sheet in (*OVER_BY_THE_YIELD, *(one for _name, one in HALF_IS_LITTLE_IN_LIQUOR)):
        yield whole(sheet, "tank short")
    for _name, sheet in MARGIN_COUNTS_IN_LIQUOR:
        yield whole(sheet, "tank sound")


def largest_in_liquor():
    """Needs of 8,655 and 8,520, required plates of 8,905 and 8,770, T of 958,877,600; the sheet of
    the longest text, which has size 6: marker_size_6.py has it with a size that is left."""
    for need, point in LARGEST:
        sheet = on_point(filled_with(1_300, UPRIGHT), point, D100, 1)
        yield whole(course_changed(sheet, 1, c=250), f"course 1 {need} {need + 250} 2000 short")
    heaviest = changed(self_anchored(LARGEST_OF_WATER), W=10_000_000, Av=0, allowance=0,
                       gravity=1_300)
    yield whole(heaviest, "resist 958877600 lift")
    for sheet in (LONGEST, SHORTEST, self_anchored(LONGEST)):
        for gravity in (1_001, 1_300):
            yield Case(VERSION_2.sheet_as_bytes(filled_with(gravity, sheet)))


def course_counts_in_liquor():
    """One to twelve courses, both ways of standing."""
    for n in range(1, MOST_COURSES + 1):
        for base in (told_apart(n), self_anchored(told_apart(n))):
            yield whole(filled_with(1_001 + 20 * n, base), f"course {n}", "tank")


