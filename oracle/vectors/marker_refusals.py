"""Printing: document 01's cases, every refusal that bytes lead to, and bytes cut, added, changed
and exchanged.
"""

from itertools import combinations, product

from model.fields import COURSE_FIELDS, NUMBER_OF, field_in_range
from model.filling_in import shell_height
from model.printing import EXAMPLE_TEXT, refusal_word
from model.refusals import FIELD_REFUSAL
from model.sheet_bytes import COURSE_BYTES, LENGTH_BYTES, VERSION_AT
from vectors import steps_orders
from vectors.byte_changes import (
    exchange, field_damage, put_field, right_length, with_byte, with_length,
)
from vectors.judge_cases import EXAMPLE, changed, self_anchored, with_courses, with_widths
from vectors.leaf_points import beside
from vectors.marker_cases import (
    EXAMPLE_AND_HIGH, MOST_BYTES, SHEETS, altered, damaged, printed, read_as, refused, text_of,
    whole,
)
from vectors.marker_tries import inputs
from vectors.scripts import end_figures, with_anchors, with_plate, with_slot
from vectors.start_sheets import EXAMPLE_BYTES, FULL_BYTES, courses_to
from vectors.steps_bytes import length_word
from vectors.steps_in_turn import PLATE_CASES, anchor_cases
from vectors.steps_orders import BYTES_ORDER, all_at_once, one_or_two
from vectors.version_1 import (
    COUNT_AT, FIELD_RANGES, HEAD_BYTES, HEAD_FIELDS, as_bytes, field_bytes, length_with,
    sheet_as_bytes,
)

# --- Groups: document 01's cases, and those tried by hand ---------------------


def cases_on_the_tank():
    """Those that bytes can be: a thirteenth course, 33, cannot be read (13)."""
    assert text_of(EXAMPLE_BYTES) == EXAMPLE_TEXT
    yield whole(EXAMPLE, "course 1 60 188 250 ok", "course 2 40 188 250 ok",
                "course 3 20 188 250 ok", "wind 2123 73371", "pull 2133 -191",
                "anchors spacing ok strength ok", "tank sound")
    yield whole(changed(EXAMPLE, V=96), "wind 1800 62208", "tank sound")
    yield whole(changed(EXAMPLE, V=97), "wind 1812 62623", "tank sound")
    yield whole(changed(EXAMPLE, B=22_918), "anchors spacing ok strength ok", "tank sound")
    yield whole(changed(EXAMPLE, B=22_919), "anchors spacing short strength ok", "tank short")
    standing = self_anchored(EXAMPLE)
    for Ms, lift in ((30_000, "none"), (74_297, "none"), (74_298, "lift"), (145_754, "lift"),
                     (145_755, "over")):
        yield whole(changed(standing, Ms=Ms), f"self wind short resist 94646 {lift}", "tank short")
    yield whole(changed(standing, W=18_342), "self wind short resist 122388 none", "tank short")
    yield whole(changed(standing, W=18_343), "self wind ok resist 122391 none", "tank sound")
    for D, floor in ((60_000, 188), (60_001, 250)):
        yield whole(changed(standing, D=D), f"course 1 245 {max(245, floor)} 250 ok",
                    f"course 2 165 {floor} 250 ok", f"course 3 85 {floor} 250 ok")
    yield refused("refused 37", sheet_as_bytes(changed(EXAMPLE, H=28_801)))
    for width in (5_000, 9_600):        # 65,000 in all, and too high
        courses = [EXAMPLE.courses[0]._replace(width=width)] * 13
        content = as_bytes(EXAMPLE.tank, EXAMPLE.site, EXAMPLE.anchors, courses)
        yield refused("refused 13", content)


def tried_by_hand():
    """marker_tries.py runs the program on the same."""
    for content, last_line in inputs(MOST_BYTES).values():
        yield printed(content, last_line)


# --- Groups: every refusal that bytes lead to ---------------------------------

HIGH_WATER = ("refused 37", field_damage(2, 76_800))    # in judging: the last of all
ORDER = (*BYTES_ORDER, HIGH_WATER)
ORDER_BYTES = steps_orders.damaged(()).payload


def in_order(damages):
    """The first one is the answer; 37 is no refusal of reading."""
    content = steps_orders.damaged(damages).payload
    if damages[0] == HIGH_WATER:
        return refused("refused 37", content)
    return damaged(ORDER_BYTES, content, damages[0][0])


def refusals_alone_and_two():
    yield printed(ORDER_BYTES, "course 7", "tank")
    for damages in one_or_two(ORDER):
        yield in_order(damages)


def refusals_all_at_once():
    for damages in all_at_once(ORDER):
        yield in_order(damages)


def put(sheet, *puts):
    """The sheet's bytes, and these with each field, figure and place put in."""
    was = sheet_as_bytes(sheet)
    content = bytearray(was)
    for field, figure, place in puts:
        put_field(content, field, figure, place)
    return was, content


def fields_outside():
    """16 with each field, past either end; a course's in each course. 37 is there or not."""
    for sheet, field in product(EXAMPLE_AND_HIGH, FIELD_RANGES):
        for place in range(3 if field in COURSE_FIELDS else 1):
            for figure in end_figures(field):
                if not field_in_range(field, figure):
                    yield damaged(*put(sheet, (field, figure, place)),
                                  refusal_word(FIELD_REFUSAL, field))


def above(field, place=0):
    return field, FIELD_RANGES[field][1] + 1, place


def two_fields_outside():
    """The first field that is read is named: in one course, or of the lower one of two."""
    for one, other in combinations(FIELD_RANGES, 2):
        yield damaged(*put(EXAMPLE, above(one), above(other)), f"refused 16 {one}")
    for upper, lower in product(COURSE_FIELDS, repeat=2):
        yield damaged(*put(EXAMPLE, above(upper, 2), above(lower, 1)), f"refused 16 {lower}")


def allowances():
    """17, bottom and course; with an anchor size not in the chart, 18 is before the courses'."""
    for sheet, (word, *plates) in product(EXAMPLE_AND_HIGH, PLATE_CASES):
        was = sheet_as_bytes(sheet)
        bottom = sheet._replace(tank=with_plate(sheet.tank, *plates))
        course = [with_slot(sheet, place, with_plate(sheet.courses[place], *plates))
                  for place in range(3)]
        for other in (bottom, *course):
            yield read_as(was, sheet_as_bytes(other), word)
        first = "refused 18" if word == "ok" else word
        yield damaged(was, sheet_as_bytes(changed(bottom, d=13)), first)
        yield damaged(was, sheet_as_bytes(changed(course[0], d=13)), "refused 18")


def anchors():
    """18 in each of its ways, among what 16 refuses and what is accepted."""
    for sheet in EXAMPLE_AND_HIGH:
        was = sheet_as_bytes(sheet)
        for word, figures in anchor_cases(sheet.tank.D, of_size_6="ok"):
            content = sheet_as_bytes(with_anchors(sheet, figures))
            yield read_as(was, content, word)
            if word != "ok":        # a course that is wrong too comes later
                content = bytearray(content)
                put_field(content, 15, 0)
                yield damaged(was, content, word)


def heights():
    """34 in the last course or in the sixth, and courses that are wrong before it or after."""
    for n in range(6, 13):
        sheet = with_courses(changed(EXAMPLE, H=1_200), courses_to(76_800, n))
        yield whole(sheet, f"course {n}")
        last = n - 1
        too_high = (NUMBER_OF["width"], sheet.courses[last].width + 1, last)
        yield damaged(*put(sheet, too_high), "refused 34")
        yield damaged(*put(changed(sheet, H=76_800), too_high), "refused 34")
        yield damaged(*put(sheet, too_high, (19, 101, last)), "refused 16 19")
        yield damaged(*put(sheet, too_high, (17, 250, last)), "refused 17")
        yield damaged(*put(sheet, too_high, (17, 250, last - 1)), "refused 17")
        widest = [(15, 14_400, place) for place in range(5)]
        word = "refused 16 19" if n == 6 else "refused 34"
        yield damaged(*put(sheet, *widest, (19, 101, last)), word)


def high_water():
    """37: H one above the shell, and much; at the top it is a report."""
    for n in range(1, 13):
        sheet = with_widths(EXAMPLE, [6_000 + 33 * n] * n)
        Hs = shell_height(sheet)
        for base in (sheet, self_anchored(sheet)):
            yield whole(changed(base, H=Hs), f"course {n}", "tank")
            for H in (Hs + 1, 76_800):
                yield refused("refused 37", sheet_as_bytes(changed(base, H=H)))


# --- Groups: bytes cut, added, changed and exchanged --------------------------


def cuts():
    """At every place: 11."""
    for was in SHEETS:
        for length in range(len(was)):
            yield damaged(was, was[:length], "refused 11")


def additions():
    """12, whatever is added at the end; much more than the marker reads is among it."""
    for was in SHEETS:
        courses = [COURSE_BYTES * n for n in (2, 5, 9, 12)]
        for more in (*range(1, COURSE_BYTES + 2), *courses, 300, 1_000, 10_000):
            yield damaged(was, was + bytes(more), "refused 12")
        for more in (b"\n", b"\xff", was[-COURSE_BYTES:], was):
            yield damaged(was, was + more, "refused 12")


def lengths():
    """Every other L, as far as a course more or less is concerned, and those a byte away."""
    near_ones = {near_one for n in range(14) for near_one in beside(length_with(n))}
    for was in SHEETS:
        right = right_length(was)
        for L in sorted({0, 1, 2, HEAD_BYTES, *near_ones, right + 256, 2**15 + right,
                         65_535}):
            yield read_as(was, with_length(was, L), length_word(L, right))


def versions_and_counts():
    """14 and 15: each byte but the right one, for the example; some for the others."""
    for was in SHEETS:
        some = range(256) if was == EXAMPLE_BYTES else (0, 1, 2, 3, 11, 12, 13, 128, 254, 255)
        for place, word in ((VERSION_AT, "refused 14"), (COUNT_AT, "refused 15")):
            for byte in some:
                if byte != was[place]:
                    yield damaged(was, with_byte(was, place, byte), word)


def each_byte():
    """Of the example: 0, 255, plus one, and with its highest bit turned."""
    for place, byte in enumerate(EXAMPLE_BYTES):
        for other in sorted({0, 255, (byte + 1) % 256, byte ^ 128} - {byte}):
            yield altered(EXAMPLE_BYTES, with_byte(EXAMPLE_BYTES, place, other))


def exchanged_fields():
    """Each two of the fields before n; in each course, each two of its five."""
    heads = [tuple(map(field_bytes, pair)) for pair in combinations(HEAD_FIELDS, 2)]
    courses = [tuple(field_bytes(field, place) for field in pair)
               for place, pair in product(range(3), combinations(COURSE_FIELDS, 2))]
    for was, pairs in ((EXAMPLE_BYTES, heads + courses), (FULL_BYTES, heads)):
        for pair in pairs:
            content = bytearray(was)
            exchange(content, *pair)
            yield altered(was, content)


def figures_in(content):
    """Every figure's bytes, as slices, whatever the count says."""
    courses = (len(content) - HEAD_BYTES) // COURSE_BYTES
    return [*map(field_bytes, HEAD_FIELDS),
            *(field_bytes(field, place)
              for place in range(courses) for field in COURSE_FIELDS)]


def other_byte_orders():
    """One figure, or all of them, with the low byte first; so also L."""
    for was in SHEETS:
        places = figures_in(was)
        for turned in (*([place] for place in places), places):
            content = bytearray(was)
            for place in turned:
                content[place] = content[place][::-1]
            yield altered(was, content)
        low_first = int.from_bytes(was[:LENGTH_BYTES], "little")
        yield damaged(was, with_length(was, low_first), "refused 13")
