"""Scripts of request S-10: size 6 in bytes of either version, and steps after reading it."""

from itertools import product

from model import example
from model.fields import COURSE_FIELDS, SITE_FIELDS, TANK_FIELDS
from model.filling_in import DROPPED_SIZE, EMPTY, SELF_ANCHORED
from model.refusals import METHODS, MOST_COURSES
from model.sheet_bytes import LAYOUTS, VERSION_1, VERSION_2, VERSION_AT
from vectors.byte_changes import field_damage, longer_by_one_throughout, with_byte, with_length
from vectors.record_answers import outcomes
from vectors.records import (
    MOST_BUFFER, anchors, ask_held, course, judge_held, mark, new, read, site, tank, write,
)
from vectors.scripts import (
    U32_MOST, answers, case, just_outside, steps_to, with_anchors, with_outside, with_plate,
    with_slot, write_for, wrote,
)
from vectors.start_sheets import (
    FULL_ANCHORS, FULL_COURSES, FULL_SITE, FULL_TANK, LOW_COURSE, ONE, THREE, courses_to,
    full_with, high_sheet, widths_to,
)
from vectors.steps_forged import all_at
from vectors.steps_in_turn import PLATE_CASES, REFUSED_COURSES
from vectors.steps_orders import ORDER_COURSES, all_at_once, one_or_two
from vectors.steps_size_6 import (
    ALMOST_SIX, SIX, SIX_EXAMPLE, SIX_FULL, SIX_ONE, SIX_THREE, SIZES, first, second, with_size,
)

ASKED = (*map(judge_held, METHODS), *map(ask_held, METHODS))
LOW = FULL_TANK._replace(H=6_000)       # its water is below the top of one course
CIRCLES = ((6, 18_000), (6, 18_001), (7, 300_000), (199, 299_999), (200, 18_000), (200, 300_000))


def shells(sheet):
    """With its first course, and so on; the water is low enough for each."""
    for n in range(1, MOST_COURSES + 1):
        yield full_with(n)._replace(tank=LOW, anchors=sheet.anchors)


# --- Groups: bytes of either version ------------------------------------------


def in_version_1():
    """Read and judged, by the record too, and asked about by both methods; not written. One to
    twelve courses, N and B at their ends."""
    circles = [SIX._replace(N=N, B=B) for N, B in CIRCLES]
    sheets = [sheet._replace(anchors=circles[n % len(circles)])
              for n, sheet in enumerate(shells(SIX_ONE))]
    sheets += [SIX_EXAMPLE, SIX_FULL, *(SIX_EXAMPLE._replace(anchors=one) for one in circles),
               with_size(all_at(0, (1_200,))), with_size(all_at(0, (1_200,) * 12)),
               with_size(all_at(1, widths_to(76_800, 12))), with_size(high_sheet(76_800, 12))]
    for number, sheet in enumerate(sheets):
        script = (first(sheet), *ASKED, mark(VERSION_1.sheet_as_bytes(sheet)),
                  write(0, 1), write_for(sheet.count, number, layout=VERSION_2), judge_held())
        results = list(outcomes(script))
        assert {result.sheet for result in results} == {sheet}
        assert [result.word for result in results] == [
            "ok", "accepted", "accepted", results[3].word, results[4].word, "accepted",
            "refused 39", "refused 39", "accepted"]
        assert results[1].line() == results[5].line() == results[8].line()
        assert results[3].asked.refusal is None and results[4].asked.refusal is None
        yield script


def in_version_2():
    """39, and an empty sheet; with water's gravity and with others. The neighbours are read."""
    for sheet in (*shells(SIX_ONE), SIX_EXAMPLE, SIX_FULL):
        for gravity in (1_000, 1_001, 1_300) if sheet.count < 4 else (1_000,):
            heavy = sheet._replace(tank=sheet.tank._replace(gravity=gravity))
            yield answers(["refused 39", "refused 32", "refused 39", "ok", wrote(sheet.count)],
                          first(THREE), second(heavy), judge_held(),
                          mark(VERSION_2.sheet_as_bytes(heavy)), second(with_size(heavy, 7)),
                          write(MOST_BUFFER, gravity % 256))
    for N, B in CIRCLES:
        yield case("refused 39", second(with_anchors(ONE, (N, B, 6))))


def sizes_in_bytes():
    """Each size, and what a byte or two of it would take for 6; with N = 0, and with B below D."""
    for layout, (d, word) in product(LAYOUTS, SIZES.items()):
        word = "ok" if d == DROPPED_SIZE and layout == VERSION_1 else word
        yield case(word, read(layout.sheet_as_bytes(with_size(ONE, d))))
    for layout, d in product(LAYOUTS, ALMOST_SIX):
        yield case("refused 16 14", read(layout.sheet_as_bytes(with_size(ONE, d))))
    for layout, figures in product(LAYOUTS, ((0, 0, 6), (0, 18_000, 6), (24, 17_999, 6),
                                             (24, 0, 6), (6, 1, 6))):
        yield case("refused 18", read(layout.sheet_as_bytes(with_anchors(ONE, figures))))
    for layout, (N, B, word) in product(LAYOUTS, (
            (5, 18_000, "12"), (201, 18_000, "12"), (1, 0, "12"), (U32_MOST, 18_000, "12"),
            (24, 300_001, "13"), (0, 300_001, "13"), (24, U32_MOST, "13"))):
        yield case(f"refused 16 {word}", read(layout.sheet_as_bytes(with_anchors(ONE, (N, B, 6)))))


def order_in(layout):
    """Document 01's order of bytes, in version 2 with 39; 18 is by B, so that size 6 stays."""
    other = VERSION_1 if layout == VERSION_2 else VERSION_2
    fields = (("refused 16 1", 1, 11_999), ("refused 17", 5, 250),
              ("refused 16 11", 11, 1_000_000_001), ("refused 16 12", 12, 5),
              ("refused 16 13", 13, 300_001), ("refused 18", 13, 14_399), ("refused 39", 14, 6),
              ("refused 16 15", 15, 1_199, 0), ("refused 17", 17, 250, 0),
              ("refused 16 18", 18, 40_001, 3), ("refused 34", 15, 6_801, 5),
              ("refused 17", 17, 250, 6))
    return (("refused 13", longer_by_one_throughout),
            ("refused 11", lambda content: content.pop()),
            ("refused 12", lambda content: content.extend((0, 0))),
            ("refused 14", lambda content: content.__setitem__(VERSION_AT, other.version)),
            ("refused 15", lambda content: content.__setitem__(layout.count_at(), 6)),
            *((word, field_damage(*change, layout=layout)) for word, *change in fields
              if layout == VERSION_2 or word != "refused 39"))


def in_order(layout, damages, d):
    """A sheet of seven courses, the sixth of which can be made too high."""
    content = bytearray(layout.as_bytes(example.TANK, example.SITE, example.ANCHORS._replace(d=d),
                                        courses=ORDER_COURSES))
    for _word, damage in reversed(damages):
        damage(content)
    return read(bytes(content))


def with_39(order):
    """Those of one_or_two and all_at_once that 39 is among; field 13 is in two of the order."""
    for damages in (*one_or_two(order), *all_at_once(order)):
        words = [word for word, _damage in damages]
        if "refused 39" in words:
            yield damages[0][0], damages


def order_of_version_2():
    """39 alone and with each other refusal: after 16 and 18, and before a course's."""
    for word, damages in with_39(order_in(VERSION_2)):
        yield case(word, in_order(VERSION_2, damages, 8))


def order_of_version_1():
    """A sheet with size 6: each refusal alone, two and all of them; and it alone is accepted."""
    order = order_in(VERSION_1)
    yield case("ok", in_order(VERSION_1, (), 6))
    for damages in (*one_or_two(order), *all_at_once(order)):
        yield case(damages[0][0], in_order(VERSION_1, damages, 6))


def fields_outside():
    """16 with each field and 17 in either version; in version 2 those of the courses come later."""
    for layout in LAYOUTS:
        content = layout.sheet_as_bytes(SIX_THREE)
        fields = [field for field in (*layout.head_fields, *COURSE_FIELDS) if field != 14]
        for number, field in enumerate(fields):
            changed = layout.with_field_bytes(content, field, just_outside(field)[number % 2], 1)
            later = layout == VERSION_2 and field in COURSE_FIELDS
            word = "refused 39" if later else f"refused 16 {field}"
            yield case(word, read(changed))
        for word, *plates in PLATE_CASES[:6]:
            bottom = SIX_THREE._replace(tank=with_plate(FULL_TANK, *plates))
            last = with_slot(SIX_THREE, 2, with_plate(FULL_COURSES[2], *plates))
            for sheet, early in ((bottom, True), (last, False)):
                said = word
                if layout == VERSION_2 and not (early and word != "ok"):
                    said = "refused 39"
                yield case(said, read(layout.sheet_as_bytes(sheet)))
        for word, wrong in REFUSED_COURSES:
            said = "refused 39" if layout == VERSION_2 else word
            yield case(said, read(layout.sheet_as_bytes(with_slot(SIX_THREE, 0, wrong))))
        high = with_size(high_sheet(76_801, 7))
        yield case("refused 39" if layout == VERSION_2 else "refused 34",
                   read(layout.sheet_as_bytes(high)))


def lengths_and_versions():
    """The other version's byte, L or both, cuts and additions: as with any other size."""
    for layout, other in (LAYOUTS, LAYOUTS[::-1]):
        for sheet in (SIX_ONE, SIX_FULL):
            content, n = layout.sheet_as_bytes(sheet), sheet.count
            yield case("refused 14", read(with_byte(content, VERSION_AT, other.version)))
            longer = with_length(content, other.length_with(n))
            yield case("refused 11" if layout == VERSION_1 else "refused 12", read(longer))
            both = with_byte(longer, VERSION_AT, other.version)
            fitted = both + bytes(4) if layout == VERSION_1 else both[:-4]
            yield case("refused 15", read(fitted))
            for length in (0, 1, 2, 3, layout.field_at(14), layout.count_at(), len(content) - 1):
                yield case("refused 11", read(content[:length]))
            yield case("refused 12", read(content + b"\0"))
            yield case("refused 15", read(with_byte(content, layout.count_at(), n + 1)))
            yield case("refused 13", read(with_length(content, layout.length_with(13))))


def other_sizes_as_before():
    """Version 1 without size 6 is read and written as version 2, and that is read again."""
    for anchored in (*(FULL_ANCHORS._replace(d=d) for d, word in SIZES.items() if word == "ok"),
                     SELF_ANCHORED):
        for sheet in (ONE._replace(tank=LOW, anchors=anchored),
                      THREE._replace(tank=LOW, anchors=anchored)):
            n = sheet.count
            content = VERSION_2.sheet_as_bytes(sheet)
            script = (first(sheet), judge_held(), write(len(content) - 1, 3),
                      write(len(content), 4), read(content), judge_held(), write(len(content), 5))
            results = list(outcomes(script))
            assert [result.word for result in results] == [
                "ok", "accepted", "refused 19", wrote(n), "ok", "accepted", wrote(n)]
            assert results[3].text == f" buffer {content.hex()}" == results[6].text
            assert results[1].line() == results[5].line()
            yield script


# --- Groups: steps after a reading --------------------------------------------


def steps_after_reading():
    """Each step, accepted and refused, on what was read; the sheet is then judged, asked about and
    still not written."""
    steps = (("refused 31", tank(LOW)), ("refused 31", tank(with_outside(LOW, 1))),
             ("refused 31", tank(LOW._replace(gravity=1_300))),
             ("ok", site(example.SITE)), ("ok", site(FULL_SITE)),
             *((f"refused 16 {field}", site(with_outside(FULL_SITE, field)))
               for field in SITE_FIELDS),
             ("ok", course(FULL_COURSES[3])),
             ("refused 17", course(with_plate(LOW_COURSE, 250, 250))),
             *((word, course(wrong)) for word, wrong in REFUSED_COURSES),
             ("refused 39", anchors(SIX)), ("refused 39", anchors((6, 18_000, 6))),
             ("refused 39", anchors((200, 300_000, 6))), ("refused 18", anchors((6, 17_999, 6))),
             ("refused 18", anchors((0, 0, 6))), ("refused 18", anchors((24, 18_654, 13))),
             ("refused 18", anchors((24, 18_654, 5))), ("refused 16 12", anchors((5, 18_654, 6))),
             ("refused 16 13", anchors((24, 300_001, 6))),
             ("refused 16 14", anchors((24, 18_654, 17))))
    for word, record in steps:
        after = 4 if record == course(FULL_COURSES[3]) else 3
        script = (first(SIX_THREE._replace(tank=LOW)), record, *ASKED,
                  write_for(after, 6, layout=VERSION_2))
        results = list(outcomes(script))
        assert [results[place].word for place in (0, 1, 2, 6)] \
            == ["ok", word, "accepted", "refused 39"]
        assert results[6].sheet.anchors == SIX and results[6].sheet.count == after
        yield script
    words, records = zip(*steps)
    yield answers([*words, "accepted", "refused 39"], first(SIX_ONE._replace(tank=LOW)), *records,
                  judge_held(), write(MOST_BUFFER, 7))


def restated_after_reading():
    """Another size or N = 0 is written, and what is written is read; then 6 again: 39, and the
    sheet is as it was."""
    for anchored in (*(SIX._replace(d=d) for d, word in SIZES.items() if word == "ok"),
                     (6, 18_000, 7), (200, 300_000, 16), SELF_ANCHORED):
        sheet = SIX_THREE._replace(tank=LOW)
        kept = with_anchors(sheet, anchored)
        content = VERSION_2.sheet_as_bytes(kept)
        script = (first(sheet), anchors(anchored), write(len(content), 8), judge_held(),
                  anchors(SIX), write(len(content), 9), read(content), judge_held(),
                  anchors(SIX), second(sheet))
        results = list(outcomes(script))
        assert [result.word for result in results] == [
            "ok", "ok", wrote(3), "accepted", "refused 39", wrote(3), "ok", "accepted",
            "refused 39", "refused 39"]
        assert results[2].text == f" buffer {content.hex()}"
        assert {result.sheet for result in results[1:9]} == {kept}
        assert results[9].sheet == EMPTY
        yield script


def filled_up_after_reading():
    """A course, then more, up to twelve and up to 76,800, and the site again between them."""
    sheet = SIX_ONE._replace(tank=LOW)
    more = [course(one) for one in FULL_COURSES[1:]]
    yield answers([*["ok"] * 11, "refused 33", "ok", "refused 39", "refused 39", "accepted", "ok",
                   wrote(12)], first(sheet), *more, course(LOW_COURSE), site(example.SITE),
                  anchors(SIX), write(MOST_BUFFER, 1), judge_held(), anchors(FULL_ANCHORS),
                  write(MOST_BUFFER, 2))
    for n in (6, 9, 11):
        full = courses_to(76_800, n)
        high = sheet._replace(courses=high_sheet(76_800, n).courses, count=n)
        yield answers(["refused 34", "accepted", "refused 39"], first(high), course(LOW_COURSE),
                      judge_held(), write(MOST_BUFFER, 3))
        lower = high._replace(courses=high_sheet(76_800 - full[-1].width, n - 1).courses,
                              count=n - 1)
        yield answers(["refused 34", "ok", "refused 34", "accepted", "refused 39"], first(lower),
                      course(full[-1]._replace(width=full[-1].width + 1)), course(full[-1]),
                      course(LOW_COURSE), judge_held(), write(MOST_BUFFER, 4))


def read_one_after_another():
    """Each reading makes its own sheet: of version 1 with size 6, of version 2, without."""
    six, seven = SIX_THREE._replace(tank=LOW), THREE._replace(tank=LOW)
    yield answers(["refused 39", "refused 32", "ok", "accepted", "ok", wrote(3), "refused 39",
                   "refused 32"], first(six), second(six), site(FULL_SITE), first(six),
                  judge_held(), second(seven), write(MOST_BUFFER, 1), second(six),
                  write(MOST_BUFFER, 2))
    yield answers(["ok", "refused 39", "ok", wrote(3), "ok", "refused 39", "held", "refused 32"],
                  second(seven), first(six), write(MOST_BUFFER, 3), first(seven),
                  write(MOST_BUFFER, 4), first(SIX_ONE), write(MOST_BUFFER, 5), new(), anchors(SIX))
    for sheet in (THREE, with_anchors(THREE, None)):
        before = steps_to(sheet)
        yield answers([*["ok"] * (len(before) - 1), "ok", "refused 39", "refused 39"], *before,
                      first(six), anchors((6, 18_000, 6)), write(MOST_BUFFER, 6))


REFUSED_READINGS = (    # of version 1 with size 6; in document 01's order of bytes
    ("refused 11", lambda content: content[:1]), ("refused 11", lambda content: content[:-1]),
    ("refused 13", lambda content: with_length(content, VERSION_1.length_with(0))),
    ("refused 12", lambda content: content + b"\0"),
    ("refused 14", lambda content: with_byte(content, VERSION_AT, 2)),
    ("refused 15", lambda content: with_byte(content, VERSION_1.count_at(), 2)),
    *((word, lambda content, change=change: VERSION_1.with_field_bytes(content, *change))
      for word, *change in (
          *((f"refused 16 {field}", field, just_outside(field)[0])
            for field in (*TANK_FIELDS[:-1], *SITE_FIELDS, 12, 13, 14)),
          ("refused 17", 5, 250), ("refused 18", 13, 14_399), ("refused 18", 12, 0),
          ("refused 18", 14, 5), ("refused 16 15", 15, 1_199, 0), ("refused 17", 17, 250, 3),
          ("refused 16 19", 19, 101, 6), ("refused 34", 15, 6_801, 5))),
)


def steps_after_refused_readings():
    """The answer holds the empty sheet, whatever sheet was the current one; steps begin anew."""
    whole = VERSION_1.as_bytes(example.TANK._replace(plate=250), example.SITE,
                               example.ANCHORS._replace(d=6), courses=ORDER_COURSES)
    again = (anchors(example.ANCHORS._replace(d=6)), site(example.SITE), tank(example.TANK),
             anchors(example.ANCHORS._replace(d=6)), site(example.SITE),
             course(example.COURSES[0]), write(MOST_BUFFER, 1), anchors(example.ANCHORS),
             write(MOST_BUFFER, 2))
    words = ["refused 32", "refused 32", "ok", "refused 39", "ok", "ok", "refused 38", "ok",
             wrote(1)]
    for number, (word, change) in enumerate(REFUSED_READINGS):
        before = (read(whole), first(THREE), new())[number % 3]
        yield answers([word, *words], before, read(change(whole)), *again)


GROUPS = (
    in_version_1, in_version_2, sizes_in_bytes, order_of_version_2, order_of_version_1,
    fields_outside, lengths_and_versions, other_sizes_as_before, steps_after_reading,
    restated_after_reading, filled_up_after_reading, read_one_after_another,
    steps_after_refused_readings,
)
