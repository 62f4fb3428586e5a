"""Scripts of request S-8: the two versions of a sheet's bytes, read, judged, asked about and
written; their lengths, cuts, additions and counts.
"""

from itertools import product

from model.filling_in import SELF_ANCHORED, has_size_6
from model.refusals import API_650, MOST_COURSES
from model.sheet_bytes import COURSE_BYTES, LAYOUTS, VERSION_1, VERSION_2, VERSION_AT, by_length
from vectors.byte_changes import with_byte, with_length
from vectors.leaf_points import beside
from vectors.record_answers import outcomes
from vectors.records import (
    MOST_BUFFER, MOST_READ, ask_held, course, judge_held, mark, new, read, site, write,
)
from vectors.scripts import (
    answers, case, holding, steps_to, unstated, with_anchors, with_plate, with_slot, write_for,
    wrote,
)
from vectors.start_sheets import (
    EXAMPLE, FULL, FULL_COURSES, FULL_SITE, LOW_COURSE, ONE, THREE, courses_to, full_with,
    high_sheet,
)
from vectors.steps_forged import all_at
from vectors.steps_in_turn import REFUSED_COURSES
from vectors.steps_liquor import HEAVY_FULL, HEAVY_ONE, HEAVY_THREE, filled

HEAVY_SHEETS = HEAVY_ONE, HEAVY_THREE, HEAVY_FULL
HEAVY_BYTES = tuple(map(VERSION_2.sheet_as_bytes, HEAVY_SHEETS))

# --- Groups: both versions of the same sheets ---------------------------------

WATER_SHEETS = (
    EXAMPLE, with_anchors(EXAMPLE, (0, 0, 0)), ONE, THREE, FULL, with_anchors(FULL, (0, 0, 0)),
    EXAMPLE._replace(tank=EXAMPLE.tank._replace(W=18_345), anchors=SELF_ANCHORED),
    EXAMPLE._replace(tank=EXAMPLE.tank._replace(H=28_801)),
    all_at(0, (1_200,)), all_at(1, (14_400,) * 5), high_sheet(76_800, 12),
    *(full_with(n) for n in range(2, 12, 3)),
)


def both_versions():
    """Read, judged by both methods, asked about compression, written and read again; the lines of
    the one are those of the other, and what is written is version 2. Since S-10 not with size 6."""
    for sheet in WATER_SHEETS:
        second = VERSION_2.sheet_as_bytes(sheet)
        lines = []
        for layout in LAYOUTS:
            content = layout.sheet_as_bytes(sheet)
            script = (read(content), judge_held(), judge_held(API_650), ask_held(),
                      write(len(second) + 5, 7), read(second), mark(content))
            results = list(outcomes(script))
            if not has_size_6(sheet.anchors):
                assert results[0].word == "ok" and results[0].sheet == sheet
                assert results[4].line().startswith(f"wrote {len(second)} buffer {second.hex()}")
                lines.append([result.line() for result in results])
            elif layout == VERSION_1:
                assert results[0].sheet == sheet and results[6].word == "accepted"
                assert [results[place].word for place in (4, 5)] == ["refused 39"] * 2
            else:
                assert [results[place].word for place in (0, 4, 5, 6)] \
                    == ["refused 39", "refused 32", "refused 39", "refused 39"]
            yield script
        assert lines[:1] == lines[1:]


def heavy_read_and_written():
    """The same bytes come out again."""
    for sheet, gravity in product(WATER_SHEETS[:7], (1_001, 1_137, 1_300)):
        content = VERSION_2.sheet_as_bytes(filled(sheet, gravity))
        script = (read(content), judge_held(), judge_held(API_650), ask_held(),
                  write(len(content), gravity % 256), mark(content))
        results = list(outcomes(script))
        assert results[4].line() == f"wrote {len(content)} buffer {content.hex()}"
        yield script


def version_1_then_restated():
    """A sheet read from version 1 goes on like any other; it is written as version 2."""
    first, second = (layout.sheet_as_bytes(THREE) for layout in LAYOUTS)
    for content in (first, second):
        yield answers(["refused 19", "refused 19", wrote(3), "ok", wrote(3), "ok", wrote(4), "ok"],
                      read(content), write(len(first), 1), write(len(second) - 1, 2),
                      write(len(second), 3), site(FULL_SITE), write(len(second) + 1, 4),
                      course(FULL_COURSES[3]), write_for(4, 5, layout=VERSION_2), read(content))
    yield answers(["ok", "ok", "refused 14", "refused 32"], read(first), read(second), read(first),
                  read(with_byte(first, VERSION_AT, 2)), write(MOST_BUFFER, 6))


# --- Groups: writing, by the new size -----------------------------------------


def write_sizes_of_version_2():
    """Of version 1 a byte less, equal and a byte more; of version 2 the same; much and none. Then
    the sheet is as it was."""
    for n in range(1, MOST_COURSES + 1):
        old, needed = (layout.bytes_with(n) for layout in LAYOUTS)
        sizes = (*((size, "refused 19") for size in (*beside(old), needed - 1, 0)),
                 *((size, wrote(n)) for size in (needed, needed + 1, MOST_BUFFER)))
        words = [word for _size, word in sizes]
        lent = [write(size, (37 * n + 91 * place) % 256) for place, (size, _) in enumerate(sizes)]
        yield answers([*words, "ok"], read(VERSION_1.sheet_as_bytes(full_with(n))), *lent,
                      site(FULL_SITE))
        heavy = read(VERSION_2.sheet_as_bytes(filled(full_with(n))))
        yield answers([words[3], words[5], words[6]], heavy, lent[3], lent[5], lent[6])


def write_fills_of_version_2():
    """The bytes behind the sheet's, and the whole buffer of a refused write, stay."""
    for fill in (0, 1, 2, 127, 128, 255):
        yield answers([wrote(1), "refused 19", "refused 19", "held", "refused 32"],
                      read(HEAVY_BYTES[0]), write_for(1, fill, 60, VERSION_2),
                      write_for(1, fill, -1, VERSION_2), write(1, fill), new(),
                      write_for(2, fill, layout=VERSION_2))


def write_incomplete_heavy():
    """What is missing goes before 19, by any size; 30 before all."""
    for sheet, word in ((HEAVY_ONE._replace(site=None), "refused 36"),
                        (unstated(HEAVY_ONE), "refused 38"),
                        (unstated(HEAVY_ONE)._replace(site=None), "refused 36"),
                        (HEAVY_ONE._replace(courses=full_with(0).courses, count=0), "refused 35"),
                        (HEAVY_ONE._replace(count=2), "refused 30")):
        for more in (-84, -5, -4, -1, 0, 60):
            yield case(word, *holding(sheet), write_for(1, 3, more, VERSION_2))


# --- Groups: lengths, versions and counts -------------------------------------

VERSION_BYTES = (0, 1, 2, 3, 255)
LENGTHS = range(306)
AROUND = sorted({L for n in range(MOST_COURSES + 2) for layout in LAYOUTS
                 for L in beside(layout.length_with(n))} - {*LENGTHS})


def sheet_of_length(L):
    """A whole one, heavy if it can be; None if no sheet has this L."""
    given = by_length(L)
    if given is None:
        return None
    layout, n = given
    return layout.sheet_as_bytes(full_with(n) if layout == VERSION_1 else filled(full_with(n)))


def every_length_and_version():
    """Each L from 0 to 305, and those around each n's, under each of five version bytes. What has
    the L of a sheet is one whole but for its version; the others are cut after the version, and 13
    goes before 11."""
    for L, version in product((*LENGTHS, *AROUND), VERSION_BYTES):
        whole = sheet_of_length(L)
        if whole is None:
            yield case("refused 13", read(L.to_bytes(2, "big") + bytes((version,))))
        else:
            word = "ok" if version == by_length(L)[0].version else "refused 14"
            yield case(word, read(with_byte(whole, VERSION_AT, version)))


def lengths_over_sheets():
    """Every L of a sheet, and those of none or of thirteen courses, over the bytes of a sheet of
    either version: 11 and 12 go before 14."""
    lengths = [layout.length_with(n) for n in range(MOST_COURSES + 2) for layout in LAYOUTS]
    for layout, sheet in ((VERSION_1, THREE), (VERSION_2, HEAVY_THREE)):
        content, right = layout.sheet_as_bytes(sheet), layout.length_with(3)
        for L in lengths:
            word = "refused 13" if by_length(L) is None else "ok" if L == right \
                else "refused 12" if L < right else "refused 11"
            yield case(word, read(with_length(content, L)))


def other_layout():
    """A sheet's bytes with the other version's L, or the other version's byte, or both: its fields
    are not where they are looked for."""
    for n in range(1, MOST_COURSES + 1):
        first, second = (layout.sheet_as_bytes(full_with(n)) for layout in LAYOUTS)
        yield case("refused 14", read(with_byte(first, VERSION_AT, 2)))
        yield case("refused 14", read(with_byte(second, VERSION_AT, 1)))
        yield case("refused 11", read(with_length(first, VERSION_2.length_with(n))))
        yield case("refused 12", read(with_length(second, VERSION_1.length_with(n))))
        both = with_byte(with_length(first, VERSION_2.length_with(n)), VERSION_AT, 2)
        yield case("refused 11", read(both))
        yield case("refused 15", read(both + bytes(4)))     # n is where d was
        both = with_byte(with_length(second, VERSION_1.length_with(n)), VERSION_AT, 1)
        yield case("refused 12", read(both))
        yield case("refused 15", read(both[:-4]))


def cuts_of_version_2():
    """At every place: 11."""
    for content in HEAVY_BYTES:
        for length in range(len(content)):
            yield case("refused 11", read(content[:length]))
        yield case("ok", read(content))


def additions_to_version_2():
    """12, also with as many bytes more as a field, a course or the other version's sheet has."""
    for content in HEAVY_BYTES:
        for more in (1, 2, 4, COURSE_BYTES, 100, MOST_READ - len(content)):
            yield case("refused 12", read(content + bytes(more)))
        yield case("refused 12", read(content + content[-COURSE_BYTES:]))


def counts_of_version_2():
    """15 by the n that L gives under its version: every other byte, or one off."""
    count = VERSION_2.count_at()
    for sheet, content in zip(HEAVY_SHEETS, HEAVY_BYTES, strict=True):
        right = sheet.count
        some = range(256) if right == 3 else sorted({0, *beside(right), 13, 255})
        for n in some:
            yield case("ok" if n == right else "refused 15", read(with_byte(content, count, n)))
    for n in range(1, MOST_COURSES + 1):
        for near in (n - 1, n + 1):
            content = VERSION_2.sheet_as_bytes(filled(full_with(n)))
            yield case("refused 15", read(with_byte(content, count, near)))
            yield case("refused 14", read(with_byte(with_byte(content, count, near),
                                                    VERSION_AT, 1)))


def steps_in_version_2():
    """A step's refusal inside bytes: courses in the first, a middle and the last place; heights."""
    for word, wrong in REFUSED_COURSES:
        for n, place in ((1, 0), (3, 1), (12, 11)):
            sheet = with_slot(filled(full_with(n)), place, wrong)
            yield case(word, read(VERSION_2.sheet_as_bytes(sheet)))
    for plates, word in (((250, 250), "refused 17"), ((251, 250), "ok"),
                         ((173, 173), "refused 17")):
        tank = with_plate(HEAVY_ONE.tank, *plates)
        yield case(word, read(VERSION_2.sheet_as_bytes(HEAVY_ONE._replace(tank=tank))))
    for figures, word in (((6, 17_999, 8), "refused 18"), ((0, 0, 8), "refused 18"),
                          ((24, 18_000, 13), "refused 18"), ((0, 0, 0), "ok")):
        yield case(word, read(VERSION_2.sheet_as_bytes(with_anchors(HEAVY_ONE, figures))))
    for n in (6, 12):
        for height, word in ((76_800, "ok"), (76_801, "refused 34")):
            sheet = filled(high_sheet(height, n))
            yield case(word, read(VERSION_2.sheet_as_bytes(sheet)))


def twelve_heavy_courses():
    """By steps: the thirteenth is refused, and twelve need 304 bytes."""
    sheet = filled(high_sheet(76_800, 12), 1_300)
    assert sheet.courses == courses_to(76_800, 12)
    yield answers(["ok"] * 15 + ["refused 33", "refused 19", "refused 19", "wrote 304",
                                 "wrote 304", "ok"],
                  *steps_to(sheet), course(LOW_COURSE), write(300, 1), write(303, 2),
                  write(304, 3), write(305, 4), read(VERSION_2.sheet_as_bytes(sheet)))
