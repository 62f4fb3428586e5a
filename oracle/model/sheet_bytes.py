"""The sheet as bytes, both ways: where each field's bytes are, reading and writing.

Written from document 01's "Bytes", "Order" and the refusals there, with two requests of document
02. S-8: a version has its own layout, both are read, and version 2 alone is written. S-10: size 6
is read in version 1 alone, and not written. Every place comes from the table of fields, so that an
inserted field moves them all.
"""

import struct
from typing import NamedTuple

from model.fields import COURSE_FIELDS, GRAVITY_FIELD, HEAD_FIELDS, Course
from model.filling_in import (
    ANCHORS, ANCHORS_IN_VERSION_1, COURSE, EMPTY, EXAMPLE, SELF_ANCHORED, SITE, TANK, Answer,
    has_size_6, left_by_a_run, read_in_turn, version_1_of,
)
from model.refusals import MOST_COURSES

# --- "Bytes": the sheet as bytes ----------------------------------------------

LENGTH_BYTES = 2                # of L itself
VERSION_BYTES = COUNT_BYTES = 1
FIELD_BYTES = 4
VERSION_AT = LENGTH_BYTES
FIRST_FIELD_AT = VERSION_AT + VERSION_BYTES
COURSE_BYTES = FIELD_BYTES * len(COURSE_FIELDS)
ONCE_STEPS = (TANK, SITE, ANCHORS)          # whose fields a sheet has once, before n


def figures_as_bytes(figures):
    """Four bytes each."""
    return struct.pack(f">{len(figures)}I", *figures)


def bytes_as_figures(content):
    return struct.unpack(f">{len(content) // FIELD_BYTES}I", content)


class Layout(NamedTuple):
    """Of a version's bytes: L, the version, the fields that come once, n, the courses."""
    version: int
    head_fields: tuple      # those that a sheet has once, in turn

    def count_at(self):
        """Where n is."""
        return FIRST_FIELD_AT + FIELD_BYTES * len(self.head_fields)

    def head_bytes(self):
        """How many there are before the courses."""
        return self.count_at() + COUNT_BYTES

    def bytes_with(self, n):
        """How many bytes a sheet of n courses has."""
        return self.head_bytes() + COURSE_BYTES * n

    def length_with(self, n):
        """L, which counts "what follows" it."""
        return self.bytes_with(n) - LENGTH_BYTES

    def field_at(self, field, place=0):
        """Where the field's bytes start; of a course, in the place numbered from 0."""
        if field in COURSE_FIELDS:
            return self.bytes_with(place) + FIELD_BYTES * COURSE_FIELDS.index(field)
        return FIRST_FIELD_AT + FIELD_BYTES * self.head_fields.index(field)

    def field_bytes(self, field, place=0):
        """The field's bytes, as a slice."""
        start = self.field_at(field, place)
        return slice(start, start + FIELD_BYTES)

    def as_bytes(self, *once, courses):
        """The bytes of tank, site, anchors and courses, whether reading would accept them or
        not. What the version has no field for is left out."""
        figures = {field: figure for step, entry in zip(ONCE_STEPS, once, strict=True)
                   for field, figure in zip(step.fields, entry, strict=True)}
        n = len(courses)
        head = struct.pack(">HB", self.length_with(n), self.version) \
            + figures_as_bytes([figures[field] for field in self.head_fields])
        return head + bytes([n]) + b"".join(map(figures_as_bytes, courses))

    def sheet_as_bytes(self, sheet):
        """Of a complete sheet."""
        return self.as_bytes(sheet.tank, sheet.site, sheet.anchors,
                             courses=sheet.courses[:sheet.count])

    def with_field_bytes(self, content, field, figure, place=0):
        """The bytes, with another figure for this field; of a course, in the place numbered from
        0."""
        changed = bytearray(content)
        changed[self.field_bytes(field, place)] = figures_as_bytes((figure,))
        return bytes(changed)


# Version 1 is read and written by nothing. S-10 speaks of it by itself.
VERSION_1 = Layout(1, tuple(field for field in HEAD_FIELDS if field != GRAVITY_FIELD))
VERSION_2 = Layout(2, HEAD_FIELDS)      # S-8: "has this field straight after field 6"
LAYOUTS = (VERSION_1, VERSION_2)


# --- Reading ------------------------------------------------------------------


GOOD_LENGTHS = {layout.length_with(n): (layout, n)     # no L gives two
                for layout in LAYOUTS for n in range(1, MOST_COURSES + 1)}


def by_length(L):
    """The layout and the n that L gives, or None."""
    return GOOD_LENGTHS.get(L)


def length_in(content):
    return int.from_bytes(content[:LENGTH_BYTES], "big")


def bytes_refusal(content):
    """Order: 11 for under two bytes, 13, 11, 12, 14, 15."""
    if len(content) < LENGTH_BYTES:
        return 11, 0
    L = length_in(content)
    given = by_length(L)
    if given is None:
        return 13, 0
    layout, n = given
    if len(content) < LENGTH_BYTES + L:
        return 11, 0
    if len(content) > LENGTH_BYTES + L:
        return 12, 0
    if content[VERSION_AT] != layout.version:
        return 14, 0
    if content[layout.count_at()] != n:
        return 15, 0
    return None


def entries_in(layout, content):
    """Tank, site, anchors and the courses in turn. S-8: "Version 1 is still read, as gravity
    1,000", which is what a tank has if nothing is said of it; S-10: and with size 6."""
    in_head = bytes_as_figures(content[FIRST_FIELD_AT:layout.count_at()])
    figures = dict(zip(layout.head_fields, in_head, strict=True))
    in_version = {ANCHORS: ANCHORS_IN_VERSION_1} if layout == VERSION_1 else {}
    for step in ONCE_STEPS:
        entry = step.entry(*(figures[field] for field in step.fields if field in figures))
        yield in_version.get(step, step), entry
    for start in range(layout.head_bytes(), len(content), COURSE_BYTES):
        yield COURSE, Course._make(bytes_as_figures(content[start:start + COURSE_BYTES]))


def read(content):
    """The first refusal ends it and the answer holds an empty sheet."""
    refusal = bytes_refusal(content)
    if refusal is not None:
        return Answer(refusal, EMPTY)
    layout, _n = by_length(length_in(content))
    return read_in_turn(entries_in(layout, content))


# --- Writing ------------------------------------------------------------------


class Written(NamedTuple):
    refusal: tuple | None
    number: int             # of bytes filled
    buffer: bytes           # after it; refused: as it was


def write_refusal(sheet, size):
    """Order: 30, 32, 35, 36, 38, 39, 19; S-8: "19 by the new size"."""
    if not left_by_a_run(sheet):
        return 30, 0
    if sheet.tank is None:
        return 32, 0
    if sheet.count == 0:
        return 35, 0
    if sheet.site is None:
        return 36, 0
    if sheet.anchors is None:
        return 38, 0
    if has_size_6(sheet.anchors):
        return 39, 0
    if size < VERSION_2.bytes_with(sheet.count):
        return 19, 0
    return None


def write(sheet, buffer):
    """S-8: "The writer writes version 2 only"."""
    refusal = write_refusal(sheet, len(buffer))
    if refusal is not None:
        return Written(refusal, 0, buffer)
    content = VERSION_2.sheet_as_bytes(sheet)
    return Written(None, len(content), content + buffer[len(content):])


# --- Self test of bytes: "The example tank" -----------------------------------


def check_version_1(content):
    """Of the example's bytes: places and sizes are typed by hand, for the layout is what is checked
    here. "So L = 58 + 20 n"; "the first 60 + 20 n bytes"."""
    layout = VERSION_1
    assert len(content) == 120
    assert content[:7] == bytes((0, 118, 1, 0, 0, 0x38, 0x40))      # L, version, D
    assert content[27:31] == bytes((0, 0, 0, 105))                  # V
    assert content[51:59] == bytes((0, 0, 0x39, 0xD0, 0, 0, 0, 8))  # B, d
    assert content[59] == 3 and content[60:64] == bytes((0, 0, 0x25, 0x80))
    assert content[96:100] == bytes((0, 0, 0, 85))                  # E of the second course
    assert (VERSION_AT, layout.count_at()) == (2, 59)
    assert [layout.bytes_with(n) for n in (0, 1, 3, 12)] == [60, 80, 120, 300]
    assert [layout.length_with(n) for n in range(1, 13)] == list(range(78, 299, 20))
    assert [layout.field_at(field) for field in (1, 6, 7, 14, 15)] == [3, 23, 27, 55, 60]
    assert layout.field_bytes(19, 1) == slice(96, 100)


def check_version_2(content):
    """The same of S-8's: "so L = 62 + 20 n", "64 + 20 n bytes"."""
    layout = VERSION_2
    assert len(content) == 124
    assert content[:7] == bytes((0, 122, 2, 0, 0, 0x38, 0x40))      # L, version, D
    assert content[23:31] == bytes((0, 0, 0x8C, 0xA0, 0, 0, 3, 0xE8))       # Fy, gravity
    assert content[31:35] == bytes((0, 0, 0, 105))                  # V
    assert content[55:63] == bytes((0, 0, 0x39, 0xD0, 0, 0, 0, 8))  # B, d
    assert content[63] == 3 and content[64:68] == bytes((0, 0, 0x25, 0x80))
    assert [layout.bytes_with(n) for n in (0, 1, 3, 12)] == [64, 84, 124, 304]
    assert [layout.length_with(n) for n in range(1, 13)] == list(range(82, 303, 20))
    assert [layout.field_at(field) for field in (1, 6, 20, 7, 14, 15)] == [3, 23, 27, 31, 59, 64]
    assert layout.count_at() == 63 and layout.field_bytes(19, 1) == slice(100, 104)


def check_versions():
    """Both are the same sheet, which comes out as version 2; a version and an L that do not go
    together are 14, before 15."""
    first, second = (layout.sheet_as_bytes(EXAMPLE) for layout in LAYOUTS)
    check_version_1(first)
    check_version_2(second)
    assert first[3:27] + first[27:] == first[3:] == second[3:27] + second[31:]
    assert read(first) == read(second) == (None, EXAMPLE)
    for content in (first, second):
        assert write(read(content).sheet, bytes(124)) == (None, 124, second)
    for right, other, layout in ((first, 2, VERSION_1), (second, 1, VERSION_2)):
        count = layout.count_at()
        for version in (0, other, 3, 255):
            wrong = right[:2] + bytes((version,)) + right[3:]
            assert read(wrong) == ((14, 0), EMPTY)
            assert read(wrong[:count] + b"\4" + wrong[count + 1:]) == ((14, 0), EMPTY)
        assert read(right[:count] + b"\4" + right[count + 1:]) == ((15, 0), EMPTY)
    assert GOOD_LENGTHS == {58 + 20 * n: (VERSION_1, n) for n in range(1, 13)} \
        | {62 + 20 * n: (VERSION_2, n) for n in range(1, 13)}
    for gravity, refusal in ((0, (16, 20)), (999, (16, 20)), (1_000, None), (1_300, None),
                             (1_301, (16, 20)), (2**32 - 1, (16, 20))):
        content = VERSION_2.with_field_bytes(second, GRAVITY_FIELD, gravity)
        assert read(content).refusal == refusal
        if refusal is None:
            assert read(content).sheet.tank == EXAMPLE.tank._replace(gravity=gravity)


def check_size_6():
    """Read in version 1, not in version 2, where it comes after 18 and before the courses; not
    written, whatever the room. The steps that reading goes through are those of a run."""
    size_6 = EXAMPLE._replace(anchors=EXAMPLE.anchors._replace(d=6))
    first, second = (layout.sheet_as_bytes(size_6) for layout in LAYOUTS)
    assert read(first) == (None, size_6) and read(second) == ((39, 0), EMPTY)
    assert list(entries_in(VERSION_1, first)) == version_1_of(size_6)
    for field, figure, refusal in ((13, 14_399, (18, 0)), (12, 0, (18, 0)), (12, 5, (16, 12)),
                                   (11, 1_000_000_001, (16, 11)), (15, 1_199, (39, 0)),
                                   (14, 7, None)):
        assert read(VERSION_2.with_field_bytes(second, field, figure)).refusal == refusal
    for size in (0, 119, 123, 124, 200):
        assert write(size_6, bytes(size)) == ((39, 0), 0, bytes(size))
    for sheet, refusal in ((size_6._replace(site=None), (30, 0)), (EMPTY, (32, 0))):
        assert write(sheet, b"") == (refusal, 0, b"")


def self_test():
    check_versions()
    check_size_6()
    whole = VERSION_2.bytes_with(3)
    content = VERSION_2.sheet_as_bytes(EXAMPLE)
    lent = bytes(range(200))
    refusal, number, buffer = write(EXAMPLE, lent)
    assert (refusal, number) == (None, whole)
    assert buffer == content + lent[whole:]
    assert read(buffer[:number]) == (None, EXAMPLE)
    for size in (whole - 1, VERSION_1.bytes_with(3)):
        assert write(EXAMPLE, lent[:size]) == ((19, 0), 0, lent[:size])

    # anchors never stated, and N = 0
    unstated, self_anchored = (EXAMPLE._replace(anchors=one) for one in (None, SELF_ANCHORED))
    assert write(unstated, lent) == ((38, 0), 0, lent)
    assert write(unstated, lent[:whole - 1]) == ((38, 0), 0, lent[:whole - 1])
    refusal, number, buffer = write(self_anchored, lent)
    assert refusal is None and read(buffer[:number]) == (None, self_anchored)
