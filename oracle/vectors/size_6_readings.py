"""Readings of request S-10: the right one, written a second time, and those that go astray.

What is read is a record with the sheet that it finds, and what comes of it is the number of its
refusal. A reading is the orders of refusal and what is asked of a sheet with size 6. That 39 goes
before 38 in writing is none that can be told: 38 is of anchors unstated, and 39 of those that are
stated. A run that reads size 6 in version 2 too is "no 30 without the gravity".
"""

from typing import Callable, NamedTuple

from model.fields import ANCHOR_FIELDS, WATER, Anchors, field_in_range
from model.filling_in import (
    COURSE, EMPTY, SITE, TANK, course_refusal, has_size_6, left_by_a_run, shell_height,
    site_refusal, tank_refusal, with_course,
)
from model.sheet_bytes import (
    VERSION_1, VERSION_2, bytes_as_figures, bytes_refusal, by_length, entries_in, length_in,
)
from vectors import records
from vectors.record_answers import in_question

CHART = (6, 7, 8, 9, 10, 11, 12, 14, 16)
WITHOUT_SIX = CHART[1:]


def complete(sheet):
    """A sheet read from version 1 is, and stays so."""
    return sheet.site is not None and sheet.count > 0 and sheet.tank.gravity == WATER


class Reading(NamedTuple):
    step: tuple = (32, 16, 18, 39)
    first: tuple = (32, 16, 18)                 # the same step in bytes of version 1
    second: tuple = (32, 16, 18, 39)            # and in those of version 2
    behind_courses: bool = False                # 39 of version 2
    writing: tuple = (32, 35, 36, 38, 39, 19)
    judging: tuple = (42, 32, 35, 36, 38, 37)
    chart: tuple = CHART                        # of steps and version 2
    first_chart: tuple = CHART                  # of version 1
    left: Callable = complete       # whether a run leaves a sheet with size 6, fine otherwise
    others_asked: bool = True       # whether N, B and D are to agree in it


RIGHT = Reading()
ASTRAY = {
    "39 before 18": Reading(step=(32, 16, 39, 18), second=(32, 16, 39, 18)),
    "39 before 18 in a step": Reading(step=(32, 16, 39, 18)),
    "39 before 18 in version 2": Reading(second=(32, 16, 39, 18)),
    "39 before 16 in a step": Reading(step=(32, 39, 16, 18)),
    "39 before 16 in version 2": Reading(second=(32, 39, 16, 18)),
    "39 before 32": Reading(step=(39, 32, 16, 18)),
    "39 in version 1 too": Reading(first=(32, 16, 18, 39)),
    "39 missing in version 2": Reading(second=(32, 16, 18)),
    "39 behind the courses": Reading(behind_courses=True),
    "39 missing in the step": Reading(step=(32, 16, 18)),
    "39 missing in writing": Reading(writing=(32, 35, 36, 38, 19)),
    "39 after 19": Reading(writing=(32, 35, 36, 38, 19, 39)),
    "39 in judging, before 37": Reading(judging=(42, 32, 35, 36, 38, 39, 37)),
    "39 in judging, after 37": Reading(judging=(42, 32, 35, 36, 38, 37, 39)),
    "size 6 gone from the chart": Reading(chart=WITHOUT_SIX, first_chart=WITHOUT_SIX),
    "size 6 gone from the chart, but for version 1": Reading(chart=WITHOUT_SIX),
    "size 6 gone from the chart of version 1": Reading(first_chart=WITHOUT_SIX),
    "30 for every sheet with size 6": Reading(left=lambda _sheet: False),
    "30 as before S-10": Reading(left=lambda _sheet: True),
    "no 30 without the gravity": Reading(
        left=lambda sheet: sheet.site is not None and sheet.count > 0),
    "no 30 without the site": Reading(
        left=lambda sheet: sheet.count > 0 and sheet.tank.gravity == WATER),
    "no 30 without the course": Reading(
        left=lambda sheet: sheet.site is not None and sheet.tank.gravity == WATER),
    "no 30 without the anchors' other conditions": Reading(others_asked=False),
    "no 30 up to 1,001": Reading(
        left=lambda sheet: sheet.site is not None and sheet.count > 0
        and sheet.tank.gravity <= WATER + 1),
}
IN_BYTES = (        # those that bytes which are read and judged can tell apart
    "39 before 18 in version 2", "39 before 16 in version 2", "39 in version 1 too",
    "39 missing in version 2", "39 behind the courses", "39 in judging, before 37",
    "39 in judging, after 37", "size 6 gone from the chart",
    "size 6 gone from the chart, but for version 1", "size 6 gone from the chart of version 1",
    "30 for every sheet with size 6",
)

# --- A record read so ---------------------------------------------------------


def is_30(reading, sheet):
    """Whether no run leaves it. Whatever is asked of any size is asked of size 7 too."""
    if not has_size_6(sheet.anchors):
        return not left_by_a_run(sheet)
    kept = sheet.anchors._replace(d=7) if reading.others_asked else Anchors(6, 300_000, 7)
    return not (left_by_a_run(sheet._replace(anchors=kept)) and reading.left(sheet))


def first_in(order, present):
    return next((number for number in order if present[number]()), None)


def anchors_read(order, chart, D, anchors):
    """In a step or in bytes; D is None without a tank."""
    def at_odds():
        if anchors.N == 0:
            return (anchors.B, anchors.d) != (0, 0)
        return anchors.B < D or anchors.d not in chart
    return first_in(order, {
        32: lambda: D is None,
        16: lambda: not all(map(field_in_range, ANCHOR_FIELDS, anchors)),
        18: at_odds, 39: lambda: anchors.d == 6,
    })


def number_of(refusal):
    return None if refusal is None else refusal[0]


def bytes_read(reading, content):
    """The refusal, and the sheet."""
    refusal = bytes_refusal(content)
    if refusal is not None:
        return number_of(refusal), EMPTY
    layout, _n = by_length(length_in(content))
    order, chart = (reading.first, reading.first_chart) if layout == VERSION_1 \
        else (reading.second, reading.chart)
    if layout == VERSION_2 and reading.behind_courses:
        order = tuple(number for number in order if number != 39)
    sheet = EMPTY
    for step, entry in entries_in(layout, content):
        if step == TANK:
            number, left = number_of(tank_refusal(sheet, entry)), sheet._replace(tank=entry)
        elif step == SITE:
            number, left = number_of(site_refusal(sheet, entry)), sheet._replace(site=entry)
        elif step == COURSE:
            number, left = number_of(course_refusal(sheet, entry)), with_course(sheet, entry)
        else:
            number = anchors_read(order, chart, sheet.tank.D, entry)
            left = sheet._replace(anchors=entry)
        if number is not None:
            return number, EMPTY
        sheet = left
    if layout == VERSION_2 and reading.behind_courses and has_size_6(sheet.anchors):
        return 39, EMPTY
    return None, sheet


def question_read(reading, order, sheet, method=1, size=0):
    if is_30(reading, sheet):
        return 30
    return first_in(order, {
        42: lambda: method not in (1, 2), 32: lambda: sheet.tank is None,
        35: lambda: sheet.count == 0, 36: lambda: sheet.site is None,
        38: lambda: sheet.anchors is None, 39: lambda: has_size_6(sheet.anchors),
        19: lambda: size < 64 + 20 * sheet.count, 37: lambda: sheet.tank.H > shell_height(sheet),
    })


def record_read(reading, before, record):
    """The number of the refusal, or None; 43 is no part of it."""
    opcode, payload = record
    if opcode in (records.READ, records.MARK):
        number, sheet = bytes_read(reading, payload)
        return question_read(reading, reading.judging, sheet) \
            if number is None and opcode == records.MARK else number
    if opcode in records.JUDGING + records.ASKING:
        return question_read(reading, reading.judging, *in_question(before, record))
    if opcode in (records.NEW, records.FORGE):
        return None
    figures = bytes_as_figures(payload)
    if opcode == records.WRITE:
        return question_read(reading, reading.writing, before, size=figures[0])
    if is_30(reading, before):
        return 30
    if opcode == records.ANCHORS:
        D = None if before.tank is None else before.tank.D
        return anchors_read(reading.step, reading.chart, D, Anchors(*figures))
    step = records.STEPS[opcode]
    return number_of(step.refusal(before, step.entry(*figures)))


def number_said(result):
    """The number in an answer's word, without 43."""
    said, *rest = result.word.split()
    return int(rest[0]) if said == "refused" and rest[0] != "43" else None


def told_by(reading, asked):
    """How many of these, each a sheet, a record and its outcome, this reading answers otherwise."""
    return sum(record_read(reading, before, record) != number_said(result)
               for before, record, result in asked)
