"""The records that test_steps reads: steps, questions, and sheets built by hand.

The program holds one current sheet. A record is an opcode byte, two bytes for the length of
the payload, and the payload; its figures have four bytes each. All numbers are big-endian.
MARK and JUDGE judge what READ and FORGE would make the current sheet, JUDGE_HELD judges the current
one; all three leave that as it is. The method is the last figure of JUDGE, after those of FORGE,
and the only one of JUDGE_HELD; MARK judges by D100. COMPRESSION and COMPRESSION_HELD ask request
S-6's question with the figures of JUDGE and JUDGE_HELD, and leave the current sheet as it is too.
What the program writes for each is record_answers.py's.
"""

import struct
from itertools import islice
from typing import NamedTuple

from model import filling_in
from model.fields import Anchors, Course, Site, Tank
from model.filling_in import Sheet
from model.refusals import D100, MOST_COURSES
from model.sheet_bytes import bytes_as_figures, figures_as_bytes

MOST_BUFFER = 512
MOST_READ = 700

# --- Records ------------------------------------------------------------------

NEW, TANK, SITE, ANCHORS, COURSE, WRITE, READ, FORGE, MARK, JUDGE, JUDGE_HELD, COMPRESSION, \
    COMPRESSION_HELD = range(13)
OPENING = (NEW, READ, FORGE)            # these set the current sheet
JUDGING = (MARK, JUDGE, JUDGE_HELD)     # these have a report
ASKING = (COMPRESSION, COMPRESSION_HELD)    # these have a reply on compression
STEPS = {TANK: filling_in.TANK, SITE: filling_in.SITE, ANCHORS: filling_in.ANCHORS,
         COURSE: filling_in.COURSE}


class Record(NamedTuple):
    opcode: int
    payload: bytes


def figures_record(opcode, figures):
    return Record(opcode, figures_as_bytes(figures))


def new():
    return Record(NEW, b"")


def tank(figures):
    """Seven of them; of a tank told by six the gravity is water's."""
    return figures_record(TANK, Tank(*figures))


def site(figures):
    return figures_record(SITE, figures)


def anchors(figures):
    return figures_record(ANCHORS, figures)


def course(figures):
    return figures_record(COURSE, figures)


def write(size, fill):
    assert 0 <= size <= MOST_BUFFER and 0 <= fill < 256
    return figures_record(WRITE, (size, fill))


def read(content):
    assert len(content) <= MOST_READ
    return Record(READ, bytes(content))


def stated(part, entry):
    """1 and the figures, or as many zeros if the part is not stated."""
    return (0,) * (1 + len(entry._fields)) if part is None else (1, *part)


def part_in(figures, entry):
    """The part that is stated by the next of these figures, or None."""
    flag, *part = islice(figures, 1 + len(entry._fields))
    return entry._make(part) if flag else None


def forge(sheet):
    """Tank, site and anchors, each with its flag, the count and twelve slots."""
    figures = [*stated(sheet.tank, Tank), *stated(sheet.site, Site),
               *stated(sheet.anchors, Anchors), sheet.count]
    for slot in sheet.courses:
        figures += slot
    return figures_record(FORGE, figures)


def forged(figures):
    """The sheet of a forge record's figures."""
    rest = iter(figures)
    tank, site, anchors = (part_in(rest, entry) for entry in (Tank, Site, Anchors))
    count = next(rest)
    slots = zip(*[rest] * len(Course._fields), strict=True)
    return Sheet(tank, site, anchors, tuple(map(Course._make, slots)), count)


def forged_places():
    """Where the figures of each part are among a forge record's, the flags and the count left out:
    of tank, site, anchors and slots."""
    start, places = 0, []
    for entry in (Tank, Site, Anchors):
        end = start + 1 + len(entry._fields)
        places.append(range(start + 1, end))
        start = end
    first = start + 1
    return *places, range(first, first + MOST_COURSES * len(Course._fields))


def mark(content):
    return read(content)._replace(opcode=MARK)


def judge(sheet, method=D100):
    return figures_record(JUDGE, (*bytes_as_figures(forge(sheet).payload), method))


def judge_held(method=D100):
    return figures_record(JUDGE_HELD, (method,))


def ask(sheet, method=D100):
    return judge(sheet, method)._replace(opcode=COMPRESSION)


def ask_held(method=D100):
    return judge_held(method)._replace(opcode=COMPRESSION_HELD)


def to_judge(record):
    """The record that hands the same bytes, or the same sheet, in for judging by D100."""
    opcode, payload = record
    assert opcode in (READ, FORGE)
    return mark(payload) if opcode == READ else judge(forged(bytes_as_figures(payload)))


def record_as_bytes(record):
    return struct.pack(">BH", record.opcode, len(record.payload)) + record.payload


def part_number(parts, offset):
    """The number, from 1, of the part that has the byte at this offset."""
    end = 0
    for number, part in enumerate(parts, start=1):
        end += len(part)
        if offset < end:
            return number
    return len(parts) + 1


def in_turn(groups):
    """All records of these groups."""
    return [record for group in groups.values() for record in group]


def group_lines(groups):
    """The numbers of what each group has; the name of each gives its records, or its sheets."""
    first = 1
    for name, members in groups.items():
        last = first + len(members) - 1
        yield f"{name}: {first} to {last}"
        first = last + 1
