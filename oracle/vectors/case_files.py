"""The files of cases/: questions that people can read, and the replies beneath them.

A question is one line, or several of which all but the last end in a backslash; what follows a # is
a comment. Lines that are indented are the replies of the question above them: `python3 oracle make`
writes them anew. A file starts from an empty sheet, and each question finds the sheet that those
above it leave:

clear                               begins anew
request S-8, S-9, S-10 or S-11      begins anew: what follows came with that request (see below)
tank, site, anchors, course ..      the steps, with their figures; `anchors none` is N = 0, and a
                                    tank's gravity may be left out: it is 1,000 then
read HEX                            the sheet of these bytes is the held one, or the empty one
write [SIZE]                        into a buffer of SIZE bytes, or of as many as the sheet needs
judge, uses, compression [METHOD]   1 (D100) or 2 (API 650); 1 where it is left out
mark HEX                            what the printing program writes for these bytes
tally HEX                           what the tallier writes for a file of these bytes (S-11)
pressure SPEED                      on the standard site (S-4)
ground CLASS SS S1                  S-2
moment D H GRAVITY WS XS WR XR AI AC        S-9
put tank, site or anchors ..        the part, tried by nobody, or `none`, not stated (for 30)
put slot K width t c s E            a course's slot, numbered from 1
put count N                         how many slots hold a course

clear, request and put have no reply. What stands below `request` becomes vectors that are stored
after all older ones, so that a file can grow and no older vector moves.
"""

import re
import struct
from functools import cache
from pathlib import Path
from typing import Callable, NamedTuple

from model import ground, judging, printing, slender, tally
from model.fields import ENTRIES, TABLE, Course
from model.filling_in import EMPTY, SELF_ANCHORED, Sheet
from model.refusals import D100, MOST_COURSES, standard_site_refusal
from model.sheet_bytes import (
    COUNT_BYTES, COURSE_BYTES, FIELD_BYTES, FIRST_FIELD_AT, LENGTH_BYTES, VERSION_2, write_refusal,
)
from model.tank_rules import standard_site_pressure
from vectors import records
from vectors.figure_lines import MOST_FIGURE, NUMBER
from vectors.leaf_lines import leaf_line
from vectors.marker_cases import MOST_BYTES
from vectors.record_answers import lent_buffer, outcome_on
from vectors.scripts import with_slot
from vectors.version_1 import sheet_as_bytes

FOLDER = Path(__file__).resolve().parent.parent.parent / "cases"
NAMES = ("steps", "read", "write", "judge", "marker", "pressure", "compression", "ground",
         "moment", "tally")
FILL = 200              # the first byte of a lent buffer; the others count up from it
PRESSURE_LEAF, GROUND_LEAF, SLENDER_LEAF = 27, 40, 41
REQUESTS = ("S-8", "S-9", "S-10", "S-11")       # that have a part of their own in a file


class Mistake(Exception):
    """What is wrong with a file, and in which line."""

    def __init__(self, name, number, what):
        super().__init__(f"cases/{name}.txt: line {number}: {what}")


# --- Lines --------------------------------------------------------------------


class Question(NamedTuple):
    name: str           # of the file, without its ending
    number: int         # of its first line
    lines: tuple        # as they are written, the replies left out
    words: tuple        # none where the line says nothing

    def mistake(self, what):
        return Mistake(self.name, self.number, what)


def words_in(line):
    return line.partition("#")[0].split()


def questions_in(name, text):
    """Comments and blank lines are among them, without words."""
    lines = enumerate(text.removesuffix("\n").split("\n"), start=1)
    for number, line in lines:
        if line.startswith(" "):
            continue
        written, words = [line], words_in(line)
        while words and words[-1] == "\\":
            number_on, line = next(lines, (number, None))
            if line is None:
                raise Mistake(name, number, "it ends in a backslash, and the file with it")
            written.append(line)
            words = [*words[:-1], *words_in(line)]
        yield Question(name, number, tuple(written), tuple(words))


# --- Figures ------------------------------------------------------------------


def figure_in(question, word, most=MOST_FIGURE):
    if not NUMBER.fullmatch(word):
        raise question.mistake(f"{word!r} is not a whole number")
    figure = int(word.replace(",", ""))
    if figure > most:
        raise question.mistake(f"{word} is above {most}")
    return figure


def figures_in(question, words, *names):
    if len(words) != len(names):
        raise question.mistake(f"these are {len(words)} figures, not {' '.join(names)}")
    return [figure_in(question, word) for word in words]


def entry_in(question, entry, words):
    """What the entry has without being told may be left out."""
    names = entry._fields
    if len(words) == len(names) - len(entry._field_defaults):
        names = names[:len(words)]
    return entry(*figures_in(question, words, *names))


def bytes_in(question, most):
    """The operands as bytes."""
    digits = "".join(question.words[1:])
    if not re.fullmatch("([0-9a-fA-F]{2})*", digits):
        raise question.mistake("these are no bytes, of two hexadecimal digits each")
    content = bytes.fromhex(digits)
    if len(content) > most:
        raise question.mistake(f"these are {len(content)} bytes; {most} is the most")
    return content


def one_at_most(question, usual, most=MOST_FIGURE):
    """The operand, or what it is where it is left out."""
    _word, *operands = question.words
    if len(operands) > 1:
        raise question.mistake("it has one operand at most")
    return figure_in(question, operands[0], most) if operands else usual


# --- Replies ------------------------------------------------------------------


def word_reply(outcome):
    return [outcome.word]


def bytes_of_entries(content):
    """The written bytes of a complete sheet by fields: L and version, tank, site, anchors, n,
    courses."""
    yield [content[:LENGTH_BYTES], content[LENGTH_BYTES:FIRST_FIELD_AT]]
    start = FIRST_FIELD_AT
    sizes = [len(entry._fields) for entry in ENTRIES[:-1]]
    for size in sizes:
        yield [content[at:at + FIELD_BYTES]
               for at in range(start, start + FIELD_BYTES * size, FIELD_BYTES)]
        start += FIELD_BYTES * size
    courses_at = start + COUNT_BYTES
    yield [content[start:courses_at]]
    for at in range(courses_at, len(content), COURSE_BYTES):
        yield [content[field:field + FIELD_BYTES]
               for field in range(at, at + COURSE_BYTES, FIELD_BYTES)]


def write_reply(outcome):
    """A line for each entry, and how many bytes stay behind them; or the refusal."""
    if outcome.word.startswith("refused"):
        return [outcome.word]
    buffer = bytes.fromhex(outcome.text.removeprefix(" buffer "))
    number = int(outcome.word.removeprefix("wrote "))
    assert buffer[number:] == lent_buffer(len(buffer), FILL)[number:]
    lines = ["bytes " + "  ".join(field.hex(" ") for field in fields)
             for fields in bytes_of_entries(buffer[:number])]
    untouched = [f"untouched {len(buffer) - number}"] if len(buffer) > number else []
    return lines + untouched


def refusal_reply(refusal):
    return [printing.refusal_word(*refusal)]


def judge_reply(outcome):
    """The lines of document 01."""
    refusal, report = outcome.judged.refusal, outcome.judged.report
    return refusal_reply(refusal) if refusal is not None else list(printing.report_lines(report))


def shortest_decimal(bits):
    """That reads back as this f64."""
    (use,) = struct.unpack(">d", bits.to_bytes(8, "big"))
    return repr(use)


def uses_reply(outcome):
    judged = outcome.judged
    if judged.refusal is not None:
        return refusal_reply(judged.refusal)
    sides, verdicts = judging.sides(judged.sheet, judged.report), judging.verdicts(judged.report)
    return [f"{name} {need} of {capacity} {shortest_decimal(verdicts[name].use)}"
            for name, (need, capacity) in sides.items()]


def compression_reply(outcome):
    refusal, reply = outcome.asked.refusal, outcome.asked.reply
    if refusal is not None:
        return refusal_reply(refusal)
    return [f"compression {reply.stress} {reply.allowed} {'holds' if reply.holds else 'short'}"]


# --- Words --------------------------------------------------------------------


class Tried(NamedTuple):
    """What a question comes to."""
    question: Question
    sheet: Sheet                    # the held one after it
    reply: tuple = ()               # its lines
    record: records.Record | None = None        # for test_steps
    content: bytes | None = None    # for test_sheets
    leaf: str | None = None         # for test_leaves: a line
    file: bytes | None = None       # for the tallier
    request: str = ""               # with which it came


def by_record(question, sheet, record, reply=word_reply, content=None):
    outcome = outcome_on(sheet, record)
    return Tried(question, outcome.sheet, tuple(reply(outcome)), record, content)


def clear(question, sheet):
    if len(question.words) > 1:
        raise question.mistake("clear stands alone")
    return by_record(question, sheet, records.new(), lambda _outcome: ())


def request(question, _sheet):
    """As if it were cleared; the records of the part begin with a new sheet all the same."""
    _word, *operands = question.words
    if len(operands) != 1 or operands[0] not in REQUESTS:
        raise question.mistake(f"a request is one of {', '.join(REQUESTS)}")
    return Tried(question, EMPTY, request=operands[0])


def step(question, sheet):
    word, *operands = question.words
    entry = dict(zip(TABLE, ENTRIES))[word]
    stated = SELF_ANCHORED if word == "anchors" and operands == ["none"] \
        else entry_in(question, entry, operands)
    opcode = dict(zip(TABLE, records.STEPS))[word]
    return by_record(question, sheet, records.figures_record(opcode, stated))


def read(question, sheet):
    content = bytes_in(question, records.MOST_READ)
    return by_record(question, sheet, records.read(content))


def write(question, sheet):
    size = one_at_most(question, VERSION_2.bytes_with(sheet.count), records.MOST_BUFFER)
    return by_record(question, sheet, records.write(size, FILL), write_reply)


def judge(question, sheet):
    """What can be written can be handed in as bytes too, which D100 is for: of version 1, if its
    gravity is that one's. Size 6 is in bytes of version 1 alone (S-10)."""
    method = one_at_most(question, D100)
    complete = method == D100 and write_refusal(sheet, records.MOST_BUFFER) in (None, (39, 0))
    content = sheet_as_bytes(sheet) if complete else None
    return by_record(question, sheet, records.judge_held(method), judge_reply, content)


def uses(question, sheet):
    return by_record(question, sheet, records.judge_held(one_at_most(question, D100)), uses_reply)


def compression(question, sheet):
    record = records.ask_held(one_at_most(question, D100))
    return by_record(question, sheet, record, compression_reply)


def mark(question, sheet):
    content = bytes_in(question, MOST_BYTES)
    lines = printing.marked_text(content).decode("ascii").splitlines()
    return Tried(question, sheet, tuple(lines), content=content)


def tally_of(question, sheet):
    content = bytes_in(question, MOST_BYTES)
    lines = tally.tallied_text(content).decode("ascii").splitlines()
    return Tried(question, sheet, tuple(lines), file=content)


def pressure(question, sheet):
    (speed,) = figures_in(question, question.words[1:], "SPEED")
    refusal = standard_site_refusal(speed)
    reply = refusal_reply(refusal) if refusal is not None \
        else [f"pressure {standard_site_pressure(speed)}"]
    return Tried(question, sheet, tuple(reply), leaf=leaf_line(PRESSURE_LEAF, (speed,)))


def ground_motion(question, sheet):
    _word, *operands = question.words
    if not operands or len(operands[0]) != 1 or not operands[0].isascii():
        raise question.mistake("a class is one letter")
    point = (ord(operands[0]), *figures_in(question, operands[1:], "SS", "S1"))
    refusal = ground.refusal_of(*point)
    reply = refusal_reply(refusal) if refusal is not None \
        else [" ".join(map(str, ("ground", *ground.ground_motion(*point))))]
    return Tried(question, sheet, tuple(reply), leaf=leaf_line(GROUND_LEAF, point))


def slender_moment(question, sheet):
    names = "D H GRAVITY WS XS WR XR AI AC".split()
    figures = slender.Figures(*figures_in(question, question.words[1:], *names))
    refusal = slender.refusal_of(figures)
    reply = refusal_reply(refusal) if refusal is not None \
        else [f"moment {slender.moment(figures)}"]
    return Tried(question, sheet, tuple(reply), leaf=leaf_line(SLENDER_LEAF, figures))


def put(question, sheet):
    part, *operands = question.words[1:] or [""]
    if part in TABLE and part != "course":
        entry = dict(zip(TABLE, ENTRIES))[part]
        stated = None if operands == ["none"] else entry_in(question, entry, operands)
        sheet = sheet._replace(**{part: stated})
    elif part == "slot":
        number, *figures = figures_in(question, operands, "K", *Course._fields)
        if not 1 <= number <= MOST_COURSES:
            raise question.mistake(f"there is no slot {number}")
        sheet = with_slot(sheet, number - 1, figures)
    elif part == "count":
        (count,) = figures_in(question, operands, "N")
        sheet = sheet._replace(count=count)
    else:
        raise question.mistake("tank, site, anchors, slot or count can be put")
    return by_record(question, sheet, records.forge(sheet), lambda _outcome: ())


WORDS: dict[str, Callable] = {
    "clear": clear, "request": request, **dict.fromkeys(TABLE, step), "read": read, "write": write,
    "judge": judge,
    "uses": uses, "compression": compression, "mark": mark, "tally": tally_of, "pressure": pressure,
    "ground": ground_motion, "moment": slender_moment, "put": put,
}

# --- Files --------------------------------------------------------------------


def tried_in(name, text):
    """What all questions come to, in turn; lines that say nothing too."""
    sheet, since = EMPTY, ""
    for question in questions_in(name, text):
        if not question.words:
            yield Tried(question, sheet, request=since)
            continue
        word, *_operands = question.words
        if word not in WORDS:
            raise question.mistake(f"{word!r} is none of {', '.join(WORDS)}")
        tried = WORDS[word](question, sheet)
        sheet, since = tried.sheet, tried.request or since
        yield tried._replace(request=since)


def written_out(tried):
    """The text of the file with these replies."""
    return "".join(f"{line}\n" for one in tried
                   for line in (*one.question.lines, *(f"    {line}" for line in one.reply)))


def text_of(name):
    path = FOLDER / f"{name}.txt"
    if not path.is_file():
        raise Mistake(name, 1, "there is no such file")
    content = path.read_bytes()
    for number, line in enumerate(content.split(b"\n"), start=1):
        if not line.isascii() or b"\r" in line or b"\t" in line:
            raise Mistake(name, number, "it has more in it than ASCII and blanks")
    return content.decode("ascii")


@cache
def tried_in_files():
    """Name of the file to what its questions come to."""
    return {name: tuple(tried_in(name, text_of(name))) for name in NAMES}


def made_files():
    """Name, relative to the repository's root, to bytes."""
    return {f"cases/{name}.txt": written_out(tried).encode("ascii")
            for name, tried in tried_in_files().items()}
