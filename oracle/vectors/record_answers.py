"""The lines that test_steps writes, one for each record.

A line is the answer's word, and then the sheet after it, the lent buffer or the report, which
beside a refusal is one stated value. To COMPRESSION and COMPRESSION_HELD the answer is alone.
"""

from typing import NamedTuple

from model import compression, judging, sheet_bytes
from model.compression import Reply
from model.filling_in import EMPTY, NO_COURSE, Sheet, take_step
from model.judging import NO_REPORT, Anchored, Report
from model.printing import refusal_word
from model.refusals import D100, MOST_COURSES
from model.sheet_bytes import bytes_as_figures
from vectors.leaf_texts import hexadecimal, verdict_text, yes_or_no
from vectors.records import ASKING, FORGE, JUDGING, MARK, NEW, READ, STEPS, WRITE, forged

# --- Lines --------------------------------------------------------------------


def answer_word(refusal, accepted):
    return accepted if refusal is None else refusal_word(*refusal)


def part_text(name, figures):
    """Each word with a blank before it."""
    words = ["-"] if figures is None else map(str, figures)
    return "".join(f" {word}" for word in (name, *words))


def slot_text(slot):
    return " -" if slot == NO_COURSE else part_text("course", slot)


def sheet_text(sheet):
    return part_text("tank", sheet.tank) + part_text("site", sheet.site) \
        + part_text("anchors", sheet.anchors) + part_text("count", (sheet.count,)) \
        + "".join(map(slot_text, sheet.courses))


def standing_text(standing):
    first, second = map(verdict_text, standing.rules().values())
    if isinstance(standing, Anchored):
        return f"anchored {standing.wind_pull} {standing.earthquake_pull} {first} {second}"
    return f"self {first} {standing.T} {standing.lift} {second}"


def course_text(course):
    return f"| {course.need} {course.required} {course.t} {verdict_text(course.verdict)}"


def report_text(report):
    blanks = ["."] * (MOST_COURSES - len(report.courses))
    uses = map(hexadecimal, judging.uses(report))
    return " ".join([judging.word(report), f"wind {report.p} {report.M}",
                     standing_text(report.standing), "uses", *uses,
                     f"courses {len(report.courses)}", *map(course_text, report.courses), *blanks])


NO_REPORT_TEXT = report_text(NO_REPORT)


def reply_word(reply):
    return f"stress {reply.stress} allowed {reply.allowed} holds {yes_or_no(reply.holds)}"


# --- Outcomes -----------------------------------------------------------------


class Judged(NamedTuple):
    sheet: Sheet                # the one judged; where reading refuses, the empty one
    method: int
    refusal: tuple | None
    report: Report

    def word(self):
        return "refused" if self.refusal is not None else judging.word(self.report)


class Asked(NamedTuple):
    sheet: Sheet                # the one asked about
    method: int
    refusal: tuple | None
    reply: Reply | None


class Outcome(NamedTuple):
    word: str                       # the answer, without what follows it
    text: str                       # the rest of the line
    sheet: Sheet                    # the current one after the record
    judged: Judged | None = None    # by a record of JUDGING
    asked: Asked | None = None      # by a record of ASKING

    def line(self):
        return self.word + self.text


def lent_buffer(size, fill):
    return bytes((fill + i) % 256 for i in range(size))


def write_outcome(sheet, size, fill):
    refusal, number, buffer = sheet_bytes.write(sheet, lent_buffer(size, fill))
    return Outcome(answer_word(refusal, f"wrote {number}"), f" buffer {buffer.hex()}", sheet)


def sheet_outcome(word, sheet):
    return Outcome(word, sheet_text(sheet), sheet)


def in_question(sheet, record):
    """The sheet and the method; where no sheet is handed in, it is the current one."""
    *figures, method = bytes_as_figures(record.payload)
    return forged(figures) if figures else sheet, method


def judged_by(sheet, record):
    """The sheet is the current one; to MARK and JUDGE it makes no difference."""
    if record.opcode == MARK:
        read_sheet, answer = judging.mark(record.payload)
        return Judged(read_sheet, D100, *answer)
    sheet, method = in_question(sheet, record)
    return Judged(sheet, method, *judging.judge(sheet, method))


def asked_by(sheet, record):
    """The same of a record of ASKING."""
    sheet, method = in_question(sheet, record)
    return Asked(sheet, method, *compression.ask(sheet, method))


def asked_outcome(sheet, asked):
    word = refusal_word(*asked.refusal) if asked.reply is None else reply_word(asked.reply)
    return Outcome(word, "", sheet, asked=asked)


def judged_outcome(sheet, judged):
    return Outcome(answer_word(judged.refusal, "accepted"), f" {report_text(judged.report)}",
                   sheet, judged)


def outcome_on(sheet, record):
    """Of the record, while this sheet is the current one."""
    opcode, payload = record
    if opcode in JUDGING:
        return judged_outcome(sheet, judged_by(sheet, record))
    if opcode in ASKING:
        return asked_outcome(sheet, asked_by(sheet, record))
    if opcode == NEW:
        return sheet_outcome("held", EMPTY)
    if opcode == READ:
        refusal, sheet = sheet_bytes.read(payload)
        return sheet_outcome(answer_word(refusal, "ok"), sheet)
    figures = bytes_as_figures(payload)
    if opcode == FORGE:
        return sheet_outcome("held", forged(figures))
    if opcode == WRITE:
        return write_outcome(sheet, *figures)
    step = STEPS[opcode]
    refusal, sheet = take_step(sheet, step, step.entry._make(figures))
    return sheet_outcome(answer_word(refusal, "ok"), sheet)


def outcomes(records):
    sheet = None    # the first record sets it
    for record in records:
        result = outcome_on(sheet, record)
        sheet = result.sheet
        yield result
