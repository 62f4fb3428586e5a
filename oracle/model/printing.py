"""The text of an answer, as document 01's "The example tank" prints it.

A report has a line for each course, one for the wind, those of its way of standing and the word
on the tank; a refusal has one line. Every line ends in a newline, the last one too. "The printing
program and file reports use D100" (request S-3 of document 02).
"""

from model import judging
from model.fields import WIND_FIELD
from model.filling_in import EXAMPLE, SELF_ANCHORED
from model.judging import Anchored
from model.refusals import D100, FIELD_REFUSAL, MOST_COURSES
from model.sheet_bytes import LAYOUTS, VERSION_2

MARKER_READS = VERSION_2.bytes_with(MOST_COURSES) + 1   # at most: enough to tell a longer sheet

# --- Lines --------------------------------------------------------------------


def lines_as_bytes(lines):
    return "".join(line + "\n" for line in lines).encode("ascii")


def refusal_word(number, field=0):
    """ "`refused`, a blank, the number, and for 16 a blank and the field"."""
    return f"refused {number} {field}" if number == FIELD_REFUSAL else f"refused {number}"


def verdict_word(verdict):
    return "ok" if verdict.holds else "short"


def course_line(number, course):
    numbers = f"{course.need} {course.required} {course.t}"
    return f"course {number} {numbers} {verdict_word(course.verdict)}"


def standing_lines(standing):
    """With N = 0 the pull and anchor lines give way to one; it has lift for the earthquake."""
    first, second = map(verdict_word, standing.rules().values())
    if isinstance(standing, Anchored):
        yield f"pull {standing.wind_pull} {standing.earthquake_pull}"
        yield f"anchors spacing {first} strength {second}"
    else:
        yield f"self wind {first} resist {standing.T} {standing.lift}"


def report_lines(report):
    for number, course in enumerate(report.courses, start=1):
        yield course_line(number, course)
    yield f"wind {report.p} {report.M}"
    yield from standing_lines(report.standing)
    yield f"tank {judging.word(report)}"


# --- Texts --------------------------------------------------------------------


def report_text(report):
    return lines_as_bytes(report_lines(report))


def refusal_text(refusal):
    return lines_as_bytes([refusal_word(*refusal)])


def answer_text(answer):
    """Of judging.Answer: the refusal or the report."""
    return report_text(answer.report) if answer.refusal is None else refusal_text(answer.refusal)


def judged_text(sheet):
    return answer_text(judging.judge(sheet, D100))


def marked_text(content):
    """What the printing program writes when these bytes are its standard input."""
    return answer_text(judging.mark(content).answer)


# --- Self test: "The example tank", with S-5's second pull and S-7's first need; with N = 0; and
# that one with S-8's greatest gravity

EXAMPLE_TEXT = b"""\
course 1 60 188 250 ok
course 2 40 188 250 ok
course 3 20 188 250 ok
wind 2123 73371
pull 2133 -191
anchors spacing ok strength ok
tank sound
"""
SELF_TEXT = b"""\
course 1 60 188 250 ok
course 2 40 188 250 ok
course 3 20 188 250 ok
wind 2123 73371
self wind short resist 94646 none
tank short
"""
HEAVIER_TEXT = b"""\
course 1 80 188 250 ok
course 2 55 188 250 ok
course 3 30 188 250 ok
wind 2123 73371
self wind short resist 110571 none
tank short
"""


def check_over_long():
    """Bytes past those that the marker reads make no difference: it is 12 or 13 without them."""
    most = MARKER_READS - 1
    for content, word in (*((layout.sheet_as_bytes(EXAMPLE).ljust(1_000, b"\0"), b"12")
                            for layout in LAYOUTS),
                          (bytes(1_000), b"13"), (b"\xff" * 65_536, b"13"),
                          ((most - 2).to_bytes(2, "big").ljust(most + 2, b"\1"), b"12")):
        assert len(content) > MARKER_READS
        assert marked_text(content) == marked_text(content[:MARKER_READS]) \
            == b"refused " + word + b"\n"


def self_test():
    assert judged_text(EXAMPLE) == EXAMPLE_TEXT
    standing = EXAMPLE._replace(anchors=SELF_ANCHORED)
    assert judged_text(standing) == SELF_TEXT
    for layout in LAYOUTS:
        content = layout.sheet_as_bytes(EXAMPLE)
        assert marked_text(content) == EXAMPLE_TEXT
        assert marked_text(layout.sheet_as_bytes(standing)) == SELF_TEXT
        assert marked_text(layout.with_field_bytes(content, WIND_FIELD, 0)) == b"refused 16 7\n"
    assert judged_text(EXAMPLE._replace(anchors=None)) == b"refused 38\n"
    assert refusal_text((11, 0)) == marked_text(b"") == b"refused 11\n"
    assert refusal_text((16, 7)) == b"refused 16 7\n"
    heavier = standing._replace(tank=standing.tank._replace(gravity=1_300))
    assert marked_text(VERSION_2.sheet_as_bytes(heavier)) == HEAVIER_TEXT
    assert MARKER_READS == 305      # by hand: twelve courses and a byte
    check_over_long()
