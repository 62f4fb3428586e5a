"""Making records that ask about compression, request S-6, and the sheets that its groups start
from.

A group yields records; `answered` and `refused` also say, by hand, what the answer is to be, and
compression_groups.py says with exact fractions what each group is there for.
"""

from functools import cache

from model import compression, filling_in, judging
from model.arithmetic import rounded_down
from model.fields import FIELD_RANGES, NUMBER_OF, Anchors
from model.refusals import D100
from vectors.judge_cases import changed, course_changed, has_part, self_anchored, with_widths
from vectors.record_answers import outcome_on
from vectors.records import ask

# --- Making records -----------------------------------------------------------


@cache
def outcome(record):
    """The same whatever sheet is the current one."""
    return outcome_on(None, record)


def answered(sheet, says="", method=D100):
    """The question about a sheet that is not refused; its line has this part."""
    record = ask(sheet, method)
    result = outcome(record)
    assert result.asked.refusal is None, (result, sheet)
    assert not says or has_part(result.line(), says), (says, result.line())
    return record


def refused(number, sheet, method=D100):
    record = ask(sheet, method)
    line = outcome(record).line()
    assert line == f"refused {number}", (number, line)
    return record


def reply_on(sheet):
    return outcome(answered(sheet)).asked.reply


def figures_on(sheet):
    return compression.figures_of(sheet)


# --- Sheets that the groups start from ----------------------------------------

EXAMPLE = filling_in.EXAMPLE
SELF = self_anchored(EXAMPLE)
EXAMPLE_SAID = "stress 187 allowed 11113 holds yes"
SELF_SAID = "stress 187 allowed 13632 holds yes"
FULL_SHELL = with_widths(EXAMPLE, [9_600] * 8)      # up to 76,800, so that every H will do


def with_bottom_plate(sheet, t, c=0):
    """A bottom course with this much left of it, and an allowance of at least c."""
    plate = max(t + c, FIELD_RANGES[NUMBER_OF["t"]][0])
    return course_changed(sheet, 1, t=plate, c=plate - t)


def standing(D, H, t, c=0, **figures):
    """Self-anchored; with no moment, unless one is stated, so that there is no lift."""
    sheet = changed(self_anchored(FULL_SHELL), D=D, H=H, **{"Ms": 0, **figures})
    return with_bottom_plate(sheet, t, c)


def anchored_to(D, H, t, c=0, **figures):
    sheet = changed(FULL_SHELL._replace(anchors=Anchors(N=24, B=D, d=12)), D=D, H=H, **figures)
    return with_bottom_plate(sheet, t, c)


WAYS = (standing, anchored_to)


def resisting(sheet):
    """T."""
    return judging.report_of(self_anchored(sheet), D100).standing.T


def most_moment(sheet):
    """The greatest Ms without lift."""
    return min(rounded_down(785 * resisting(sheet), 1_000), FIELD_RANGES[NUMBER_OF["Ms"]][1])
