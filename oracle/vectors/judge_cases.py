"""Making cases of judging, and the sheets that its groups start from.

A record is one of two: MARK, bytes to be read and judged by D100, or JUDGE, a sheet built by hand
and judged as it is, by the method stated with it. A group yields cases: a case is the records by
which one sheet is handed in, and `sound`, `short` and `refused` also say, by hand, what the answer
to each of them is to be.
"""

from collections import Counter
from functools import cache

from model import filling_in, judging
from model.fields import ANCHOR_FIELDS, NUMBER_OF, SITE_FIELDS, TANK_FIELDS, with_field
from model.filling_in import SELF_ANCHORED, sheet_of
from model.refusals import D100
from vectors.record_answers import NO_REPORT_TEXT, outcome_on
from vectors.records import judge, mark
from vectors.scripts import with_slot
from vectors.version_1 import sheet_as_bytes

# --- Making cases -------------------------------------------------------------


@cache
def outcome(record):
    """The same whatever sheet is the current one."""
    return outcome_on(None, record)


def handed_in(sheet, method=D100):
    """A complete sheet, as bytes, for which D100 alone is used, and as it is."""
    as_bytes = (mark(sheet_as_bytes(sheet)),) if method == D100 else ()
    return *as_bytes, judge(sheet, method)


def has_part(line, part):
    """Whole words of it."""
    return f" {part} " in f" {line} "


def reported(sheet, short_rules, shows, method=D100):
    records = handed_in(sheet, method)
    for record in records:
        result = outcome(record)
        assert result.judged.refusal is None, result
        assert judging.short_rules(result.judged.report) == short_rules, (short_rules, result)
        assert not shows or has_part(result.line(), shows), (shows, result.line())
    return records


def sound(sheet, shows="", method=D100):
    """The sheet, every check of which holds; its line has this part."""
    return reported(sheet, [], shows, method)


def short(sheet, *rules, shows="", method=D100):
    """The sheet, of whose checks these and no other fall short."""
    return reported(sheet, list(rules), shows, method)


def sound_if(holds, sheet, *rules, shows="", method=D100):
    return reported(sheet, [] if holds else list(rules), shows, method)


def report_on(sheet, method=D100):
    return outcome(judge(sheet, method)).judged.report


def needing(needs, records):
    """The records, in whose reports the courses with these numbers have these needs."""
    for record in records:
        courses = outcome(record).judged.report.courses
        given = {number: courses[number - 1].need for number in needs}
        assert given == needs, (needs, given)
    return records


def refused(word, *records):
    for record in records:
        line = outcome(record).line()
        assert line == f"{word} {NO_REPORT_TEXT}", (word, line)
    return records


def with_figure(sheet, field, figure):
    """A course's field is set in every course held."""
    if field in TANK_FIELDS:
        return sheet._replace(tank=with_field(sheet.tank, field, figure))
    if field in SITE_FIELDS:
        return sheet._replace(site=with_field(sheet.site, field, figure))
    if field in ANCHOR_FIELDS:
        return sheet._replace(anchors=with_field(sheet.anchors, field, figure))
    for place in range(sheet.count):
        sheet = with_course_figure(sheet, place, field, figure)
    return sheet


def with_course_figure(sheet, place, field, figure):
    return with_slot(sheet, place, with_field(sheet.courses[place], field, figure))


def changed(sheet, **figures):
    """The sheet with other figures for the fields of these names."""
    for name, figure in figures.items():
        sheet = with_figure(sheet, NUMBER_OF[name], figure)
    return sheet


def course_changed(sheet, place, **figures):
    """The same in one course, numbered from 1."""
    for name, figure in figures.items():
        sheet = with_course_figure(sheet, place - 1, NUMBER_OF[name], figure)
    return sheet


def with_courses(sheet, courses):
    return sheet_of(sheet.tank, sheet.site, sheet.anchors, courses)


def with_widths(sheet, widths):
    """As many courses like the first one."""
    return with_courses(sheet, [sheet.courses[0]._replace(width=width) for width in widths])


def self_anchored(sheet):
    return sheet._replace(anchors=SELF_ANCHORED)


def counted(words):
    """How many are called sound, called short and refused."""
    counts = Counter(words)
    return ", ".join(f"{counts[word]} {word}" for word in ("sound", "short", "refused"))


# --- Sheets that the groups start from ----------------------------------------

EXAMPLE = filling_in.EXAMPLE
SELF = changed(self_anchored(EXAMPLE), W=18_345)        # sound; T is 122,400

# Nothing is rounded in wt, wL and T: T is 94,000 with wL by its cap, 64,400 by its root.
WHOLE_BY_CAP = changed(SELF, D=12_000, W=19_880, V=96, Av=0)
WHOLE_BY_ROOT = changed(WHOLE_BY_CAP, H=10_000, W=17_750, plate=120, allowance=100, Fy=30_000)

# 4,800 moment / B is two fifths of the moment, M is 51,840, and in an earthquake four fifths of W
# are left, nothing rounded: the exact pulls are (20,736 - W) / 6 and (Ms - 2 W) / 15.
FIFTHS = changed(EXAMPLE, D=12_000, V=96, Av=500, B=12_000)
UPWARD = 20_736             # 4,800 M / B

# The same with Hs 76,800 and p 4,500, nothing rounded: M is 921,600.
TALL_FIFTHS = changed(with_widths(FIFTHS, [9_600] * 8), H=9_600, V=125, Kz=150, I=125)
TALL_UPWARD = 368_640

LIGHT = changed(EXAMPLE, W=100, V=137, d=6)     # the wind pull is 6,735; the bolts bear 6,663

# Source document 002's, so far as S-3 tells of it; its plate is the example's, 0.25 in.
SOURCE_TANK = changed(EXAMPLE, s=21_000, E=70)

# That tank with other W, t and c: sound by API 650, its first course having just the floor's 188;
# by D100, which is a step more, that course wants five mils.
GROWER = changed(SOURCE_TANK, W=18_345, t=188, c=138)
