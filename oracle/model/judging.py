"""Judging a sheet, and the report.

Written from document 01: "Order" (with requests S-1 and S-3 of document 02), "The rules" with the
paragraph after them, and from S-8, which has gravity in the needs and in wL. The rules' figures are
tank_rules.py's. S-3's method is handed in with the sheet, as any number that a u32 holds; bytes are
judged by D100.
"""

from functools import cache
from typing import NamedTuple

from model import sheet_bytes
from model.arithmetic import Verdict, use_bits
from model.filling_in import EMPTY, EXAMPLE, SELF_ANCHORED, Sheet, left_by_a_run, shell_height
from model.refusals import API_650, D100, judge_refusal
from model.tank_rules import (
    bolt_area, course_head, course_verdict, hoop_head, hoop_need, larger_pull, net_pull,
    required_plate, resistance, self_earthquake_verdict, self_wind_verdict, shell_weight_on_rim,
    spacing_verdict, strength_verdict, uplift, water_on_rim, weight_in_earthquake, wind_moment,
    wind_pressure,
)

# --- The report ---------------------------------------------------------------


class CourseReport(NamedTuple):
    need: int               # the hoop need in steps of five mils, without c
    required: int
    t: int
    verdict: Verdict

    def plates(self):
        """The three numbers that its line has."""
        return self.need, self.required, self.t


class SelfAnchored(NamedTuple):
    wind: Verdict
    T: int
    lift: str
    earthquake: Verdict

    def rules(self):
        """Name to verdict, in the order in which the uses are kept."""
        return {"wind": self.wind, "earthquake": self.earthquake}


class Anchored(NamedTuple):
    wind_pull: int
    earthquake_pull: int
    spacing: Verdict
    strength: Verdict

    def pulls(self):
        """By wind and by earthquake."""
        return self.wind_pull, self.earthquake_pull

    def rules(self):
        return {"spacing": self.spacing, "strength": self.strength}


class Report(NamedTuple):
    p: int
    M: int
    standing: SelfAnchored | Anchored
    courses: tuple          # of those held, from the bottom up


NO_VERDICT = Verdict(False, 0)
NO_REPORT = Report(0, 0, SelfAnchored(NO_VERDICT, 0, "over", NO_VERDICT), ())   # beside a refusal


def uses(report):
    """The two uses of its way of standing, side by side."""
    return tuple(verdict.use for verdict in report.standing.rules().values())


def verdicts(report):
    """Name to verdict of all its checks."""
    courses = {f"course {number}": course.verdict
               for number, course in enumerate(report.courses, start=1)}
    return {**courses, **report.standing.rules()}


def short_rules(report):
    """Which of all its checks fall short."""
    return [name for name, verdict in verdicts(report).items() if not verdict.holds]


def word(report):
    """Sound: every course holds and the rules of its way of standing hold."""
    return "short" if short_rules(report) else "sound"


# --- Judging ------------------------------------------------------------------


def refusal_of(sheet, method):
    """Order: 30, then 42, 32, 35, 36, 38, 37."""
    if not left_by_a_run(sheet):
        return 30, 0
    H = 0 if sheet.tank is None else sheet.tank.H
    return judge_refusal(method, sheet.tank is not None, sheet.count, sheet.site is not None,
                         sheet.anchors is not None, H, shell_height(sheet))


def bottom_edges(sheet):
    """Each course held, with the height of its bottom edge."""
    edge = 0
    for course in sheet.courses[:sheet.count]:
        yield edge, course
        edge += course.width


def course_reports(sheet, method):
    D, H, gravity = sheet.tank.D, sheet.tank.H, sheet.tank.gravity
    for edge, course in bottom_edges(sheet):
        h = hoop_head(method, course_head(H, edge))
        need = hoop_need(h, D, course.s, course.E, gravity)
        required = required_plate(need, course.c, D)
        yield CourseReport(need, required, course.t, course_verdict(required, course.t))


def self_anchored(sheet, M):
    tank, site = sheet.tank, sheet.site
    wt = shell_weight_on_rim(tank.W, site.Av, tank.D)
    wL = water_on_rim(tank.plate - tank.allowance, tank.Fy, tank.H, tank.D, tank.gravity)
    T = resistance(tank.D, wt, wL)
    return SelfAnchored(self_wind_verdict(M, tank.W, tank.D), T, uplift(site.Ms, T),
                        self_earthquake_verdict(site.Ms, T))


def anchored(sheet, M):
    W, N, B = sheet.tank.W, sheet.anchors.N, sheet.anchors.B
    left = weight_in_earthquake(W, sheet.site.Av)
    pulls = (net_pull(M, W, B, N), net_pull(sheet.site.Ms, left, B, N))
    strength = strength_verdict(larger_pull(*pulls), bolt_area(sheet.anchors.d))
    return Anchored(*pulls, spacing_verdict(B, N), strength)


@cache
def report_of(sheet, method):
    """Of a sheet that is not refused."""
    p = wind_pressure(sheet.site.Kz, sheet.site.I, sheet.site.V)
    M = wind_moment(p, sheet.tank.D, shell_height(sheet))
    standing = self_anchored(sheet, M) if sheet.anchors.N == 0 else anchored(sheet, M)
    return Report(p, M, standing, tuple(course_reports(sheet, method)))


def sides(sheet, report):
    """Each check's name to need and capacity, "the two sides as compared above; for a course,
    required over t"."""
    found = {f"course {number}": (course.required, course.t)
             for number, course in enumerate(report.courses, start=1)}
    tank, site, anchors = sheet.tank, sheet.site, sheet.anchors
    if anchors.N == 0:
        found["wind"] = 3_600 * report.M, tank.W * tank.D
        found["earthquake"] = 1_000 * site.Ms, 1_540 * report.standing.T
    else:
        found["spacing"] = 355 * anchors.B, 1_356_000 * anchors.N
        pull = larger_pull(*report.standing.pulls())
        found["strength"] = 1_000 * pull, 19_950 * bolt_area(anchors.d)
    return found


class Answer(NamedTuple):
    refusal: tuple | None
    report: Report


def judge(sheet, method):
    """The sheet as it is handed in."""
    refusal = refusal_of(sheet, method)
    return Answer(refusal, report_of(sheet, method) if refusal is None else NO_REPORT)


class Marked(NamedTuple):
    sheet: Sheet            # the one judged; where reading refuses, the empty one
    answer: Answer


def mark(content):
    """Bytes as they are handed in: read first, whose refusal is the answer, then judge; "file
    reports use D100"."""
    refusal, sheet = sheet_bytes.read(content)
    answer = judge(sheet, D100) if refusal is None else Answer(refusal, NO_REPORT)
    return Marked(sheet, answer)


# --- Self test of judging -----------------------------------------------------


def self_test():
    refusal, report = judge(EXAMPLE, D100)
    assert refusal is None and word(report) == "sound"
    assert (report.p, report.M) == (2_123, 73_371)
    assert report.standing.pulls() == (2_133, -191)
    assert [course.plates() for course in report.courses] \
        == [(60, 188, 250), (40, 188, 250), (20, 188, 250)]

    # "self wind short resist 94646 none"
    refusal, report = judge(EXAMPLE._replace(anchors=SELF_ANCHORED), D100)
    assert refusal is None and short_rules(report) == ["wind"]
    assert (report.standing.T, report.standing.lift) == (94_646, "none")
    assert judge(EXAMPLE._replace(anchors=None), D100) == ((38, 0), NO_REPORT)

    # S-8: T is 1.44 x (28,863 + wL), with wL by its cap: 36,864, 41,914 and 47,923
    for gravity, needs, T in ((1_000, [60, 40, 20], 94_646), (1_137, [70, 45, 25], 101_918),
                              (1_300, [80, 55, 30], 110_571)):
        heavier = EXAMPLE._replace(tank=EXAMPLE.tank._replace(gravity=gravity))
        assert [course.need for course in judge(heavier, D100).report.courses] == needs
        standing = judge(heavier._replace(anchors=SELF_ANCHORED), D100).report.standing
        assert (standing.T, standing.lift) == (T, "none")
        assert judge(heavier, D100).report.standing == judge(EXAMPLE, D100).report.standing

    # "the height of the course's bottom edge"
    twelve = EXAMPLE._replace(courses=(EXAMPLE.courses[0]._replace(width=6_400),) * 12, count=12)
    assert [edge for edge, _course in bottom_edges(twelve)] == list(range(0, 76_800, 6_400))

    # the sides that document 01's rules compare
    for sheet in (EXAMPLE, EXAMPLE._replace(anchors=SELF_ANCHORED)):
        report = judge(sheet, D100).report
        assert {name: use_bits(*pair) for name, pair in sides(sheet, report).items()} \
            == {name: verdict.use for name, verdict in verdicts(report).items()}

    # 42 "after 30 and before 32"
    assert judge(EXAMPLE, 3) == judge(EMPTY, 3) == ((42, 0), NO_REPORT)
    assert judge(EMPTY, API_650) == ((32, 0), NO_REPORT)
    assert judge(EXAMPLE._replace(count=4), 3) == ((30, 0), NO_REPORT)
