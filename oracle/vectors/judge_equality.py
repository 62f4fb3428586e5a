"""Judging: each verdict at equality and one past it, and rules that alone fall short."""

from model.arithmetic import rounded_down, rounded_up
from model.demand_3 import FULL_HEADS
from model.refusals import D100
from vectors.judge_cases import (
    EXAMPLE, FIFTHS, LIGHT, SELF, TALL_FIFTHS, TALL_UPWARD, WHOLE_BY_CAP, WHOLE_BY_ROOT, changed,
    course_changed, report_on, short, sound, sound_if, with_widths,
)
from vectors.leaf_points import beside
from vectors.scripts import subsets

# --- Groups: each verdict at equality, and one past it on both sides ----------


def heads_at_equality(heads, method):
    """Of four courses whose exact needs, 260, 195, 130 and 65, are steps by this method, and with c
    t."""
    yield sound(heads, "| 260 260 260 holds 3ff0000000000000", method)
    for number in range(1, 5):
        for t in (259, 260, 261):
            yield sound_if(t >= 260, course_changed(heads, number, t=t), f"course {number}",
                           method=method)
        c = heads.courses[number - 1].c
        for allowance in beside(c):
            if allowance >= 0:
                sheet = course_changed(heads, number, c=allowance)
                yield sound_if(allowance <= c, sheet, f"course {number}", method=method)
        for letter, least in (("s", heads.courses[0].s), ("E", 85)):
            for figure in beside(least):
                sheet = course_changed(heads, number, **{letter: figure})
                yield sound_if(figure >= least, sheet, f"course {number}", method=method)
    every = [f"course {number}" for number in range(1, 5)]
    level = heads.tank.H
    higher = course_changed(heads, 4, width=9_600)
    for H in beside(level):     # 259.99.. is rounded up to 260, 260.00.. to 265
        yield sound_if(H <= level, changed(higher, H=H, W=30_000), *every, method=method)
    for D in beside(60_000):
        yield sound_if(D <= 60_000, changed(heads, D=D), *every, method=method)


def course_at_equality():
    """Required is t: by the need with c, exact and rounded up, and by the floor."""
    yield from heads_at_equality(FULL_HEADS, D100)
    for c in beside(128):       # the need of 60 with c, beside the floor
        yield sound_if(c <= 128, changed(EXAMPLE, t=188, c=c), "course 1")


def self_wind_at_equality():
    """3,600 M is W D, with M whole (V 96) and rounded up from 74,787.84 (V 106)."""
    for V, W in ((96, 15_552), (106, 18_697)):
        for weight in beside(W):
            yield sound_if(weight >= W, changed(SELF, V=V, W=weight), "wind")
        # the exact sides both grow with D: M rounded up makes the difference
        for D in (14_399, 14_401):
            yield short(changed(SELF, V=V, W=W, D=D), "wind")
    wide = changed(with_widths(SELF, [9_600] * 5), D=36_000, V=96, t=400)
    for W in beside(43_200):
        yield sound_if(W >= 43_200, changed(wide, W=W), "wind")


def self_earthquake_at_equality():
    """1,000 Ms is 1,540 T, which takes a T that 50 divides: a rounded one, and two whole ones,
    with wL by its cap and by its root."""
    for sheet, T in ((SELF, 122_400), (WHOLE_BY_CAP, 94_000), (WHOLE_BY_ROOT, 64_400)):
        equal = 77 * T // 50
        for Ms in beside(equal):
            yield sound_if(Ms <= equal, changed(sheet, Ms=Ms), "earthquake",
                           shows=f"{T} {'lift holds' if Ms <= equal else 'over short'}")
        W, Av = sheet.tank.W, sheet.site.Av
        for weight in beside(W):
            yield sound_if(weight >= W, changed(sheet, Ms=equal, W=weight), "earthquake")
        for acceleration in beside(Av):
            if acceleration >= 0:
                near_it = changed(sheet, Ms=equal, Av=acceleration)
                yield sound_if(acceleration <= Av, near_it, "earthquake")


def spacing_at_equality():
    """355 B is 1,356,000 N at one point in the ranges: N 71 with B 271,200."""
    for D in (14_400, 240_000):
        wide = changed(EXAMPLE, D=D, W=200_000, H=9_600, t=500)
        for B in beside(271_200):
            yield sound_if(B <= 271_200, changed(wide, N=71, B=B), "spacing")
        for N in beside(71):
            yield sound_if(N >= 71, changed(wide, N=N, B=271_200), "spacing")
    for N in (6, 7, 8, 40, 77, 78):         # between two whole B
        B = rounded_down(1_356_000 * N, 355)
        yield sound(changed(EXAMPLE, N=N, B=B))
        yield short(changed(EXAMPLE, N=N, B=B + 1), "spacing")
    yield sound(changed(EXAMPLE, N=79, B=300_000))


def strength_at_equality():
    """1,000 pull is 19,950 A only where 20 divides A: d 14 (pull 37,905) and d 16 (49,875).
    The other seven sizes have no equality; bolt_sizes has them on both sides of it."""
    for d, pull in ((14, 37_905), (16, 49_875)):
        W = TALL_UPWARD - 6 * pull
        by_wind = changed(TALL_FIFTHS, d=d, W=W)
        for weight in (W - 7, W - 6, *beside(W), W + 5, W + 6):     # six pounds move it by one
            yield sound_if(weight >= W, changed(by_wind, W=weight), "strength",
                           shows=f"anchored {pull - (weight - W) // 6}")
        Ms = 15 * pull + 2 * 11_000
        for moment in (Ms - 15, Ms - 14, *beside(Ms), Ms + 15, Ms + 16):    # so do fifteen
            yield sound_if(moment <= Ms, changed(FIFTHS, d=d, Ms=moment), "strength",
                           shows=f"{pull + rounded_up(moment - Ms, 15)} holds")
    # M rounded up, from 601,702.4, with which 13,251 would do
    rounded = changed(TALL_FIFTHS, V=101, d=14)
    for W in beside(13_252):
        yield sound_if(W >= 13_252, changed(rounded, W=W), "strength")


def lift_boundaries():
    """785 and 1,540, at equality where 200 and 50 divide T, else between two moments."""
    for sheet, T in ((SELF, 122_400), (WHOLE_BY_CAP, 94_000), (WHOLE_BY_ROOT, 64_400)):
        none, lift = 157 * T // 200, 77 * T // 50
        for Ms in beside(none):
            word = "none" if Ms <= none else "lift"
            yield sound(changed(sheet, Ms=Ms), f"{T} {word} holds")
        for Ms in (lift, lift + 1):
            word = "lift holds" if Ms <= lift else "over short"
            yield sound_if(Ms <= lift, changed(sheet, Ms=Ms), "earthquake", shows=f"{T} {word}")
    for W in range(18_346, 18_356):
        sheet = changed(SELF, W=W)
        T = report_on(sheet).standing.T
        for boundary in (785, 1_540):
            most = rounded_down(boundary * T, 1_000)
            for Ms in (most, most + 1):
                holds = boundary == 785 or Ms == most
                word = {785: ("none", "lift"), 1_540: ("lift", "over")}[boundary][Ms - most]
                yield sound_if(holds, changed(sheet, Ms=Ms), "earthquake", shows=f"{T} {word}")
    yield sound(changed(SELF, Ms=0), "122400 none holds 0000000000000000")


# --- Groups: one rule, or several, that alone fall short ----------------------


def one_course_short():
    """The first, the last and each between; t 250, where 188 is required."""
    for base in (EXAMPLE, SELF):
        for n in (1, 2, 3, 7, 12):
            sheet = with_widths(changed(base, H=1_200, W=100_000), [2_400] * n)
            yield sound(sheet)
            for number in range(1, n + 1):
                yield short(course_changed(sheet, number, t=187), f"course {number}")
    # by their need: the water reaches the first only, then all
    yield short(course_changed(changed(FULL_HEADS, H=7_650), 1, t=187), "course 1")
    yield short(course_changed(FULL_HEADS, 4, c=196), "course 4")


def one_standing_rule_short():
    yield short(changed(SELF, W=18_342), "wind")
    yield short(changed(SELF, V=106), "wind")
    yield short(changed(SELF, Ms=188_497), "earthquake")
    yield short(changed(SELF, Ms=1_000_000_000), "earthquake")
    yield short(changed(EXAMPLE, B=22_919), "spacing")
    yield short(changed(EXAMPLE, B=300_000), "spacing")
    # strength by the wind pull, the earthquake pull being negative or less
    for Ms in (0, 100_000):
        yield sound(changed(LIGHT, Ms=Ms, V=136))
        yield short(changed(LIGHT, Ms=Ms), "strength")
    # by the earthquake pull, the wind pull being less or negative
    yield short(changed(EXAMPLE, Ms=257_197), "strength", shows="2133 12090")
    yield short(changed(EXAMPLE, W=50_000, Ms=400_000), "strength")


BREAKS = {      # a rule, and what makes it fall short alone
    "course 2": lambda sheet: course_changed(sheet, 2, t=187),
    "wind": lambda sheet: changed(sheet, W=18_342),
    "earthquake": lambda sheet: changed(sheet, Ms=200_000),
    "spacing": lambda sheet: changed(sheet, B=22_919),
    "strength": lambda sheet: changed(sheet, Ms=900_000),
}


def several_short():
    """Each subset of a course's rule and the two of a way of standing."""
    both_ways = ((SELF, ("wind", "earthquake")), (EXAMPLE, ("spacing", "strength")))
    for base, standing_rules in both_ways:
        for rules in subsets(("course 2", *standing_rules)):
            sheet = base
            for rule in rules:
                sheet = BREAKS[rule](sheet)
            yield sound_if(not rules, sheet, *rules)
