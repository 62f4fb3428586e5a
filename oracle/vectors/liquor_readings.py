"""Readings of request S-8: the right one, written a second time, and those that go astray.

What is read is a judged sheet: of each course need and required plate and, of a self-anchored tank,
T; with them go the verdicts.
"""

from fractions import Fraction
from math import ceil, floor, isqrt
from typing import Callable, NamedTuple

from model.judging import SelfAnchored, bottom_edges
from model.refusals import API_650
from model.tank_rules import house_floor, uplift
from vectors.need_points import DOWN, NEAREST, UP

# --- Parts of a reading -------------------------------------------------------


def to_whole_head(h, gravity, foot):
    """The foot comes off what water is as high."""
    return max(h - foot, 0) * gravity


def to_head_first(h, gravity, foot):
    return max(h * gravity - foot, 0)


def steps_up(exact, gravity):
    return UP(exact * gravity)


def right_plate(need, c, house, _gravity):
    return max(need + c, house)


def cap_down(exact, gravity):
    return floor(exact * gravity)


def yield_down(Fy, gravity):
    return floor(Fy * gravity)


def root_of(square):
    """The greatest whole n, n times n being at most this."""
    return isqrt(floor(square))


def plain_root(square, _gravity):
    return root_of(square)


def smaller(root, cap, _gravity):
    return min(root, cap)


def together(wt, wL, _gravity):
    return wt + wL


class Reading(NamedTuple):
    need: Callable = steps_up           # of the exact need by water and gravity
    head: Callable = to_whole_head
    plate: Callable = right_plate
    cap: Callable = cap_down
    in_root: Callable = yield_down
    root: Callable = plain_root
    rim: Callable = smaller             # wL
    weight: Callable = together         # on the rim


RIGHT = Reading()
COURSE_PARTS, RIM_PARTS = slice(0, 3), slice(3, None)
NEEDS_ASTRAY = {
    "need without": lambda exact, _gravity: UP(exact),
    "need twice": lambda exact, gravity: UP(exact * gravity**2),
    "need in steps first": lambda exact, gravity: UP(UP(exact) * gravity),
    "need in steps first, then up to a mil": lambda exact, gravity: ceil(UP(exact) * gravity),
    "need up to a mil first": lambda exact, gravity: UP(ceil(exact) * gravity),
    "need up to a mil": lambda exact, gravity: ceil(exact * gravity),
    "need rounded down": lambda exact, gravity: DOWN(exact * gravity),
    "need to the nearest": lambda exact, gravity: NEAREST(exact * gravity),
    "need with gravity in hundredths":
        lambda exact, gravity: UP(exact * Fraction(floor(100 * gravity), 100)),
    "need divided": lambda exact, gravity: UP(exact / gravity),
}
HEADS_ASTRAY = {"head before the foot": to_head_first}      # by API 650
PLATES_ASTRAY = {
    "allowance too": lambda need, c, house, gravity: max(need + ceil(c * gravity), house),
    "floor too": lambda need, c, house, gravity: max(need + c, ceil(house * gravity)),
    "required plate too": lambda need, c, house, gravity: ceil(max(need + c, house) * gravity),
}
CAPS_ASTRAY = {
    "cap without": lambda exact, _gravity: floor(exact),
    "cap twice": lambda exact, gravity: floor(exact * gravity**2),
    "cap rounded first": lambda exact, gravity: floor(floor(exact) * gravity),
    "cap rounded up": lambda exact, gravity: ceil(exact * gravity),
    "cap to the nearest": lambda exact, gravity: round(exact * gravity),
}
YIELDS_ASTRAY = {
    "yield without": lambda Fy, _gravity: Fy,
    "yield twice": lambda Fy, gravity: floor(floor(Fy * gravity) * gravity),
    "yield unrounded": lambda Fy, gravity: Fy * gravity,
    "yield rounded up": lambda Fy, gravity: ceil(Fy * gravity),
    "yield to the nearest": lambda Fy, gravity: round(Fy * gravity),
}
RIMS_ASTRAY = {
    "root too": {"root": lambda square, gravity: floor(root_of(square) * gravity)},
    "root alone, after it is rounded":
        {"in_root": lambda Fy, _gravity: Fy,
         "root": lambda square, gravity: floor(root_of(square) * gravity)},
    "smaller of those by water, then gravity":
        {"in_root": lambda Fy, _gravity: Fy, "cap": lambda exact, _gravity: floor(exact),
         "rim": lambda root, cap, gravity: floor(min(root, cap) * gravity)},
    "wt too": {"weight": lambda wt, wL, gravity: floor(wt * gravity) + wL},
}
IN_COURSES = {
    **{name: Reading(need=one) for name, one in NEEDS_ASTRAY.items()},
    **{name: Reading(head=one) for name, one in HEADS_ASTRAY.items()},
    **{name: Reading(plate=one) for name, one in PLATES_ASTRAY.items()},
}
IN_RESISTANCE = {
    **{name: Reading(cap=one) for name, one in CAPS_ASTRAY.items()},
    **{name: Reading(in_root=one) for name, one in YIELDS_ASTRAY.items()},
    **{name: Reading(**parts) for name, parts in RIMS_ASTRAY.items()},
}


# --- A sheet read so ----------------------------------------------------------


def courses_read(sheet, method, reading):
    """Need and required plate of each course."""
    tank = sheet.tank
    gravity, foot = Fraction(tank.gravity, 1_000), 1_200 if method == API_650 else 0
    for edge, course in bottom_edges(sheet):
        over = reading.head(max(tank.H - edge, 0), gravity, foot) / gravity
        exact = Fraction(13 * tank.D, 72 * course.s * course.E) * over
        need = reading.need(exact, gravity)
        yield need, reading.plate(need, course.c, house_floor(tank.D), gravity)


def resistance_read(sheet, reading):
    """T."""
    tank, Av = sheet.tank, sheet.site.Av
    gravity, tb = Fraction(tank.gravity, 1_000), tank.plate - tank.allowance
    wt = floor(Fraction(2_712_000 * tank.W * (10_000 - 4 * Av), 710_000 * tank.D))
    square = Fraction(6_241 * tb * tb * tank.H) * reading.in_root(tank.Fy, gravity) / 12_000_000
    wL = reading.rim(reading.root(square, gravity),
                     reading.cap(Fraction(tank.H * tank.D, 11_250), gravity), gravity)
    return floor(Fraction(tank.D * tank.D, 144_000_000) * reading.weight(wt, wL, gravity))


def courses_told(reading, result):
    """Whether a course of the judged sheet would be reported with other figures, and whether with
    another verdict."""
    courses = result.report.courses
    read = list(courses_read(result.sheet, result.method, reading))
    return read != [(course.need, course.required) for course in courses], \
        any((required <= course.t) != course.verdict.holds
            for (_need, required), course in zip(read, courses, strict=True))


def resistance_told(reading, result):
    """The same of T and the lift."""
    standing = result.report.standing
    if not isinstance(standing, SelfAnchored):
        return False, False
    T = resistance_read(result.sheet, reading)
    return T != standing.T, uplift(result.sheet.site.Ms, T) != standing.lift


def told_by(reading, results):
    """How many of these judged sheets would be reported with other figures if S-8 were read so, and
    how many with another verdict or lift. What is read right is left out, if not all of it is."""
    asked = [told for told, parts in ((courses_told, COURSE_PARTS), (resistance_told, RIM_PARTS))
             if reading == RIGHT or reading[parts] != RIGHT[parts]]
    told = [tuple(map(any, zip(*(one(reading, result) for one in asked)))) for result in results]
    return sum(otherwise for otherwise, _turned in told), sum(turned for _otherwise, turned in told)
