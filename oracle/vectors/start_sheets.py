"""Sheets that the groups of scripts start from: the example tank, and others with no two figures
alike.
"""

from model import filling_in
from model.fields import Anchors, Course, Site, Tank
from model.filling_in import NO_COURSE, SELF_ANCHORED, sheet_of
from model.refusals import MOST_COURSES
from vectors.version_1 import all_of, sheet_as_bytes

# --- Sheets that the groups start from ----------------------------------------

EXAMPLE = filling_in.EXAMPLE
EXAMPLE_BYTES = sheet_as_bytes(EXAMPLE)

# No two figures alike, so that none can be taken for another.
FULL_TANK = Tank(D=18_000, H=31_234, W=56_789, plate=313, allowance=47, Fy=41_321)
FULL_SITE = Site(V=97, Kz=87, I=103, Av=251, Ms=765_432)
FULL_ANCHORS = Anchors(N=24, B=18_654, d=12)
FULL_COURSES = tuple(
    Course(width=6_100 + 13 * k, t=400 + 31 * k, c=10 + 7 * k, s=12_345 + 1_111 * k, E=61 + 3 * k)
    for k in range(MOST_COURSES))
FULL = sheet_of(FULL_TANK, FULL_SITE, FULL_ANCHORS, FULL_COURSES)


def full_with(n):
    """The full sheet with only its first n courses."""
    return sheet_of(FULL_TANK, FULL_SITE, FULL_ANCHORS, FULL_COURSES[:n])


ONE, THREE = full_with(1), full_with(3)
ONE_BYTES, THREE_BYTES, FULL_BYTES = map(sheet_as_bytes, (ONE, THREE, FULL))
TANK_ONLY = sheet_of(FULL_TANK, None, None, ())
SELF_BYTES = sheet_as_bytes(ONE._replace(anchors=SELF_ANCHORED))

# Plates of 500 leave room for every allowance; without anchors every D will do.
WIDE_TANK = FULL_TANK._replace(plate=500)
WIDE_COURSE = FULL_COURSES[0]._replace(t=500)
NO_TANK, NO_SITE = all_of(Tank, 0), all_of(Site, 0)
ALMOST_BLANK = NO_COURSE._replace(E=1)    # a slot that is wrong past the count
LOW_COURSE = Course(width=1_200, t=250, c=0, s=15_000, E=85)        # adds the least height


def widths_to(height, n):
    """n widths in range with this sum."""
    each = height // n
    widths = [each] * (n - 1)
    return [*widths, height - sum(widths)]


def courses_to(height, n):
    return tuple(LOW_COURSE._replace(width=width) for width in widths_to(height, n))


def high_sheet(height, n):
    """n courses with this shell height, on the full sheet's tank."""
    return sheet_of(FULL_TANK, FULL_SITE, FULL_ANCHORS, courses_to(height, n))
