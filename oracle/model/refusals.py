"""Document 01's refusals: their numbers, and the orders in which they are looked for.

Written from both lists of "Refusals" and from "Order", with requests S-1 to S-10 of document 02.
A refusal is its number and its field (0 if it gives none); None stands for no refusal. The orders
of tank, site, anchors, bytes and writing are where the sheet is: filling_in.py, sheet_bytes.py.
"""

from model.fields import COURSE_FIELDS, WIND_FIELD, Course, field_in_range

# --- "The sheet holds one to twelve courses", "at most 76,800" -----------------

MOST_COURSES = 12
MOST_SHELL_HEIGHT = 76_800

D100, API_650 = METHODS = (1, 2)    # request S-3: "1 for D100, 2 for API 650"


# --- "Refusals that come from the input", "... from the state" ----------------

REFUSALS = {
    11: "fewer than two bytes, or fewer than 2 + L",
    12: "more than 2 + L bytes",
    13: "L is neither 58 + 20 n nor 62 + 20 n for n from 1 to 12",
    14: "version not 1 or 2, or not the one that goes with L",
    15: "the count byte is not the n that L gives",
    16: "a field outside its range",
    17: "allowance not less than plate",
    18: "anchors at odds with each other, the tank or the bolt chart",
    19: "buffer shorter than 64 + 20 n",
    30: "a sheet that no run of steps leaves",
    31: "tank already stated",
    32: "no tank yet",
    33: "twelve courses are held already",
    34: "this course would bring Hs above 76,800",
    35: "no course",
    36: "no site",
    37: "H above Hs",
    38: "anchors never stated",
    40: "Ss or S1 above 3,000; a figure of S-9 outside its range",
    41: "a site class other than A to E",
    42: "a method other than D100 and API 650",
    43: "self-anchored, and its lift is not none",
    44: "a tank that isn't slender",
    45: "an earthquake moment above 1,000,000,000",
    39: "size 6, stated, read in version 2 or written",     # S-10; last, as leaf 12 counts places
}
FIELD_REFUSAL = 16  # the only one that gives a field


def refusal_at(place, field):
    """The refusal at this place of the list: its number and its field."""
    number = tuple(REFUSALS)[place]
    return number, field if number == FIELD_REFUSAL else 0


def range_refusal(fields, figures):
    """16 with the first field outside its range, or None."""
    for field, figure in zip(fields, figures, strict=True):
        if not field_in_range(field, figure):
            return FIELD_REFUSAL, field
    return None


def course_refusal(tank_stated, courses_held, shell_height, course):
    """Order: 32, 33, 16, 17, 34."""
    if not tank_stated:
        return 32, 0
    if courses_held == MOST_COURSES:
        return 33, 0
    outside = range_refusal(COURSE_FIELDS, course)
    if outside is not None:
        return outside
    if course.c >= course.t:
        return 17, 0
    if shell_height + course.width > MOST_SHELL_HEIGHT:
        return 34, 0
    return None


def method_refusal(method):
    return None if method in METHODS else (42, 0)


def standard_site_refusal(V):
    """16 with field 7 for a speed outside 60 to 150 mph, or None."""
    return range_refusal((WIND_FIELD,), (V,))


def judge_refusal(method, tank_stated, courses_held, site_stated, anchors_stated, H,
                  shell_height):
    """Order: 42, 32, 35, 36, 38, 37; S-1 has 38 "straight after 36", S-3 has 42 "before 32"."""
    no_method = method_refusal(method)
    if no_method is not None:
        return no_method
    if not tank_stated:
        return 32, 0
    if courses_held == 0:
        return 35, 0
    if not site_stated:
        return 36, 0
    if not anchors_stated:
        return 38, 0
    if H > shell_height:
        return 37, 0
    return None


# --- Self test: refusals ------------------------------------------------------


def self_test():
    assert list(REFUSALS) == [*range(11, 20), *range(30, 39), *range(40, 46), 39]
    for speed, refusal in ((59, (16, 7)), (60, None), (150, None), (151, (16, 7))):
        assert standard_site_refusal(speed) == refusal

    # document 01's cases: "H 28,801 is refused 37"; "A thirteenth course is refused 33 even if it
    # is also too high"
    Hs, course = 28_800, Course(width=9_600, t=250, c=0, s=15_000, E=85)
    assert judge_refusal(D100, True, 3, True, True, 28_800, Hs) is None
    assert judge_refusal(D100, True, 3, True, True, 28_801, Hs) == (37, 0)
    assert course_refusal(True, 3, Hs, course) is None
    too_high = course._replace(width=14_400)
    assert course_refusal(True, 11, 70_000, too_high) == (34, 0)
    assert course_refusal(True, 12, 70_000, too_high) == (33, 0)

    # anchors never stated
    for H in (28_800, 28_801):
        assert judge_refusal(D100, True, 3, True, False, H, Hs) == (38, 0)
        assert judge_refusal(D100, True, 3, False, False, H, Hs) == (36, 0)

    # 42 "after 30 and before 32"
    for method, refusal in ((0, (42, 0)), (1, None), (2, None), (3, (42, 0))):
        assert judge_refusal(method, True, 3, True, True, 28_800, Hs) == refusal
    assert judge_refusal(3, False, 0, False, False, 0, 0) == (42, 0)
    assert judge_refusal(2, False, 0, False, False, 0, 0) == (32, 0)
