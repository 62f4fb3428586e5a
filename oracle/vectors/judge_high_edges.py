"""Judging: courses with a bottom edge above 60,000 whose exact need is at a step of S-7 or beside
it, so that an edge that is off by 1 shows.

Little water is above such an edge: by D100 up to 16,800, by API 650 a foot less. The points beside
a step are as in need_points.py, with so small an h: off it by 1 / (72 s E), with one of the largest
s E that permit it, and where the step is small with a D whose floor an allowance can bring it past.
Those of the tanks with seven such courses are off by as much, but share a D.
"""

from itertools import cycle, pairwise

from model.refusals import METHODS, MOST_COURSES, MOST_SHELL_HEIGHT
from model.tank_rules import FOOT, house_floor
from vectors.judge_cases import changed, course_changed, needing, short, sound, with_widths
from vectors.judge_need_steps import TIED_DOWN, UPRIGHT, at_required_and_less
from vectors.need_points import Point
from vectors.random_sheets import NEED_STARTS
from vectors.start_sheets import widths_to

HIGH = 60_001       # and above

# --- One course ---------------------------------------------------------------

AT_EDGES = (    # an edge, a step, and points whose exact need is just below it, it, and just above
    (60_001, 190, ((15_559, 238_157, 36_302, 97), (8_721, 147_520, 23_972, 51),
                   (15_289, 238_573, 39_389, 88))),
    (60_001, 1_000, ((15_337, 238_979, 12_976, 51), (15_360, 232_200, 10_062, 64),
                     (15_583, 237_019, 13_076, 51))),
    (61_440, 345, ((14_113, 239_051, 21_798, 81), (14_030, 233_172, 28_067, 61),
                   (14_119, 239_923, 18_467, 96))),
    (62_007, 60, ((11_173, 118_751, 39_927, 100), (9_840, 56_124, 20_267, 82),
                  (9_499, 139_423, 39_854, 100))),
    (63_999, 5, ((2_201, 50_323, 39_997, 100), (1_440, 26_774, 26_774, 52),
                 (2_279, 48_563, 39_966, 100))),
    (64_800, 250, ((10_741, 238_703, 28_933, 64), (10_152, 160_000, 12_480, 94),
                   (10_771, 238_087, 18_708, 99))),
    (65_535, 500, ((10_051, 239_273, 15_508, 56), (9_975, 218_880, 15_162, 52),
                   (10_013, 237_929, 11_785, 73))),
    (65_536, 100, ((9_593, 228_211, 39_927, 99), (4_860, 153_440, 14_796, 91),
                   (9_527, 227_651, 39_555, 99))),
    (65_537, 315, ((10_057, 239_459, 14_379, 96), (6_075, 237_888, 12_744, 65),
                   (10_007, 238_691, 16_299, 84))),
    (66_123, 185, ((9_439, 239_237, 26_237, 84), (9_342, 227_920, 24_739, 84),
                   (9_421, 238_897, 28_527, 77))),
    (67_200, 25, ((8_381, 59_383, 37_836, 95), (7_272, 48_750, 34_138, 75),
                  (8_387, 58_871, 36_020, 99))),
    (68_409, 255, ((7_159, 239_477, 13_953, 87), (5_100, 237_888, 15_340, 56),
                   (7_133, 237_929, 19_382, 62))),
    (69_999, 10, ((4_717, 46_919, 39_960, 100), (5_040, 19_308, 33_789, 52),
                  (3_979, 55_663, 39_990, 100))),
    (70_000, 125, ((5_599, 238_277, 28_339, 68), (4_750, 233_640, 16_874, 95),
                   (5_567, 239_531, 33_209, 58))),
    (71_777, 75, ((3_821, 238_063, 23_547, 93), (3_465, 214_080, 20_293, 88),
                  (3_811, 238_207, 26_981, 81))),
    (72_000, 15, ((2_647, 125_309, 39_926, 100), (1_936, 117_180, 31_031, 88),
                  (3_271, 101_587, 39_998, 100))),
    (73_201, 20, ((2_399, 143_077, 32_618, 95), (1_984, 125_595, 36_283, 62),
                  (2_393, 140_429, 36_997, 82))),
    (74_321, 5, ((923, 120_001, 39_997, 100), (1_007, 17_280, 12_084, 52),
                 (1_121, 97_637, 39_524, 100))),
    (75_000, 10, ((593, 143_611, 27_957, 55), (600, 143_280, 29_850, 52),
                  (599, 143_843, 21_023, 74))),
    (75_480, 5, ((119, 141_517, 10_485, 58), (120, 122_412, 10_201, 52),
                 (119, 143_243, 10_433, 59))),
    # by D100 alone
    (75_599, 10, ((1_201, 59_243, 13_244, 97), (612, 58_160, 12_359, 52),
                  (1_159, 59_923, 18_716, 67))),
    (75_600, 5, ((923, 120_001, 39_997, 100), (380, 117_666, 28_327, 57),
                 (1_121, 97_637, 39_524, 100))),
    (75_600, 70, ((1_199, 235_477, 14_565, 50), (1_197, 234_000, 11_115, 65),
                  (1_193, 239_549, 10_238, 72))),
)


def on_edge(base, edge, below, point, method):
    """The sheet on which so many courses are below this edge, and the one on it has the h of a
    point, as the method has it, and its s and E. The others' s, E and t are the greatest."""
    over = MOST_SHELL_HEIGHT - edge
    above = min(3, MOST_COURSES - below, over // FOOT)
    sheet = with_widths(base, [*widths_to(edge, below), *widths_to(over, above)])
    sheet = changed(sheet, D=point.D, H=edge + NEED_STARTS[method] + point.h, s=40_000, E=100,
                    t=2_000)
    return course_changed(sheet, below + 1, s=point.s, E=point.E)


def allowance_past_floor(need, D, past):
    """With it the required plate is past the floor by so much, if an allowance can bring it."""
    return min(max(house_floor(D) - need, 0) + past, 250)


def points_on_edges(method):
    """An edge, how many courses are below it, a need and a point of which it is the need."""
    belows = cycle((6, 8, 10, 7, 9, 11))
    for (edge, step, points), below in zip(AT_EDGES, belows):
        if all(edge + NEED_STARTS[method] + h <= MOST_SHELL_HEIGHT for h, *_rest in points):
            needs = (step, step, step + 5)
            for need, point in zip(needs, map(Point._make, points), strict=True):
                yield edge, below, need, point


# --- Seven courses ------------------------------------------------------------

# A tank's D, and of its last seven courses the need, h, s and E, each at a step or next to it.
SEVEN_EDGES = (
    (137_291, ((120, 12_433, 38_333, 67), (155, 11_160, 19_613, 91), (190, 9_887, 22_454, 59),
               (85, 8_113, 33_324, 71), (55, 6_840, 33_877, 91), (55, 4_847, 27_942, 86),
               (25, 3_600, 39_226, 91))),
    (211_057, ((215, 15_480, 30_151, 91), (295, 13_141, 22_721, 76), (115, 7_739, 34_655, 74),
               (65, 6_480, 38_374, 99), (130, 4_861, 19_759, 75), (60, 2_699, 21_163, 81),
               (20, 1_440, 30_151, 91))),
    (57_827, ((160, 15_191, 10_886, 94), (50, 11_449, 30_263, 79), (35, 10_080, 33_044, 91),
              (120, 8_711, 10_834, 73), (15, 4_609, 39_607, 81), (15, 3_240, 24_783, 91),
              (5, 649, 15_944, 85))),
)
FIRST_OF_SEVEN = 6      # five are below them


def with_seven(base, D, courses, method):
    """The sheet on which each of them has just what it requires, and the needs by number. By either
    method the edges are the same."""
    top = MOST_SHELL_HEIGHT - FOOT          # the water's, a foot higher by API 650
    edges = [top - h for _need, h, _s, _E in courses]
    widths = [after - edge for edge, after in pairwise((*edges, MOST_SHELL_HEIGHT))]
    sheet = with_widths(base, [*widths_to(edges[0], FIRST_OF_SEVEN - 1), *widths])
    sheet = changed(sheet, D=D, H=top + NEED_STARTS[method], s=40_000, E=100, t=2_000)
    needs = {}
    for number, (need, _h, s, E) in enumerate(courses, start=FIRST_OF_SEVEN):
        c = allowance_past_floor(need, D, number % 5)
        sheet = course_changed(sheet, number, t=max(need + c, house_floor(D)), c=c, s=s, E=E)
        needs[number] = need
    return sheet, needs


def seven_and_one_less():
    """All hold; then each of them in turn is a mil thinner. The method, the sheet, the needs and
    the number of that course, or None."""
    for method in METHODS:
        for (D, courses), base in zip(SEVEN_EDGES, cycle((UPRIGHT, TIED_DOWN))):
            sheet, needs = with_seven(base, D, courses, method)
            yield method, sheet, needs, None
            for number in needs:
                t = sheet.courses[number - 1].t
                yield method, course_changed(sheet, number, t=t - 1), needs, number


# --- Group --------------------------------------------------------------------


def high_edges_at_steps():
    """Each with a plate that just holds and with one a mil thinner. If an allowance can bring it
    there, the required plate is past the floor by one to four mils."""
    for method in METHODS:
        pasts = cycle((1, 2, 3, 4))
        bases = cycle((UPRIGHT, UPRIGHT, TIED_DOWN, TIED_DOWN))
        for (edge, below, need, point), base, past in zip(points_on_edges(method), bases, pasts):
            sheet = on_edge(base, edge, below, point, method)
            c = allowance_past_floor(need, point.D, past)
            yield from at_required_and_less(sheet, below + 1, need, c, method)
    for method, sheet, needs, thinner in seven_and_one_less():
        yield needing(needs, sound(sheet, method=method) if thinner is None
                      else short(sheet, f"course {thinner}", method=method))
