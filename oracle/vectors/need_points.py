"""Request S-7's steps of five mils: exact needs at and beside them, and readings that go astray.

A point is h, as the method has it, D, s and E. Its exact need, 13 h D / (72 s E) mils, is a step
or at least 1 / (72 s E) off it. The points beside a step 5 k are off by just that: their h and D
are what (360 k s E - 1) / 13 or (360 k s E + 1) / 13 can be parted into, with one of the largest
s E that permit it. Up to 5,000 their h are such as both methods have.
"""

from fractions import Fraction
from math import ceil, floor
from typing import Callable, NamedTuple

from model.tank_rules import exact_hoop_need, house_floor

# --- Points -------------------------------------------------------------------


class Point(NamedTuple):
    h: int
    D: int
    s: int
    E: int


STEPS = {   # a step, and points whose exact need is just below it, the step, and just above it
    5: ((3_479, 31_837, 39_997, 100), (2_745, 15_976, 25_961, 61), (2_279, 48_563, 39_966, 100)),
    10: ((11_879, 18_637, 39_973, 100), (2_124, 18_940, 12_311, 59), (3_979, 55_663, 39_990, 100)),
    15: ((6_869, 48_367, 39_991, 100), (2_190, 39_708, 14_339, 73), (3_277, 101_401, 39_998, 100)),
    60: ((6_149, 216_127, 39_992, 100), (3_564, 117_960, 12_779, 99),
         (72_913, 18_229, 39_997, 100)),
    100: ((38_957, 56_839, 39_980, 100), (9_540, 62_360, 20_267, 53),
          (24_551, 90_227, 39_996, 100)),
    125: ((12_509, 221_047, 39_940, 100), (14_220, 120_850, 31_421, 79),
          (13_931, 198_767, 39_997, 100)),
    175: ((34_273, 113_051, 39_976, 100), (10_680, 98_805, 12_233, 89),
          (44_479, 87_163, 40_000, 100)),
    185: ((18_049, 226_427, 39_886, 100), (9_480, 207_237, 24_271, 79),
          (50_479, 81_163, 39_986, 100)),
    190: ((42_037, 100_079, 39_979, 100), (10_680, 220_134, 25_103, 89),
          (30_677, 137_201, 39_997, 100)),
    245: ((34_103, 158_941, 39_946, 100), (13_140, 144_158, 19_123, 73),
          (52_259, 103_703, 39_939, 100)),
    250: ((33_683, 164_281, 39_964, 100), (9_540, 237_700, 30_901, 53),
          (68_147, 81_191, 39_960, 100)),
    255: ((30_433, 185_531, 39_979, 100), (16_380, 104_142, 13_273, 91),
          (37_573, 150_049, 39_919, 100)),
    310: ((68_857, 99_539, 39_920, 100), (14_940, 220_348, 23_101, 83),
          (61_273, 111_949, 39_952, 100)),
    315: ((40_547, 172_009, 39_977, 100), (29_880, 75_159, 15_509, 83),
          (30_101, 231_377, 39_921, 100)),
    345: ((47_153, 162_091, 40_000, 100), (10_980, 222_594, 20_969, 61),
          (58_363, 130_879, 39_976, 100)),
    500: ((59_533, 185_831, 39_950, 100), (21_240, 96_700, 12_571, 59),
          (57_457, 192_661, 39_974, 100)),
    1_000: ((67_657, 227_939, 29_622, 94), (26_280, 224_600, 14_599, 73),
            (69_841, 220_597, 33_924, 82)),
    1_500: ((67_657, 227_939, 19_748, 94), (65_880, 220_700, 28_691, 61),
            (69_977, 220_301, 26_509, 70)),
    1_745: ((65_681, 234_763, 24_929, 64), (62_820, 213_778, 15_613, 89),
            (66_137, 233_141, 31_283, 51)),
    1_750: ((71_327, 215_749, 25_202, 63), (69_840, 227_675, 16_913, 97),
            (69_977, 220_301, 26_509, 60)),
    2_000: ((67_657, 227_939, 14_811, 94), (73_440, 220_300, 28_639, 51),
            (70_511, 218_507, 27_273, 51)),
    3_000: ((66_391, 232_253, 14_061, 66), (73_440, 218_850, 18_967, 51),
            (70_511, 218_507, 18_182, 51)),
    5_000: ((65_837, 233_479, 10_884, 51), (73_440, 229_750, 11_947, 51),
            (74_153, 206_909, 11_081, 50)),
}
MOST_PLATED = 1_750     # of them with which every allowance leaves a plate in range
LEAST_NEEDED = Point(1, 12_000, 40_000, 100)     # no exact need is less, but for 0

# The need and a point: the largest steps, 6,550 with API 650's greatest h and 6,655 with D100's,
# as little below and above as can be; the largest exact needs that are steps; the largest of all.
LARGEST_BY_BOTH = (
    (6_550, Point(75_587, 239_992, 10_001, 50)), (6_555, Point(75_593, 239_949, 10_000, 50)),
    (6_540, Point(75_600, 239_800, 10_010, 50)), (6_555, Point(75_600, 240_000, 10_000, 50)),
)
LARGEST_BY_D100 = (
    (6_655, Point(76_799, 239_991, 10_001, 50)), (6_660, Point(76_800, 239_964, 10_000, 50)),
    (6_640, Point(76_692, 240_000, 10_010, 50)), (6_660, Point(76_800, 240_000, 10_000, 50)),
)


def beside_step(step):
    """The needs of its three points, and these."""
    return zip((step, step, step + 5), map(Point._make, STEPS[step]), strict=True)


def of_mils(mils, D):
    """A point of which so many mils, whole or not, are the exact need; s and E make it h times D
    over 3,600,000."""
    h = mils * Fraction(3_600_000, D)
    assert h.denominator == 1
    return Point(h=h.numerator, D=D, s=10_000, E=65)


WHOLE_MILS = (      # one to four past a step
    *(1, 2, 3, 4, 6, 7, 8, 9), *range(181, 185), *range(246, 250), *range(1_746, 1_750),
)


def whole_mils():
    """The needs, and points that are short of them by four mils to one."""
    for mils in WHOLE_MILS:
        yield mils + 5 - mils % 5, of_mils(mils, 12_000 if mils < 250 else 240_000)


def half_steps():
    """The same with 2.5, 12.5 and 187.5 mils, and with 1 less and 1 more of h."""
    for twice, need in ((5, 5), (25, 15), (375, 190)):
        point = of_mils(Fraction(twice, 2), 12_000)
        for near_h in (point.h - 1, point.h, point.h + 1):
            yield need, point._replace(h=near_h)


# --- Readings -----------------------------------------------------------------


def up_to(step):
    return lambda mils: step * ceil(Fraction(mils) / step)


def down_to(step):
    return lambda mils: step * floor(Fraction(mils) / step)


def nearest(step):
    """Half of it goes up."""
    return lambda mils: step * floor(Fraction(mils) / step + Fraction(1, 2))


def in_turn(*roundings):
    def rounded(mils):
        for rounding in roundings:
            mils = rounding(mils)
        return mils
    return rounded


UP, DOWN, NEAREST = up_to(5), down_to(5), nearest(5)
MIL_UP, MIL_DOWN, MIL_NEAREST = up_to(1), down_to(1), nearest(1)


class Reading(NamedTuple):
    """Of S-7: the need of an exact one, and the required plate of the exact need, that need, c and
    the floor."""
    need: Callable = UP
    plate: Callable = lambda _exact, need, c, house: max(need + c, house)

    def course(self, exact, c, D):
        """Need and required plate."""
        need = self.need(exact)
        return need, self.plate(exact, need, c, house_floor(D))


RIGHT = Reading()
NEEDS_ASTRAY = {
    "to the nearest five": NEAREST,
    "up to a mil, then to the nearest five": in_turn(MIL_UP, NEAREST),
    "down to five": DOWN,
    "up to a mil, then down to five": in_turn(MIL_UP, DOWN),
    "up to a mil": MIL_UP,
    "down to a mil, then up to five": in_turn(MIL_DOWN, UP),
    "to the nearest mil, then up to five": in_turn(MIL_NEAREST, UP),
    "up to two, then up to five": in_turn(up_to(2), UP),
    "up to three, then up to five": in_turn(up_to(3), UP),
    "up to four, then up to five": in_turn(up_to(4), UP),
    "up to four": up_to(4),
    "up to six": up_to(6),
    "up to ten": up_to(10),
    "always a step more": lambda mils: DOWN(mils) + 5,
    "always a mil more, then up to five": lambda mils: UP(MIL_DOWN(mils) + 1),
}
PLATES_ASTRAY = {
    "allowance added first": lambda exact, _need, c, house: max(UP(exact + c), house),
    "no step in it": lambda exact, _need, c, house: max(MIL_UP(exact) + c, house),
    "rounded again with the allowance": lambda _exact, need, c, house: max(UP(need + c), house),
    "allowance up to five": lambda _exact, need, c, house: max(need + UP(c), house),
    "floor up to five": lambda _exact, need, c, house: max(need + c, UP(house)),
    "floor down to five": lambda _exact, need, c, house: max(need + c, DOWN(house)),
    "required up to five": lambda _exact, need, c, house: UP(max(need + c, house)),
    "required down to five": lambda _exact, need, c, house: DOWN(max(need + c, house)),
    "required to the nearest five": lambda _exact, need, c, house: NEAREST(max(need + c, house)),
}
ASTRAY = {**{name: Reading(need=need) for name, need in NEEDS_ASTRAY.items()},
          **{name: Reading(plate=plate) for name, plate in PLATES_ASTRAY.items()}}


# --- Self test ----------------------------------------------------------------


def is_exact_need(step, most_h):
    """With an h up to this. Of needs above 6,530 E is 50, and s below 10,200."""
    for s in range(10_000, 10_200):
        h_times_D, rest = divmod(step * 72 * s * 50, 13)
        least_D = -(-h_times_D // most_h)
        if rest == 0 and any(h_times_D % D == 0 for D in range(least_D, 240_001)):
            return True
    return False


def check_points():
    for step, (below, at, above) in STEPS.items():
        for point, off in ((below, -1), (at, 0), (above, 1)):
            part = 72 * Point(*point).s * Point(*point).E
            assert exact_hoop_need(*point) == step + Fraction(off, part), point
    for needs in (whole_mils(), half_steps(), LARGEST_BY_BOTH, LARGEST_BY_D100,
                  *map(beside_step, STEPS)):
        for need, point in needs:
            assert need - 5 < exact_hoop_need(*point) <= need, (need, point)
    assert {exact % 5 for exact in WHOLE_MILS} == {1, 2, 3, 4}
    assert [exact_hoop_need(*point) for _need, point in LARGEST_BY_D100[2:]] == [6_640, 6_656]
    assert [exact_hoop_need(*point) for _need, point in LARGEST_BY_BOTH[2:]] == [6_540, 6_552]
    for most_h, largest in ((75_600, 6_540), (76_800, 6_640)):
        assert max(step for step in range(6_535, 6_660, 5) if is_exact_need(step, most_h)) \
            == largest


def check_readings():
    """The documents' own figures, and where some of those that go astray part from them."""
    for exact, need in ((Fraction("58.73"), 60), (Fraction("48.8"), 50), (32, 35), (15, 15),
                        (0, 0), (Fraction("200.044"), 205)):
        assert RIGHT.course(exact, 0, 240_000) == (need, 313)
    for name, needs in (("to the nearest five", [0, 0, 5, 5, 200]),
                        ("down to five", [0, 0, 0, 5, 200]), ("up to a mil", [0, 1, 3, 5, 201]),
                        ("up to ten", [0, 10, 10, 10, 210]),
                        ("always a step more", [5, 5, 5, 10, 205]),
                        ("down to a mil, then up to five", [0, 0, 5, 5, 200]),
                        ("up to four, then up to five", [0, 5, 5, 10, 205])):
        exact_ones = (0, Fraction("0.5"), Fraction("2.5"), 5, Fraction("200.044"))
        assert [ASTRAY[name].course(exact, 0, 12_000)[0] for exact in exact_ones] == needs, name
    for name, required in (("allowance added first", 190), ("no step in it", 188),
                           ("rounded again with the allowance", 195), ("allowance up to five", 195),
                           ("required down to five", 190)):
        assert ASTRAY[name].course(Fraction("185.5"), 2, 60_000) == (190, required), name
    assert RIGHT.course(Fraction("185.5"), 2, 60_000) == (190, 192)


def self_test():
    check_points()
    check_readings()
