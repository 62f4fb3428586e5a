"""Request S-8's needs: points whose exact need with gravity is a step of S-7's or beside one, and
sheets made heavier.

With gravity 1,137 and s 1.137 times as large, a need is what it was with water; so it is with 1,300
and 1.3. The points beside a step 5 k were looked for as those of need_points.py: of 72,000 s E
parts their exact need is off the step by the least number that 13 x gravity permits.
"""

from fractions import Fraction
from math import gcd

from model.demand_3_liquor import GRAVITY, filled_with, with_stress
from model.fields import WATER
from model.tank_rules import exact_hoop_need, hoop_need, times_water
from vectors.need_points import Point, half_steps, whole_mils

GRAVITIES = (GRAVITY, 1_300)

# A gravity and a step; points whose exact need is just below it and just above it.
BESIDE = {
    (1_137, 5): ((3_697, 25_967, 39_416, 100), (457, 211_867, 39_754, 100)),
    (1_137, 60): ((58_109, 19_093, 37_961, 100), (12_587, 91_523, 39_416, 100)),
    (1_137, 185): ((68_003, 46_927, 35_412, 100), (29_983, 115_693, 38_493, 100)),
    (1_137, 190): ((59_629, 53_531, 34_489, 100), (63_961, 49_357, 34_110, 100)),
    (1_137, 250): ((22_019, 205_417, 37_142, 100), (26_101, 183_901, 39_416, 100)),
    (1_137, 315): ((62_347, 91_409, 37_142, 100), (24_301, 223_963, 35_470, 100)),
    (1_137, 1_000): ((72_031, 191_327, 28_578, 99), (56_831, 233_549, 27_248, 100)),
    (1_137, 1_750): ((53_959, 201_143, 12_992, 98), (55_169, 222_533, 14_402, 100)),
    (1_300, 5): ((3_473, 24_463, 39_884, 100), (3_919, 21_679, 39_884, 100)),
    (1_300, 60): ((39_581, 25_783, 39_923, 100), (10_513, 97_033, 39_907, 100)),
    (1_300, 185): ((23_467, 133_169, 39_650, 100), (26_339, 119_543, 39_949, 100)),
    (1_300, 190): ((21_731, 148_141, 39_770, 100), (63_389, 50_861, 39_829, 100)),
    (1_300, 250): ((65_489, 64_591, 39_715, 100), (24_527, 172_463, 39_715, 100)),
    (1_300, 315): ((42_629, 125_887, 39_988, 100), (44_803, 119_467, 39_884, 100)),
    (1_300, 1_000): ((72_707, 219_853, 37_520, 100), (70_217, 231_581, 38_168, 100)),
    (1_300, 1_750): ((72_707, 219_853, 21_440, 100), (74_639, 222_443, 22_269, 100)),
}

# The largest of all: 6,656 x 1.3 is 8,652.8; with API 650's greatest h 6,552 x 1.3 is 8,517.6.
LARGEST = ((8_655, Point(76_800, 240_000, 10_000, 50)), (8_520, Point(75_600, 240_000, 10_000, 50)))


def beside_steps():
    """Gravity, need and point."""
    for (gravity, step), (below, above) in BESIDE.items():
        yield gravity, step, Point(*below)
        yield gravity, step + 5, Point(*above)


def stiffer(gravity, point):
    """The point with s so much larger that with gravity its exact need is the one it had."""
    s = point.s * times_water(gravity)
    assert s.denominator == 1
    return point._replace(s=s.numerator)


def whole_ones():
    """Gravity, need and point: exact ones of whole mils, at steps and one to four past them, then
    half way between two and beside that."""
    for gravity in GRAVITIES:
        for need, point in (*whole_mils(), *half_steps()):
            yield gravity, need, stiffer(gravity, point)
            if point.h % 2 == 0 and need % 2 == 0:      # a step, the next one below the need
                yield gravity, need, stiffer(gravity, point._replace(h=point.h + 1))


def heavier(sheet, gravity=GRAVITY):
    """The sheet with this gravity and the stresses with which its needs stay what they were."""
    return with_stress(times_water(gravity), filled_with(gravity, sheet))


# --- Self test ----------------------------------------------------------------


def self_test():
    for (gravity, step), points in BESIDE.items():
        for point, side in zip(points, (-1, 1), strict=True):
            _h, _D, s, E = point
            parts = 72_000 * s * E
            off = Fraction(side * gcd(13 * gravity, 5 * parts), parts)
            exact = exact_hoop_need(*point, gravity)
            assert 0 < side * (exact - step) <= abs(off), (gravity, step, point)
    for gravity, need, point in (*beside_steps(), *whole_ones(),
                                 *((1_300, *pair) for pair in LARGEST)):
        assert hoop_need(*point, gravity) == need, (gravity, need, point)
        assert exact_hoop_need(*point, WATER) * times_water(gravity) \
            == exact_hoop_need(*point, gravity)
