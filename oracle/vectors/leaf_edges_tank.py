"""Edges of the leaves of the rules: hoop, both methods, wind, self-anchored and anchored tanks."""

from fractions import Fraction
from itertools import product
from math import ceil, floor, gcd

from model.arithmetic import greatest_root
from model.refusals import METHODS
from model.tank_rules import (
    BOLT_CHART, FOOT, NEED_STEP, house_floor, net_pull, water_on_rim_cap, water_on_rim_root,
)
from vectors.leaf_points import (
    A, AV, B, D, E, EDGE_DRAWS, FY, H, HEIGHT, I, KZ, LEAST_PULL, MOMENT, MS, N, NO_METHODS, P,
    PARTS, PLATE, PULL, S, T, TB, U32, V, W, WEIGHT_PARTS, WL, WT, beside, even_draw, from_one,
    neighbours, round_draw, small_draw, whole_at,
)
from vectors.leaf_texts import sign_and_size, signed
from vectors.need_points import (
    LARGEST_BY_BOTH, LARGEST_BY_D100, LEAST_NEEDED, STEPS, beside_step, half_steps, whole_mils,
)

# --- Edges of the hoop leaves -------------------------------------------------


def head_edges(rng):
    for draw in (even_draw, small_draw):
        for _ in range(EDGE_DRAWS):
            level = draw(rng, U32)
            yield from neighbours(level, level)


def hoop_need_edges(rng):
    """Exact needs that are steps of S-7's."""
    for _ in range(2 * EDGE_DRAWS):
        diameter = round_draw(rng, D, 1_200)
        s = round_draw(rng, S, 1_000)
        efficiency = round_draw(rng, E, 5)
        h = whole_at(rng, 13 * diameter, NEED_STEP * 72 * s * efficiency, HEIGHT)
        if h is not None:
            yield from neighbours(h, diameter, s, efficiency)
    yield from (point for _need, point in step_points())


def step_points():
    """The need, and the point: at steps, next to them and between."""
    yield 0, LEAST_NEEDED._replace(h=0)
    yield 5, LEAST_NEEDED
    for step in STEPS:
        yield from beside_step(step)
    yield from (*whole_mils(), *half_steps())
    yield from (*LARGEST_BY_BOTH, *LARGEST_BY_D100)


FLOOR_BOUNDARIES = (60_000, 144_000)


def floor_edges(_rng):
    for boundary in FLOOR_BOUNDARIES:
        for diameter in range(boundary - 5, boundary + 6):
            yield (diameter,)
    for end in D:
        for diameter in beside(end):
            yield (diameter,)


def required_edges(rng):
    """need plus c at the floor, and the floor's own boundaries."""
    for diameter in (*D, *(near for boundary in FLOOR_BOUNDARIES for near in beside(boundary))):
        for _ in range(6):
            c = even_draw(rng, (0, 188))
            for need in beside(house_floor(diameter) - c):
                yield need, c, diameter
    yield from allowance_edges()


def allowance_edges():
    """Needs in S-7's steps, none and the largest among them, with allowances that bring them next
    to the floor and past it, at steps and between."""
    for diameter, needs in ((60_000, (0, 60, 185, 190)), (144_000, (0, 125, 245, 250)),
                            (144_001, (65, 250, 310, 315))):
        house = house_floor(diameter)
        for need, past in product(needs, (-2, -1, 0, 1, 3)):
            yield need, house + past - need, diameter
    for need, c in product((6_555, 6_660), (0, 1, 248, 250)):
        yield need, c, 240_000


def course_verdict_edges(rng):
    for t in (*PLATE, 188, 250, 313, *(even_draw(rng, PLATE) for _ in range(EDGE_DRAWS))):
        yield from neighbours(t, t)


# --- Edges of the method leaf -------------------------------------------------


def head_boundaries():
    """Where h is a foot or none, and where it or a foot more or less of it wraps a number."""
    for boundary in (0, FOOT, 2 * FOOT, HEIGHT[1], 2**8, 2**16, 2**31, 2**31 + FOOT,
                     2**32 - FOOT, U32[1]):
        yield from beside(boundary)
    yield FOOT - 2
    yield FOOT + 2


def method_edges(rng):
    drawn = [even_draw(rng, HEIGHT) for _ in range(EDGE_DRAWS)]
    for h in (*head_boundaries(), *drawn):
        for method in METHODS:
            yield method, h
    for method in NO_METHODS:
        for h in (0, 28_800):
            yield method, h


# --- Edges of the wind leaves -------------------------------------------------


def pressure_edges(rng):
    # 6 Kz I V V / 390,625 is 1,800 exactly
    yield from neighbours(75, 100, 125)
    yield from neighbours(60, 125, 125)
    for _ in range(EDGE_DRAWS):     # whole quotients
        speed = round_draw(rng, V, 25)
        importance = round_draw(rng, I, 5)
        exposure = whole_at(rng, 6 * importance * speed * speed, 390_625, KZ)
        if exposure is not None:
            yield from neighbours(exposure, importance, speed)
    for _ in range(EDGE_DRAWS):     # the speeds on both sides of 1,800
        exposure, importance = even_draw(rng, KZ), even_draw(rng, I)
        speed = greatest_root(6 * exposure * importance, 1_800 * 390_625)
        for near in (*beside(speed), speed + 2):
            yield exposure, importance, near


def wind_moment_edges(rng):
    divisor = 345_600_000_000
    for _ in range(EDGE_DRAWS):
        diameter, height = round_draw(rng, D, 1_200), round_draw(rng, HEIGHT, 1_200)
        pressure = whole_at(rng, diameter * height * height, divisor, P)
        if pressure is not None:
            yield from neighbours(pressure, diameter, height)
    for _ in range(EDGE_DRAWS):
        pressure, height = round_draw(rng, P, 10), round_draw(rng, HEIGHT, 1_200)
        diameter = whole_at(rng, pressure * height * height, divisor, D)
        if diameter is not None:
            yield from neighbours(pressure, diameter, height)


def standard_site_edges(_rng):
    for speed in range(0, 201):
        yield (speed,)


# --- Edges of the self-anchored leaves ----------------------------------------


def shell_weight_edges(rng):
    for _ in range(2 * EDGE_DRAWS):
        acceleration, diameter = even_draw(rng, AV), round_draw(rng, D, 1_200)
        factor = 2_712_000 * (10_000 - 4 * acceleration)
        weight = whole_at(rng, factor, 710_000 * diameter, W)
        if weight is not None:
            yield from neighbours(weight, acceleration, diameter)


def exact_root_points(rng):
    """tb, Fy and H with 6,241 tb tb Fy H = 12,000,000 n n: 6,241 is 79 times 79, and
    Fy H is taken as 12,000,000 j j."""
    for _ in range(EDGE_DRAWS):
        yield_stress = rng.choice((30_000, 37_500, 40_000, 48_000, 50_000))
        square = 12_000_000 // yield_stress
        j = even_draw(rng, (3, greatest_root(square, H[1])))
        level = square * j * j
        tb = even_draw(rng, from_one(TB))
        assert water_on_rim_root(tb, yield_stress, level) == 79 * tb * j
        yield tb, yield_stress, level


def water_root_edges(rng):
    for point in exact_root_points(rng):
        yield from neighbours(*point)


def water_cap_edges(rng):
    for _ in range(2 * EDGE_DRAWS):
        diameter = round_draw(rng, D, 50)
        level = whole_at(rng, diameter, 11_250, H)
        if level is not None:
            yield from neighbours(level, diameter)


def water_edges(rng):
    for point in exact_root_points(rng):
        yield *point, even_draw(rng, D)
    for _ in range(2 * EDGE_DRAWS):     # the diameters where root and cap are the same
        level = even_draw(rng, (H[0], 11_249))
        tb, yield_stress = even_draw(rng, TB), even_draw(rng, FY)
        root = water_on_rim_root(tb, yield_stress, level)
        diameter = ceil(Fraction(root * 11_250, level))
        assert water_on_rim_cap(level, diameter) == root
        for near in (diameter - 5, *beside(diameter), diameter + 5, diameter + 10):
            yield tb, yield_stress, level, near


def resistance_edges(rng):
    for unit in (12_000, 1_200, 100):
        for _ in range(EDGE_DRAWS):
            diameter, water = round_draw(rng, D, unit), even_draw(rng, WL)
            both = whole_at(rng, diameter * diameter, 144_000_000, (water, water + WT[1]))
            if both is not None:
                yield from neighbours(diameter, both - water, water)


LIFT_BOUNDARIES = (785, 1_540)  # of 1,000 Ms over T


def lift_edges(rng):
    for boundary in LIFT_BOUNDARIES:
        equal = Fraction(boundary, 1_000)       # Ms over T at equality
        most = min(MS[1] // equal.numerator, T[1] // equal.denominator)
        for draw in (even_draw, small_draw):
            for _ in range(EDGE_DRAWS // 2):
                j = draw(rng, (1, most))
                yield from neighbours(equal.numerator * j, equal.denominator * j)
        for _ in range(EDGE_DRAWS):             # between two whole moments
            resisting = small_draw(rng, (1, T[1] // 100))
            moment = floor(equal * resisting)
            yield moment, resisting
            yield moment + 1, resisting


def self_wind_edges(rng):
    for _ in range(EDGE_DRAWS):
        diameter = round_draw(rng, D, 100)
        weight = whole_at(rng, diameter, 3_600, W)
        if weight is not None:
            yield from neighbours(weight * diameter // 3_600, weight, diameter)
    for _ in range(EDGE_DRAWS):
        diameter, weight = even_draw(rng, D), small_draw(rng, W)
        for moment in beside(floor(Fraction(weight * diameter, 3_600))):
            yield moment, weight, diameter


# --- Edges of the anchored leaves ---------------------------------------------


def whole_pulls(rng, circles, parts, weights):
    """Where 4,800 moment / B is whole in such parts of a pound, a weight of that less N q makes
    the exact pull the whole q."""
    for circle in circles:
        anchors = even_draw(rng, N)
        by_one = parts * anchors
        balanced = min(MOMENT[1], weights[1] * circle // (4_800 * parts))   # can be held down
        for most in (MOMENT[1], balanced):
            moment = whole_at(rng, 4_800 * parts, circle, (0, most))
            if moment is None:
                continue
            up = 4_800 * parts * moment // circle
            least, greatest = -((weights[1] - up) // by_one), (up - weights[0]) // by_one
            nearest_nought = max(least, min(0, greatest))
            for pull in (nearest_nought, even_draw(rng, (least, greatest))):
                weight = up - by_one * pull
                assert net_pull(moment, Fraction(weight, parts), circle, anchors) == pull
                yield moment, weight, circle, anchors


def net_pull_edges(rng):
    circles = (small_draw(rng, B) for _ in range(EDGE_DRAWS))
    for point in whole_pulls(rng, circles, 1, W):
        yield from neighbours(*point)


def weight_left_edges(_rng):
    """Around where a whole number of pounds is left, and where the answer passes 31 and 32 bits."""
    for acceleration in (0, 1, 27, 250, 500):
        whole_weight = 2_500 // gcd(2_500, acceleration)
        for weight in (*beside(whole_weight), *beside(4_000 * whole_weight)):
            yield weight, acceleration
        for limit in (2**31, 2**32):
            weight = limit // (PARTS - 4 * acceleration)
            yield weight, acceleration
            yield weight + 1, acceleration


def lighter_pull_edges(rng):
    """A whole pull with the next ones to either side, and the least part of a pound off each, or a
    foot-pound. With a circle of so many times 12,500 most of the weights are no whole pounds."""
    circles = [*(round_draw(rng, B, 12_500) for _ in range(2)),
               *(small_draw(rng, B) for _ in range(2))]
    for moment, weight, circle, anchors in whole_pulls(rng, circles, PARTS, WEIGHT_PARTS):
        for pull in (-1, 0, 1):
            for near in beside(weight + PARTS * anchors * pull):
                yield moment, near, circle, anchors
        for near in beside(moment):
            yield near, weight, circle, anchors


def larger_pull_edges(rng):
    few = (LEAST_PULL, LEAST_PULL + 1, -211, -1, 0, 1, 2_133, PULL[1] - 1, PULL[1])
    for one, other in product(few, few):
        yield *sign_and_size(one), *sign_and_size(other)
    for minus_nought in ((1, 0, 1, 0), (1, 0, 0, 0), (0, 0, 1, 0), (1, 0, 1, 1), (1, 1, 1, 0)):
        yield minus_nought
    for limits in ((LEAST_PULL, -1), (LEAST_PULL, 1_666_666), (0, PULL[1])):
        for _ in range(EDGE_DRAWS):
            pull = even_draw(rng, limits)
            for near in beside(pull):
                yield *sign_and_size(pull), *sign_and_size(near)
            other = even_draw(rng, limits)
            yield *sign_and_size(pull), *sign_and_size(other)
            yield *sign_and_size(other), *sign_and_size(pull)


def pulls_allowed(point):
    """A pull below 0 is never below the least."""
    return min(signed(*point[:2]), signed(*point[2:])) >= LEAST_PULL


def spacing_edges(_rng):
    # 355 B = 1,356,000 N has one point in the ranges
    yield from neighbours(271_200, 71)
    for anchors in range(N[0], N[1] + 1):
        circle = floor(Fraction(1_356_000 * anchors, 355))
        if circle < B[1]:
            yield circle, anchors
            yield circle + 1, anchors


def strength_edges(rng):
    for _ in range(EDGE_DRAWS):     # 1,000 pull = 19,950 A, so pull = 399 j and A = 20 j
        j = even_draw(rng, (1, A[1] // 20))
        yield from neighbours(399 * j, 20 * j)
    areas = [*BOLT_CHART.values(), *(even_draw(rng, A) for _ in range(EDGE_DRAWS))]
    for area in areas:
        pull = floor(Fraction(19_950 * area, 1_000))
        yield from ((near, area) for near in beside(pull))
