"""The lines that test_leaves reads, `LEAF A B C D`, and writes. Those of request S-8, some of which
have five arguments, are leaf_liquor.py's; those of S-9, which have nine or one, leaf_slender.py's.

A leaf's points are the documents' figures, the two ends of each range, combined, its edges, and
random points with a fixed seed; the leaves of S-6 (7, 8 and 53 to 55) take no such ends.
"""

from fractions import Fraction
from functools import cache
from itertools import product
from math import floor, prod
from random import Random

from model import compression
from model.compression import (
    ARGUMENT_PARTS, BRANCHES, CHART, COEFFICIENT_PARTS, F_L, MOST_ELASTIC, MOST_INELASTIC,
)
from model.refusals import METHODS, REFUSALS
from model.tank_rules import exact_hoop_need, house_floor
from vectors.leaf_edges_compression import (
    ELASTIC_EQUALITY, INELASTIC_EQUALITIES, TOLD_APART, WHOLE_ALLOWED,
)
from vectors.leaf_edges_numbers import long_all_ones, long_edges
from vectors.leaf_edges_tank import allowance_edges, step_points
from vectors.leaf_points import COEFFICIENT, HALF, NO_METHODS, PARTS, even_draw, small_draw
from vectors.leaf_table import LEAVES
from vectors.leaf_texts import decimal, halves
from vectors.need_points import NEEDS_ASTRAY, PLATES_ASTRAY, RIGHT, UP
from vectors.version_1 import FIELD_RANGES

ARGUMENTS = 4          # on a line; the unused ones are 0
USUAL_POINTS = 60      # more of them, where only a part of the domain is of interest
WHOLE_DOMAIN = 440     # a domain up to this size is taken whole; leaf 12's has just this many

# --- Points and lines ---------------------------------------------------------


def inside(leaf, point):
    ranges = zip(point, leaf.domain, strict=True)
    return all(least <= figure <= greatest for figure, (least, greatest) in ranges) \
        and leaf.allowed(point)


def add_random_points(points, leaf, rng, domain, count):
    """As many new points, drawn evenly and near the least in turn."""
    goal = len(points) + count
    draws = (even_draw, small_draw)
    while len(points) < goal:
        draw = draws[len(points) % 2]
        point = tuple(draw(rng, limits) for limits in domain)
        if leaf.allowed(point):
            points.setdefault(point)


@cache
def leaf_points(number):
    """The leaf's points without repeats, in a fixed order."""
    leaf = LEAVES[number]
    rng = Random(number)
    points = dict.fromkeys(leaf.figures)    # a dict keeps its order
    assert all(inside(leaf, point) for point in points)
    points.update(dict.fromkeys(filter(leaf.allowed, product(*map(leaf.ends, leaf.domain)))))
    points.update(dict.fromkeys(point for point in leaf.edges(rng) if inside(leaf, point)))
    if prod(greatest - least + 1 for least, greatest in leaf.domain) <= WHOLE_DOMAIN:
        whole = product(*(range(least, greatest + 1) for least, greatest in leaf.domain))
        points.update(dict.fromkeys(whole))
    else:
        add_random_points(points, leaf, rng, leaf.domain, leaf.random)
        if leaf.usual:
            add_random_points(points, leaf, rng, leaf.usual, USUAL_POINTS)
    assert all(inside(leaf, point) for point in points)
    return list(points)


def leaf_line(number, point):
    unused = (0,) * (ARGUMENTS - len(point))
    return " ".join(map(str, (number, *point, *unused)))


def all_lines():
    return [leaf_line(number, point) for number in LEAVES for point in leaf_points(number)]


def answer(line):
    number, *arguments = map(int, line.split(" "))
    leaf = LEAVES[number]
    return leaf.answer(*arguments[:len(leaf.domain)])


# --- Self test: leaves 12, 21, 23, 50, 51 and 52, and those of S-6 ------------


def check_refusals():
    """Every refusal of the list before those of S-9 with every field: the domain is small enough to
    be taken whole."""
    places, fields = (range(least, greatest + 1) for least, greatest in LEAVES[12].domain)
    assert tuple(REFUSALS)[places[-1]] == 43
    assert len(fields) == 1 + len(FIELD_RANGES)
    assert sorted(leaf_points(12)) == list(product(places, fields))
    assert answer("12 20 7 0 0") == "refused 42 0" and answer("12 21 7 0 0") == "refused 43 0"


def edges_asked(number):
    """The leaf's edges, as far as they are in its domain."""
    edges = {*LEAVES[number].edges(Random(number))}
    return [point for point in leaf_points(number) if point in edges]


def check_steps():
    """Of leaves 21 and 23: the answers that S-7 has. Each reading that goes astray is told apart by
    many lines that are not drawn at random."""
    for need, point in step_points():
        assert answer(leaf_line(21, point)) == decimal(need), (need, point)
    exact_ones = [exact_hoop_need(*point) for point in edges_asked(21)]
    for name, need in NEEDS_ASTRAY.items():
        assert sum(need(exact) != UP(exact) for exact in exact_ones) >= 50, name
    of_steps = {*allowance_edges()}
    courses = [(need, need, c, house_floor(diameter))
               for need, c, diameter in of_steps & {*edges_asked(23)}]
    for name, plate in PLATES_ASTRAY.items():
        astray = sum(plate(*course) != RIGHT.plate(*course) for course in courses)
        assert astray >= 10 or name == "no step in it", (name, astray)  # these needs are steps


def check_methods():
    """The answers spelled out; both methods are asked as often."""
    for line, text in (("50 1 1200 0 0", "1200"), ("50 2 1199 0 0", "0"), ("50 2 1200 0 0", "0"),
                       ("50 2 1201 0 0", "1"), ("50 2 28800 0 0", "27600"),
                       ("50 2 4294967295 0 0", "4294966095"), ("50 0 28800 0 0", "refused 42 0"),
                       ("50 3 0 0 0", "refused 42 0"), ("50 258 28800 0 0", "refused 42 0")):
        assert answer(line) == text, (line, text)
    asked = [method for method, _h in leaf_points(50)]
    assert min(asked.count(method) for method in METHODS) >= 70
    assert not {*NO_METHODS} & {*METHODS} and {*NO_METHODS} <= {*asked}


def check_lighter_tanks():
    """The answers spelled out, and leaf 35's wherever the weight is W. Exact pulls are whole and
    not, on both sides of 0, with weights of whole pounds and others."""
    for line, text in (("51 11000 27 0 0", "108812000"), ("51 1 1 0 0", "9996"),
                       ("51 1 500 0 0", "8000"), ("51 10000000 0 0 0", "100000000000"),
                       ("52 30000 108812000 14800 6", "-191"),
                       ("52 30000 110000000 14800 6", "-211"),
                       ("52 0 59999 1 6", "0"), ("52 0 60000 1 6", "-1"), ("52 0 60001 1 6", "-1"),
                       ("52 1 48000001 1 6", "0"), ("52 1 48000000 1 6", "0"),
                       ("52 1 47999999 1 6", "1"), ("52 1 47940000 1 6", "1"),
                       ("52 1 47939999 1 6", "2")):
        assert answer(line) == text, (line, text)
    kinds = []
    for moment, weight, circle, anchors in leaf_points(52):
        exact = Fraction(4_800 * moment, circle * anchors) - Fraction(weight, PARTS * anchors)
        in_pounds = weight % PARTS == 0
        kinds.append((exact > 0, exact.denominator == 1, in_pounds))
        if in_pounds and weight > 0:
            by_whole_weight = leaf_line(35, (moment, weight // PARTS, circle, anchors))
            assert answer(leaf_line(52, (moment, weight, circle, anchors))) \
                == answer(by_whole_weight)
    assert min(map(kinds.count, product((False, True), repeat=3))) >= 10


def check_long_divisions():
    """The answers spelled out. Rounding up is one more unless the quotient is whole; there are
    such, with a high half and without, and many that carry between the halves."""
    for line, text in (("7 18446744073709551615 4294967295 1 1", "18446744069414584319 1"),
                       ("7 8589934591 1 2 1", "0 4294967295"), ("8 8589934591 1 2 1", "1 0"),
                       ("8 1 1 4294967295 4294967295", "0 1"),
                       ("7 1 1 4294967295 4294967295", "0 0"),
                       ("8 0 4294967295 4294967295 4294967295", "0 0")):
        assert answer(line) == text, (line, text)
    points = [*long_edges(None), *leaf_points(7), *leaf_points(8)]
    assert {*long_edges(None)} <= {*leaf_points(7)} & {*leaf_points(8)}
    kinds = []
    for a, b, c, d in points:
        quotient, rest = divmod(a * b, c * d)
        down, up = (answer(leaf_line(number, (a, b, c, d))) for number in (7, 8))
        assert down == halves(quotient) and up == halves(quotient + (rest > 0))
        kinds.append((quotient >= HALF, rest == 0))
    assert min(map(kinds.count, product((False, True), repeat=2))) >= 4
    for a, b, c, d in long_all_ones():
        quotient, rest = divmod(a * b, c * d)
        assert quotient % HALF == HALF - 1 and rest > 0
    assert all(30 <= len(leaf_points(number)) <= 40 for number in (7, 8))


def check_entries():
    """All of the chart, and the last entry past it."""
    asked = [i for i, in leaf_points(53)]
    assert {*range(641), 641, 1_000, 2**32, 2**32 + 1, 2**64 - 1} == {*asked}
    for i in asked:
        told = CHART[i] if i <= 640 else 7_153
        assert answer(leaf_line(53, (i,))) == decimal(told)


def check_arguments():
    """Whole ones with those just below, around the last entry's and far above; all are as whole
    numbers give them."""
    exact = []
    for level, diameter, t in leaf_points(54):
        argument = ARGUMENT_PARTS * compression.exact_argument(level, diameter, t)
        assert answer(leaf_line(54, (level, diameter, t))) \
            == decimal(compression.whole_argument(level, diameter, t)) == decimal(floor(argument))
        exact.append(argument)
    wholes = [argument for argument in exact if argument.denominator == 1]
    assert {10, 24, 125, 320, 433, 640, 866} <= {*wholes}
    for whole in wholes:
        assert any(0 < whole - argument < 1 for argument in exact)
    for near in (639, 640, 641):
        assert sum(floor(argument) == near for argument in exact) >= 3, near
    assert min(exact) < 1 and max(exact) > 2**33
    assert {1, 2_000} <= {t for *_rest, t in leaf_points(54)}


def check_allowed():
    """Every branch with every e that matters; whole psi, and just above and below them; as whole
    numbers give it. Of the elastic branch's last point the other branch would tell another
    figure."""
    kinds = []
    for t, diameter, e in leaf_points(55):
        exact = compression.exact_allowed(t, diameter, e)
        assert answer(leaf_line(55, (t, diameter, e))) \
            == decimal(compression.whole_allowed(t, diameter, e)) == decimal(floor(exact))
        off = exact - round(exact)
        near = "whole" if off == 0 else "off" if abs(off) > Fraction(1, 100_000) \
            else "above" if off > 0 else "below"
        kinds.append((compression.branch(t, diameter), near))
        kinds.append((compression.branch(t, diameter), min(e, 2) if e < COEFFICIENT[1] else "most"))
    for kind in product(BRANCHES, ("whole", "above", "below", 0, 1, 2, "most")):
        assert kinds.count(kind) >= 1, kind
    ratio = compression.slenderness(*ELASTIC_EQUALITY)
    assert ratio == MOST_ELASTIC
    for e in TOLD_APART:
        helped = compression.pressure_help(*ELASTIC_EQUALITY,
                                           Fraction(e, COEFFICIENT_PARTS))
        wrong = Fraction("1.333") * (F_L["inelastic"](ratio) + helped)
        assert floor(wrong) != compression.allowed(*ELASTIC_EQUALITY, e)
    assert all(compression.slenderness(*equality) == MOST_INELASTIC
               for equality in INELASTIC_EQUALITIES)
    assert all(compression.exact_allowed(*point).denominator == 1 for point in WHOLE_ALLOWED)


def self_test():
    check_refusals()
    check_steps()
    check_methods()
    check_lighter_tanks()
    check_long_divisions()
    check_entries()
    check_arguments()
    check_allowed()
