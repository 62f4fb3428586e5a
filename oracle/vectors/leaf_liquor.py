"""The leaves of request S-8, `LEAF A B C D` with gravity last, or `LEAF A B C D E`; and more lines
of those before them: field 20, and what is larger by gravity.
"""

from fractions import Fraction
from functools import cache
from itertools import product
from random import Random

from model import compression
from model.arithmetic import greatest_root
from model.demand_3_liquor import GRAVITY
from model.fields import FIELD_RANGES, GRAVITY_FIELD
from model.tank_rules import (
    exact_hoop_need, hoop_need, resistance, times_water, water_on_rim, water_on_rim_cap,
    water_on_rim_root, yield_in_root,
)
from vectors import leaf_lines
from vectors.leaf_edges_compression import MORE_WHOLE_ARGUMENTS, whole_arguments
from vectors.leaf_lines import add_random_points, inside, leaf_line
from vectors.leaf_points import (
    C, D, E, FY, H, HEIGHT, MS, NET, PLACES, PLATE, S, TB, WT, beside, even_draw, neighbours,
    no_ends, round_draw, whole_at,
)
from vectors.leaf_table import LEAVES as FIRST_LEAVES, Leaf
from vectors.leaf_texts import decimal
from vectors.liquor_points import LARGEST, beside_steps, whole_ones
from vectors.scripts import end_figures

G = FIELD_RANGES[GRAVITY_FIELD]
SOME_G = (1_000, 1_001, GRAVITY, 1_299, 1_300)
NEED = (0, 8_655)           # 6,656 x 1.3 in steps; it was 6,660
REQUIRED = (0, 8_905)       # it was 6,910
WL = (0, 2_129_920)         # 1,638,400 x 1.3
T = (0, 13_584_362_000)     # 400 x (31,830,985 + 2,129,920); it was 13,387,754,000
WERE_MOST = {"need": 6_660, "required": 6_910, "wL": 1_638_400, "T": 13_387_754_000}

# --- Edges --------------------------------------------------------------------


def yield_edges(rng):
    """Whole, next to it on either side, and with next to a whole one behind it."""
    for gravity in (1_001, GRAVITY, 1_250, 1_299, 1_300):
        for Fy in (36_000, even_draw(rng, FY) // 1_000 * 1_000, even_draw(rng, FY)):
            for near in beside(Fy):
                yield near, gravity
        for rest in (1, 999):
            if gravity % 2 and gravity % 5:
                Fy = 30_000 + rest * pow(gravity, -1, 1_000) % 1_000
                assert Fy * gravity % 1_000 == rest
                yield Fy, gravity


def need_edges(_rng):
    yield from ((*point, gravity) for gravity, _need, point in beside_steps())
    for place, (gravity, _need, point) in enumerate(whole_ones()):
        if place % 6 == 0:
            yield *point, gravity
    for _need, point in LARGEST:
        yield from ((*point, gravity) for gravity in SOME_G)
    yield from product((1,), (12_000, 240_000), (10_000, 40_000), (50, 100), G)


def root_edges(rng):
    """6,241 tb tb yield H is 12,000,000 n n, with the least Fy that has this yield, the last one
    before it, and others."""
    for yield_stress, gravity in product((37_500, 40_000, 48_000, 50_000), (1_001, GRAVITY, 1_299)):
        Fy = -(-1_000 * yield_stress // gravity)
        if not FY[0] <= Fy <= FY[1]:
            continue
        square = 12_000_000 // yield_stress
        level = square * even_draw(rng, (3, greatest_root(square, H[1])))**2
        tb = even_draw(rng, (1, TB[1]))
        if level <= H[1] and yield_in_root(Fy, gravity) == yield_stress:
            yield from ((tb, near, level, gravity) for near in beside(Fy))
            yield from ((tb, Fy, near, gravity) for near in (level - 1, level + 1))
    for Fy in (30_007, 30_012, 43_598, 49_854):     # a root that the unrounded yield would change
        yield from ((tb, Fy, 28_800, GRAVITY) for tb in (20, 250, 500))


def cap_edges(rng):
    """Whole ones with those beside."""
    for gravity in SOME_G * 2:
        diameter = round_draw(rng, D, 150)
        level = whole_at(rng, diameter * gravity, 11_250_000, H)
        if level is not None:
            yield from neighbours(level, diameter, gravity)


def rim_edges(rng):
    """The cap and the root the same, and the diameters beside; by the cap, by the root."""
    for gravity in SOME_G * 2:
        level, tb, Fy = even_draw(rng, (H[0], 11_249)), even_draw(rng, TB), even_draw(rng, FY)
        root = water_on_rim_root(tb, Fy, level, gravity)
        diameter = -(-root * 11_250_000 // (level * gravity))
        for near in (*beside(diameter), diameter + 10):
            yield tb, Fy, level, near, gravity
    for gravity in SOME_G:
        yield 250, 36_000, 28_800, 14_400, gravity
        yield 20, 31_663, 12_000, 12_000, gravity


def argument_edges(rng):
    """Whole ones with 1,000 and, where that is whole too, with more; around 640; far past it."""
    whole = {**whole_arguments(), **MORE_WHOLE_ARGUMENTS}
    for i in (10, 320, 640, 866):
        level, diameter, t = whole[i]
        for gravity in (1_000, 1_001, 1_300):
            yield level, diameter, t, gravity
        yield level - 1, diameter, t, 1_300
    for i in (1, 639, 640, 641) * 2:
        gravity, level = rng.choice(SOME_G), 0
        while not H[0] < level <= H[1]:
            diameter, t = even_draw(rng, D), even_draw(rng, NET)
            one = compression.ARGUMENT_PARTS * compression.exact_argument(1, diameter, t, gravity)
            level = -(-i // one)
        yield level - 1, diameter, t, gravity
        yield level, diameter, t, gravity
    yield from product((1_200, 76_800), (12_000, 240_000), (1, 2_000), G)


def few_ends(limits):
    return limits


LEAVES = {
    56: Leaf((FY, G), lambda Fy, gravity: decimal(yield_in_root(Fy, gravity)),
             ((36_000, 1_300), (36_000, 1_000), (31_663, GRAVITY)), yield_edges, random=14),
    57: Leaf((HEIGHT, D, S, E, G), lambda *point: decimal(hoop_need(*point)),
             ((28_800, 14_400, 15_000, 85, 1_300), (28_800, 14_400, 15_000, 85, 1_000)),
             need_edges, random=24, ends=no_ends),
    58: Leaf((TB, FY, H, G), lambda *point: decimal(water_on_rim_root(*point)),
             ((250, 36_000, 28_800, 1_300), (250, 36_000, 28_800, 1_000)), root_edges, random=10,
             ends=few_ends),
    59: Leaf((H, D, G), lambda *point: decimal(water_on_rim_cap(*point)),
             ((28_800, 14_400, 1_300), (28_800, 14_400, 1_000)), cap_edges, random=14,
             ends=few_ends),
    60: Leaf((TB, FY, H, D, G), lambda *point: decimal(water_on_rim(*point)),
             ((250, 36_000, 28_800, 14_400, 1_300),), rim_edges, random=14, ends=few_ends),
    61: Leaf((H, D, NET, G), lambda *point: decimal(compression.argument(*point)),
             ((28_800, 14_400, 250, 1_300), (28_800, 14_400, 250, 1_000)), argument_edges,
             random=14, ends=no_ends),
}


# --- More lines of earlier leaves ---------------------------------------------


def field_20_lines():
    """Of leaves 10 and 12. 0 and the greatest that a u32 holds were asked before."""
    for figure in end_figures(GRAVITY_FIELD)[1:-1]:
        yield leaf_line(10, (GRAVITY_FIELD, figure))
    for place in range(PLACES[1] + 1):
        yield leaf_line(12, (place, GRAVITY_FIELD))


def past(name, greatest):
    """One past what was the greatest, and the new greatest with one less."""
    return WERE_MOST[name] + 1, greatest - 1, greatest


def larger_plate_lines():
    for need, c, diameter in product(past("need", NEED[1]), C, (12_000, 144_001, 240_000)):
        yield leaf_line(23, (need, c, diameter))
    for required, t in product(past("required", REQUIRED[1]), PLATE):
        yield leaf_line(24, (required, t))


def larger_resistance_lines():
    for diameter, wt, wL in product(D, WT, past("wL", WL[1])):
        yield leaf_line(32, (diameter, wt, wL))
    for number in (33, 34):
        for moment, resisting in product(MS, past("T", T[1])):
            yield leaf_line(number, (moment, resisting))
        resisting = resistance(12_000, 0, WL[1])        # 785 T and 1,540 T are beside Ms
        for parts in (785, 1_540):
            for moment in beside(parts * resisting // 1_000):
                yield leaf_line(number, (moment, resisting))


# --- All of them --------------------------------------------------------------


@cache
def points_of(number):
    """As leaf_lines.py's of the earlier ones."""
    leaf, rng = LEAVES[number], Random(number)
    points = dict.fromkeys(leaf.figures)
    points.update(dict.fromkeys(product(*map(leaf.ends, leaf.domain))))
    points.update(dict.fromkeys(point for point in leaf.edges(rng) if inside(leaf, point)))
    add_random_points(points, leaf, rng, leaf.domain, leaf.random)
    assert all(inside(leaf, point) for point in points)
    return list(points)


@cache
def group_lines():
    """Name to lines."""
    return {
        **{f"leaf_{number}": [leaf_line(number, point) for point in points_of(number)]
           for number in LEAVES},
        **{lines.__name__: list(lines())
           for lines in (field_20_lines, larger_plate_lines, larger_resistance_lines)},
    }


def answer(line):
    number, *arguments = map(int, line.split(" "))
    leaf = LEAVES.get(number)
    return leaf_lines.answer(line) if leaf is None else leaf.answer(*arguments[:len(leaf.domain)])


# --- Self test ----------------------------------------------------------------


def check_water():
    """With gravity 1,000 a leaf answers as the one for water; some of each are asked so."""
    for number, of_water in ((57, 21), (58, 29), (59, 30), (60, 31), (61, 54)):
        points = [point for *point, gravity in points_of(number) if gravity == 1_000]
        assert len(points) >= 5, number
        for point in points:
            assert answer(leaf_line(number, (*point, 1_000))) \
                == answer(leaf_line(of_water, point)), (number, point)
    assert all(answer(leaf_line(56, (Fy, 1_000))) == str(Fy) for Fy in (30_000, 41_321, 50_000))


def check_spelled_out():
    """The answers, and the greatest ones."""
    for line, text in (("56 36000 1300 0 0", "46800"), ("56 31663 1137 0 0", "36000"),
                       ("57 28800 14400 15000 85 1300", "80"),
                       ("57 76800 240000 10000 50 1300", "8655"),
                       ("58 250 36000 28800 1300", "209312"), ("59 28800 14400 1300 0", "47923"),
                       ("59 76800 240000 1300 0", "2129920"),
                       ("60 250 36000 28800 14400 1300", "47923"),
                       ("60 20 31663 12000 12000 1137", "9480"), ("61 28800 14400 250 1300", "386"),
                       ("10 20 999 0 0", "no"), ("10 20 1000 0 0", "yes"),
                       ("10 20 1300 0 0", "yes"), ("10 20 1301 0 0", "no"),
                       ("12 5 20 0 0", "refused 16 20"), ("23 8655 250 240000 0", "8905"),
                       ("32 240000 31830985 2129920 0", "13584362000")):
        assert answer(line) == text, (line, answer(line))
    assert T[1] == resistance(D[1], WT[1], WL[1]) and WL[1] == water_on_rim_cap(H[1], D[1], G[1])
    assert WERE_MOST["wL"] == water_on_rim_cap(H[1], D[1])
    assert all(answer(line).startswith("refused 16 20" if line.split()[1] == "5" else "refused")
               for line in group_lines()["field_20_lines"] if line.startswith("12 "))


def astray():
    """Of leaves 57 and 59, and of 58 by the yield: a wrong rounding's answer."""
    for point in points_of(57):
        exact, gravity = exact_hoop_need(*point[:4]), times_water(point[4])
        yield "need", hoop_need(*point), 5 * -(-5 * -(-exact // 5) * gravity // 5)
        yield "need down", hoop_need(*point), 5 * (exact * gravity // 5)
        yield "no gravity", hoop_need(*point), hoop_need(*point[:4])
    for level, diameter, gravity in points_of(59):
        exact = Fraction(level * diameter, 11_250)
        yield "cap", water_on_rim_cap(level, diameter, gravity), \
            exact // 1 * times_water(gravity) // 1
        yield "cap up", water_on_rim_cap(level, diameter, gravity), \
            -(-exact * times_water(gravity) // 1)
    for tb, Fy, level, gravity in points_of(58):
        for name, read in (("yield unrounded", Fy * times_water(gravity)),
                           ("yield up", -(-Fy * times_water(gravity) // 1)), ("no yield", Fy)):
            yield name, water_on_rim_root(tb, Fy, level, gravity), \
                greatest_root(12_000_000, 6_241 * tb * tb * level * read)


def check_readings():
    found = {}
    for name, right, read in astray():
        found[name] = found.get(name, 0) + (right != read)
    assert min(found.values()) >= 8, found


def check_counts():
    """One line is asked once, and not before either."""
    lines = [line for of_group in group_lines().values() for line in of_group]
    assert 500 <= len({*lines}) == len(lines) <= 700, len(lines)
    assert not {*lines} & {*leaf_lines.all_lines()}
    assert not {*LEAVES} & {*FIRST_LEAVES}
    assert max(len(line.split()) for line in lines) == 6


def self_test():
    check_water()
    check_spelled_out()
    check_readings()
    check_counts()
