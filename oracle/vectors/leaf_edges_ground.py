"""Edges of the leaf of ground motion, request S-2."""

from fractions import Fraction
from itertools import cycle, pairwise, product
from math import ceil

from model import ground
from model.ground import FA, FV, SDS_DENOMINATOR
from vectors.leaf_points import AV, BYTE, CLASSES, MAPPED, U32, beside, even_draw

# --- Edges of the ground leaf -------------------------------------------------

TOO_LARGE = (MAPPED[1] + 1, 2**16, 2**31, U32[1])       # for Ss or S1
NEARLY = Fraction(1, 500)                               # of a thousandth of g


def class_edges():
    """Every byte as class, with good figures and with bad ones."""
    for site_class in range(BYTE[0], BYTE[1] + 1):
        yield site_class, 240, 93
        yield site_class, MAPPED[1] + 1, MAPPED[1] + 1
    for letter in "@ABCDEF`abcdef":     # the capital letters, the small ones and those beside
        yield ord(letter), MAPPED[1] + 1, 93
        yield ord(letter), 240, MAPPED[1] + 1


def too_large_edges():
    """Ss alone too large, S1 alone, both, neither."""
    figures = (*MAPPED, *TOO_LARGE)
    return product(CLASSES, figures, figures)


def columns_of(chart):
    """In thousandths."""
    return [int(1_000 * column) for column in chart.columns]


def between_columns(chart):
    return [(left + right) // 2 for left, right in pairwise(columns_of(chart))]


def chart_figures(chart):
    """Of Ss or S1: the columns, mid-way between them, both ends of the range."""
    return [*columns_of(chart), *between_columns(chart), *MAPPED]


def chart_edges(chart):
    """Of Ss or S1: the columns and the ends of the range with one to either side; the largest."""
    columns = [near for column in columns_of(chart) for near in beside(column)]
    return [*columns, 0, 1, *beside(MAPPED[1]), U32[1]]


def column_edges():
    """The figures of both charts as a product; the edges of each with the other's figures."""
    Ss_figures, S1_figures = chart_figures(FA), chart_figures(FV)
    for site_class in CLASSES:
        for Ss, S1 in product(Ss_figures, S1_figures):
            yield site_class, Ss, S1
        for Ss, S1 in zip(chart_edges(FA), cycle(S1_figures)):
            yield site_class, Ss, S1
        for Ss, S1 in zip(cycle(Ss_figures), chart_edges(FV)):
            yield site_class, Ss, S1


def vertical_edges(site_class):
    """Each Ss with 0.14 SDS a whole number of thousandths or nearly so, and one to either side;
    each where SDS rounded up to a thousandth first would give another Av. On the way every
    figure is taken for Ss and for S1, so that ground.whole_over has seen them all."""
    for Ss in range(MAPPED[0], MAPPED[1] + 1):
        motion = ground.ground_motion(site_class, Ss, Ss)
        assert AV[0] <= motion.Av <= AV[1]      # it may be stated as field 10
        SDS = Fraction(motion.SDS, SDS_DENOMINATOR)
        exact = ground.exact_vertical(SDS)
        if abs(exact - round(exact)) < NEARLY:
            yield from beside(Ss)
        rounded_first = Fraction(ceil(1_000 * SDS), 1_000)
        if ground.vertical_acceleration(rounded_first) != motion.Av:
            yield Ss


def up_to_columns(chart):
    """From 0 to one past the last column."""
    return 0, columns_of(chart)[-1] + 1


def sloping_figures(chart, site_class):
    """All of these for a class whose coefficient is not the same at all columns."""
    least, greatest = up_to_columns(chart)
    same = len(set(chart.rows[chr(site_class)])) == 1
    return [] if same else list(range(least, greatest + 1))


def filled_up(rng, figures, count, limits):
    """Draws after the figures, where there are fewer than the count."""
    return [*figures, *(even_draw(rng, limits) for _ in range(count - len(figures)))]


def slope_edges(rng):
    """Side by side: Ss at the edges of Av, S1 along the lines of Fv, each filled up from its
    chart's own lines."""
    for site_class in CLASSES:
        Ss_edges = sorted(set(vertical_edges(site_class)))
        rng.shuffle(Ss_edges)
        S1_edges = sloping_figures(FV, site_class)
        count = max(len(Ss_edges), len(S1_edges))
        Ss_figures = filled_up(rng, Ss_edges, count, up_to_columns(FA))
        S1_figures = filled_up(rng, S1_edges, count, up_to_columns(FV))
        for Ss, S1 in zip(Ss_figures, S1_figures, strict=True):
            yield site_class, Ss, S1


def ground_edges(rng):
    yield from class_edges()
    yield from too_large_edges()
    yield from column_edges()
    yield from slope_edges(rng)
