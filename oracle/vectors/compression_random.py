"""Compression: sheets drawn at random from fixed seeds."""

from math import floor
from random import Random

from model import compression
from model.compression import BRANCHES, MOST_ELASTIC
from model.fields import FIELD_RANGES, NUMBER_OF, Anchors, Site, Tank, field_in_range
from model.filling_in import NO_COURSE, SELF_ANCHORED, sheet_of
from model.refusals import METHODS, MOST_COURSES
from model.tank_rules import BOLT_CHART
from vectors import random_sheets
from vectors.compression_cases import most_moment
from vectors.compression_stresses import PER_MOMENT
from vectors.judge_cases import changed
from vectors.leaf_edges_compression import water_for
from vectors.leaf_points import small_draw
from vectors.random_sheets import (
    anchored_sheet, circle_and_anchors, even, little, self_anchored_sheet, wind_figures, within,
)
from vectors.records import ask
from vectors.start_sheets import widths_to
from vectors.steps_random import drawn_course, one_figure_changed, random_sheet

# --- Groups: at random, from fixed seeds --------------------------------------


def bottom_of(rng, branch):
    """D and what is left of the bottom course."""
    while True:
        D = rng.choice((rng.randint(12_000, 32_000), rng.randint(12_000, 120_000),
                        rng.randint(12_000, 240_000)))
        edge = rng.choice((floor(5 * D * MOST_ELASTIC), D // 16))
        t = rng.choice((rng.randint(1, 2_000), rng.randint(1, 400), edge, edge + 1))
        if 1 <= t <= 2_000 and compression.branch(t, D) == branch:
            return D, t


def level_for(rng, D, t):
    """H at a drawn place of the chart or past it, or anything, at times little."""
    for _ in range(5):
        H = water_for(rng.randint(0, 760), D, t) + rng.choice((-1, 0, 0, rng.randint(0, 40)))
        if field_in_range(2, H):
            return H
    return rng.choice((even(rng, 2), even(rng, 2), rng.randint(1_200, 3_000)))


def shell_to(rng, H, bottom):
    """Widths with a sum of at least H; the courses above the bottom one are anything."""
    n = rng.randint(max(1, -(-H // 14_400)), MOST_COURSES)
    most = min(76_800, 14_400 * n)
    Hs = rng.choice((max(H, 1_200 * n), rng.randint(max(H, 1_200 * n), most)))
    above = [drawn_course(rng, 1_200) for _ in range(n - 1)]
    return [one._replace(width=width)
            for width, one in zip(widths_to(Hs, n), (bottom, *above))]


def weight_near(rng, allowed, t, D, Av):
    """Such as to make the stress a part of the allowed one, all of it, or anything."""
    bearing = allowed * 71 * t * D // (904 * (2_500 + Av))
    return within(3, rng.choice((
        bearing, bearing + rng.randint(-20, 20), rng.randint(0, bearing + 1),
        rng.randint(0, bearing + 1), small_draw(rng, FIELD_RANGES[NUMBER_OF["W"]]))))


def moment_near(rng, allowed, t, D, Av, W):
    """Such as to bring the stress up to the allowed one, or close to it."""
    left = allowed * 71 * t * D * D - 904 * (2_500 + Av) * D * W
    return within(11, left // PER_MOMENT + rng.choice((0, 0, 1, rng.randint(-50, 50))))


def drawn_parts(rng):
    """A tank without its weight, what is left of its bottom course, and its shell."""
    D, t = bottom_of(rng, rng.choice((*BRANCHES, "elastic", "inelastic")))
    H = level_for(rng, D, t)
    c = rng.randint(max(100 - t, 0), min(250, 2_000 - t)) if rng.random() < 0.7 else max(100 - t, 0)
    bottom = NO_COURSE._replace(t=t + c, c=c, s=even(rng, 18), E=even(rng, 19))
    Av = rng.choice((0, even(rng, 10), even(rng, 10)))
    return D, H, t, Av, shell_to(rng, H, bottom)


def random_standing(rng):
    """Self-anchored; one in five lifts, or more."""
    D, H, t, Av, shell = drawn_parts(rng)
    allowed = compression.allowed(t, D, compression.entry(compression.argument(H, D, t)))
    W = weight_near(rng, allowed, t, D, Av)
    sheet = sheet_of(Tank(D=D, H=H, W=W, **random_sheets.bottom(rng)),
                     Site(**wind_figures(rng), Av=Av, Ms=0), SELF_ANCHORED, shell)
    most = most_moment(sheet)
    if rng.random() < 0.2:
        return changed(sheet, Ms=within(11, most + 1 + little(rng, most)))
    near_allowed = moment_near(rng, allowed, t, D, Av, W)
    return changed(sheet, Ms=min(most, rng.choice((near_allowed, near_allowed, most,
                                                   rng.randint(0, most), 0))))


def random_anchored_sheet(rng):
    D, H, t, Av, shell = drawn_parts(rng)
    allowed = compression.allowed(t, D, 0)
    W = weight_near(rng, allowed, t, D, Av)
    Ms = rng.choice((moment_near(rng, allowed, t, D, Av, W), even(rng, 11),
                     small_draw(rng, FIELD_RANGES[NUMBER_OF["Ms"]]), 0))
    B, N = circle_and_anchors(rng, D, False)
    return sheet_of(Tank(D=D, H=H, W=W, **random_sheets.bottom(rng)),
                    Site(**wind_figures(rng), Av=Av, Ms=Ms),
                    Anchors(N=N, B=B, d=rng.choice(list(BOLT_CHART))), shell)


def random_self_anchored():
    rng = Random(45)
    for _ in range(1_090):
        yield ask(random_standing(rng), rng.choice(METHODS))


def random_anchored():
    rng = Random(46)
    for _ in range(750):
        yield ask(random_anchored_sheet(rng), rng.choice(METHODS))


def random_as_in_judging():
    """Drawn near what judging requires, or evenly, or with a figure changed."""
    rng = Random(47)
    for draw in (self_anchored_sheet, anchored_sheet, random_sheet) * 40:
        yield ask(draw(rng), rng.choice(METHODS))
    for _ in range(40):
        sheet = one_figure_changed(rng, random_sheet(rng))
        yield ask(sheet, rng.choice(METHODS))
