"""Compression with nutrient liquor, request S-8: the water's pressure alone is multiplied."""

from fractions import Fraction
from itertools import product
from math import ceil, floor
from random import Random

from model import compression
from model.demand_3_liquor import GRAVITY, HEAVY_BY_CAP, HEAVY_BY_ROOT, filled_with
from model.fields import WATER, field_in_range
from model.refusals import METHODS
from vectors.compression_cases import (
    EXAMPLE, EXAMPLE_SAID, SELF, SELF_SAID, WAYS, anchored_to, answered, figures_on, most_moment,
    refused, standing,
)
from vectors.compression_random import random_anchored_sheet, random_standing
from vectors.compression_stresses import stress_beside
from vectors.judge_cases import changed, self_anchored
from vectors.judge_liquor_random import drawn_gravity, heavy_even_sheet
from vectors.leaf_edges_compression import whole_arguments
from vectors.leaf_points import beside
from vectors.records import ask
from vectors.scripts import U32_MOST, unstated

# --- Groups -------------------------------------------------------------------


def example_in_liquor():
    """With N = 0 the argument is 0.0297 by water, 0.0337 with gravity 1,137 and 0.0386 with 1,300;
    with anchors there is no pressure help, and gravity makes no difference."""
    for method in METHODS:
        for gravity, said in ((1_000, SELF_SAID), (1_001, SELF_SAID),
                              (1_137, "stress 187 allowed 13914 holds yes"),
                              (1_300, "stress 187 allowed 14253 holds yes")):
            yield answered(filled_with(gravity, SELF), said, method)
            yield answered(filled_with(gravity, EXAMPLE), EXAMPLE_SAID, method)


def lift_by_gravity_alone():
    """43 by water and none in liquor: T is 94,646 by water, 101,918 with gravity 1,137 and 110,571
    with 1,300, of which 785 thousandths are 74,297, 80,005 and 86,798."""
    for Ms, least in ((74_297, 1_000), (74_298, 1_001), (80_005, 1_137), (80_006, 1_138),
                      (86_798, 1_300), (86_799, 1_301)):
        for gravity in sorted({1_000, 1_001, 1_136, 1_137, 1_138, 1_299, 1_300}):
            sheet = changed(SELF, Ms=Ms, gravity=gravity)
            yield answered(sheet) if gravity >= least else refused(43, sheet)
    for sheet, T in ((HEAVY_BY_CAP, 87_800), (HEAVY_BY_ROOT, 59_200)):
        none = 157 * T // 200
        assert most_moment(sheet) == none
        for gravity in beside(GRAVITY):
            for Ms in (none, none + 1):
                lifts = gravity < GRAVITY or gravity == GRAVITY and Ms > none
                one = changed(sheet, Ms=Ms, gravity=gravity)
                yield refused(43, one) if lifts else answered(one)


def level_with(i, D, t, gravity):
    """The least H that has this entry."""
    return ceil(i / (10_000 * compression.exact_argument(1, D, t, gravity)))


def entries_in_liquor():
    """The least H with each of some entries, and one less; 0.0640, past it and far past it."""
    rng = Random(85)
    for i in (1, 2, 10, 24, 125, 297, 320, 433, 638, 639, 640, 641, 700):
        for gravity in (1_001, GRAVITY, 1_300):
            H = 0
            while not field_in_range(2, H - 1):
                D, t = rng.randint(12_000, 240_000), rng.randint(1, 2_000)
                H = level_with(i, D, t, gravity)
            for level, place in ((H - 1, i - 1), (H, i)):
                sheet = standing(D, level, t, gravity=gravity)
                assert figures_on(sheet).argument() == place
                yield answered(sheet)


def whole_entries_in_liquor():
    """Arguments that are whole with a gravity that makes a lower level as good as the one that they
    have by water; a hundredth of an inch to either side, too."""
    for i, (H, D, t) in whole_arguments().items():
        for gravity in range(1_300, 1_000, -1):
            level, rest = divmod(H * 1_000, gravity)
            if rest == 0 and field_in_range(2, level - 1):
                for near in beside(level):
                    sheet = standing(D, near, t, gravity=gravity)
                    assert (10_000 * figures_on(sheet).exact_argument() == i) == (near == level)
                    yield answered(sheet)
                break


def arguments_past_64_bits():
    """433 H D D gravity is past 2 to the 64th, with as little plate as there is and with much; then
    a little past a multiple of it, so that what 64 bits hold is next to nothing."""
    for H, D, t in ((76_800, 240_000, 1), (76_800, 240_000, 2_000), (76_799, 239_999, 1),
                    (70_000, 220_000, 3), (60_000, 239_000, 1_500), (76_800, 200_000, 700)):
        for gravity in (1_000, 1_001, GRAVITY, 1_299, 1_300):
            yield answered(standing(D, H, t, gravity=gravity))
        yield answered(anchored_to(D, H, t, gravity=1_300))
    for D, gravity, times in product((239_999, 220_011, 200_123), (GRAVITY, 1_300), (3, 20, 60)):
        H = times * 2**64 // (433 * D * D * gravity) + 1
        yield answered(standing(D, H, 2_000, gravity=gravity))


BESIDE_FIGURES = (      # D, H and t
    (14_400, 28_800, 250), (12_000, 28_800, 187), (60_000, 28_800, 313), (12_000, 9_600, 750),
    (12_000, 28_800, 751), (20_000, 28_800, 40), (32_000, 37_671, 433),
)


def stress_at_allowed_in_liquor():
    """It holds at equality and falls short one psi past it, by W and by Ms, with gravity 1,137; by
    either way of standing and on each branch of F_L."""
    for (D, H, t), way in product(BESIDE_FIGURES, WAYS):
        base = way(D, H, t, W=50_000, gravity=GRAVITY)
        for letter in ("W", "Ms"):
            pair = stress_beside(base, letter)
            if pair is not None:
                at, past = pair
                yield answered(at, "holds yes")
                yield answered(past, "holds no")


def order_in_liquor():
    """30 for a gravity that no run leaves, before 42; judge's own refusals before 43."""
    shaken = changed(SELF, Ms=86_799, gravity=1_300)
    for method in METHODS:
        for gravity in (0, 999, 1_301, U32_MOST):
            yield refused(30, filled_with(gravity, shaken), method)
        yield refused(43, shaken, method)
        yield refused(37, changed(shaken, H=28_801), method)
        yield refused(38, unstated(shaken), method)
    yield refused(30, filled_with(999, shaken), 3)
    yield refused(42, shaken, 3)


def random_in_liquor():
    """Drawn as those of compression_random.py, with gravity put in."""
    rng = Random(86)
    for draw in (random_standing, random_standing, random_anchored_sheet) * 45:
        yield ask(filled_with(drawn_gravity(rng), draw(rng)), rng.choice(METHODS))
    for _ in range(25):
        yield ask(self_anchored(heavy_even_sheet(rng)), rng.choice(METHODS))


# --- Readings -----------------------------------------------------------------

ASTRAY = {          # of the argument by water, in ten-thousandths, and gravity: its entry's place
    "none": lambda exact, _gravity: floor(exact),
    "twice": lambda exact, gravity: floor(exact * gravity**2),
    "after it is rounded": lambda exact, gravity: floor(floor(exact) * gravity),
    "rounded up": lambda exact, gravity: ceil(exact * gravity),
    "rounded to the nearest": lambda exact, gravity: round(exact * gravity),
}


def place_read(reading, figures):
    by_water = compression.exact_argument(figures.H, figures.D, figures.t)
    return ASTRAY[reading](10_000 * by_water, Fraction(figures.gravity, WATER))


def place_in_64_bits(figures):
    above = 433 * figures.H * figures.D**2 * figures.gravity
    return above % 2**64 // (139_200_000_000 * figures.t**2)


def allowed_at(place, figures):
    """What is allowed if the entry is that of this place."""
    e = 0 if figures.anchored else compression.entry(place)
    return compression.allowed(figures.t, figures.D, e)


def told_apart(answers, place_of):
    """Those whose allowed stress would be another one; the place is of the figures."""
    found = [(asked, figures_on(asked.sheet)) for asked in answers]
    return [asked for asked, figures in found
            if allowed_at(place_of(figures), figures) != asked.reply.allowed]
