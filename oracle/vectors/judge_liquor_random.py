"""Judging: sheets with gravity drawn at random from fixed seeds."""

from itertools import product
from random import Random

from model.demand_3_liquor import filled_with
from model.refusals import D100, METHODS
from vectors.judge_cases import handed_in
from vectors.random_sheets import anchored_sheet, self_anchored_sheet
from vectors.records import judge
from vectors.steps_random import random_sheet

# --- Groups: at random, from fixed seeds --------------------------------------


def drawn_gravity(rng):
    """Water, next to it, the greatest, or any."""
    return rng.choice((1_000, 1_001, 1_300, 1_299, *(rng.randint(1_000, 1_300) for _ in range(6))))


def heavy_sheet(rng, draw, method=D100):
    return draw(rng, method, drawn_gravity(rng))


def heavy_even_sheet(rng):
    """Drawn evenly."""
    sheet = random_sheet(rng)
    return filled_with(drawn_gravity(rng), sheet)


def random_self_anchored_in_liquor():
    """Most checks at equality or close to it (see random_sheets.py)."""
    rng = Random(81)
    for _ in range(260):
        yield handed_in(heavy_sheet(rng, self_anchored_sheet))


def random_anchored_in_liquor():
    """About one in nine has size 6: 39 or 30 since S-10, as version 1 has no gravity."""
    rng = Random(82)
    for _ in range(170):
        yield handed_in(heavy_sheet(rng, anchored_sheet))


def random_even_in_liquor():
    rng = Random(83)
    for _ in range(50):
        yield handed_in(heavy_even_sheet(rng))


def random_by_both_methods_in_liquor():
    """Each by D100 and by API 650, drawn near what either requires."""
    rng = Random(84)
    for draw, method, _ in product((self_anchored_sheet, anchored_sheet), METHODS, range(35)):
        sheet = heavy_sheet(rng, draw, method)
        yield tuple(judge(sheet, one) for one in METHODS)
