"""Judging: sheets drawn at random from fixed seeds."""

from itertools import product
from random import Random

from model.fields import FIELD_RANGES, NUMBER_OF, Anchors, Course, Site, Tank
from model.filling_in import SELF_ANCHORED, sheet_of
from model.refusals import METHODS, MOST_COURSES
from vectors import steps_random
from vectors.judge_cases import handed_in, refused
from vectors.judge_refusals import openings
from vectors.random_sheets import anchored_sheet, self_anchored_sheet
from vectors.records import judge
from vectors.scripts import unstated
from vectors.steps_random import random_forged, random_noise, random_sheet

# --- Groups: at random, from fixed seeds --------------------------------------


def in_one_way(rng, sheet):
    """As bytes or, less often, as it is."""
    as_bytes, as_it_is = handed_in(sheet)
    return (as_it_is,) if rng.random() < 0.1 else (as_bytes,)


def random_self_anchored():
    rng = Random(11)
    for _ in range(1_000):
        yield in_one_way(rng, self_anchored_sheet(rng))


def random_anchored():
    rng = Random(12)
    for _ in range(1_000):
        yield in_one_way(rng, anchored_sheet(rng))


def end_of(rng, name):
    return rng.choice(FIELD_RANGES[NUMBER_OF[name]])


def end_course(rng, widest):
    t, c = rng.choice(((2_000, 250), (2_000, 0), (100, 0)))
    return Course(width=rng.choice((1_200, widest)), t=t, c=c, s=end_of(rng, "s"),
                  E=end_of(rng, "E"))


def random_ends():
    """Every field at an end of its range; the water at its least or up to the top."""
    rng = Random(13)
    for _ in range(100):
        n = rng.randint(1, MOST_COURSES)
        courses = [end_course(rng, min(14_400, 76_800 // n)) for _ in range(n)]
        H = rng.choice((1_200, sum(course.width for course in courses)))
        D, W, Fy = (end_of(rng, name) for name in ("D", "W", "Fy"))
        plate, allowance = rng.choice(((100, 99), (100, 0), (500, 0), (500, 250)))
        anchored = Anchors(N=end_of(rng, "N"), B=rng.choice((D, 300_000)), d=rng.choice((6, 16)))
        tank = Tank(D=D, H=H, W=W, plate=plate, allowance=allowance, Fy=Fy)
        site = Site._make(end_of(rng, name) for name in Site._fields)
        sheet = sheet_of(tank, site, rng.choice((SELF_ANCHORED, anchored)), courses)
        yield in_one_way(rng, sheet)


def random_even():
    """Drawn evenly, so that most are short or refused 37."""
    rng = Random(14)
    for _ in range(100):
        yield in_one_way(rng, random_sheet(rng))


def random_unstated():
    """Drawn in the same ways, before their anchors are stated."""
    rng = Random(15)
    for draw in (self_anchored_sheet, anchored_sheet, random_sheet):
        for _ in range(40):
            yield refused("refused 38", judge(unstated(draw(rng))))


def random_by_both_methods():
    """Each sheet by D100 and by API 650; drawn near what D100 requires and near what API 650
    does, as many of either way of standing."""
    rng = Random(16)
    draws = product((self_anchored_sheet, anchored_sheet), METHODS, range(100))
    for draw, method, _ in draws:
        sheet = draw(rng, method)
        yield tuple(judge(sheet, one) for one in METHODS)


def random_damage():
    """The scripts' damaged bytes and sheets; some are still accepted."""
    return openings(steps_random.random_damage, random_noise, random_forged)
