"""Compression: its refusals and their order; both methods."""

from itertools import cycle
from random import Random

from model.demand_3 import FULL_HEADS
from model.filling_in import EMPTY, sheet_of
from model.refusals import METHODS
from model.sheet_bytes import bytes_as_figures
from vectors import current_sheet_groups
from vectors.compression_cases import EXAMPLE, SELF, SELF_SAID, answered, outcome, refused
from vectors.compression_random import random_anchored_sheet, random_standing
from vectors.judge_cases import GROWER, changed, self_anchored, with_courses
from vectors.leaf_points import NO_METHODS
from vectors.random_sheets import anchored_sheet, self_anchored_sheet
from vectors.records import ask, forged
from vectors.scripts import U32_MOST, subsets, unstated
from vectors.steps_forged import (
    forged_allowances, forged_anchors, forged_figures, forged_heights, forged_huge,
    forged_without_tank,
)
from vectors.steps_orders import first_of, lacking

# --- Groups: refusals ---------------------------------------------------------


def order_of_refusals():
    """Each subset of the refusals that a sheet can have, as in judging, with 43, which is there by
    a moment that makes it lift or more, and without."""
    numbers = (30, 42, 32, 35, 36, 38, 37, 43)
    words = {number: number for number in numbers}
    for present in subsets(numbers):
        if 32 in present and ({37, 43} & set(present) or 30 not in present
                              and not {35, 36, 38} <= set(present)):
            continue
        if 35 in present and not {30, 32, 37} & set(present):
            continue
        if 43 in present and {36, 38} & set(present):
            continue        # without a site or anchors there is no lift to speak of
        H = 28_801 if 37 in present else 0 if 35 in present else 28_800
        for number, Ms in enumerate((74_298, 145_755) if 43 in present else (30_000,)):
            sheet = lacking(present, EXAMPLE.tank._replace(H=H), EXAMPLE.site._replace(Ms=Ms),
                            EXAMPLE.courses[:3])
            method = (3, U32_MOST)[number] if 42 in present else METHODS[number]
            first = first_of(words, present, None)
            yield answered(sheet, SELF_SAID, method) if first is None \
                else refused(first, sheet, method)


def moments_unstated():
    """36 and 38 where a moment that would lift the tank is stated, or nothing is."""
    for Ms in (74_298, 145_755):
        sheet = changed(SELF, Ms=Ms)
        for method in METHODS:
            yield refused(38, unstated(sheet), method)
            yield refused(36, sheet._replace(site=None), method)
            yield refused(37, changed(sheet, H=28_801), method)
            yield refused(35, with_courses(sheet, ()), method)
            yield refused(43, sheet, method)
        yield refused(30, sheet._replace(count=4))
        yield refused(42, sheet, 3)
        yield refused(42, changed(sheet, H=28_801), 0)


def no_methods():
    for sheet, number in zip(cycle((EXAMPLE, SELF, changed(SELF, Ms=74_298))), NO_METHODS):
        yield refused(42, sheet, number)
    for number in (0, 3, U32_MOST, 2**8 + 1):
        for sheet in (EMPTY, sheet_of(EXAMPLE.tank, None, None, ()),
                      EXAMPLE._replace(site=None), unstated(EXAMPLE), changed(EXAMPLE, H=28_801)):
            yield refused(42, sheet, number)
        for sheet in (EXAMPLE._replace(count=4), EXAMPLE._replace(tank=None),
                      EMPTY._replace(count=1), changed(SELF, D=11_999)):
            yield refused(30, sheet, number)


def left_by_no_run():
    """As in the held groups, and some of the scripts' forged sheets."""
    for sheet, method in zip(current_sheet_groups.left_by_no_run(), cycle(METHODS)):
        yield refused(30, sheet, method)
    groups = (forged_figures, forged_without_tank, forged_heights,
              forged_anchors, forged_allowances, forged_huge)
    openings = [script[0] for group in groups for script in group()]
    for opening in openings[::9]:
        yield ask(forged(bytes_as_figures(opening.payload)))


def by_both_methods():
    """The same line by either; sheets that judging calls otherwise by them too."""
    rng = Random(44)
    draws = (random_standing, random_anchored_sheet, self_anchored_sheet, anchored_sheet)
    sheets = [GROWER, self_anchored(GROWER), FULL_HEADS,
              changed(EXAMPLE, W=10**7), *(draw(rng) for draw in draws * 8)]
    for sheet in sheets:
        pair = [ask(sheet, method) for method in METHODS]
        assert len({outcome(record).line() for record in pair}) == 1
        yield from pair
