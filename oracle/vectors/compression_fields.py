"""Compression: the example tank, the branches of F_L, the chart of the coefficient, the plate and
its allowance, and the other fields.
"""

from itertools import product
from math import floor
from random import Random

from model import compression, judging
from model.compression import CHART, LAST_ENTRY, MOST_ELASTIC
from model.fields import ANCHOR_FIELDS, field_in_range
from model.refusals import D100, METHODS
from vectors.compression_cases import (
    EXAMPLE, EXAMPLE_SAID, SELF, SELF_SAID, WAYS, anchored_to, answered, figures_on, most_moment,
    outcome, refused, standing,
)
from vectors.judge_cases import (
    GROWER, WHOLE_BY_CAP, changed, course_changed, self_anchored, with_courses, with_widths,
)
from vectors.judge_figures import end_sheet
from vectors.leaf_edges_compression import (
    ELASTIC_EQUALITY, INELASTIC_EQUALITIES, water_for, whole_arguments,
)
from vectors.leaf_points import neighbours
from vectors.records import ask
from vectors.scripts import with_slot
from vectors.steps_forged import all_at
from vectors.version_1 import FIELD_RANGES

# --- Groups: the example tank -------------------------------------------------


def example_cases():
    for method in METHODS:
        yield answered(EXAMPLE, EXAMPLE_SAID, method)
        yield answered(SELF, SELF_SAID, method)
    for Ms in (0, 30_000, 74_297):
        yield answered(changed(SELF, Ms=Ms), "allowed 13632 holds yes")
    for Ms in (74_298, 145_754, 145_755, 1_000_000_000):
        yield refused(43, changed(SELF, Ms=Ms))
        yield answered(changed(EXAMPLE, Ms=Ms), "allowed 11113")
    yield answered(changed(EXAMPLE, Ms=1_000_000_000), "stress 2946858 allowed 11113 holds no")
    yield answered(changed(SELF, W=18_345), "allowed 13632")
    yield answered(changed(GROWER, c=139), "stress 1288 allowed 1624 holds yes")


# --- Groups: the branches of F_L ----------------------------------------------


def edge_points():
    """t and D on both sides of each edge of F_L, and at equality."""
    for equality in (ELASTIC_EQUALITY, *INELASTIC_EQUALITIES, (999, 15_984)):
        yield from neighbours(*equality)
    for D in (12_000, 12_001, 14_400, 33_333, 60_000, 99_999, 128_667):
        t = floor(5 * D * MOST_ELASTIC)
        yield from ((t, D), (t + 1, D))
    for D in (12_001, 14_399, 20_007, 31_999):
        yield from ((D // 16, D), (D // 16 + 1, D))


def branch_edges():
    """With H of 1,476, 1,787, 4,040 and 4,428 the two sides of the elastic edge tell other figures
    there."""
    for t, D in edge_points():
        if field_in_range(1, D) and t <= 2_000:
            yield answered(anchored_to(D, 28_800, t))
            for H in (1_476, 4_040, 76_800):
                yield answered(standing(D, H, t))
    for H in (1_787, 4_428):
        yield answered(standing(125_000, H, 1_943))


# --- Groups: the chart of the coefficient -------------------------------------


ENTRIES = (*range(1, 21), *range(30, 600, 10), *range(601, LAST_ENTRY + 1))


def many_entries():
    """All of both ends and every tenth between, each at the least H that has it."""
    rng = Random(42)
    yield answered(standing(12_000, 1_200, 2_000))
    for i in ENTRIES:
        H = 0
        while not field_in_range(2, H):
            D, t = rng.randint(12_000, 240_000), rng.randint(1, 2_000)
            H = water_for(i, D, t)
        sheet = standing(D, H, t)
        assert figures_on(sheet).coefficient() == CHART[i]
        yield answered(sheet)


def whole_entries():
    """An argument of just so many ten-thousandths, and a hundredth of an inch of water less, or
    more; an anchored tank with the same figures."""
    for i, (H, D, t) in whole_arguments().items():
        yield answered(standing(D, H - 1, t))
        yield answered(standing(D, H, t))
        if i % 4 == 0:
            yield answered(standing(D, H + 1, t))
            yield answered(anchored_to(D, H, t))


def around(i, D, t):
    """The least H with this entry, and one less."""
    H = water_for(i, D, t)
    for level in (H - 1, H):
        yield level, D, t


CHART_ENDS = (      # H, D and t
    *around(1, 12_000, 2_000), *around(1, 20_000, 1_500), *around(2, 12_000, 1_999),
    *around(639, 60_000, 700), *around(640, 60_000, 700), *around(641, 60_000, 700),
    *around(640, 12_345, 144), *around(641, 12_345, 144), *around(640, 240_000, 2_000),
    *around(641, 240_000, 2_000), *around(1_000, 60_000, 500), *around(10_000, 60_000, 100),
    *around(100_000, 60_000, 50),
    *((H, 32_000 * k, 433 * k) for k in range(1, 5) for H in (37_670, 37_671, 37_672, 37_730)),
    *((H, D, t) for H in (1_200, 76_800) for D in (12_000, 240_000) for t in (1, 2_000)),
)


def chart_ends():
    """0 and 1, 0.0640 exactly and on both sides of it, and far past it."""
    for number, (H, D, t) in enumerate(CHART_ENDS):
        yield answered(standing(D, H, t))
        if number % 3 == 0:
            yield answered(anchored_to(D, H, t))


def long_arguments():
    """So many ten-thousandths past 2 to the 32nd that 32 bits of them are an entry's place."""
    for D in range(239_999, 12_000, -1):
        for wraps in (1, 2, 3):
            H = water_for(wraps * 2**32, D, 1)
            if field_in_range(2, H) and compression.whole_argument(H, D, 1) % 2**32 < 600:
                yield D, H


def arguments_past_32_bits():
    for (D, H), _ in zip(long_arguments(), range(12)):
        for near_H in (H - 1, H):
            yield answered(standing(D, near_H, 1))


# --- Groups: the plate and its allowance --------------------------------------

PLATES = ((100, 0), (100, 1), (100, 98), (100, 99), (101, 100), (188, 0), (188, 139), (250, 0),
          (250, 1), (250, 249), (251, 250), (313, 63), (500, 250), (999, 0), (1_000, 1), (1_999, 0),
          (2_000, 0), (2_000, 1), (2_000, 249), (2_000, 250))


def net_plates():
    """Of the bottom course, with other allowances in the bottom plate and in the other courses."""
    shell = [(9_600, 400 + place, 30 + place, 15_000, 85) for place in range(8)]
    for (plate, c), way in product(PLATES, WAYS):
        sheet = with_courses(way(14_400, 28_800, 250, plate=400, allowance=77), shell)
        yield answered(course_changed(sheet, 1, t=plate, c=c))


def allowances_told_apart():
    """No two of bottom plate, first, second and last course have the same left, nor is anything of
    them left that is another one's plate."""
    rng = Random(43)
    for way in WAYS * 15:
        plates = rng.sample(range(500, 1_500, 7), 8)
        allowances = rng.sample(range(1, 250, 3), 8)
        shell = [(9_600, plate, c, 15_000, 85)
                 for plate, c in zip(plates, allowances, strict=True)]
        D = rng.randint(30_000, 90_000)
        sheet = way(D, rng.randint(5_000, 70_000), 1_000, plate=rng.randint(300, 499),
                    allowance=rng.randint(1, 250))
        yield answered(with_courses(sheet, shell))


# --- Groups: the fields -------------------------------------------------------


def field_ends():
    """One field at a time at either end, then all of them; the least and the most that the
    question may have to tell."""
    for anchored in (True, False):
        for field in FIELD_RANGES:
            if anchored or field not in ANCHOR_FIELDS:
                for figure in FIELD_RANGES[field]:
                    yield ask(end_sheet(field, figure, anchored))
    for end, widths in ((0, [1_200]), (0, [1_200] * 12), (1, [12_800] * 6), (1, [6_400] * 12)):
        every = all_at(end, widths)
        for sheet in (every, self_anchored(every)):
            for figures in ({}, {"Ms": 0}, {"Ms": 10**9}, {"W": 1}, {"W": 10**7},
                            {"Av": 500 * (1 - end)}, {"t": 2_000, "c": 0}):
                yield ask(changed(sheet, **figures))
    greatest = anchored_to(12_000, 1_200, 1, W=10**7, Av=500, Ms=10**9)
    yield answered(greatest, "stress 1092664320 allowed 38 holds no")
    yield answered(changed(greatest, Ms=0), "stress 31830986 allowed 38 holds no")
    yield answered(anchored_to(240_000, 1_200, 2_000, W=1, Av=0, Ms=0), "stress 1 allowed 4427")
    yield answered(anchored_to(240_000, 1_200, 1, W=1, Av=0, Ms=0), "stress 1 allowed 1 holds yes")
    yield answered(standing(12_000, 1_200, 1_250), "allowed 19995")
    heaviest = standing(240_000, 76_800, 2_000, W=10**7, Av=0, plate=500, allowance=0, Fy=50_000)
    most = most_moment(heaviest)        # that there can be without lift
    yield answered(changed(heaviest, Ms=most))
    yield refused(43, changed(heaviest, Ms=most + 1))


NO_PART = {         # letters whose figure makes no difference, as far as the sheet stays good
    "V": (60, 150), "Kz": (50, 150), "I": (100, 125), "s": (10_000, 40_000), "E": (50, 100),
    "plate": (100, 500), "allowance": (0, 99), "Fy": (30_000, 50_000),
}
NO_PART_ANCHORED = {**NO_PART, "H": (1_200, 76_800), "N": (6, 200), "B": (14_400, 300_000),
                    "d": (6, 16)}


def without_effect():
    """Fields that play no part, each at both ends and together; the line is the same."""
    for way, letters in ((standing, NO_PART), (anchored_to, NO_PART_ANCHORED)):
        base = way(14_400, 28_800, 150, c=50, W=40_000)
        said = outcome(answered(base)).line()
        for letter, figures in letters.items():
            for figure in figures:
                yield answered(changed(base, **{letter: figure}), said)
        for end in (0, 1):
            together = {letter: figures[end] for letter, figures in letters.items()}
            yield answered(changed(base, **together), said)
        for widths in ([14_400, 14_400], [1_200] * 10 + [8_400] * 2, [6_400] * 12):
            yield answered(with_widths(base, widths), said)


def with_effect():
    """Those that do: each changes the line."""
    for way in WAYS:
        base = way(14_400, 28_800, 150, c=50, W=40_000)
        said = outcome(answered(base)).line()
        for figures in ({"W": 40_100}, {"Av": 0}, {"Av": 500}, {"Ms": 20_000}, {"D": 14_000}):
            yield changes(said, changed(base, **figures))
        for figures in ({"t": 205}, {"c": 45}, {"t": 195}, {"c": 55}):
            yield changes(said, course_changed(base, 1, **figures))
    said = outcome(answered(standing(14_400, 28_800, 250))).line()
    yield changes(said, standing(14_400, 28_000, 250))
    assert said == outcome(answered(standing(14_400, 28_801, 250))).line()


def changes(said, sheet):
    record = answered(sheet)
    assert outcome(record).line() != said
    return record


def other_courses():
    """Thinner, thicker, narrower or of other stress, by one and by all; none makes a difference."""
    others = ((100, 99, 10_000, 50), (2_000, 0, 40_000, 100), (313, 13, 21_000, 70))
    for way in WAYS:
        base = with_courses(way(14_400, 28_800, 250), [(4_800, 250, 20, 15_000, 85)] * 6)
        said = outcome(answered(base)).line()
        for figures in others:
            for places in (range(2, 7), (2,), (6,)):
                sheet = base
                for place in places:
                    sheet = with_slot(sheet, place - 1, (4_800, *figures))
                yield answered(sheet, said)
            yield changes(said, with_slot(base, 0, (4_800, *figures)))
        for n in (7, 9, 12):
            above = [(1_200, *others[0])] * (n - 6)
            yield answered(with_courses(base, [*base.courses[:6], *above]), said)


def short_and_sound():
    """Sheets of every word in judging, whose checks fall short one by one; it is nothing to the
    question, and the question nothing to them."""
    sheets = (
        (EXAMPLE, True), (SELF, False), (changed(SELF, W=18_342), False),
        (changed(SELF, W=18_343), True), (changed(EXAMPLE, B=22_919), False),
        (changed(EXAMPLE, Ms=257_197), False), (changed(EXAMPLE, t=187), False),
        (course_changed(EXAMPLE, 3, t=100), False), (course_changed(EXAMPLE, 1, t=187), False),
        (GROWER, False), (WHOLE_BY_CAP, True),
        (anchored_to(12_000, 1_200, 1), False), (changed(EXAMPLE, W=10**7), True),
        (changed(self_anchored(EXAMPLE), W=10**7), True),
    )
    for sheet, sound in sheets:
        assert (judging.word(judging.report_of(sheet, D100)) == "sound") == sound, sheet
        for method in METHODS:
            yield answered(sheet, method=method)
