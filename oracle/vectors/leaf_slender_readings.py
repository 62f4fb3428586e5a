"""Request S-9: readings that go astray, each told apart from the right one.

A reading is the right one with something else in one place. READINGS has all of them, `TOLD_APART`
for each a tank with the right answer and the one that goes astray; the group `readings` asks about
these tanks. Both answers were worked out by this program when the tanks were searched for.
"""

from fractions import Fraction
from math import ceil, floor, isqrt, pi, sqrt, tanh

from model import slender
from model.compression import feet
from model.slender import MOST_MOMENT, exact_square, shape
from vectors.leaf_slender_cases import Asked, answer_of, figures_of
from vectors.leaf_slender_reading import (
    Reading, and_also, at_most_level, at_other_heights, by_itself, convective_at, convective_of,
    exchanged, f32, forces_first, impulsive_at, impulsive_height, impulsive_of, in_32_bits,
    in_64_bits, in_f64, nearest, one_more_always, other_weight, printed_height, ranges_with,
    root_of, same, scaled, slosh, thousandths, turned_first, water_by, water_in_f64, without,
)
from vectors.leaf_slender_told_apart import TOLD_APART

# --- All readings -------------------------------------------------------------

TANH = {"convective_weight": lambda _reading, figures, water:
        Fraction(tanh(slosh(figures))) * Fraction("0.23") * shape(figures) * water}
RIGHT = Reading()
READINGS = {
    "water rounded first": RIGHT._replace(water=scaled(
        lambda figures: ceil(slender.water_weight(figures)) / slender.water_weight(figures))),
    "weights down": RIGHT._replace(to_weight=floor),
    "weights to the nearest": RIGHT._replace(to_weight=nearest),
    "weights unrounded": RIGHT._replace(to_weight=same),
    "weights one more always": RIGHT._replace(to_weight=one_more_always),
    "height up to a foot": RIGHT._replace(height=ceil),
    "height up in the sheet's units": RIGHT._replace(height=lambda x: feet(ceil(x * 1_200))),
    "height down in the sheet's units": RIGHT._replace(height=lambda x: feet(floor(x * 1_200))),
    "no shell": RIGHT._replace(parts=without(0)),
    "no roof": RIGHT._replace(parts=without(1)),
    "no water in it": RIGHT._replace(parts=without(2)),
    "shell by itself": RIGHT._replace(impulsive=by_itself(0)),
    "roof by itself": RIGHT._replace(impulsive=by_itself(1)),
    "each by itself": RIGHT._replace(impulsive=by_itself(0, 1, 2)),
    "rounded before Ai": RIGHT._replace(impulsive=turned_first),
    "forces rounded": RIGHT._replace(impulsive=forces_first),
    "sum of moments": RIGHT._replace(together=lambda one, other: one + other),
    "larger of moments": RIGHT._replace(together=max),
    "0.281": RIGHT._replace(taken_off=Fraction("0.281")),
    "0.049": RIGHT._replace(lowered=Fraction("0.049")),
    "pi": RIGHT._replace(water=scaled(lambda _figures: Fraction(pi) / slender.CIRCLE)),
    "22/7": RIGHT._replace(water=scaled(lambda _figures: Fraction(22, 7) / slender.CIRCLE)),
    "62.4 by gravity up": RIGHT._replace(water=water_by(ceil)),
    "62.4 by gravity down": RIGHT._replace(water=water_by(floor)),
    "62.4 by gravity to the nearest": RIGHT._replace(water=water_by(nearest)),
    "62.4 by gravity up to a tenth": RIGHT._replace(
        water=water_by(lambda exact: Fraction(ceil(exact * 10), 10))),
    "49 G H D D": RIGHT._replace(water=scaled(
        lambda _figures: 49 / (Fraction("62.4") * slender.CIRCLE / 4))),
    "no gravity": RIGHT._replace(water=scaled(lambda figures: 1 / thousandths(figures.gravity))),
    "64 bits": RIGHT._replace(water=in_64_bits),
    "water in f64": RIGHT._replace(water=water_in_f64),
    "impulsive moment in f64": RIGHT._replace(impulsive=in_f64),
    "32 bits": RIGHT._replace(parts=in_32_bits),
    "Ai and Ac exchanged": RIGHT._replace(impulsive=exchanged(impulsive_of, "Ai", "Ac"),
                                          convective=exchanged(convective_of, "Ac", "Ai")),
    "Ai for all": RIGHT._replace(convective=exchanged(convective_of, "Ac", "Ai")),
    "moments down": RIGHT._replace(to_moment=floor),
    "moments to the nearest": RIGHT._replace(to_moment=nearest),
    "moments unrounded": RIGHT._replace(
        to_moment=same, together=lambda one, other: root_of(one * one + other * other)),
    "moments one more always": RIGHT._replace(to_moment=one_more_always),
    "one rounding": RIGHT._replace(
        to_weight=same, to_moment=same,
        together=lambda one, other: root_of(one * one + other * other)),
    "root down": RIGHT._replace(together=lambda one, other: isqrt(one * one + other * other)),
    "root one more always": RIGHT._replace(
        together=lambda one, other: isqrt(one * one + other * other) + 1),
    "root to the nearest": RIGHT._replace(
        together=lambda one, other: (isqrt(4 * (one * one + other * other)) + 1) // 2),
    "root of an f64": RIGHT._replace(
        together=lambda one, other: ceil(sqrt(float(one * one + other * other)))),
    "tanh": RIGHT._replace(**TANH),
    "height by Eq 13-30": RIGHT._replace(convective=convective_at(printed_height)),
    "both as printed": RIGHT._replace(**TANH, convective=convective_at(printed_height)),
    "convective at the impulsive height": RIGHT._replace(
        convective=convective_at(impulsive_height)),
    "convective half way up": RIGHT._replace(
        convective=convective_at(lambda figures: feet(figures.H) / 2)),
    "the rest of the water": RIGHT._replace(
        convective_weight=other_weight(lambda figures: Fraction("0.218") * shape(figures))),
    "0.375 H": RIGHT._replace(parts=impulsive_at(Fraction("0.375"))),
    "roof at the level": RIGHT._replace(
        parts=at_other_heights(lambda figures: figures._replace(Xr=figures.H))),
    "heights cut at the level": RIGHT._replace(parts=at_other_heights(at_most_level)),
    "heights above the level refused": RIGHT._replace(
        within=and_also(lambda figures: max(figures.Xs, figures.Xr) <= figures.H)),
    "heights from 1": RIGHT._replace(within=ranges_with(Xs=(1, 76_800), Xr=(1, 76_800))),
    "weights in field 3 together": RIGHT._replace(
        within=and_also(lambda figures: figures.Ws + figures.Wr <= 10_000_000)),
    "weights from 0": RIGHT._replace(within=ranges_with(Ws=(0, 10**7), Wr=(0, 10**7))),
    "accelerations below 1,000": RIGHT._replace(within=ranges_with(Ai=(0, 999), Ac=(0, 999))),
    "accelerations from 1": RIGHT._replace(within=ranges_with(Ai=(1, 1_000), Ac=(1, 1_000))),
    "Av's range": RIGHT._replace(within=ranges_with(Ai=(0, 500), Ac=(0, 500))),
    "slender at equality": RIGHT._replace(slender=lambda D, H: 1_000 * D <= 1_333 * H),
    "slender below 4/3": RIGHT._replace(slender=lambda D, H: 3 * D < 4 * H),
    "slender below 1.33": RIGHT._replace(slender=lambda D, H: 100 * D < 133 * H),
    "slender by an f32": RIGHT._replace(
        slender=lambda D, H: f32(f32(D) / f32(H)) < f32(1.333)),
    "all slender": RIGHT._replace(slender=lambda _D, _H: True),
    "44 before 40": RIGHT._replace(order=(44, 40, 45)),
    "45 before 44": RIGHT._replace(order=(40, 45, 44)),
    "45 before 40": RIGHT._replace(order=(45, 40, 44)),
    "45 before rounding": RIGHT._replace(
        too_much=lambda figures, _moment: exact_square(figures) > MOST_MOMENT**2),
    "45 at equality": RIGHT._replace(too_much=lambda _figures, moment: moment >= MOST_MOMENT),
    "45 by either moment": RIGHT._replace(
        too_much=lambda figures, _moment: max(slender.rounded(figures)[2:4]) > MOST_MOMENT),
    "no 45": RIGHT._replace(too_much=lambda _figures, _moment: False),
}


# --- The group ----------------------------------------------------------------


def readings():
    """A tank may tell several apart: it is asked about once."""
    said = {figures_of(figures): right for right, _astray, figures in TOLD_APART.values()}
    for figures, right in said.items():
        yield Asked(figures, right)


GROUPS = (readings,)


# --- Self test ----------------------------------------------------------------


def check_told_apart():
    assert [*TOLD_APART] == [*READINGS]
    for name, (right, astray, figures) in TOLD_APART.items():
        tank = figures_of(figures)
        assert right == answer_of(tank) == RIGHT.answer(tank), (name, answer_of(tank))
        assert astray == READINGS[name].answer(tank) != right, (name, READINGS[name].answer(tank))


def counts_apart(all_figures):
    """Of these figures, how many each reading answers otherwise."""
    found = {name: 0 for name in READINGS}
    for figures in all_figures:
        if figures.H == 0:
            continue        # no ratio; 40
        right = answer_of(figures)
        for name, reading in READINGS.items():
            found[name] += reading.answer(figures) != right
    return found


def self_test():
    check_told_apart()
