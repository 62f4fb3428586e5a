"""Request S-9: what a reading of it is made from, the right one and those that go astray (see
leaf_slender_readings.py)."""

import struct
from fractions import Fraction
from math import ceil, cosh, floor, isqrt, sinh
from typing import Callable, NamedTuple

from model import slender
from model.arithmetic import root_up
from model.compression import feet
from model.slender import MOST_MOMENT, RANGES, shape

# --- Rounding -----------------------------------------------------------------


def same(exact):
    return exact


def nearest(exact):
    return floor(exact + Fraction(1, 2))


def one_more_always(exact):
    return floor(exact) + 1


def thousandths(figure):
    return Fraction(figure, 1_000)


# --- A reading ----------------------------------------------------------------


def sides(figures, weight, height):
    """What the impulsive acceleration turns: shell, roof, water; in foot-pounds."""
    return (figures.Ws * feet(figures.Xs), figures.Wr * feet(figures.Xr), weight * height)


def impulsive_of(reading, figures, weight):
    height = reading.height((Fraction("0.5") - reading.lowered * shape(figures)) * feet(figures.H))
    parts = reading.parts(figures, weight, height)
    return reading.to_moment(thousandths(figures.Ai) * sum(parts))


def convective_of(reading, figures, weight):
    return reading.to_moment(thousandths(figures.Ac) * weight * feet(figures.H))


def water_of(reading, figures):
    return slender.water_weight(figures)


def convective_weight_of(reading, figures, water):
    return Fraction("0.23") * shape(figures) * water


class Reading(NamedTuple):
    water: Callable = water_of
    taken_off: Fraction = Fraction("0.218")
    lowered: Fraction = Fraction("0.094")
    height: Callable = same
    parts: Callable = sides
    convective_weight: Callable = convective_weight_of
    to_weight: Callable = ceil
    to_moment: Callable = ceil
    impulsive: Callable = impulsive_of
    convective: Callable = convective_of
    together: Callable = lambda one, other: root_up(one * one + other * other)
    within: Callable = slender.within_ranges
    slender: Callable = slender.slender
    too_much: Callable = lambda figures, moment: moment > MOST_MOMENT
    order: tuple = (40, 44, 45)

    def moment(self, figures):
        water = self.water(self, figures)
        impulsive = self.to_weight((1 - self.taken_off * shape(figures)) * water)
        convective = self.to_weight(self.convective_weight(self, figures, water))
        return self.together(self.impulsive(self, figures, impulsive),
                             self.convective(self, figures, convective))

    def answer(self, figures):
        refused = {
            40: lambda: not self.within(figures),
            44: lambda: not self.slender(figures.D, figures.H),
            45: lambda: self.too_much(figures, self.moment(figures)),
        }
        for number in self.order:
            if refused[number]():
                return f"refused {number} 0"
        return str(self.moment(figures))


def root_of(square):
    """Of a fraction, up."""
    n = isqrt(floor(square))
    return n if n * n == square else n + 1


# --- Other waters and weights -------------------------------------------------


def volume(figures):
    return slender.CIRCLE * feet(figures.D) ** 2 / 4 * feet(figures.H)


def water_by(rounding):
    """From 62.4 by gravity, rounded to a pound a cubic foot."""
    return lambda _reading, figures: \
        rounding(Fraction("62.4") * thousandths(figures.gravity)) * volume(figures)


def scaled(weight):
    """The exact water by something else."""
    return lambda _reading, figures: weight(figures) * slender.water_weight(figures)


def in_64_bits(_reading, figures):
    """The numerator that a weight has in whole numbers, without what is past 64 bits; for D D H by
    62.4, 1,000 and gravity."""
    product = 5_538 * figures.gravity * figures.D**2 * figures.H * 1_000
    return Fraction(product % 2**64, 113 * 1_000 * 1_000 * 1_728_000_000)


def water_in_f64(_reading, figures):
    feet_across, feet_of_water = figures.D / 1_200, figures.H / 1_200
    return Fraction(62.4 * (figures.gravity / 1_000) * feet_of_water
                    * (355 / 113 * feet_across * feet_across / 4))


def other_weight(ratio):
    return lambda _reading, figures, water: ratio(figures) * water


# --- Other moments ------------------------------------------------------------


def by_itself(*alone):
    """Shell, roof or water, by place, rounded up by itself and the rest together."""
    def impulsive(reading, figures, weight):
        height = (Fraction("0.5") - reading.lowered * shape(figures)) * feet(figures.H)
        parts = [thousandths(figures.Ai) * part for part in sides(figures, weight, height)]
        rest = sum(part for place, part in enumerate(parts) if place not in alone)
        return ceil(rest) + sum(ceil(parts[place]) for place in alone)
    return impulsive


def turned_first(reading, figures, weight):
    """Rounded before Ai is there, and again after."""
    height = (Fraction("0.5") - reading.lowered * shape(figures)) * feet(figures.H)
    return ceil(thousandths(figures.Ai) * ceil(sum(sides(figures, weight, height))))


def forces_first(reading, figures, weight):
    """Each weight by Ai rounded up to a pound."""
    height = (Fraction("0.5") - reading.lowered * shape(figures)) * feet(figures.H)
    forces = [ceil(thousandths(figures.Ai) * one) for one in (figures.Ws, figures.Wr, weight)]
    return ceil(sum(force * arm for force, arm in
                    zip(forces, (feet(figures.Xs), feet(figures.Xr), height))))


def without(*left_out):
    return lambda figures, weight, height: [
        part for place, part in enumerate(sides(figures, weight, height)) if place not in left_out]


def at_other_heights(change):
    return lambda figures, weight, height: sides(change(figures), weight, height)


def impulsive_at(ratio):
    """The water at this part of H."""
    return lambda figures, weight, height: sides(figures, weight, ratio * feet(figures.H))


def convective_at(height):
    return lambda reading, figures, weight: \
        reading.to_moment(thousandths(figures.Ac) * weight * height(figures))


def impulsive_height(figures):
    return slender.impulsive_height(figures)


def slosh(figures):
    """3.67 H / D."""
    return 3.67 * figures.H / figures.D


def printed_height(figures):
    """Eq 13-30."""
    x = slosh(figures)
    return Fraction(1 - (cosh(x) - 1) / (x * sinh(x))) * feet(figures.H)


def exchanged(moment_of, one, other):
    """A moment with the other's acceleration."""
    return lambda reading, figures, weight: \
        moment_of(reading, figures._replace(**{one: getattr(figures, other)}), weight)


def in_32_bits(figures, weight, height):
    """Of weight by height, what 32 bits hold."""
    shell, roof, water = sides(figures, weight, height)
    return [*(Fraction(int(part * 1_200) % 2**32, 1_200) for part in (shell, roof)), water]


def in_f64(reading, figures, weight):
    """The impulsive moment."""
    turning = figures.Ws * (figures.Xs / 1_200) + figures.Wr * (figures.Xr / 1_200) \
        + weight * ((0.5 - 0.094 * figures.D / figures.H) * figures.H / 1_200)
    return ceil(figures.Ai / 1_000 * turning)


# --- Other ranges -------------------------------------------------------------


def ranges_with(**limits):
    ranges = RANGES._replace(**limits)
    return lambda figures: all(least <= figure <= greatest for figure, (least, greatest)
                               in zip(figures, ranges, strict=True))


def and_also(condition):
    return lambda figures: slender.within_ranges(figures) and condition(figures)


def f32(number):
    return struct.unpack("f", struct.pack("f", number))[0]


def at_most_level(figures):
    return figures._replace(Xs=min(figures.Xs, figures.H), Xr=min(figures.Xr, figures.H))
