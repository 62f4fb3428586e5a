"""Compression: stress and allowed stress, whole and nearly so, beside each other; and lift."""

from fractions import Fraction
from itertools import product
from math import ceil, gcd

from model import compression
from model.arithmetic import rounded_down
from model.fields import FIELD_RANGES, NUMBER_OF, Anchors, field_in_range
from model.refusals import D100
from vectors.compression_cases import (
    SELF, WAYS, anchored_to, answered, figures_on, most_moment, refused, reply_on, resisting,
    standing,
)
from vectors.judge_cases import WHOLE_BY_CAP, WHOLE_BY_ROOT, changed, with_widths
from vectors.leaf_points import beside
from vectors.random_sheets import within

# --- Groups: the stress, whole and nearly so ----------------------------------
#
# In whole numbers the stress is (904 (2,500 + Av) D W + 10,845,960,000 Ms) / (71 t D D).

PER_MOMENT = 10_845_960_000


def with_rest(D, t, Av, rest):
    """W and Ms whose stress is off a whole one by this many times the least that there is, and
    that least; or None, if the ranges have no such two."""
    per_pound, whole = 904 * (2_500 + Av) * D, 71 * t * D * D
    step = gcd(PER_MOMENT, whole)
    least = gcd(per_pound, step)
    period = step // least
    W = rest * pow(per_pound // least, -1, period) % period or period
    left = (rest * least - per_pound * W) // step
    Ms = left * pow(PER_MOMENT // step, -1, whole // step) % (whole // step)
    if not field_in_range(3, W) or not field_in_range(11, Ms):
        return None
    return W, Ms, Fraction(least, whole)


STRESSED = tuple(product((12_000, 14_400, 60_000, 240_000), (1, 250, 1_999), (0, 1, 500)))


def stress_whole():
    """Exactly, and past it and short of it by next to nothing."""
    for D, t, Av in STRESSED:
        for rest in (-1, 0, 1):
            found = with_rest(D, t, Av, rest)
            if found is not None:
                W, Ms, _least = found
                yield answered(anchored_to(D, 1_200, t, W=W, Av=Av, Ms=Ms))


def stress_of_weight():
    """Self-anchored, without a moment: the stress is 904 (2,500 + Av) W / (71 t D)."""
    for D, t, Av in STRESSED:
        step = 71 * t * D // gcd(904 * (2_500 + Av), 71 * t * D)
        for weight in beside(FIELD_RANGES[NUMBER_OF["W"]][1] // step * step):
            if field_in_range(3, weight):
                yield answered(standing(D, 28_800, t, W=weight, Av=Av))


def accelerations():
    for way, Av in product(WAYS, (0, 1, 2, 250, 499, 500)):
        yield answered(way(14_400, 28_800, 250, W=11_000, Av=Av, Ms=0))
        yield answered(way(14_400, 28_800, 250, W=3_333_333, Av=Av, Ms=45_678))


# --- Groups: the allowed stress, whole and nearly so --------------------------

# D, H and t; anchored tanks and self-anchored ones. No elastic one that a sheet has is whole.
ALLOWED_WHOLE = {
    anchored_to: ((17_600, 11_645, 1_100), (33_456, 69_007, 731), (30_960, 28_653, 1_135)),
    standing: ((50_654, 74_392, 950), (14_136, 34_802, 300), (61_146, 71_421, 1_185),
               (63_308, 19_982, 1_274), (13_330, 8_000, 1_000)),
}
ALLOWED_NEARLY_WHOLE = {    # less than a millionth of a psi off
    anchored_to: ((82_262, 45_360, 1_368), (75_242, 30_592, 1_766), (115_755, 45_503, 107),
                  (142_978, 66_713, 263)),
    standing: ((31_025, 32_128, 1_739), (59_725, 4_070, 1_643), (120_283, 73_285, 406),
               (67_525, 61_387, 786), (24_864, 46_133, 1_578), (30_063, 75_586, 1_921)),
}


def allowed_whole():
    for points in (ALLOWED_WHOLE, ALLOWED_NEARLY_WHOLE):
        for way, of_way in points.items():
            for D, H, t in of_way:
                yield answered(way(D, H, t))
                for near_t, near_D in ((t - 1, D), (t + 1, D), (t, D - 1), (t, D + 1)):
                    yield answered(way(near_D, H, near_t))


# --- Groups: the stress beside the allowed one --------------------------------


def stress_beside(sheet, letter):
    """Sheets with other figures for this letter, whose stress is the allowed one, as late as can
    be, and one psi more; or None, if there are no such two."""
    allowed = reply_on(sheet).allowed
    least, greatest = FIELD_RANGES[NUMBER_OF[letter]]
    while least < greatest:         # the greatest figure with which it holds
        middle = (least + greatest + 1) // 2
        if figures_on(changed(sheet, **{letter: middle})).exact_stress() <= allowed:
            least = middle
        else:
            greatest = middle - 1
    pair = [changed(sheet, **{letter: figure}) for figure in (least, least + 1)]
    if least == FIELD_RANGES[NUMBER_OF[letter]][1] \
            or [ceil(figures_on(one).exact_stress()) - allowed for one in pair] != [0, 1] \
            or any(compression.refusal_of(one, D100) for one in pair):
        return None
    return pair


BESIDE_FIGURES = (          # D, H and t
    *((D, H, t) for D, t in ((14_400, 250), (14_400, 100), (12_000, 187), (12_000, 750),
                             (12_000, 751), (60_000, 313), (31_999, 2_000), (20_000, 40),
                             (100_000, 100))
      for H in (28_800, 1_200, 76_800)),
    (32_000, 37_671, 433), (12_000, 25_114, 866), (12_000, 3_480, 60),      # whole arguments
    (239_671, 24_037, 1),                                   # an argument that 32 bits do not hold
)


def stress_at_allowed():
    """It holds at equality and falls short one psi past it, by W and by Ms."""
    for (D, H, t), way in product(BESIDE_FIGURES, WAYS):
        if way is anchored_to and H in (1_200, 76_800):
            continue        # the same as with another H
        base = way(D, H, t, W=50_000 if t > 1 else 1)
        for letter in ("W", "Ms"):
            pair = stress_beside(base, letter)
            if pair is not None:
                at, past = pair
                yield answered(at, "holds yes")
                yield answered(past, "holds no")


def exactly_allowed():
    """The exact stress, whole, is the exact allowed one, 19,995 psi where 16 t is D: so many pounds
    for 71, and the moment for the rest. A foot-pound to either side."""
    for t in (750, 1_000, 1_500, 2_000):
        D = 16 * t
        for W in range(71, 71 * 20_000, 71):
            left = 19_995 * 71 * t * D * D - 904 * 2_500 * D * W
            if left % PER_MOMENT == 0 and field_in_range(11, left // PER_MOMENT):
                Ms = left // PER_MOMENT
                for moment, holds in ((Ms - 1, "yes"), (Ms, "yes"), (Ms + 1, "no")):
                    yield answered(anchored_to(D, 28_800, t, W=W, Av=0, Ms=moment),
                                   f"allowed 19995 holds {holds}")
                break


# --- Groups: lift -------------------------------------------------------------

SHAKEN = (      # self-anchored, by their cap and by their root
    WHOLE_BY_CAP, WHOLE_BY_ROOT, SELF, changed(SELF, Av=500), changed(SELF, W=1),
    changed(SELF, W=10**7), changed(SELF, D=60_000), changed(SELF, plate=100, allowance=99),
    changed(with_widths(SELF, [9_600] * 8), H=76_800, D=12_000), changed(SELF, D=240_000),
    changed(SELF, H=1_200), changed(SELF, t=100, c=99),
)


def in_fifths(sheet):
    """The sheet with a weight for which T is a multiple of 200, so that 785 T / 1,000 is whole."""
    W = sheet.tank.W
    for weight in (*range(W, min(W + 3_000, 10**7 + 1)), *range(W, max(W - 3_000, 0), -1)):
        other = changed(sheet, W=weight)
        if resisting(other) % 200 == 0:
            return other
    return None


def lift_boundaries():
    """None at equality and 43 a foot-pound past it; an anchored tank with the same figures is
    answered."""
    equal = filter(None, map(in_fifths, SHAKEN))
    for sheet in (*SHAKEN, *equal):
        most = most_moment(sheet)
        yield answered(changed(sheet, Ms=most))
        if most > 0:
            yield answered(changed(sheet, Ms=most - 1))
        over = rounded_down(1_540 * resisting(sheet), 1_000)
        for Ms in (most + 1, over, over + 1):
            if field_in_range(11, Ms):
                yield refused(43, changed(sheet, Ms=Ms))
        yield answered(changed(sheet, Ms=within(11, most + 1))._replace(
            anchors=Anchors(N=6, B=sheet.tank.D, d=6)))
