"""Judging: the earthquake pull of request S-5, and readings of it that go astray."""

from fractions import Fraction
from itertools import product
from math import ceil, floor, gcd, trunc

from model import demand_3
from model.arithmetic import rounded_down, rounded_up
from model.demand_3 import WEIGHT_COUNTS
from model.fields import FIELD_RANGES, NUMBER_OF, field_in_range
from model.refusals import D100
from model.tank_rules import (
    BOLT_CHART, bolt_area, larger_pull, strength_verdict, weight_in_earthquake,
)
from vectors.judge_cases import (
    EXAMPLE, FIFTHS, TALL_FIFTHS, TALL_UPWARD, UPWARD, changed, handed_in, report_on, short, sound,
    sound_if,
)
from vectors.judge_equality import BREAKS
from vectors.leaf_points import beside
from vectors.leaf_texts import verdict_text
from vectors.random_sheets import most_borne

# --- Groups: the earthquake pull of request S-5 -------------------------------

ACCELERATIONS = (0, 1, 250, 500)


def fraction_weights(Av):
    """From 25,000 on, such that what is left in an earthquake is whole, next to it on either side,
    or has .2, .4, .6 or .8 behind it, as far as Av can make it so."""
    period = 2_500 // gcd(2_500, Av)
    fifths = (period * number // 5 for number in range(1, 5))
    return [25_000 + more for more in sorted({0, 1, *fifths, period - 1})]


def earthquake_pulls():
    """Just below -1, 0 and 1, at them or nearly, and just above, on FIFTHS with other Av: there a
    foot-pound moves the exact pull by a fifteenth, and a weight rounded first by up to a sixth."""
    for Av in ACCELERATIONS:
        for W, pull in product(fraction_weights(Av), (-1, 0, 1)):
            wind = rounded_up(UPWARD - W, 6)
            most = 15 * pull + rounded_down(W * (2_500 - Av), 1_000)
            for Ms in beside(most):
                yield sound(changed(FIFTHS, W=W, Av=Av, Ms=Ms),
                            f"anchored {wind} {pull + (Ms > most)}")


def with_exact_pull(sheet, pull, off):
    """The sheet with a W and an Ms that make its exact earthquake pull this whole one; with off -1
    or 1 the next below or above it that its Av, N and B permit. None if the ranges have no such W
    and Ms."""
    Av, N, B = sheet.site.Av, sheet.anchors.N, sheet.anchors.B
    # 12,000,000 Ms - (2,500 - Av) B W is 2,500 N B times the exact pull
    by_weight = (2_500 - Av) * B
    least = gcd(12_000_000, by_weight)
    by_pull = 2_500 * N * B * pull + off * least
    if by_pull % least != 0:
        return None
    period = 12_000_000 // least
    first = -(by_pull // least) * pow(by_weight // least, -1, period) % period
    for W in range(first, FIELD_RANGES[NUMBER_OF["W"]][1] + 1, period):
        Ms = (by_pull + by_weight * W) // 12_000_000
        if field_in_range(3, W) and field_in_range(11, Ms):
            found = changed(sheet, W=W, Ms=Ms)
            assert demand_3.exact_earthquake_pull(found) == Fraction(by_pull, 2_500 * N * B)
            return found
    return None


def earthquake_pulls_nearest():
    """The same, and off by as little as Av permits with this B: 1 / (N B) or less. N 192 makes
    whole pulls with each Av."""
    for Av, pull, off in product(ACCELERATIONS, (-30_000, -1, 0, 1), (-1, 0, 1)):
        sheet = with_exact_pull(changed(EXAMPLE, Av=Av, N=192, B=299_999), pull, off)
        yield sound(sheet, f"{pull + (off > 0)} holds")


def no_vertical_motion():
    """With Av 0 the figures are document 01's own, and the edges where they were without S-5."""
    still = changed(EXAMPLE, Av=0)
    yield sound(still, "wind 2123 73371 anchored 2133 -211")
    for Ms, pull in ((33_916, 0), (33_917, 1), (257_563, 12_089), (257_564, 12_090)):
        yield sound_if(pull < 12_090, changed(still, Ms=Ms), "strength", shows=f"2133 {pull}")
    yield sound(changed(still, B=22_918), "728 -786")
    yield short(changed(still, B=22_919), "spacing", shows="728 -786")
    yield sound(changed(still, W=18_345), "909 -1435")
    thirds = changed(still, V=96, B=14_400)     # 4,800 moment / B is a third of the moment
    yield sound(changed(thirds, Ms=62_208), "anchored 1623 1623")
    yield sound(changed(thirds, W=10_000_000, Ms=0), "anchored -1663210 -1666666")
    for d, pull in ((14, 37_905), (16, 49_875)):
        most = 3 * (6 * pull + 11_000)
        for Ms in beside(most):
            yield sound_if(Ms <= most, changed(thirds, d=d, Ms=Ms), "strength",
                           shows=f"{pull + (Ms > most)} holds")


def wind_pull_unmoved():
    """The same sheet with Av 0 and more: the wind pull stays, the earthquake pull grows."""
    for Av, earthquake in ((0, -211), (1, -210), (27, -191), (250, -28), (499, 155), (500, 155)):
        yield sound(changed(EXAMPLE, Av=Av), f"anchored 2133 {earthquake}")
    for sheet, wind, still, shaken in (
            (FIFTHS, 1_623, 167, 534),
            (changed(FIFTHS, W=10_000_000), -1_663_210, -1_664_666, -1_331_333),
            (changed(TALL_FIFTHS, d=16, W=69_390), 49_875, -9_565, -7_252),
            (changed(EXAMPLE, N=200, B=300_000, W=2_000_000), -9_994, -9_997, -7_997),
            (changed(EXAMPLE, W=25), 3_962, 1_618, 1_619)):
        yield sound(changed(sheet, Av=0), f"anchored {wind} {still}")
        yield sound(changed(sheet, Av=500), f"anchored {wind} {shaken}")


TURNS = (1, 27, 250, 500)       # of Av: with it the earthquake pull becomes the larger one


def turning(sheet, wind, turn):
    """FIFTHS or TALL_FIFTHS with the greatest Ms whose pull, with the Av before the turn, is a
    pound less than this wind pull."""
    left = rounded_down(sheet.tank.W * (2_501 - turn), 1_000)
    return changed(sheet, Ms=15 * (wind - 1) + left)


def shaken_about(sheet, turn):
    """Some Av, and the sheet with it; the earthquake pull is the larger one from the turn on."""
    for Av in sorted({0, turn - 1, turn, 500}):
        shaken = changed(sheet, Av=Av)
        wind, earthquake = report_on(shaken).standing.pulls()
        assert (wind > earthquake) == (Av < turn) and wind != earthquake
        yield Av, shaken


def strength_text(pull, A):
    return verdict_text(strength_verdict(pull, A))


def larger_pull_changes():
    """Up to an Av the wind pull is the larger one, from its turn on the earthquake pull is. That
    alone makes the strength fall short, and with it the tank, unless a course has done so already;
    or all holds, and only the use grows."""
    for d, turn in product(BOLT_CHART, TURNS):
        most = most_borne(d)
        sheet = turning(changed(TALL_FIFTHS, d=d, W=TALL_UPWARD - 6 * most), most, turn)
        for Av, shaken in shaken_about(sheet, turn):
            yield sound_if(Av < turn, shaken, "strength", shows=f"anchored {most}")
            if d == 8:
                rules = ("course 2",) if Av < turn else ("course 2", "strength")
                yield short(BREAKS["course 2"](shaken), *rules)
    for turn in TURNS:
        for _Av, shaken in shaken_about(turning(changed(FIFTHS, W=20_000), 123, turn), turn):
            larger = max(report_on(shaken).standing.pulls())
            yield sound(shaken, f"{strength_text(larger, 606)} uses")
    # both below 0, then the wind pull alone
    heavy = changed(FIFTHS, W=25_000, Ms=62_000)
    for Av, pull in ((0, 0), (500, 800)):
        yield sound(changed(heavy, Av=Av), f"{strength_text(pull, 606)} uses")


def strength_at_equality_in_earthquake():
    """1,000 pull is 19,950 A with what is left of 25,000 pounds, ten less for one more of Av."""
    for (d, pull), Av in product(((14, 37_905), (16, 49_875)), (1, 27, 250, 500)):
        most = 15 * pull + 25 * (2_500 - Av)
        equal = changed(FIFTHS, d=d, W=25_000, Av=Av, Ms=most)
        for Ms in (most - 15, most - 14, *beside(most), most + 15, most + 16):
            rounded = pull + rounded_up(Ms - most, 15)
            shows = "holds 3ff0000000000000 uses" if rounded == pull else f"{rounded} holds"
            yield sound_if(Ms <= most, changed(equal, Ms=Ms), "strength", shows=shows)
        for W in (24_999, 25_001):
            yield sound_if(W > 25_000, changed(equal, W=W), "strength")
        for acceleration in (Av - 1, Av + 1):
            if acceleration <= 500:
                yield sound_if(acceleration < Av, changed(equal, Av=acceleration), "strength")


def strength_nearest_in_earthquake():
    """Of each bolt size: the exact earthquake pull is the most that the rounded one may be, and as
    little less or more as the ranges permit; N is the greatest with which W and Ms are in them."""
    for d, Av, off in product(BOLT_CHART, (27, 497), (-1, 0, 1)):
        most = most_borne(d)
        base = changed(EXAMPLE, Av=Av, B=299_999, d=d)
        sheets = (with_exact_pull(changed(base, N=N), most, off) for N in range(200, 78, -1))
        sheet = next(filter(None, sheets))
        if off > 0:     # demand 3, with half of the pull's margin and with the whole weight
            halved = demand_3.given_margins(sheet)._replace(pull=Fraction(1, 2))
            assert demand_3.meets(sheet, D100, halved) == (19_950 * bolt_area(d) % 1_000 > 500)
            assert not demand_3.borne_out(changed(sheet, Av=0), D100, "short")
        yield sound_if(off <= 0, sheet, "strength", shows=f"{most + (off > 0)} holds")


def weights_that_count():
    """Sheets on which another weight in demand 3 would show (see demand_3.py), and the same with
    Av 0, all sound."""
    for sheet, _weight in WEIGHT_COUNTS:
        yield handed_in(sheet)
        yield sound(changed(sheet, Av=0))


# --- Readings of S-5, the right one and those that go astray ------------------


def whole_weight(W, _Av):
    return W


def rounded_first(rounding):
    return lambda W, Av: rounding(weight_in_earthquake(W, Av))


def reduced_by(factor):
    """With this factor in place of 4."""
    return lambda W, Av: W - W * Fraction(factor) * Av / 10_000


def exact_pull(moment, weight, B, N):
    return Fraction(4_800 * moment) / (N * B) - Fraction(weight) / N


def away_from_zero(pull):
    return ceil(pull) if pull > 0 else floor(pull)


def read_as(for_wind=whole_weight, for_earthquake=weight_in_earthquake, rounding=ceil):
    """The two pulls with these weights, the second one rounded so."""
    def pulls(M, Ms, W, Av, B, N):
        return ceil(exact_pull(M, for_wind(W, Av), B, N)), \
            rounding(exact_pull(Ms, for_earthquake(W, Av), B, N))
    return pulls


def rounded_twice(M, Ms, W, Av, B, N):
    """What pulls up, and what holds down."""
    return ceil(exact_pull(M, W, B, N)), \
        ceil(exact_pull(Ms, 0, B, N)) - floor(weight_in_earthquake(W, Av) / N)


RIGHT = read_as()
W_FOR_BOTH = read_as(for_earthquake=whole_weight)
WEIGHED_ASTRAY = {
    "W for both": W_FOR_BOTH,
    "reduced for both": read_as(for_wind=weight_in_earthquake),
    "reduced for the wind alone": read_as(weight_in_earthquake, whole_weight),
    **{f"{factor} Av for 4 Av": read_as(for_earthquake=reduced_by(factor))
       for factor in ("40", "10", "1", "4/10", "1/10", "-4")},
}
ROUNDED_ASTRAY = {
    "rounded down": read_as(rounding=floor),
    "rounded to the nearest": read_as(rounding=round),
    "rounded twice": rounded_twice,
    "the weight rounded down first": read_as(for_earthquake=rounded_first(floor)),
    "the weight rounded up first": read_as(for_earthquake=rounded_first(ceil)),
    "the weight rounded to the nearest first": read_as(for_earthquake=rounded_first(round)),
}
RIGHT_BELOW = {"cut toward zero": read_as(rounding=trunc)}
RIGHT_ABOVE = {"rounded away from zero": read_as(rounding=away_from_zero)}


def pulls_read(reading, result):
    """The two pulls of a judged sheet with anchors, if they are read so."""
    site, anchors = result.sheet.site, result.sheet.anchors
    return reading(result.report.M, site.Ms, result.sheet.tank.W, site.Av, anchors.B, anchors.N)


def told_apart(reading, results):
    """Those that show other pulls."""
    return [result for result in results
            if result.report.standing.pulls() != pulls_read(reading, result)]


def turned(reading, result):
    """Whether its strength would have the other verdict."""
    pull = larger_pull(*pulls_read(reading, result))
    return strength_verdict(pull, bolt_area(result.sheet.anchors.d)).holds \
        != result.report.standing.strength.holds
