""""The rules" of document 01, with requests S-3, S-4, S-5, S-7 and S-8 of document
02.

Every figure is first an exact Fraction, then rounded as the document says. Letters (D, H, W, ...)
are the document's; lengths are hundredths of an inch, plates mils, weights pounds, moments
foot-pounds, gravity thousandths of water's.
"""

from fractions import Fraction
from functools import cache
from math import ceil, floor

from model.arithmetic import Verdict, greatest_root, use_bits, verdict
from model.fields import WATER
from model.refusals import API_650, D100

# --- Request S-8 ---------------------------------------------------------------


@cache
def times_water(gravity):
    """What the need, the cap on wL and the water's pressure are multiplied by, in one fraction with
    the rest of each."""
    return Fraction(gravity, WATER)


def yield_in_root(Fy, gravity):
    """What Fy becomes in wL's root: "Fy x gravity / 1,000 rounded down". It is this whole number in
    demand 3 too."""
    return floor(Fraction(Fy * gravity, WATER))


# --- "The rules": hoop; requests S-3 and S-7 ----------------------------------

FOOT = 1_200
NEED_STEP = 5       # mils; S-7: "The mill now quotes in steps of 5"


def course_head(H, bottom_edge):
    """h: H less the height of the course's bottom edge, or 0."""
    return max(H - bottom_edge, 0)


def hoop_head(method, h):
    """What stands in the method's formula for h: by API 650 "(h - 1 ft)", and "zero when h is
    one foot or less"."""
    return max(h - FOOT, 0) if method == API_650 else h


def exact_hoop_need(h, D, s, E, gravity=WATER):
    """Mils; h as the method has it."""
    return Fraction(13 * h * D * gravity, 72 * s * E * WATER)


def hoop_need(h, D, s, E, gravity=WATER):
    """Without the allowance c. S-7: "rounded up to a multiple of 5 before the allowance is added,
    for D100 and API 650"; S-8: multiplied "before they are rounded"."""
    return NEED_STEP * ceil(exact_hoop_need(h, D, s, E, gravity) / NEED_STEP)


def house_floor(D):
    """S-7: "floors don't move", though two of them are no multiples of 5."""
    if D <= 60_000:
        return 188
    if D <= 144_000:
        return 250
    return 313


def required_plate(need, c, D):
    """The allowance goes on the hoop need, never on the floor; nothing is rounded after it."""
    return max(need + c, house_floor(D))


def course_verdict(required, t):
    return verdict(required, t)


# --- "The rules": wind; request S-4 -------------------------------------------

LEAST_PRESSURE = 1_800
STANDARD_KZ = 109
STANDARD_I = 115


def wind_pressure(Kz, I, V):
    """p, in hundredths of a psf."""
    return max(ceil(Fraction(6 * Kz * I * V * V, 390_625)), LEAST_PRESSURE)


def standard_site_pressure(V):
    """p on the standard site, of a speed that is not refused."""
    return wind_pressure(STANDARD_KZ, STANDARD_I, V)


def wind_moment(p, D, Hs):
    """M, in foot-pounds."""
    return ceil(Fraction(p * D * Hs * Hs, 345_600_000_000))


# --- "The rules": self-anchored; request S-8 -----------------------------------------------

def self_wind_verdict(M, W, D):
    return verdict(3_600 * M, W * D)


def shell_weight_on_rim(W, Av, D):
    """wt, in hundredths of a pound per foot."""
    return floor(Fraction(2_712_000 * W * (10_000 - 4 * Av), 710_000 * D))


def water_on_rim_root(tb, Fy, H, gravity=WATER):
    """wL before its cap; tb is the bottom plate less its allowance."""
    return greatest_root(12_000_000, 6_241 * tb * tb * yield_in_root(Fy, gravity) * H)


def water_on_rim_cap(H, D, gravity=WATER):
    return floor(Fraction(H * D * gravity, 11_250 * WATER))


def water_on_rim(tb, Fy, H, D, gravity=WATER):
    """wL, in hundredths of a pound per foot."""
    return min(water_on_rim_root(tb, Fy, H, gravity), water_on_rim_cap(H, D, gravity))


def resistance(D, wt, wL):
    """T, the moment that the rim's weights resist."""
    return floor(Fraction(D * D * (wt + wL), 144_000_000))


def uplift(Ms, T):
    if 1_000 * Ms <= 785 * T:
        return "none"
    if 1_000 * Ms <= 1_540 * T:
        return "lift"
    return "over"


def self_earthquake_verdict(Ms, T):
    """Holds unless "over"; the use is 1,000 Ms over 1,540 T."""
    return Verdict(uplift(Ms, T) != "over", use_bits(1_000 * Ms, 1_540 * T))


# --- "The rules": anchored; request S-5 ---------------------------------------

BOLT_CHART = {  # d in eighths of an inch to A in thousandths of a square inch
    6: 334, 7: 462, 8: 606, 9: 763, 10: 969, 11: 1155, 12: 1405, 14: 1900, 16: 2500,
}


def bolt_area(d):
    """A, or 0 if the chart does not have this size."""
    return BOLT_CHART.get(d, 0)


def weight_in_earthquake(W, Av):
    """What is left of W on the anchors, in pounds; S-5 rounds once, in the pull."""
    return Fraction(W * (10_000 - 4 * Av), 10_000)


def net_pull(overturning_moment, weight, B, N):
    """Per anchor, up positive, rounded toward the greater number. The weight is W for the wind;
    for the earthquake it may be a fraction."""
    return ceil(Fraction(4_800 * overturning_moment - weight * B, N * B))


def larger_pull(wind_pull, earthquake_pull):
    """The larger of the two, or 0 if it is negative."""
    return max(wind_pull, earthquake_pull, 0)


def spacing_verdict(B, N):
    return verdict(355 * B, 1_356_000 * N)


def strength_verdict(pull, A):
    return verdict(1_000 * pull, 19_950 * A)


# --- Self test: request S-8, by hand ------------------------------------------


def check_gravity():
    """On the example tank the exact need of its first course, 58.7294, is 76.3482 with gravity
    1,300 and 66.7753 with 1,137; the cap is 36,864 x 1.3 = 47,923.2 and x 1.137 = 41,914.368; the
    root is that of 6,241 x 62,500 x 46,800 x 28,800 / 12,000,000, which is 43,811,820,000."""
    course = 28_800, 14_400, 15_000, 85
    assert [hoop_need(*course, gravity) for gravity in (1_000, 1_021, 1_022, 1_137, 1_300)] \
        == [60, 60, 65, 70, 80]         # 58.7294 x 1.021 is 59.963, x 1.022 is 60.021
    assert exact_hoop_need(28_800, 14_400, 15_000, 85, 1_300) == Fraction(1_297_920, 17_000)
    assert [water_on_rim_cap(28_800, 14_400, gravity) for gravity in (1_000, 1_137, 1_300)] \
        == [36_864, 41_914, 47_923]
    assert [water_on_rim_root(250, 36_000, 28_800, gravity) for gravity in (1_000, 1_300)] \
        == [183_579, 209_312] and 209_312**2 <= 43_811_820_000 < 209_313**2
    # the yield is rounded by itself, down: 30,001 x 1.137 is 34,111.137, 30,007 x 1.137 is
    # 34,117.959; without gravity nothing is rounded
    for Fy, gravity, rounded in ((36_000, 1_300, 46_800), (30_001, 1_137, 34_111),
                                 (30_007, 1_137, 34_117), (50_000, 1_300, 65_000),
                                 (49_999, 1_001, 50_048), (41_321, 1_000, 41_321)):
        assert yield_in_root(Fy, gravity) == rounded
    # by the unrounded 34,117.959 this root would be 178,716
    assert water_on_rim_root(250, 30_007, 28_800, 1_137) == 178_713
    # 13 x 720 x 25,000 / (72 x 13,000 x 50) is 5 just
    assert [hoop_need(720, 25_000, 13_000, 50, gravity) for gravity in (1_000, 1_001)] == [5, 10]
    # the largest: 6,656 x 1.3 is 8,652.8, by API 650 6,552 x 1.3 is 8,517.6; 1,638,400 x 1.3
    assert hoop_need(76_800, 240_000, 10_000, 50, 1_300) == 8_655
    assert hoop_need(hoop_head(API_650, 76_800), 240_000, 10_000, 50, 1_300) == 8_520
    assert water_on_rim_cap(76_800, 240_000, 1_300) == 2_129_920
    for H, D, Fy in ((28_800, 14_400, 36_000), (31_234, 18_001, 41_321), (1_201, 12_345, 30_001)):
        point = H, D, 12_345, 61
        assert exact_hoop_need(*point, 1_000) == exact_hoop_need(*point)
        assert hoop_need(*point, 1_000) == hoop_need(*point)
        assert water_on_rim(250, Fy, H, D, 1_000) == water_on_rim(250, Fy, H, D) \
            == min(greatest_root(12_000_000, 6_241 * 62_500 * Fy * H), H * D // 11_250)


# --- Self test: "The example tank", "Cases on that tank" ----------------------

def self_test():
    check_gravity()
    D, H, W, tb, Fy = 14_400, 28_800, 11_000, 250 - 0, 36_000
    V, Kz, I, Av, Ms = 105, 109, 115, 27, 30_000
    N, B, d = 6, 14_800, 8
    width, t, c, s, E = 9_600, 250, 0, 15_000, 85
    Hs = 3 * width

    # course lines; S-7: "The example's 59, 40, 20 become 60, 40, 20"
    heads = [course_head(H, number * width) for number in range(3)]
    needs = [hoop_need(h, D, s, E) for h in heads]
    assert heads == [28_800, 19_200, 9_600]
    assert [ceil(exact_hoop_need(h, D, s, E)) for h in heads] == [59, 40, 20]
    assert needs == [60, 40, 20]
    for need in needs:
        required = required_plate(need, c, D)
        assert required == 188
        assert course_verdict(required, t).holds

    # wind line
    p = wind_pressure(Kz, I, V)
    M = wind_moment(p, D, Hs)
    assert (p, M) == (2_123, 73_371)
    assert wind_pressure(Kz, I, 96) == 1_800
    assert wind_pressure(Kz, I, 97) == 1_812
    assert [standard_site_pressure(speed) for speed in (96, 97, 105)] == [1_800, 1_812, 2_123]

    # pull and anchor lines; S-5: "second pull goes from -211 to -191"
    left = weight_in_earthquake(W, Av)
    assert left == Fraction("10881.2") and weight_in_earthquake(W, 0) == W
    pulls = (net_pull(M, W, B, N), net_pull(Ms, left, B, N))
    assert pulls == (2_133, -191)
    assert net_pull(Ms, weight_in_earthquake(W, 0), B, N) == net_pull(Ms, W, B, N) == -211
    assert bolt_area(d) == 606
    assert spacing_verdict(B, N).holds
    assert strength_verdict(larger_pull(*pulls), bolt_area(d)).holds
    assert spacing_verdict(22_918, N).holds
    assert not spacing_verdict(22_919, N).holds

    # with N = 0: self wind short resist 94646 none
    wt = shell_weight_on_rim(W, Av, D)
    wL = water_on_rim(tb, Fy, H, D)
    T = resistance(D, wt, wL)
    assert water_on_rim_root(tb, Fy, H) == 183_579
    assert water_on_rim_cap(H, D) == 36_864 == wL
    assert T == 94_646
    assert not self_wind_verdict(M, W, D).holds
    assert not self_wind_verdict(M, 18_342, D).holds
    assert self_wind_verdict(M, 18_343, D).holds
    lifts = ((Ms, "none"), (74_297, "none"), (74_298, "lift"), (145_754, "lift"), (145_755, "over"))
    for moment, lift in lifts:
        assert uplift(moment, T) == lift
        assert self_earthquake_verdict(moment, T).holds == (lift != "over")

    # the other cases
    assert (house_floor(60_000), house_floor(60_001)) == (188, 250)
    assert (house_floor(144_000), house_floor(144_001)) == (250, 313)
    # S-3: "The tank in source document 002 ... needs 49, 32 and 15 mils", by D100 51, 34 and 17;
    # S-7: "the consultant's 49, 32, 15 become 50, 35, 15"
    for method, in_mils, in_steps in ((API_650, [49, 32, 15], [50, 35, 15]),
                                      (D100, [51, 34, 17], [55, 35, 20])):
        points = [(hoop_head(method, h), D, 21_000, 70) for h in heads]
        assert [ceil(exact_hoop_need(*point)) for point in points] == in_mils
        assert [hoop_need(*point) for point in points] == in_steps
    assert [hoop_head(API_650, h) for h in (0, 1_199, 1_200, 1_201, 28_800)] == [0, 0, 0, 1, 27_600]
    # S-7: a need of 0 stays, and so do exact ones of 5 and 65; what is past them is a step more
    for point, need in (((0, 12_000, 10_000, 50), 0), ((1, 12_000, 40_000, 100), 5),
                        ((1_500, 12_000, 10_000, 65), 5), ((1_501, 12_000, 10_000, 65), 10),
                        ((749, 240_000, 10_000, 50), 65), ((750, 240_000, 10_000, 50), 65),
                        ((751, 240_000, 10_000, 50), 70), ((75_600, 240_000, 10_000, 50), 6_555),
                        ((76_800, 240_000, 10_000, 50), 6_660)):
        assert hoop_need(*point) == need, (point, need)
    # the required plate is no multiple of 5 unless the allowance or the floor makes it one
    for need, c, D, required in ((60, 128, 14_400, 188), (60, 129, 14_400, 189),
                                 (0, 250, 60_000, 250), (0, 189, 60_000, 189),
                                 (185, 3, 60_000, 188), (185, 4, 60_000, 189),
                                 (245, 5, 60_001, 250), (250, 1, 144_000, 251),
                                 (310, 3, 144_001, 313), (310, 4, 144_001, 314)):
        assert required_plate(need, c, D) == required
