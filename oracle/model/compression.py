"""Request S-6 of document 02: shell compression at the bottom course.

Written from the request, from document 01 for the units of the fields, and from the source
document that the request names, 003 (AWWA D100-11: Eq 13-39, 13-41 and 13-47 to 13-50, Sec.
3.4.3.1.1 for F_L). Every figure is an exact Fraction in D100's units: feet, inches, pounds, psi.
Three of them are rounded: the coefficient's argument, down to a ten-thousandth; the stress, up to
a psi; the allowed stress, down to a psi. Of the method (S-3), which is handed in as in judging,
the figures know nothing. With S-8 the water's pressure is multiplied by gravity. Document 01's
letters, but that t is a plate net of its allowance.
"""

from fractions import Fraction
from math import ceil, floor
from typing import NamedTuple

from model import judging
from model.fields import WATER
from model.filling_in import EMPTY, EXAMPLE, SELF_ANCHORED
from model.refusals import API_650, D100
from model.tank_rules import times_water

# --- Units of the fields, in those of D100 ------------------------------------


def feet(length):
    return Fraction(length, 1_200)


def inches(length):
    return Fraction(length, 100)


def inches_thick(plate):
    return Fraction(plate, 1_000)


def part_of_g(Av):
    return Fraction(Av, 1_000)


# --- The stress: Eq 13-39 and 13-41 -------------------------------------------

CIRCLE = Fraction(355, 113)
OF_ACCELERATION = Fraction("0.4")
OF_MOMENT = Fraction("1.273")


def weight_on_rim(W, D):
    """wt, "unreduced and unrounded"; document 01's W has the roof in it."""
    return W / (CIRCLE * feet(D))


def exact_stress(W, Av, Ms, D, t):
    vertical = 1 + OF_ACCELERATION * part_of_g(Av)
    by_moment = OF_MOMENT * Ms / feet(D) ** 2
    return (weight_on_rim(W, D) * vertical + by_moment) / (12 * inches_thick(t))


def stress(W, Av, Ms, D, t):
    return ceil(exact_stress(W, Av, Ms, D, t))


# --- F_L: Sec. 3.4.3.1.1 ------------------------------------------------------

MOST_ELASTIC = Fraction("0.0031088")    # of t / R, at which it is elastic still
MOST_INELASTIC = Fraction("0.0125")


def radius(D):
    """R, half of D."""
    return inches(D) / 2


def slenderness(t, D):
    """t / R."""
    return inches_thick(t) / radius(D)


def branch(t, D):
    """What controls buckling."""
    if slenderness(t, D) <= MOST_ELASTIC:
        return "elastic"
    if slenderness(t, D) <= MOST_INELASTIC:
        return "inelastic"
    return "plastic"


F_L = {     # of t / R
    "elastic": lambda ratio: 175 * 10**4 * ratio * (1 + 50_000 * ratio**2),    # 17.5 x 10^5
    "inelastic": lambda ratio: 5_775 + 738 * 10**3 * ratio,
    "plastic": lambda _ratio: Fraction(15_000),
}
BRANCHES = tuple(F_L)


def local_buckling(t, D):
    return F_L[branch(t, D)](slenderness(t, D))


# --- The coefficient: Eq 13-50 and the house rule -----------------------------

MODULUS = 29_000_000
PSI_BY_FOOT = Fraction("0.433")         # of water
ARGUMENT_PARTS = 10_000         # an entry's place is told in these
COEFFICIENT_PARTS = 100_000     # and the entry in these
LAST_ENTRY = 640                # for 0.0640


def pressure(H, gravity):
    """P, at the bottom."""
    return PSI_BY_FOOT * times_water(gravity) * feet(H)


def exact_argument(H, D, t, gravity=WATER):
    return pressure(H, gravity) / MODULUS / slenderness(t, D) ** 2


def argument(H, D, t, gravity=WATER):
    """In ten-thousandths, not limited."""
    return floor(ARGUMENT_PARTS * exact_argument(H, D, t, gravity))


def within_power_rule(coefficient, of_argument):
    """Whether it is at most Eq 13-50's; 0.84 is 21 / 25, and both sides are raised to the 25th."""
    return coefficient <= 0 \
        or coefficient**25 <= Fraction("0.72") ** 25 * Fraction(of_argument) ** 21


def is_entry(e, i):
    """ "the greatest whole e with (e / 100,000) to the 25th at most ..." """
    argument_there = Fraction(i, ARGUMENT_PARTS)
    return within_power_rule(Fraction(e, COEFFICIENT_PARTS), argument_there) \
        and not within_power_rule(Fraction(e + 1, COEFFICIENT_PARTS), argument_there)


def made_chart():
    """By whole numbers: e to the 25th times 10 to the 9th at most 72 to the 25th times i to the
    21st. The entries rise with i."""
    e = 0
    for i in range(LAST_ENTRY + 1):
        while 10**9 * (e + 1) ** 25 <= 72**25 * i**21:
            e += 1
        yield e


CHART = tuple(made_chart())
MOST_COEFFICIENT = CHART[LAST_ENTRY]


def entry(i):
    """ "above 0.0640 the last entry is used"."""
    return CHART[min(i, LAST_ENTRY)]


# --- The allowed stress: Eq 13-47 to 13-49 ------------------------------------


SEISMIC = Fraction("1.333")


def pressure_help(t, D, coefficient):
    """Half of Eq 13-49: the safety factor is 2.0."""
    return coefficient * MODULUS * slenderness(t, D) / 2


def exact_allowed(t, D, e):
    """Eq 13-47; with e of 0 it is Eq 13-48."""
    coefficient = Fraction(e, COEFFICIENT_PARTS)
    return SEISMIC * (local_buckling(t, D) + pressure_help(t, D, coefficient))


def allowed(t, D, e):
    return floor(exact_allowed(t, D, e))


# --- The question -------------------------------------------------------------


class Figures(NamedTuple):
    """What the question takes from a sheet."""
    W: int
    Av: int
    Ms: int
    D: int
    H: int
    t: int              # of the bottom course, net of its own allowance
    anchored: bool
    gravity: int = WATER

    def exact_stress(self):
        return exact_stress(self.W, self.Av, self.Ms, self.D, self.t)

    def argument(self):
        return argument(self.H, self.D, self.t, self.gravity)

    def exact_argument(self):
        return exact_argument(self.H, self.D, self.t, self.gravity)

    def coefficient(self):
        """ "Anchored tanks get no pressure help"."""
        return 0 if self.anchored else entry(self.argument())

    def exact_allowed(self):
        return exact_allowed(self.t, self.D, self.coefficient())

    def branch(self):
        return branch(self.t, self.D)


def figures_of(sheet):
    tank, site, bottom_course = sheet.tank, sheet.site, sheet.courses[0]
    return Figures(W=tank.W, Av=site.Av, Ms=site.Ms, D=tank.D, H=tank.H,
                   t=bottom_course.t - bottom_course.c, anchored=sheet.anchors.N > 0,
                   gravity=tank.gravity)


class Reply(NamedTuple):
    stress: int
    allowed: int
    holds: bool

    def stresses(self):
        return self.stress, self.allowed


def reply_to(figures):
    found, bound = ceil(figures.exact_stress()), floor(figures.exact_allowed())
    return Reply(found, bound, found <= bound)


def lift_of(sheet):
    """Of a self-anchored tank that judging does not refuse."""
    return judging.report_of(sheet, D100).standing.lift


def refusal_of(sheet, method):
    """Order: judge's own, 43."""
    refusal = judging.refusal_of(sheet, method)
    if refusal is not None:
        return refusal
    return (43, 0) if sheet.anchors.N == 0 and lift_of(sheet) != "none" else None


class Answer(NamedTuple):
    refusal: tuple | None
    reply: Reply | None


def ask(sheet, method):
    """The sheet as it is handed in."""
    refusal = refusal_of(sheet, method)
    return Answer(refusal, None if refusal is not None else reply_to(figures_of(sheet)))


# --- What is claimed of a reply -----------------------------------------------


def safely_rounded(figures, reply):
    """Each within a psi of its exact fraction, the stress not below it, the allowed one not
    above."""
    return reply.stress - 1 < figures.exact_stress() <= reply.stress \
        and reply.allowed <= figures.exact_allowed() < reply.allowed + 1 \
        and reply.holds == (reply.stress <= reply.allowed)


def within_printed(figures, reply):
    """ "The allowed stress is never above the printed equations up to 0.0640": the coefficient
    that would give just this allowed stress is at most Eq 13-50's. An anchored tank has none."""
    without = local_buckling(figures.t, figures.D)
    helped = reply.allowed / SEISMIC - without
    if figures.anchored:
        return helped <= 0
    of_argument = figures.exact_argument()
    coefficient = helped / pressure_help(figures.t, figures.D, 1)
    return of_argument > Fraction(LAST_ENTRY, ARGUMENT_PARTS) \
        or within_power_rule(coefficient, of_argument)


# --- The same in the sheet's units, as whole numbers; a cross-check -----------


def whole_stress(W, Av, Ms, D, t):
    return -(-8 * (113 * W * (2_500 + Av) * D + 1_355_745_000 * Ms) // (71 * t * D * D))


def whole_argument(H, D, t, gravity=WATER):
    return 433 * H * D * D * gravity // (139_200_000_000 * t * t)


def whole_allowed(t, D, e):
    helped = 29 * e * t
    if 125_000 * t <= 1_943 * D:
        return 1_333 * (350_000 * t * (D * D + 2_000 * t * t) + helped * D * D) // (1_000 * D**3)
    if 16 * t <= D:
        return 1_333 * (5_775 * D + 147_600 * t + helped) // (1_000 * D)
    return 1_333 * (15_000 * D + helped) // (1_000 * D)


def same_in_whole_numbers(figures, reply):
    W, Av, Ms, D, H, t, anchored, gravity = figures      # compression's own, not a sheet's
    i = whole_argument(H, D, t, gravity)
    e = 0 if anchored else CHART[i] if i < LAST_ENTRY else MOST_COEFFICIENT
    return (i, e) == (figures.argument(), figures.coefficient()) \
        and reply.stresses() == (whole_stress(W, Av, Ms, D, t), whole_allowed(t, D, e))


# --- Self test ----------------------------------------------------------------

# Of source document 003's Table 10: t / R in ten-thousandths to F_L, where it is printed right
TABLE_10 = {1: 175, 2: 351, 10: 1_838, 20: 4_200, 25: 5_742, 30: 7_612, 31: 8_032, 32: 8_137,
            33: 8_210, 50: 9_465, 80: 11_679, 100: 13_155, 124: 14_926, 125: 15_000}


def check_f_l():
    for parts, printed in TABLE_10.items():
        ratio = Fraction(parts, 10_000)
        controls = "elastic" if ratio <= MOST_ELASTIC else "inelastic"
        assert abs(F_L[controls](ratio) - printed) <= Fraction(1, 2), (parts, printed)
    # at 0.0125 the two sides meet, at 0.0031088 they do not
    assert F_L["inelastic"](MOST_INELASTIC) == F_L["plastic"](MOST_INELASTIC) == 15_000
    assert 0 < F_L["elastic"](MOST_ELASTIC) - F_L["inelastic"](MOST_ELASTIC) < Fraction(1, 10)
    for t, D, controls in ((1_943, 125_000, "elastic"), (1_943, 124_999, "inelastic"),
                           (1_944, 125_000, "inelastic"), (750, 12_000, "inelastic"),
                           (751, 12_000, "plastic"), (2_000, 31_999, "plastic")):
        assert branch(t, D) == controls
    assert slenderness(1_943, 125_000) == MOST_ELASTIC
    assert slenderness(750, 12_000) == MOST_INELASTIC


def check_chart():
    assert len(CHART) == 641 and all(is_entry(e, i) for i, e in enumerate(CHART))
    assert (CHART[0], CHART[1], MOST_COEFFICIENT) == (0, 31, 7_153)
    assert entry(640) == entry(641) == entry(2**64 - 1) == 7_153 > entry(639)
    # 0.0640 exactly, and a hundredth of an inch of water to either side
    assert exact_argument(37_671, 32_000, 433) == Fraction("0.0640")
    assert [argument(H, 32_000, 433) for H in (37_670, 37_671, 37_672)] == [639, 640, 640]


def check_example():
    """186.71, 11,113.89 and 13,632.63 psi before rounding."""
    figures = figures_of(EXAMPLE)
    assert figures == (11_000, 27, 30_000, 14_400, 28_800, 250, True, 1_000)
    assert ask(EXAMPLE, D100) == (None, (187, 11_113, True))
    standing = EXAMPLE._replace(anchors=SELF_ANCHORED)
    assert ask(standing, API_650) == (None, (187, 13_632, True))
    assert (argument(28_800, 14_400, 250), entry(297)) == (297, 3_753)
    # source document 002's sigma_c, its wt being 294.5153 pounds per foot: 421.7504 psi
    W = Fraction("294.5153") * CIRCLE * 12
    found = exact_stress(W, Fraction("89.6"), Fraction("108614.2967"), 14_400, 250)
    assert abs(found - Fraction("421.7504")) < Fraction(1, 1_000)


def check_gravity():
    """0.433 x 24 ft x 1.3 is 13.5096 psi. t / R is 1 / 288, so that the argument is 297.2 ten-
    thousandths by water and 386.4 with gravity 1,300; F_L is 8,337.5, and with half of 0.04678 x
    29,000,000 / 288 it is 10,692.7 psi, of which 1.333 make 14,253.4. The stress stays."""
    point = 28_800, 14_400, 250
    assert exact_argument(*point, 1_300) == exact_argument(*point) * Fraction("1.3")
    assert [argument(*point, gravity) for gravity in (1_000, 1_137, 1_300)] == [297, 337, 386]
    heavier = EXAMPLE._replace(tank=EXAMPLE.tank._replace(gravity=1_300))
    assert ask(heavier, D100) == ask(EXAMPLE, D100)         # anchored: no pressure help
    standing = heavier._replace(anchors=SELF_ANCHORED)
    assert entry(386) == 4_678 and ask(standing, D100) == (None, (187, 14_253, True))
    # 785 x 110,571 is 86,798,235: with water 74,297 is the last moment without lift
    for Ms, refusal in ((74_298, None), (86_798, None), (86_799, (43, 0))):
        shaken = standing._replace(site=EXAMPLE.site._replace(Ms=Ms))
        assert ask(shaken, D100).refusal == refusal
    # 0.0640 exactly, by 37,671 of water: 1.3 times as heavy, as much is had by 28,977.7
    assert [argument(H, 32_000, 433, 1_300) for H in (28_977, 28_978)] == [639, 640]
    # past 64 bits on the way: 433 x 76,800 x 240,000 squared x 1,300 is above 2 to the 64th
    assert argument(76_800, 240_000, 1, 1_300) == 433 * 76_800 * 240_000**2 * 13 // 1_392_000_000
    assert same_in_whole_numbers(figures_of(standing), ask(standing, D100).reply)


def check_refusals():
    standing = EXAMPLE._replace(anchors=SELF_ANCHORED)
    for Ms, refusal in ((74_297, None), (74_298, (43, 0)), (145_755, (43, 0))):
        shaken = EXAMPLE.site._replace(Ms=Ms)
        assert ask(standing._replace(site=shaken), D100).refusal == refusal
        assert ask(EXAMPLE._replace(site=shaken), D100).refusal is None
    assert ask(standing, 3) == ((42, 0), None)
    assert ask(EMPTY, D100) == ((32, 0), None)


def self_test():
    check_f_l()
    check_chart()
    check_example()
    check_gravity()
    check_refusals()
