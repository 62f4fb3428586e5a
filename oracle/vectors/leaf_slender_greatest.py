"""Request S-9: the greatest moment, from just below to far past it, and moments far above the
unrounded figure; the answer said by hand. The figures were searched for once, as those of
leaf_slender_moments.py; what is said of them is checked below.
"""

from math import isqrt

from model.slender import MOST_MOMENT, exact_square, rounded
from vectors.leaf_slender_cases import (
    GREATEST, LOWEST, WIDEST, comes_to, figures_of, gets_moment, refused, with_turning,
)
from vectors.leaf_slender_moments import sum_of_squares

# --- The greatest moment ------------------------------------------------------

LAST = (            # tanks, with what Ws x Xs + Wr x Xr may be and the moment be 1,000,000,000
    ("12000 20000 1000 1 76583 1 66592 1000 0", 1_199_370_105_744),      # the impulsive one alone
    ("60000 76800 1300 1 66219 1 68780 1000 0", 922_925_649_720),
    ("90000 70000 1150 1 57673 1 74871 900 0", 980_091_002_473),
    ("102374 76800 1300 1 62421 1 73789 1000 0", 594_166_311_876),
    ("12000 12000 1000 1 76680 1 52067 1000 1000", 1_199_813_272_200),   # both
    ("45000 60000 1066 1 72652 1 52819 1000 300", 1_120_760_457_960),
    ("80000 76000 1200 1 69880 1 52109 950 1000", 833_004_487_452),
    ("101842 76689 1283 1 68971 1 64950 1000 1000", 398_487_484_043),
    ("101241 76787 1047 1 75044 1 69703 1000 1000", 588_601_439_639),
)


def most_moment():
    """1,000,000,000, and one more: reached by shell and roof with the impulsive water alone, and with
    the convective moment. That one alone stays far below: see `convective_alone`."""
    for figures, turning in LAST:
        yield comes_to(with_turning(figures_of(figures), turning), 1_000_000_000)
        yield refused(45, with_turning(figures_of(figures), turning + 1))
        yield comes_to(with_turning(figures_of(figures), turning - 1_500), 999_999_999)


SQUARE_OF_MOST = (  # the sum of squares is just 10 to the 18th
    "87144 65738 1184 7435554 73777 5693858 76800 900 1000",        # 960,000,000 and 280,000,000
    "54337 66946 1299 9684011 75440 3853803 76800 1000 1000",       # 997,120,000 and 75,840,000
)
ONE_PAST_SQUARE = ( # it is one more than that
    "77460 70739 1108 8288247 73453 6044790 76800 866 1000",        # 980,198,020 and 198,019,801
    "82033 63287 1053 8325479 56858 6302200 76800 1000 1000",       # 979,800,020 and 199,979,801
    "17674 66112 1008 9640122 73332 7368953 76800 930 1000",        # 999,998,000 and 1,999,999
)


def square_of_most():
    """One less is no sum of two squares: 7 divides 10 to the 18th less 1, and 49 doesn't."""
    for figures in SQUARE_OF_MOST:
        yield comes_to(figures_of(figures), 1_000_000_000)
    for figures in ONE_PAST_SQUARE:
        yield refused(45, figures_of(figures))


UNROUNDED_MOST = (  # Ac is 0, and the unrounded impulsive moment is just 1,000,000,000
    "60000 45180 1000 7627849 64353 9812067 66609 1000 0",          # 3,277,466.8 pounds of water
    "60000 45406 1000 6907061 73294 8677449 73459 1000 0",
    "60000 45632 1000 9560285 67798 6955509 71130 1000 0",
)
WHOLE_MOST = (      # so it is here, and the weight of the water is whole
    "60000 45172 1000 7856772 71099 8848859 66208 1000 0",          # 3,276,650 pounds
    "60000 45398 1000 8743350 61656 8980765 67325 1000 0",
)


def unrounded_most():
    """A pound of water that is rounded up makes 1,000,000,003 of it."""
    for figures in UNROUNDED_MOST:
        yield refused(45, figures_of(figures))
    for figures in WHOLE_MOST:
        yield comes_to(figures_of(figures), 1_000_000_000)


def convective_alone():
    """The greatest: 9,098,525 pounds at 64 ft. Shell and roof have no part in it."""
    greatest = GREATEST._replace(D=WIDEST, Ai=0)
    yield comes_to(greatest, 582_305_600)
    yield comes_to(greatest._replace(Ws=1, Xs=0, Wr=1, Xr=0), 582_305_600)
    for gravity, Ac in ((1_000, 1_000), (1_299, 1_000), (1_300, 999), (1_001, 1)):
        yield gets_moment(greatest._replace(gravity=gravity, Ac=Ac))


def largest():
    """The largest of everything, and of one thing or two: sums that need 64 bits and products that
    need more."""
    everything = GREATEST._replace(D=WIDEST)
    yield refused(45, everything)
    yield refused(44, GREATEST)
    yield comes_to(everything._replace(Ws=1, Xs=0, Wr=1, Xr=0), 770_691_153)
    yield comes_to(everything._replace(Ws=1, Xs=0, Wr=1, Xr=0, Ac=0), 504_861_407)
    yield refused(45, everything._replace(Wr=1, Xr=0, Ac=0))            # 1,144,861,407
    yield refused(45, everything._replace(Ws=1, Xs=0, Ac=0))
    yield comes_to(everything._replace(D=12_000, Wr=1, Xr=0, Ac=0), 652_233_447)
    yield refused(45, everything._replace(D=12_000))
    yield refused(45, everything._replace(D=12_000, H=LOWEST))
    for name, least in (("gravity", 1_000), ("Ws", 1), ("Xs", 0), ("Wr", 1), ("Xr", 0), ("Ac", 0)):
        yield refused(45, everything._replace(**{name: least}))
    for Ai in (1, 400, 500, 530):
        yield gets_moment(everything._replace(Ai=Ai, Ac=0))
        yield gets_moment(everything._replace(D=12_000, Ai=Ai))


# --- Far above the unrounded figure -------------------------------------------

FAR_ABOVE = (       # the moment, and how far it is above in thousandths, rounded down
    (197_723_460, 65_930, "76312 76772 1066 1 0 1 0 10 1000"),
    (701_555_965, 66_302, "101988 76780 1194 379 76652 1 212 1000 1000"),
    (701_540_234, 66_301, "101988 76780 1194 5 67064 1 0 1000 1000"),
    (603_780_742, 66_295, "102164 76679 1026 1 2095 1 0 1000 1000"),
    (605_201_541, 66_267, "101241 76787 1047 1 69240 1 0 1000 1000"),
    (749_849_129, 66_252, "101842 76689 1283 1 46044 1 0 1000 1000"),
)


def far_above():
    """Weights, moments and root each rounded by nearly all that they can be. The convective moment
    goes up by less than 65 ft-lb, the impulsive one by less than 25 where the convective one weighs
    most, the root by less than 1; by the shares of both moments in the root, some 66.5 in all."""
    for moment, _above, figures in FAR_ABOVE:
        yield comes_to(figures_of(figures), moment)


GROUPS = (most_moment, square_of_most, unrounded_most, convective_alone, largest, far_above)


# --- Self test: what each group is there for ----------------------------------


def check_most():
    """Those that are refused though the unrounded figure is at most 1,000,000,000, and just that; of
    the roots, those that are more by less than a binary fraction of 53 bits tells."""
    heavy = [asked.figures for asked in (*most_moment(), *unrounded_most())
             if asked.said == "refused 45 0"]
    squares = [exact_square(figures) for figures in heavy]
    assert all(square <= MOST_MOMENT**2 for square in squares)
    assert squares.count(MOST_MOMENT**2) == len(UNROUNDED_MOST)
    one_past = [figures for figures in heavy if rounded(figures).moment == MOST_MOMENT + 1]
    assert {figures.Ac > 0 for figures in one_past} == {False, True} and len(one_past) == len(LAST)
    for figures in UNROUNDED_MOST:
        assert rounded(figures_of(figures)).moment == 1_000_000_003
    for figures in WHOLE_MOST:
        assert exact_square(figures_of(figures)) == MOST_MOMENT**2
    for table, more in ((SQUARE_OF_MOST, 0), (ONE_PAST_SQUARE, 1)):
        assert all(sum_of_squares(figures_of(figures)) == 10**18 + more for figures in table)
    tanks = [(figures.D, figures.H) for figures in map(figures_of, (one for one, _turning in LAST))]
    assert len({*tanks}) == len(LAST)
    assert rounded(GREATEST._replace(D=WIDEST)).moment == 1_877_447_751


def thousandths_above(figures):
    """Rounded down, by squares."""
    moment, square = rounded(figures).moment, exact_square(figures)
    root = isqrt(square.numerator * 10**6 // square.denominator)    # in thousandths, down
    above = 1_000 * moment - root
    return above if root * root == square * 10**6 else above - 1


def check_far_above():
    for moment, above, figures in FAR_ABOVE:
        assert rounded(figures_of(figures)).moment == moment
        assert thousandths_above(figures_of(figures)) == above, thousandths_above(figures_of(figures))


def self_test():
    check_most()
    check_far_above()
