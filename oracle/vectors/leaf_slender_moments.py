"""Request S-9: moments with the answer said by hand: plain ones, roots, and what is whole.

Figures that no hand would find, such as those of a sum of squares that is a square, were searched
for once; what is said of them is checked below. Moments of the example tank with another gravity or
other heights are the model's, stored.
"""

from model.slender import (
    Figures, convective_moment, exact_convective_weight, exact_impulsive_weight, exact_square,
    impulsive_moment, rounded,
)
from vectors.leaf_slender_cases import (
    EXAMPLE, GREATEST, HEAVIEST, LOWEST, WIDEST, comes_to, figures_of, gets_moment, refused,
)

# --- Plain ones ---------------------------------------------------------------


def stated():
    """The two of the model's self test, and document 01's tank: 169,374.58 pounds of water; 150,913
    at 10.872 ft and 19,479 at 24 ft. 1,808,726.1 by 0.150 is 271,308.9; 28,049.76."""
    yield comes_to(figures_of("12,000 12,000 1,000 5,000 7,200 1,000 14,400 200 50"), 39_920)
    yield comes_to(figures_of("12,000 12,000 1,130 5,000 7,200 1,000 14,400 200 50"), 44_031)
    yield comes_to(EXAMPLE, 272_756)
    yield comes_to(EXAMPLE._replace(gravity=1_300), 347_063)


def zeros():
    """An acceleration of 0 leaves the other's moment, two leave nothing: no 45 either, but 44."""
    yield comes_to(EXAMPLE._replace(Ac=0), 271_309)
    yield comes_to(EXAMPLE._replace(Ai=0), 28_050)
    yield comes_to(EXAMPLE._replace(Ai=0, Ac=0), 0)
    yield comes_to(HEAVIEST._replace(Ai=0, Ac=0), 0)
    yield refused(45, HEAVIEST._replace(Ac=0))
    yield comes_to(HEAVIEST._replace(Ai=0), 467_496)            # 19,479 x 24
    yield comes_to(GREATEST._replace(D=WIDEST, Ai=0, Ac=0), 0)
    yield refused(44, GREATEST._replace(D=WIDEST + 1, Ai=0, Ac=0))
    yield refused(44, EXAMPLE._replace(D=28_800, H=14_400, Ai=0, Ac=0))
    for Ai, Ac in ((1, 0), (0, 1), (1, 1), (999, 1_000), (1_000, 999), (1_000, 1_000)):
        yield gets_moment(EXAMPLE._replace(Ai=Ai, Ac=Ac))


def heights():
    """0; at the level and above it, as high as 64 ft over a level of 9 ft or less; the roof below the
    shell. The example's shell turns with 96,000 less without a height, its roof with 72,000."""
    yield comes_to(EXAMPLE._replace(Xs=0), 258_436)
    yield comes_to(EXAMPLE._replace(Xr=0), 262_015)
    yield comes_to(EXAMPLE._replace(Xs=0, Xr=0), 247_703)
    yield comes_to(EXAMPLE._replace(Xs=28_801, Xr=28_802), 287_085)
    yield comes_to(EXAMPLE._replace(Xs=76_800, Xr=76_800), 352_826)
    low = EXAMPLE._replace(D=12_000, H=LOWEST)
    for Xs, Xr in ((0, 0), (0, LOWEST), (LOWEST, 0), (LOWEST, LOWEST + 1), (LOWEST + 1, LOWEST),
                   (76_800, 0), (0, 76_800), (76_800, 76_800), (1, 1)):
        yield gets_moment(low._replace(Xs=Xs, Xr=Xr))


def gravities():
    """The example's: 169,374.58 pounds by gravity."""
    for gravity, moment in ((1_001, 273_004), (1_130, 304_956), (1_137, 306_689), (1_299, 346_816)):
        yield comes_to(EXAMPLE._replace(gravity=gravity), moment)
    for gravity in (1_000, 1_001, 1_150, 1_300):
        for D, H in ((12_000, LOWEST), (WIDEST, 76_800), (12_000, 76_800), (48_000, 40_000)):
            yield gets_moment(EXAMPLE._replace(D=D, H=H, gravity=gravity))


def small():
    """No moment but 0 is smaller than the first: 26,085 pounds at 2.8115 ft or more, and 11,273 at
    7.5025 ft, by a thousandth. Below 100 the result less 100 is below 0."""
    least = Figures(12_000, LOWEST, 1_000, 1, 0, 1, 0, 1, 0)
    yield comes_to(least, 74)
    yield comes_to(least._replace(Ai=0, Ac=1), 85)
    yield comes_to(least._replace(Ac=1), 113)
    yield comes_to(least._replace(Xs=76_800, Xr=76_800, Ac=1), 113)
    yield comes_to(least._replace(Ai=0), 0)
    for Ws, Xs in ((100, 76_800), (1_000, 1_200), (10_000, 2_400), (412, 75_123)):
        yield gets_moment(least._replace(Ws=Ws, Xs=Xs))


# --- Roots --------------------------------------------------------------------

SQUARES = (         # the sum of the squares of both moments is the square of the first number
    (348, "13226 10013 1000 1750 17190 2580 48319 1 2"),
    (877, "12001 9250 1000 26127 14801 2676 381 2 4"),
    (5_186, "16122 14740 1000 78085 43217 1644 34586 1 12"),
    (9_950, "14988 11321 1222 6689 37952 179 3193 22 11"),
    (27_135, "14618 13134 1000 8890 6212 1367 37935 62 73"),
    (76_214, "13676 13035 1019 289 50722 223 35594 253 218"),
    (230_555, "15636 18209 1271 186918 59860 2498 1594 22 118"),
    (963_460, "23916 22468 1000 16062 68320 536 27267 255 346"),
    (4_590_750, "13507 13487 1185 119530 48875 1879 33838 880 312"),
    (8_497_045, "32377 37329 1000 4975616 7791 346 8518 134 888"),
    (31_549_076, "32377 37329 1000 8303530 31194 1666 9041 136 888"),
    (62_835_335, "32377 37329 1000 2088498 49755 2629 8608 636 888"),
    (295_149_725, "32377 37329 1000 4879181 69665 2398 57123 1000 888"),
    (640_636_685, "32377 37329 1000 9963957 75740 34 11326 1000 888"),
)
ONE_MORE = (        # it is one more than that square; the root goes up by one
    (388, "12636 10542 1000 273 36193 429 76032 2 2"),
    (852, "12531 10021 1193 909 48665 882 13131 4 4"),
    (6_397, "13415 10239 1058 28096 48798 882 13164 4 27"),
    (45_632, "13676 13035 1019 12901 35213 897 21436 34 218"),
    (90_291, "14618 13134 1000 1107 58992 475 7618 279 73"),
    (540_628, "15636 18209 1271 25724 37577 2226 4723 327 118"),
    (975_052, "15636 18209 1271 3489 47265 326 22457 1000 118"),
    (9_996_744, "32377 37329 1000 115109 59326 2007 76316 451 888"),
    (97_219_812, "32377 37329 1000 4808018 44367 760 41855 512 888"),
    (745_519_420, "32377 37329 1000 3100754 54379 9269776 76800 1000 888"),
    (985_571_544, "32377 37329 1000 8800532 75520 6562349 76800 1000 888"),
)
ONE_LESS = (        # it is one less; the root is this all the same
    (179, "12538 10564 1000 23616 878 42 21352 1 1"),
    (521, "12950 11141 1000 1358 66833 2150 18158 2 1"),
    (8_211, "12204 11096 1038 46984 3932 2229 62327 19 25"),
    (71_571, "13516 10736 1000 4738 6328 2030 45547 144 435"),
    (432_801, "15636 18209 1271 11044 54537 332 63111 318 118"),
    (3_948_931, "13507 13487 1185 75362 58099 653 8792 1000 312"),
    (7_043_283, "25773 24806 1000 63072 75202 1488 19683 1000 397"),
    (54_414_323, "13507 13487 1185 1627252 53715 468 7028 744 312"),
    (446_197_283, "13507 13487 1185 9355127 60207 1752 11211 950 312"),
    (865_909_443, "25773 24806 1000 9098129 69315 5271436 76800 1000 397"),
)


def whole_roots():
    """No foot-pound more than the root."""
    for root, figures in SQUARES:
        yield comes_to(figures_of(figures), root)


def beside_whole_roots():
    for root, figures in ONE_MORE:
        yield comes_to(figures_of(figures), root + 1)
    for root, figures in ONE_LESS:
        yield comes_to(figures_of(figures), root)


# --- Rounding that changes nothing --------------------------------------------


def whole_weights():
    """Both weights whole, with gravity 113 times 9 or 10 against the circle's 113; one of them whole;
    and a level or a gravity more."""
    for figures in ("40000 30020 1017", "80000 60020 1017", "60000 45016 1130",     # both
                    "60000 45172 1000", "30000 22812 1000", "48000 36228 1000"):    # impulsive
        tank = figures_of(f"{figures} 8000 14400 3000 28800 1000 1000")
        for near in (tank, tank._replace(H=tank.H + 1), tank._replace(gravity=tank.gravity + 1)):
            yield gets_moment(near)
    for D, gravity in ((40_000, 1_017), (80_000, 1_017), (60_000, 1_130)):      # convective
        yield gets_moment(EXAMPLE._replace(D=D, H=70_001, gravity=gravity))


UNROUNDED = (       # weights, moments and root are whole: the moment is the unrounded figure
    (24_707_290, "40000 34400 1017 307130 53809 4523150 55445 100 600"),
    (171_220_010, "80000 69450 1017 9932628 61278 6083446 57991 100 700"),
    (223_024_783, "60000 75568 1130 84884 66627 22745 72980 1000 1000"),
    (270_686_080, "80000 71680 1017 6418177 55742 6055502 71543 250 750"),
    (309_920_630, "80000 72780 1017 8238580 59689 5301900 61247 250 1000"),
    (593_406_505, "80000 72320 1017 2797948 62351 6611357 59776 800 750"),
)


def whole_moments():
    """All whole; each of them again with a shell that is a pound heavier. The first of them, which
    turns with 236,033,820 foot-pounds, by some Ai alone, where an f64 may end just above. Then a
    moment that is whole by its rounded weight: 11,273 x 10 ft by 0.100; 38,325 x 4.06 ft and the half
    foot-pound of a shell of one pound."""
    for moment, figures in UNROUNDED:
        yield comes_to(figures_of(figures), moment)
        heavier = figures_of(figures)
        yield gets_moment(heavier._replace(Ws=heavier.Ws + 1))
    _moment, turning = UNROUNDED[0]
    for Ai, moment in ((50, 11_801_691), (100, 23_603_382), (200, 47_206_764), (500, 118_016_910),
                       (850, 200_628_747), (1_000, 236_033_820)):
        yield comes_to(figures_of(turning)._replace(Ai=Ai, Ac=0), moment)
    tank = figures_of("12000 12000 1000 1 0 1 0 0 100")
    yield comes_to(tank, 11_273)
    yield comes_to(tank._replace(Ac=101), 11_386)           # 11,385.73
    tank = tank._replace(Xs=600, Ai=1_000, Ac=0)
    yield comes_to(tank, 155_600)                           # 155,599.5 and 0.5
    yield comes_to(tank._replace(Xs=601), 155_601)
    yield comes_to(tank._replace(Xs=0), 155_600)


GROUPS = (stated, zeros, heights, gravities, small, whole_roots, beside_whole_roots, whole_weights,
          whole_moments)


# --- Self test: what each group is there for ----------------------------------


def sum_of_squares(figures):
    return rounded(figures).impulsive_moment**2 + rounded(figures).convective_moment**2


def check_roots():
    for table, more in ((SQUARES, 0), (ONE_MORE, 1), (ONE_LESS, -1)):
        for root, figures in table:
            found = rounded(figures_of(figures))
            assert sum_of_squares(figures_of(figures)) == root * root + more, root
            assert min(found.impulsive_moment, found.convective_moment) > 0
        assert len({len(str(root)) for root, _figures in table}) >= 6       # of all sizes


def check_whole():
    kinds = []
    for asked in whole_weights():
        weights = exact_impulsive_weight(asked.figures), exact_convective_weight(asked.figures)
        kinds.append(tuple(weight.denominator == 1 for weight in weights))
    assert all(kinds.count(kind) >= 3 for kind in ((True, True), (True, False), (False, True)))
    for moment, figures in UNROUNDED:
        assert exact_square(figures_of(figures)) == moment**2
        assert min(rounded(figures_of(figures))) > 0
    for weight, exact in ((11_273, 11_273), (38_325, 155_600)):
        tank = figures_of("12000 12000 1000 1 600 1 0 1000 100")
        whole = convective_moment if weight == exact else impulsive_moment
        assert whole(tank, weight) == exact


def check_small():
    assert min(int(asked.said) for asked in small() if asked.said.isdecimal() and asked.said != "0") \
        == 74
    assert sum(asked.figures.Xs > asked.figures.H for asked in heights()) >= 4
    assert {0, 1_000} <= {asked.figures.Ai for asked in zeros()} & {one.figures.Ac for one in zeros()}


def self_test():
    check_roots()
    check_whole()
    check_small()
