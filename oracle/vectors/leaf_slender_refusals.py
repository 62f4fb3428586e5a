"""Request S-9: ranges, the order of the refusals, and which tank is slender."""

from itertools import combinations

from model.slender import MOST_MOMENT, RANGES, Figures, rounded, slender
from vectors.leaf_points import U32
from vectors.leaf_slender_cases import (
    EXAMPLE, GREATEST, HEAVIEST, LEAST, LOWEST, WIDEST, gets_moment, refused, widest,
)

NAMES = Figures._fields
MOST = U32[1]


def range_of(name):
    return getattr(RANGES, name)


def changed(figures, name, figure):
    return figures._replace(**{name: figure})


def one_past(name):
    """On each side, where an unsigned number is there at all."""
    least, greatest = range_of(name)
    return [figure for figure in (least - 1, greatest + 1) if figure >= 0]


def far_outside(name):
    """0, and what a narrower or a signed type would take for the example's figure or for another
    one in the range; where these are outside it."""
    figure = getattr(EXAMPLE, name)
    least, greatest = range_of(name)
    far = {0, *(figure + 2**bits for bits in (8, 15, 16, 24, 31)), 2**31 - 1, 2**31, MOST + 1 - figure,
           MOST - 1, MOST}
    return sorted(one for one in far if not least <= one <= greatest)


# --- 40 -----------------------------------------------------------------------


def ends():
    """Both ends of each range, and one inside each: alone. D and H have one end that no slender tank
    has; the last that one may have beside the example's other figures stand in for it."""
    for name in NAMES:
        least, greatest = range_of(name)
        for figure in (least, least + 1, greatest - 1, greatest):
            figures = changed(EXAMPLE, name, figure)
            is_wide = figure == greatest or figure == greatest - 1
            flat = name == "D" and is_wide or name == "H" and not is_wide
            yield refused(44, figures) if flat else gets_moment(figures)
    yield gets_moment(EXAMPLE._replace(D=38_390))      # 1,333 x 28,800 is 38,390,400
    yield refused(44, EXAMPLE._replace(D=38_391))
    yield gets_moment(EXAMPLE._replace(H=10_803))      # 1,333 x 10,803 is 14,400,399
    yield refused(44, EXAMPLE._replace(H=10_802))
    yield gets_moment(EXAMPLE._replace(D=12_000, H=LOWEST))
    yield refused(44, EXAMPLE._replace(D=12_000, H=LOWEST - 1))
    yield gets_moment(EXAMPLE._replace(D=WIDEST, H=76_800))
    yield refused(44, EXAMPLE._replace(D=WIDEST + 1, H=76_800))


def outside():
    """One figure alone, one past its range and far outside it."""
    for name in NAMES:
        for figure in dict.fromkeys((*one_past(name), *far_outside(name))):
            yield refused(40, changed(EXAMPLE, name, figure))


def outside_together():
    """Each two of them; all; all but one."""
    for one, other in combinations(NAMES, 2):
        yield refused(40, changed(changed(EXAMPLE, one, one_past(one)[-1]), other,
                                  one_past(other)[0]))
    for figure in (0, 1, 76_801, 2**31, MOST):
        yield refused(40, Figures(*[figure] * len(NAMES)))
    yield refused(40, Figures(*(greatest + 1 for greatest in GREATEST)))
    yield refused(40, Figures(*(max(least - 1, 0) for least in LEAST)))
    for name in NAMES:
        greater = Figures(*(greatest + 1 for greatest in GREATEST))
        yield refused(40, changed(greater, name, getattr(EXAMPLE, name)))


# --- Orders -------------------------------------------------------------------

FLAT = EXAMPLE._replace(D=28_800, H=14_400)


def outside_and_flat():
    """40 before 44; the tank itself is 44."""
    yield refused(44, FLAT)
    for name in NAMES:
        for figure in (*one_past(name), MOST):
            yield refused(40, changed(FLAT, name, figure))
    for D, H in ((11_999, 1_200), (12_000, 1_199), (11_999, 1_199), (240_001, 76_800),
                 (240_000, 76_801), (240_001, 76_801), (0, 0), (1, 0), (MOST, MOST), (MOST, 0)):
        yield refused(40, EXAMPLE._replace(D=D, H=H))


def outside_and_heavy():
    """40 before 45; the tank itself is 45."""
    yield refused(45, HEAVIEST)
    for name in NAMES:
        for figure in (*one_past(name), MOST):
            yield refused(40, changed(HEAVIEST, name, figure))


def flat_and_heavy():
    """44 before 45, at equality and far from it."""
    for D, H in ((15_996, 12_000), (15_997, 12_000), (WIDEST + 1, 76_800), (101_308, 76_000),
                 (240_000, 76_800), (240_000, 1_200), (12_000, LOWEST - 1), (12_000, 1_200)):
        for Ac in (0, 1_000):
            yield refused(44, HEAVIEST._replace(D=D, H=H, Ac=Ac))
    yield refused(44, GREATEST)
    for D, H in ((15_995, 12_000), (WIDEST, 76_800), (12_000, LOWEST)):
        yield refused(45, HEAVIEST._replace(D=D, H=H))


def all_three():
    """40 before both."""
    flat = HEAVIEST._replace(D=28_800, H=14_400)
    for name in NAMES:
        yield refused(40, changed(flat, name, one_past(name)[-1]))


# --- 44 -----------------------------------------------------------------------


def slenderness():
    """At equality, which is not slender, with one to either side of both figures."""
    for feet in (10, 12, 15, 20, 24, 33, 40, 48, 51, 64, 70, 75, 76):
        D, H = 1_333 * feet, 1_000 * feet
        tank = EXAMPLE._replace(D=D, H=H)
        yield refused(44, tank)
        yield gets_moment(tank._replace(D=D - 1))
        yield refused(44, tank._replace(D=D + 1))
        yield gets_moment(tank._replace(H=H + 1))
        yield refused(44, tank._replace(H=H - 1))


def nearly_slender():
    """1,000 D and 1,333 H only one apart: 1,333 x 997 is 1,329,001 and 1,333 x 3 is 3,999."""
    for thousands in (9, 11, 19, 28, 37, 46, 55, 64, 75):
        H = 1_000 * thousands + 997
        yield gets_moment(EXAMPLE._replace(D=1_333 * thousands + 1_329, H=H))
        yield refused(44, EXAMPLE._replace(D=1_333 * thousands + 1_330, H=H))
        H = 1_000 * thousands + 1_003
        yield refused(44, EXAMPLE._replace(D=1_333 * thousands + 1_337, H=H))
        yield gets_moment(EXAMPLE._replace(D=1_333 * thousands + 1_336, H=H))


def other_slenderness():
    """Between 1.33 and 1.333, which is slender, and between 1.333 and 4/3, which isn't; the last
    slender D with other levels and one more."""
    for D, H in ((15_961, 12_000), (15_994, 12_000), (79_801, 60_000), (79_979, 60_000)):
        yield gets_moment(EXAMPLE._replace(D=D, H=H))
    for D, H in ((15_999, 12_000), (16_000, 12_000), (79_981, 60_000), (79_999, 60_000),
                 (80_000, 60_000), (80_001, 60_000)):
        yield refused(44, EXAMPLE._replace(D=D, H=H))
    for H in (9_004, 10_801, 14_399, 22_222, 31_415, 44_321, 57_601, 65_537, 76_799):
        yield gets_moment(EXAMPLE._replace(D=widest(H), H=H))
        yield refused(44, EXAMPLE._replace(D=widest(H) + 1, H=H))


GROUPS = (ends, outside, outside_together, outside_and_flat, outside_and_heavy, flat_and_heavy,
          all_three, slenderness, nearly_slender, other_slenderness)


# --- Self test: what each group is there for ----------------------------------


def outside_names(figures):
    return [name for name, figure in zip(NAMES, figures, strict=True)
            if not range_of(name)[0] <= figure <= range_of(name)[1]]


def is_heavy(figures):
    """Its moment, were it worked out, would be too large."""
    return figures.H > 0 and rounded(figures).moment > MOST_MOMENT


def check_outside():
    for asked in outside():
        assert len(outside_names(asked.figures)) == 1
        others = [name for name in NAMES if name not in outside_names(asked.figures)]
        assert all(getattr(asked.figures, name) == getattr(EXAMPLE, name) for name in others)
    assert {tuple(outside_names(asked.figures)) for asked in outside()} == {(name,) for name in NAMES}
    counts = {len(outside_names(asked.figures)) for asked in outside_together()}
    assert {2, len(NAMES) - 1, len(NAMES)} <= counts and min(counts) >= 2
    asked = {name: {getattr(one.figures, name) for one in outside()} for name in NAMES}
    for name in NAMES:
        assert {MOST, 2**31, *one_past(name)} <= asked[name]
        assert {*range_of(name)} <= {getattr(one.figures, name) for one in ends()}


def check_orders():
    for asked in outside_and_flat():
        assert not slender(asked.figures.D, asked.figures.H) or outside_names(asked.figures)
    alone = [asked.figures for asked in outside_and_flat() if len(outside_names(asked.figures)) == 1
             and not slender(asked.figures.D, asked.figures.H)]
    assert {*NAMES} <= {name for figures in alone for name in outside_names(figures)}
    heavy = [asked.figures for asked in outside_and_heavy()
             if is_heavy(asked.figures) and slender(asked.figures.D, asked.figures.H)]
    assert {name for figures in heavy for name in outside_names(figures)} == {*NAMES}
    for group in (flat_and_heavy, all_three):
        assert all(is_heavy(asked.figures) for asked in group())
    assert sum(not slender(asked.figures.D, asked.figures.H) for asked in flat_and_heavy()) >= 15


def check_slenderness():
    for group, apart in ((slenderness, (0,)), (nearly_slender, (1, -1))):
        between = [1_333 * asked.figures.H - 1_000 * asked.figures.D for asked in group()]
        assert all(between.count(one) >= 9 for one in apart)
        assert min(between) < 0 < max(between)
    by_thirds = [asked for asked in other_slenderness() if asked.said == "refused 44 0"
                 and 3 * asked.figures.D < 4 * asked.figures.H]
    by_printed = [asked for asked in other_slenderness() if asked.said != "refused 44 0"
                  and 100 * asked.figures.D >= 133 * asked.figures.H]
    assert len(by_thirds) >= 3 and len(by_printed) >= 4


def self_test():
    check_outside()
    check_orders()
    check_slenderness()
