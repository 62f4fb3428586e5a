"""Leaf 41, request S-9: `41 D H GRAVITY WS XS WR XR AI AC`; its groups; leaf 12's lines for the
refusals 44 and 45; and leaf 9's, `9 NUMBER`, for the root that is rounded last."""

from functools import cache
from itertools import product

from model import slender
from model.arithmetic import root_up
from model.refusals import REFUSALS
from model.slender import Figures
from vectors import (
    case_vectors, leaf_liquor, leaf_slender_greatest, leaf_slender_moments, leaf_slender_random,
    leaf_slender_readings, leaf_slender_refusals, leaf_slender_roots, leaf_table,
)
from vectors.case_files import SLENDER_LEAF
from vectors.leaf_lines import leaf_line
from vectors.leaf_slender_cases import AT_RANDOM, answer_of, as_said, figures_of
from vectors.leaf_slender_roots import ROOT_LEAF
from vectors.leaf_texts import decimal

PLACES = (22, 23)           # of 44 and 45 in the list of refusals
FIELDS = range(21)          # 0 to 20; 44 and 45 give none
PARTS = (leaf_slender_moments, leaf_slender_greatest, leaf_slender_refusals, leaf_slender_readings,
         leaf_slender_random)

# --- Lines --------------------------------------------------------------------


def slender_line(figures):
    return leaf_line(SLENDER_LEAF, figures)


def refusal_lines():
    return [leaf_line(12, point) for point in product(PLACES, FIELDS)]


@cache
def group_cases():
    """Name to what is asked; the names of the functions."""
    return {group.__name__: list(group()) for part in PARTS for group in part.GROUPS}


@cache
def group_lines():
    """Name to lines. What an earlier group asks is not asked again."""
    asked, found = set(), {}
    for name, cases in group_cases().items():
        lines = dict.fromkeys(slender_line(one.figures) for one in cases)
        found[name] = [line for line in lines if line not in asked]
        asked.update(lines)
    return {"refusals": refusal_lines(), **found, "roots": leaf_slender_roots.root_lines()}


def answer(line):
    number, *figures = map(int, line.split(" "))
    if number == ROOT_LEAF:
        return decimal(root_up(*figures))
    return answer_of(Figures(*figures)) if number == SLENDER_LEAF else leaf_liquor.answer(line)


# --- Self test ----------------------------------------------------------------


def all_figures():
    """Those of the cases that people can read too."""
    lines = case_vectors.S_9.group_leaf_lines()["moment"]
    return [*(one.figures for cases in group_cases().values() for one in cases),
            *(Figures(*map(int, line.split(" ")[1:])) for line in lines)]


def check_said():
    for name, cases in group_cases().items():
        assert all(map(as_said, cases)), (name, [one for one in cases if not as_said(one)][:3])
        by_hand = [one for one in cases if one.said != AT_RANDOM]
        assert len(by_hand) == (0 if name == "random" else len(cases))


def check_moments():
    """Of every tank that gets a moment, and of those that are refused 45 too: the request's last
    promise, by fractions; and the same in whole numbers."""
    moments = 0
    for figures in all_figures():
        if slender.refusal_of(figures) in ((40, 0), (44, 0)):
            continue
        found = slender.rounded(figures)
        assert slender.safely_rounded(figures, found.moment), figures
        assert found == slender.whole_rounded(figures), figures
        if slender.refusal_of(figures) is None:
            moments += 1
            assert 0 <= found.moment <= slender.MOST_MOMENT
            assert answer(slender_line(figures)) == str(found.moment)
    assert moments >= 1_800


def check_readings():
    """Each is told apart by the tank that is there for it, and by others that are not at random."""
    asked = [one.figures for name, cases in group_cases().items() if name != "random"
             for one in cases]
    counts = leaf_slender_readings.counts_apart(dict.fromkeys(asked))
    assert min(counts.values()) >= 3, sorted(counts.items(), key=lambda one: one[1])[:5]


def check_lines():
    """A line is asked once; those of leaf 12 not before; spelled out."""
    lines = [line for of_group in group_lines().values() for line in of_group]
    assert len({*lines}) == len(lines) and all(group_lines().values())
    assert {len(line.split(" ")) for line in lines} == {2, 5, 1 + len(Figures._fields)}
    assert not {ROOT_LEAF, SLENDER_LEAF} & {*leaf_table.LEAVES, *leaf_liquor.LEAVES}
    assert [tuple(REFUSALS)[place] for place in PLACES] == [44, 45]
    assert 2 * 21 == len(group_lines()["refusals"])
    for line, text in (("12 22 0 0 0", "refused 44 0"), ("12 23 20 0 0", "refused 45 0"),
                       ("12 21 7 0 0", "refused 43 0"),
                       ("41 76312 76772 1066 1 0 1 0 10 1000", "197723460"),
                       ("41 12000 12000 1000 5000 7200 1000 14400 200 50", "39920"),
                       ("41 15996 12000 1000 5000 7200 1000 14400 200 50", "refused 44 0"),
                       ("41 4294967295 0 0 0 0 0 0 0 0", "refused 40 0"),
                       ("9 0", "0"), ("9 24", "5"), ("9 25", "5"), ("9 26", "6"),
                       ("9 4503599627370497", "67108865"), ("9 1000000000000000000", "1000000000"),
                       ("9 1000000000000000001", "1000000001"),
                       ("9 18446744065119617025", "4294967295"),
                       ("9 18446744065119617026", "4294967296"),
                       ("9 18446744073709551615", "4294967296")):
        assert answer(line) == text, (line, answer(line))
    assert slender_line(figures_of("76312 76772 1066 1 0 1 0 10 1000")) in lines


def self_test():
    check_said()
    for part in PARTS:
        part.self_test()
    leaf_slender_roots.self_test()
    check_lines()
    check_moments()
    check_readings()
