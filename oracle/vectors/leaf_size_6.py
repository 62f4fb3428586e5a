"""Leaf 12's lines for the refusal of request S-10. Leaf 11's chart keeps size 6."""

from model.refusals import REFUSALS
from vectors import leaf_lines, leaf_liquor, leaf_slender
from vectors.leaf_lines import leaf_line

PLACE = 24                  # of 39 in the list of refusals: the last
FIELDS = range(21)          # 0 to 20; 39 gives none


def refusal_lines():
    return [leaf_line(12, (PLACE, field)) for field in FIELDS]


def group_lines():
    """Name to lines."""
    return {"refusal": refusal_lines()}


# --- Self test ----------------------------------------------------------------


def lines_before():
    for module in (leaf_liquor, leaf_slender):
        for of_group in module.group_lines().values():
            yield from of_group
    yield from leaf_lines.all_lines()


def self_test():
    """Asked once, and not before; the places before are what they were."""
    lines, before = refusal_lines(), {*lines_before()}
    assert len({*lines}) == len(lines) == 21 and not {*lines} & before
    assert tuple(REFUSALS)[PLACE] == 39 and len(REFUSALS) == PLACE + 1
    for line in lines:
        assert leaf_slender.answer(line) == "refused 39 0", line
    for line, text in (("12 23 20 0 0", "refused 45 0"), ("12 17 0 0 0", "refused 38 0"),
                       ("11 6 0 0 0", "334"), ("11 7 0 0 0", "462")):
        assert line in before and leaf_slender.answer(line) == text, line
