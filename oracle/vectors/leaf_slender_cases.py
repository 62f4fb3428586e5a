"""What the groups of request S-9 are made with: figures, and what is said by hand of the answer."""

from math import gcd
from typing import NamedTuple

from model import slender
from model.slender import RANGES, Figures

GETS_ONE = "a moment"       # said of a case whose figures get a moment, whatever it is
AT_RANDOM = ""              # nothing is said


class Asked(NamedTuple):
    figures: Figures
    said: str               # the line, or one of the two words above


def figures_of(text):
    """As they are written on a line."""
    return Figures(*map(int, text.replace(",", "").split()))


def comes_to(figures, moment):
    return Asked(figures, str(moment))


def gets_moment(figures):
    return Asked(figures, GETS_ONE)


def refused(number, figures):
    return Asked(figures, f"refused {number} 0")


def answer_of(figures):
    refusal = slender.refusal_of(figures)
    return str(slender.moment(figures)) if refusal is None else f"refused {refusal[0]} {refusal[1]}"


def as_said(asked):
    found = answer_of(asked.figures)
    return asked.said in (found, AT_RANDOM) or (asked.said == GETS_ONE and found.isdecimal())


# --- Tanks --------------------------------------------------------------------

# The tank of document 01, its 11,000 pounds a shell of 8,000 and a roof of 3,000
EXAMPLE = Figures(14_400, 28_800, 1_000, 8_000, 14_400, 3_000, 28_800, 150, 60)
# The figures of the heaviest shell and roof, as high and as strongly shaken as may be
HEAVIEST = Figures(14_400, 28_800, 1_000, 10_000_000, 76_800, 10_000_000, 76_800, 1_000, 1_000)
GREATEST = Figures(*(greatest for _least, greatest in RANGES))
LEAST = Figures(*(least for least, _greatest in RANGES))
WIDEST = 102_374            # the greatest D of a slender tank: 1,333 x 76,800 is 102,374,400
LOWEST = 9_003              # the least H of one: 1,333 x 9,003 is 12,000,999


def widest(H):
    """The greatest D that is slender with this H."""
    return (1_333 * H - 1) // 1_000


def with_turning(figures, turning):
    """Shell and roof at the heights given, with weights of which Ws x Xs + Wr x Xr is just this: as
    even as may be. The heights have no common divisor."""
    Xs, Xr = figures.Xs, figures.Xr
    assert gcd(Xs, Xr) == 1
    Wr = turning * pow(Xr, -1, Xs) % Xs
    even = turning // (Xs + Xr)
    Wr += max(even - Wr, 0) // Xs * Xs
    Ws, rest = divmod(turning - Wr * Xr, Xs)
    assert rest == 0
    return figures._replace(Ws=Ws, Wr=Wr)
