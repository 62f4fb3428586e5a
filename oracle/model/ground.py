"""Request S-2 of document 02: ground motion from the map values.

Written from the request and from the source document that it names, 001 (AWWA, Sec. 14.2.4 and
14.2.6); its self test from source document 003 too. Every figure is an exact Fraction,
accelerations in multiples of g; only Av is rounded. A class is handed in as one byte's value, Ss
and S1 as thousandths, any whole number that a u32 holds. A refusal is as in refusals.py.
"""

from fractions import Fraction
from itertools import pairwise
from math import ceil
from typing import NamedTuple

# --- Source document 001, Tables 3 and 4 --------------------------------------
#
# Its copy has both tables, so that ASCE 7-10 is not needed; some of the letters in their first
# columns are Cyrillic ones of the same look.

CLASSES = ("A", "B", "C", "D", "E")     # F needs the site-specific procedure


class Chart(NamedTuple):
    columns: tuple      # mapped accelerations, rising
    rows: dict          # class to its coefficient at each column


def printed(figures):
    """The figures as they are printed, with a blank between."""
    return tuple(map(Fraction, figures.split(" ")))


FA = Chart(     # Table 3, short-period site coefficient by Ss
    printed("0.25 0.5 0.75 1.0 1.25"),
    {
        "A": printed("0.8 0.8 0.8 0.8 0.8"),
        "B": printed("1.0 1.0 1.0 1.0 1.0"),
        "C": printed("1.2 1.2 1.1 1.0 1.0"),
        "D": printed("1.6 1.4 1.2 1.1 1.0"),
        "E": printed("2.5 1.7 1.2 0.9 0.9"),
    },
)
FV = Chart(     # Table 4, long-period site coefficient by S1
    printed("0.1 0.2 0.3 0.4 0.5"),
    {
        "A": printed("0.8 0.8 0.8 0.8 0.8"),
        "B": printed("1.0 1.0 1.0 1.0 1.0"),
        "C": printed("1.7 1.6 1.5 1.4 1.3"),
        "D": printed("2.4 2.0 1.8 1.6 1.5"),
        "E": printed("3.5 3.2 2.8 2.4 2.4"),
    },
)


def coefficient(chart, letter, mapped):
    """Fa or Fv: "straight lines between the columns and the end columns' figures outside them"."""
    within = min(max(mapped, chart.columns[0]), chart.columns[-1])
    points = zip(chart.columns, chart.rows[letter], strict=True)
    for (left, first), (right, second) in pairwise(points):
        if within <= right:
            return first + (second - first) * (within - left) / (right - left)


# --- Sec. 14.2.6.2 and 14.2.6.3; Av -------------------------------------------

U = Fraction(2, 3)                  # scaling factor
VERTICAL = Fraction(14, 100)        # Av over SDS; also source document 003, Sec. 13.5.4.3


def adjusted_acceleration(chart, letter, mapped):
    """SMS (Eq 14-1) or SM1 (Eq 14-2)."""
    return coefficient(chart, letter, mapped) * mapped


def design_acceleration(chart, letter, mapped):
    """SDS (Eq 14-3) or SD1 (Eq 14-4)."""
    return U * adjusted_acceleration(chart, letter, mapped)


def exact_vertical(SDS):
    """Av in thousandths before it is rounded."""
    return 1_000 * VERTICAL * SDS


def vertical_acceleration(SDS):
    """Av in thousandths, "rounded up to a thousandth" once."""
    return ceil(exact_vertical(SDS))


# --- Refusals and reply -------------------------------------------------------

MOST_MAPPED = 3_000             # Ss or S1, in thousandths
SDS_DENOMINATOR = 3_750_000
SD1_DENOMINATOR = 1_500_000


def refusal_of(site_class, Ss, S1):
    """Order: 41, 40."""
    if chr(site_class) not in CLASSES:
        return 41, 0
    if Ss > MOST_MAPPED or S1 > MOST_MAPPED:
        return 40, 0
    return None


def whole_over(denominator, figure):
    """The figure's numerator over this denominator, "kept without loss"."""
    numerator = figure * denominator
    assert numerator.denominator == 1
    return int(numerator)


class GroundMotion(NamedTuple):
    SDS: int    # over SDS_DENOMINATOR
    SD1: int    # over SD1_DENOMINATOR
    Av: int     # in thousandths


def ground_motion(site_class, Ss, S1):
    """Of figures that are not refused."""
    letter = chr(site_class)
    SDS = design_acceleration(FA, letter, Fraction(Ss, 1_000))
    SD1 = design_acceleration(FV, letter, Fraction(S1, 1_000))
    return GroundMotion(whole_over(SDS_DENOMINATOR, SDS), whole_over(SD1_DENOMINATOR, SD1),
                        vertical_acceleration(SDS))


# --- Self test: the request's example; source document 003 --------------------

# Tables 26 and 27 of source document 003, typed from there: the columns, then each class
TABLE_26 = """\
  .25 .50 .75 1.00 1.25
A .8 .8 .8 .8 .8
B 1 1 1 1 1
C 1.2 1.2 1.1 1 1
D 1.6 1.4 1.2 1.1 1
E 2.5 1.7 1.2 .9 .9
"""
TABLE_27 = """\
  .1 .2 .3 .4 .5
A .8 .8 .8 .8 .8
B 1 1 1 1 1
C 1.7 1.6 1.5 1.4 1.3
D 2.4 2 1.8 1.6 1.5
E 3.5 3.2 2.8 2.4 2.4
"""


def check_columns(chart, table):
    """At each column, half way to the next one, and outside them."""
    heading, *lines = (line.split() for line in table.splitlines())
    columns = [Fraction(column) for column in heading]
    assert [letter for letter, *_row in lines] == list(CLASSES)
    for letter, *figures in lines:
        row = [Fraction(figure) for figure in figures]
        assert [coefficient(chart, letter, column) for column in columns] == row
        middles = [coefficient(chart, letter, sum(pair) / 2) for pair in pairwise(columns)]
        assert middles == [sum(pair) / 2 for pair in pairwise(row)]
        for outside, figure in ((Fraction(0), row[0]), (columns[0] / 2, row[0]),
                                (columns[-1] * 2, row[-1]), (Fraction(3), row[-1])):
            assert coefficient(chart, letter, outside) == figure


def check_refusals():
    """41 "first", 40 "next"; only the five capital letters are classes."""
    known = [site_class for site_class in range(256) if refusal_of(site_class, 240, 93) is None]
    assert bytes(known) == b"ABCDE"
    for site_class in range(256):
        refusal = (40, 0) if site_class in known else (41, 0)
        for Ss, S1 in ((3_001, 93), (240, 3_001), (3_001, 3_001), (2**32 - 1, 2**32 - 1)):
            assert refusal_of(site_class, Ss, S1) == refusal
    assert refusal_of(ord("C"), 3_000, 3_000) is None
    assert refusal_of(ord("C"), 0, 0) is None


def self_test():
    # "Class C with Ss 240 and S1 93 gives SDS 0.192, SD1 0.1054 and Av 27"
    SDS = design_acceleration(FA, "C", Fraction("0.24"))
    SD1 = design_acceleration(FV, "C", Fraction("0.093"))
    assert (SDS, SD1) == (Fraction("0.192"), Fraction("0.1054"))
    assert vertical_acceleration(SDS) == 27
    assert ground_motion(ord("C"), 240, 93) == (720_000, 158_100, 27)

    check_columns(FA, TABLE_26)
    check_columns(FV, TABLE_27)
    check_refusals()

    # worked by hand, inside the columns
    assert coefficient(FA, "E", Fraction("0.296")) == Fraction("2.3528")
    assert coefficient(FA, "D", Fraction("1.103")) == Fraction("1.0588")
    assert coefficient(FV, "E", Fraction("0.147")) == Fraction("3.359")
    assert coefficient(FV, "D", Fraction("0.175")) == Fraction("2.1")
    # Av from 65.00002 and 108.99993; SDS rounded first gives 65 (nearest) and 110 (up)
    assert ground_motion(ord("E"), 296, 147) == (1_741_072, 493_773, 66)
    assert ground_motion(ord("D"), 1_103, 175) == (2_919_641, 367_500, 109)

    # Av is whole without rounding; the ends
    assert ground_motion(ord("B"), 75, 0) == (187_500, 0, 7)
    assert ground_motion(ord("B"), 76, 1) == (190_000, 1_000, 8)
    assert ground_motion(ord("A"), 0, 0) == (0, 0, 0)
    assert ground_motion(ord("D"), 3_000, 3_000) == (7_500_000, 4_500_000, 280)
    assert ground_motion(ord("E"), 3_000, 3_000) == (6_750_000, 7_200_000, 252)
