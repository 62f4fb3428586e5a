"""Making cases of printing: bytes for the marker and the texts that it is to print.

The program under test, test_sheets, is fed many sheets one after the other, each as a two-byte
count of bytes and these bytes, and prints their texts with nothing between them. A group yields
cases; `whole` and its like also say, by hand, parts of lines that the text is to have.
`python3 oracle groups` lists the sheets of each group.
"""

from functools import cache
from typing import NamedTuple

from model import judging, printing, sheet_bytes
from vectors import marker_tries
from vectors.judge_cases import EXAMPLE, SELF, changed, has_part, with_widths
from vectors.start_sheets import widths_to
from vectors.version_1 import sheet_as_bytes

MOST_BYTES = 2**16 - 1          # of a sheet: its count has two bytes

# --- Cases and their texts ----------------------------------------------------


class Case(NamedTuple):
    content: bytes
    was: bytes | None = None    # of damaged bytes: the readable sheet that they were before


@cache
def marked(content):
    return judging.mark(content)


@cache
def text_of(content):
    return printing.answer_text(marked(content).answer)


@cache
def readable(content):
    return sheet_bytes.read(content).refusal is None


def printed(content, *parts):
    """Bytes whose text has each of these parts within a line."""
    lines = text_of(content).decode("ascii").splitlines()
    for part in parts:
        assert any(has_part(line, part) for line in lines), (part, lines)
    return Case(content)


def whole(sheet, *parts):
    return printed(sheet_as_bytes(sheet), *parts)


def refused(word, content):
    """Bytes whose text is this word alone."""
    assert text_of(content) == f"{word}\n".encode("ascii"), (word, text_of(content))
    return Case(content)


def damaged(was, content, word):
    """Bytes that were a readable sheet, and that reading refuses now."""
    return refused(word, bytes(content))._replace(was=was)


def altered(was, content):
    """The same without a word, where some are still readable, and some were not before either."""
    content = bytes(content)
    return Case(content, was) if readable(was) and not readable(content) else Case(content)


def read_as(was, content, word):
    """Damaged, unless the word is that reading accepts it."""
    if word != "ok":
        return damaged(was, content, word)
    assert readable(bytes(content))
    return Case(bytes(content))


# --- Sheets that the groups start from ----------------------------------------

SHEETS = tuple(marker_tries.SHEETS.values())   # of three courses, one and twelve
HIGH = changed(EXAMPLE, H=76_800)       # readable, and refused 37
EXAMPLE_AND_HIGH = (EXAMPLE, HIGH)
CALM, STORM = {"V": 60, "Kz": 50, "I": 100}, {"V": 150, "Kz": 150, "I": 125}

# The longest text, 452 bytes. A course's line has four digits for each of its three numbers at
# most, p has four and M eight; a pull has eight characters, a sign among them. All of that with
# each verdict short makes 453, which no sheet has: two such pulls are both below 0, and the
# strength is ok, or B is below 75,000, where M has seven digits and the upper needs have three.
LONGEST = changed(with_widths(EXAMPLE, [*widths_to(62_400, 11), 14_400]), D=240_000, H=76_800,
                  W=7_000_000, Ms=1_000_000_000, N=6, B=240_000, d=6, t=1_000, s=10_000, E=50,
                  **STORM)

# The shortest report, 75 bytes: each number has as few digits as the ranges let it have, each
# verdict is ok, and the line of a self-anchored tank is shorter than those of an anchored one.
SHORTEST = changed(with_widths(SELF, [1_200]), D=12_000, H=1_200, W=27, plate=100, allowance=99,
                   Ms=0, **CALM)

LARGEST = changed(LONGEST, plate=500, Fy=50_000, t=2_000, c=250)    # in its need, M and T
