"""The season's tally: one report over a file of sheets end to end.

Request S-11 of document 02: "The yard wants one report over a file of up to 10,000 sheets end to
end, fed on standard input. It prints how many were read, sound, short and refused, then the sum
over all judged courses of plate minus required as one signed exact number, and the smallest such
difference. With no judged course the last is the word `none`. The lines are `read`, `sound`,
`short`, `refused`, `sum`, `least`, each with a blank and its figure. A file that ends where a sheet
would begin ends there, with no refusal. A refusal from judging counts as refused. After a refused
sheet whose length was usable it goes on at the next length; at 11 or 13 it counts one refused and
stops. Read is sound plus short plus refused, each counted from the sheets themselves. Past 10,000
sheets it stops reading. Answers: unchanged; 12 can't occur in such a file."

Where it is silent, decided:
- A sheet's own bytes are the two of L and the L after them, and what follows them is the next one's
  or nobody's; that is why 12 cannot occur. Behind an L that 13 refuses there are none: the sheet is
  the two bytes of L, and 13 is looked for before 11, so that it does not matter what is behind.
- The file is at its end where a sheet would begin only if not even one byte is left. One byte left
  over is a sheet that is cut, and 11.
- Refused sheets are read, and so is the one at which it stops: they are among the 10,000.
- The 10,001st is not looked at: neither its length, nor whether there is a byte of it at all.
- A judged course is one of a sheet that got a report. A refused sheet has none, even if reading
  accepted it and judging refuses it (37).
- Sheets are judged as the printing program judges them: "the printing program and file reports use
  D100" (S-3). Required is that of the report, in S-7's steps, with allowance and floor; plate is
  the course's t.
- The difference is signed, so the sum is 0 where no course is judged, and may be where some are;
  `none` is of the least alone. Of an empty file every figure is 0, and the least is none.
- A figure is written as the printing program writes its pulls: decimal, "-" in front below 0,
  nothing in front otherwise, and no 0 in front.
"""

from functools import cache
from typing import NamedTuple

from model import judging, printing
from model.filling_in import EXAMPLE, SELF_ANCHORED, sheet_of
from model.sheet_bytes import LAYOUTS, LENGTH_BYTES, VERSION_1, VERSION_2, by_length, length_in

MOST_SHEETS = 10_000
STOPPING = (11, 13)     # "at 11 or 13 it counts one refused and stops"
OVER_LONG = 12          # "12 can't occur in such a file"
REFUSED = "refused"     # the third word, beside judging's sound and short
WORDS = ("sound", "short", REFUSED)
NO_COURSE = "none"

# --- A sheet of the file -------------------------------------------------------


class Entered(NamedTuple):
    """What a sheet adds to the tally."""
    word: str               # one of WORDS
    refusal: tuple | None
    differences: tuple      # plate minus required, of its judged courses from the bottom up


@cache
def entered(content):
    """A sheet's own bytes, judged."""
    refusal, report = judging.mark(content).answer
    if refusal is not None:
        return Entered(REFUSED, refusal, ())
    differences = tuple(course.t - course.required for course in report.courses)
    return Entered(judging.word(report), None, differences)


def own_bytes(content, start):
    """Of the sheet that begins here: as many as its length asks for, or fewer at the file's end;
    with a length that is none, those of the length."""
    length = content[start:start + LENGTH_BYTES]
    follow = length_in(length) if by_length(length_in(length)) else 0
    return content[start:start + LENGTH_BYTES + follow]


def sheets_in(content, most=MOST_SHEETS):
    """The own bytes of each sheet that is read, and what it adds."""
    start = 0
    for _ in range(most):
        if start == len(content):
            return
        own = own_bytes(content, start)
        sheet = entered(own)
        number, _field = sheet.refusal or (0, 0)
        assert number != OVER_LONG
        yield own, sheet
        if number in STOPPING:
            return
        start += len(own)


# --- The tally ----------------------------------------------------------------


class Tally(NamedTuple):
    """Its lines, in turn."""
    read: int
    sound: int
    short: int
    refused: int
    sum: int
    least: int | None       # None where no course is judged

    def figures(self):
        """As they are printed."""
        *counts, least = self
        return [*map(str, counts), NO_COURSE if least is None else str(least)]


def tally(content):
    """Of a whole file. Read is counted by itself, so that it can be held against the others."""
    found = [sheet for _own, sheet in sheets_in(content)]
    counts = [sum(sheet.word == word for sheet in found) for word in WORDS]
    differences = [difference for sheet in found for difference in sheet.differences]
    made = Tally(len(found), *counts, sum(differences), min(differences, default=None))
    assert made.read == made.sound + made.short + made.refused
    return made


def text_of(made):
    """Each line ends in a newline, the last one too."""
    return printing.lines_as_bytes(f"{name} {figure}"
                                   for name, figure in zip(Tally._fields, made.figures()))


def tallied_text(content):
    """What the tallier writes when these bytes are its standard input."""
    return text_of(tally(content))


# --- Self test: by hand -------------------------------------------------------

EXAMPLE_TEXT = b"""\
read 1
sound 1
short 0
refused 0
sum 186
least 62
"""
BRIEF_TEXT = b"""\
read 3
sound 1
short 1
refused 1
sum -57
least -63
"""
EMPTY_TEXT = b"""\
read 0
sound 0
short 0
refused 0
sum 0
least none
"""


def low(t, **tank):
    """The example of one course and as much water, whose plate is t: 188, the floor, is required,
    for the hoop need of 9,600 is 20."""
    tank = EXAMPLE.tank._replace(**{"H": 9_600, **tank})
    return sheet_of(tank, EXAMPLE.site, EXAMPLE.anchors, [EXAMPLE.courses[0]._replace(t=t)])


def check_texts():
    """The example's courses are 250 each, and 188 is required: three times 62. Of low sheets 194
    is 6 above and 125 is 63 below, -57 together; the third has more water than shell, 37."""
    for layout in LAYOUTS:
        assert tallied_text(layout.sheet_as_bytes(EXAMPLE)) == EXAMPLE_TEXT
        three = [layout.sheet_as_bytes(sheet)
                 for sheet in (low(194), low(125), low(100, H=9_601))]
        for in_turn in (three, three[::-1]):
            assert tallied_text(b"".join(in_turn)) == BRIEF_TEXT
    assert tallied_text(b"") == EMPTY_TEXT


def check_ends():
    """A file of a sheet of 80 bytes and one of 84, cut everywhere."""
    first, second = VERSION_1.sheet_as_bytes(low(188)), VERSION_2.sheet_as_bytes(low(187))
    assert (len(first), len(second)) == (80, 84)
    for size in range(80 + 84 + 1):
        made = tally((first + second)[:size])
        if size in (0, 80, 164):
            assert made == {0: (0, 0, 0, 0, 0, None), 80: (1, 1, 0, 0, 0, 0),
                            164: (2, 1, 1, 0, -1, -1)}[size]
        else:
            assert made == ((1, 0, 0, 1, 0, None) if size < 80 else (2, 1, 0, 1, 0, 0))
    for length in (b"\0\0", b"\0\x4f", b"\xff\xff"):        # 13, whatever is behind it
        for behind in (b"", first, first * 1_000):
            assert tally(first + length + behind) == (2, 1, 0, 1, 0, 0)


def check_refusals():
    """After them it goes on; only 11 and 13 stop it. No refused sheet has a course."""
    first = VERSION_1.sheet_as_bytes(low(188))
    six = EXAMPLE._replace(anchors=EXAMPLE.anchors._replace(d=6))
    for changed in (VERSION_1.with_field_bytes(first, 16, 99), VERSION_2.sheet_as_bytes(six),
                    VERSION_1.with_field_bytes(first, 2, 9_601),
                    first[:2] + b"\2" + first[3:], first[:59] + b"\2" + first[60:]):
        assert tally(changed) == (1, 0, 0, 1, 0, None)
        for in_turn in (first + changed + first, changed + first + first):
            assert tally(in_turn) == (3, 2, 0, 1, 0, 0)
    assert tally(VERSION_1.sheet_as_bytes(six)) == (1, 1, 0, 0, 186, 62)
    windy = VERSION_1.sheet_as_bytes(EXAMPLE._replace(anchors=SELF_ANCHORED))
    assert tally(windy) == (1, 0, 1, 0, 186, 62)        # short by the wind alone


def check_most():
    """Past 10,000 it stops."""
    first = VERSION_1.sheet_as_bytes(low(189))
    for count, read in ((9_999, 9_999), (10_000, 10_000), (10_001, 10_000)):
        assert tally(first * count) == (read, read, 0, 0, read, 1)
    assert tally(first * 9_999 + b"\0") == (10_000, 9_999, 0, 1, 9_999, 1)
    assert tally(first * 10_000 + b"\0") == (10_000, 10_000, 0, 0, 10_000, 1)


def self_test():
    check_texts()
    check_ends()
    check_refusals()
    check_most()
