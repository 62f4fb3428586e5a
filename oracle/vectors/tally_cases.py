"""Making files for the tallier (request S-11), and the sheets that its groups put into them.

A group yields files, each with a name; `tallied` also says, by hand, the six figures that its tally
is to have, in the order of the lines. `python3 oracle try-tally PROGRAM` runs the built tallier on
all of them, and the distinct sheets among them are in what is stored for it (tally_groups.py).
"""

from typing import NamedTuple

from model import printing, tally
from model.fields import Course
from model.sheet_bytes import VERSION_2
from vectors.judge_cases import EXAMPLE, changed, with_courses
from vectors.marker_cases import text_of

# --- Making files -------------------------------------------------------------


class File(NamedTuple):
    name: str
    content: bytes
    made: tally.Tally


def file_of(name, content):
    return File(name, content, tally.tally(content))


def tallied(name, figures, *sheets):
    """The file of these sheets, or of other bytes among them: read, sound, short, refused, sum,
    least."""
    file = file_of(name, b"".join(sheets))
    given = " ".join(file.made.figures())
    assert given == figures, (name, figures, given)
    return file


def said(word, content):
    """The sheet's bytes, whose text's last line is this."""
    *_before, last = text_of(content).decode("ascii").splitlines()
    assert last == word, (word, last)
    return content


# --- Sheets that the groups start from ----------------------------------------

REQUIRED = 188      # the floor, as in document 01's example, whose greatest need is 60
WIDTH = 2_400       # twelve of them are the example's shell


def courses_by(*differences):
    """Whose plates differ so from what is required."""
    return [Course(width=WIDTH, t=REQUIRED + difference, c=0, s=15_000, E=85)
            for difference in differences]


def sheet_by(*differences, **figures):
    """The example's tank with these courses and a foot of water, which needs next to nothing: it is
    sound unless one of them is below 0, or other figures say otherwise."""
    return changed(with_courses(EXAMPLE, courses_by(*differences)), **{"H": 1_200, **figures})


def by_differences(*differences, layout=VERSION_2, **figures):
    """Its bytes."""
    content = layout.sheet_as_bytes(sheet_by(*differences, **figures))
    word = "tank short" if min(differences) < 0 else "tank sound"
    return content if figures else said(word, content)


ABOVE, JUST, BELOW = map(by_differences, (6, 0, -63))       # sound, sound, short
FAR_BELOW = (-88, -87, -88)         # what no sheet that is judged beside them comes to


def refused(number, content, field=0):
    """The bytes, which the marker refuses so."""
    return said(printing.refusal_word(number, field), content)
