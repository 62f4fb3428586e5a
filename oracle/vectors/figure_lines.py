"""A sheet's figures as lines that people can read, and the bytes of the sheet with them.

Each line is a word and the figures of its fields; oracle/example.txt shows one of each. Blank lines
and what follows a # are skipped, and 14,400 is 14400. The bytes are version 2's; a tank's gravity
may be left out, and is 1,000 then. Figures outside their ranges and courses too few or too many are
taken, as far as bytes can hold them: to refuse them is the marker's task.
"""

import re
from pathlib import Path

from model.fields import ENTRIES, TABLE
from model.filling_in import EXAMPLE, SELF_ANCHORED, sheet_of
from model.refusals import MOST_COURSES
from model.sheet_bytes import VERSION_2
from vectors import records

EXAMPLE_FILE = Path(__file__).parent.with_name("example.txt")
MOST_FIGURE = 2**32 - 1         # a field has four bytes,
MOST_COUNT = 255                # the count one
NUMBER = re.compile(r"[0-9]+|[0-9]{1,3}(,[0-9]{3})+")

ENTRY_OF = dict(zip(TABLE, ENTRIES))
COUNTS = {name: range(len(fields) - len(ENTRY_OF[name]._field_defaults), len(fields) + 1)
          for name, fields in TABLE.items()}    # how many figures a line may have

MISSING = {                     # what bytes always state
    "tank": "there is no tank up to the end",
    "site": "there is no site up to the end",
    "anchors": "there is no anchors line up to the end; 'anchors 0 0 0' states none",
}


class Mistake(Exception):
    """What is wrong with the figures, and in which line."""

    def __init__(self, number, what):
        super().__init__(f"line {number}: {what}")


def figure_in(number, word):
    if not NUMBER.fullmatch(word):
        raise Mistake(number, f"{word!r} is not a whole number")
    digits = word.replace(",", "").lstrip("0") or "0"
    if len(digits) > len(str(MOST_FIGURE)) or int(digits) > MOST_FIGURE:
        raise Mistake(number, f"{word} is above {MOST_FIGURE}, the most that four bytes hold")
    return int(digits)


def line_part(number, line):
    """The word of this line and its entry, or None of a line that has nothing to say."""
    words = line.partition("#")[0].split()
    if not words:
        return None
    name, *numbers = words
    if name not in TABLE:
        raise Mistake(number, f"{name!r} is none of {', '.join(TABLE)}")
    if len(numbers) not in COUNTS[name]:
        counts = " or ".join(map(str, COUNTS[name]))
        raise Mistake(number, f"{name} has {counts} numbers, not {len(numbers)}")
    return name, ENTRY_OF[name](*(figure_in(number, word) for word in numbers))


def parts_in(lines, most_courses=MOST_COUNT):
    """Word to the entry of each of its lines, in turn."""
    most = {"tank": 1, "site": 1, "anchors": 1, "course": most_courses}
    parts = {name: [] for name in TABLE}
    for number, line in enumerate(lines, start=1):
        part = line_part(number, line)
        if part is None:
            continue
        name, entry = part
        if len(parts[name]) == most[name]:
            raise Mistake(number, f"{name} comes again; {most[name]} is the most")
        parts[name].append(entry)
    for name, missing in MISSING.items():
        if not parts[name]:
            raise Mistake(len(lines), missing)
    return parts


def lines_of(content):
    return content.decode("utf-8-sig", errors="replace").removesuffix("\n").split("\n")


def bytes_of(content):
    """The bytes of the sheet with the figures in these lines."""
    parts = parts_in(lines_of(content))
    return VERSION_2.as_bytes(*parts["tank"], *parts["site"], *parts["anchors"],
                              courses=parts["course"])


def compression_record_of(content):
    """The record of test_steps that asks about compression, by D100, on the sheet with the figures
    in these lines. It has room for twelve courses."""
    parts = parts_in(lines_of(content), MOST_COURSES)
    sheet = sheet_of(*parts["tank"], *parts["site"], *parts["anchors"], parts["course"])
    return records.record_as_bytes(records.ask(sheet))


def example_bytes():
    return bytes_of(EXAMPLE_FILE.read_bytes())


# --- Self test ----------------------------------------------------------------

TANK = "tank 14,400 28800 11000 250 0 36000"
SITE = "site 105 109 115 27 30000"
NO_ANCHORS = "anchors 0 0 0"
COURSE = "course 9600 250 0 15000 85"
MISTAKES = (        # lines, and how the mistake in them is said
    ((TANK, "tonk 1"), "line 2: 'tonk' is none of tank, site, anchors, course"),
    ((TANK, "", "Site 1 2 3 4 5"), "line 3: 'Site' is none of tank, site, anchors, course"),
    (("tank 1 2 3 4 5",), "line 1: tank has 6 or 7 numbers, not 5"),
    ((f"{TANK} 1000 1",), "line 1: tank has 6 or 7 numbers, not 8"),
    ((TANK, SITE, "anchors 6 14800 8 9"), "line 3: anchors has 3 numbers, not 4"),
    ((TANK, "course"), "line 2: course has 5 numbers, not 0"),
    (("anchors 6 -1 8",), "line 1: '-1' is not a whole number"),
    (("anchors 6 14,80 8",), "line 1: '14,80' is not a whole number"),
    (("anchors 6, 14800 8",), "line 1: '6,' is not a whole number"),
    (("anchors 6 1_000 8",), "line 1: '1_000' is not a whole number"),
    (("anchors 6 0x10 8",), "line 1: '0x10' is not a whole number"),
    (("anchors 6 4,294,967,296 8",),
     "line 1: 4,294,967,296 is above 4294967295, the most that four bytes hold"),
    ((f"anchors 6 1{'0' * 5_000} 8",),
     f"line 1: 1{'0' * 5_000} is above 4294967295, the most that four bytes hold"),
    ((TANK, "# once", TANK), "line 3: tank comes again; 1 is the most"),
    ((TANK, SITE, SITE), "line 3: site comes again; 1 is the most"),
    ((NO_ANCHORS, NO_ANCHORS), "line 2: anchors comes again; 1 is the most"),
    ((TANK, SITE, *[COURSE] * 256), "line 258: course comes again; 255 is the most"),
    ((SITE, COURSE), "line 2: there is no tank up to the end"),
    ((TANK, COURSE, ""), "line 3: there is no site up to the end"),
    ((TANK, SITE, COURSE),
     "line 3: there is no anchors line up to the end; 'anchors 0 0 0' states none"),
    ((TANK, SITE, f"# {NO_ANCHORS}", ""),
     "line 4: there is no anchors line up to the end; 'anchors 0 0 0' states none"),
    (("",), "line 1: there is no tank up to the end"),
)


def mistake_in(lines, *most_courses):
    try:
        parts_in(lines, *most_courses)
    except Mistake as mistake:
        return str(mistake)
    return None


def self_test():
    example = EXAMPLE
    assert example_bytes() == VERSION_2.sheet_as_bytes(example)
    plain = "\n".join((COURSE, NO_ANCHORS, "", f"{SITE}#1 2", f"  {TANK}\r", COURSE, COURSE))
    assert bytes_of(plain.encode()) \
        == VERSION_2.sheet_as_bytes(example._replace(anchors=SELF_ANCHORED))
    for gravity in (0, 1_000, 1_137, MOST_FIGURE):      # whatever it is
        plain = f"{TANK} {gravity}\n{SITE}\n{NO_ANCHORS}\n{COURSE}"
        assert bytes_of(plain.encode()) == VERSION_2.as_bytes(
            example.tank._replace(gravity=gravity), example.site, SELF_ANCHORED,
            courses=example.courses[:1])
    for lines, said in MISTAKES:
        assert mistake_in(lines) == said, (said, mistake_in(lines))

    assert compression_record_of(EXAMPLE_FILE.read_bytes()) \
        == records.record_as_bytes(records.ask(EXAMPLE))
    assert mistake_in((TANK, SITE, NO_ANCHORS, *[COURSE] * 13), MOST_COURSES) \
        == "line 16: course comes again; 12 is the most"

    # what bytes can hold is taken, also what the marker refuses
    most = bytes_of(f"{TANK}\nsite 0 4,294,967,295 007 0 4294967295\n{NO_ANCHORS}".encode())
    assert most == VERSION_2.as_bytes(example.tank, (0, MOST_FIGURE, 7, 0, MOST_FIGURE),
                                      SELF_ANCHORED, courses=())
    many = bytes_of("\n".join((TANK, SITE, NO_ANCHORS, *[COURSE] * MOST_COUNT)).encode())
    assert len(many) == VERSION_2.bytes_with(MOST_COUNT)
    assert many[VERSION_2.count_at()] == MOST_COUNT
    # whatever a comment is made of
    assert bytes_of(b"# \xff\x0c\xe2\x80\xa8\r"
                    + f"\n{TANK}\n{SITE}\n{NO_ANCHORS}".encode()) \
        == VERSION_2.as_bytes(example.tank, example.site, SELF_ANCHORED, courses=())
