"""All groups of the tallier's files (request S-11), what is stored of them, and the checks over all
of them.

What is stored is one file: every sheet of the groups made by hand that it goes on after, once, and
sheets drawn at random, and at its end a length that is none, with sound sheets behind it. All
other files are made when `python3 oracle try-tally PROGRAM` runs the built tallier on them.
"""

from functools import cache

from model import tally
from model.fields import FIELD_RANGES
from vectors import (
    case_vectors, tally_ends, tally_most, tally_random, tally_refusals, tally_sums,
)
from vectors.tally_cases import ABOVE, file_of
from vectors.tally_readings import ASTRAY, ASTRAY_AT_THE_MOST, RIGHT, figures_read, told_by

BY_HAND = (*tally_ends.GROUPS, *tally_refusals.GROUPS, *tally_sums.GROUPS)
AT_THE_MOST = tally_most.GROUPS
HELD_OPEN = (*tally_most.HELD_OPEN, *tally_ends.HELD_OPEN)  # fed through a pipe that stays open
AT_RANDOM = tally_random.GROUPS
MOST_READ_ASTRAY = 100_000              # bytes of the files that each reading is held against
LEAST_TOLD = 2

# --- Files --------------------------------------------------------------------


def case_files():
    """Those that people can read, in cases/tally.txt."""
    return {f"cases_{name}": [file_of(f"case {number}", content)
                              for number, content in enumerate(contents, start=1)]
            for name, contents in case_vectors.S_11.group_files().items()}


@cache
def small_files():
    """Name of the group to its files, but for those with 10,000 sheets and those at random."""
    return {**{group.__name__: list(group()) for group in BY_HAND}, **case_files()}


def files_of(*groups):
    """The same of these; they are large, and made anew each time."""
    return {group.__name__: list(group()) for group in groups}


def all_files():
    return {**small_files(), **files_of(*AT_THE_MOST, *AT_RANDOM)}


# --- What is stored -----------------------------------------------------------

UNUSABLE = (79).to_bytes(2, "big")
STORED_DAMAGED = 500


def stored_sources():
    """Name of the group to the bytes of its files, or of its sheets."""
    return {**{name: [file.content for file in files] for name, files in small_files().items()},
            "random_whole": tally_random.whole_sheets(),
            "random_damaged": tally_random.damaged_sheets()[:STORED_DAMAGED]}


@cache
def stored_groups():
    """Name of the group to its sheets, each where it comes first; 11 and 13 are left out."""
    before, groups = set(), {}
    for name, contents in stored_sources().items():
        own = {own: None for content in contents for own, sheet in tally.sheets_in(content)
               if sheet.refusal not in ((11, 0), (13, 0)) and own not in before}
        before.update(own)
        groups[name] = list(own)
    return {**{name: sheets for name, sheets in groups.items() if sheets}, "end": [UNUSABLE]}


def stored_sheets():
    return [sheet for sheets in stored_groups().values() for sheet in sheets]


def stored_stdin():
    """The three sheets at its end are behind a length that is none."""
    return b"".join(stored_sheets()) + ABOVE * 3


def stored_stdout():
    return tally.tallied_text(stored_stdin())


def stored_summary():
    return f"{len(stored_sheets())} sheets read, and 3 behind a length that is none"


def group_lines():
    """How many files `try-tally` has of each group."""
    for name, files in {**all_files(), **files_of(*HELD_OPEN)}.items():
        sheets = sum(file.made.read for file in files)
        yield f"try-tally {name}: {len(files)} files, {sheets} sheets read"


# --- Self test, over all vectors ----------------------------------------------


def check_stored():
    """Every refusal that such a file can have but 11, both words, fewer sheets than the most; it
    ends at 13 with bytes behind."""
    content = stored_stdin()
    found = list(tally.sheets_in(content))
    assert [own for own, _sheet in found] == stored_sheets() and 2_500 < len(found) < 9_000
    *before, (_own, last) = found
    assert last.refusal == (13, 0) and content.endswith(UNUSABLE + ABOVE * 3)
    refusals = {sheet.refusal for _own, sheet in before}
    numbers = (14, 15, 17, 18, 34, 37, 39)
    assert refusals == {None, *((number, 0) for number in numbers),
                        *((16, field) for field in FIELD_RANGES)}
    assert {sheet.word for _own, sheet in before} == {*tally.WORDS}
    assert {len(sheet.differences) for _own, sheet in before} == {*range(13)}
    assert figures_read(RIGHT, content) == tally.tally(content)


def check_right(files):
    """The tally written a second time is the same."""
    for file in files:
        assert figures_read(RIGHT, file.content) == file.made, file.name


def check_astray(files, readings):
    """Each reading that goes astray is told apart by some files made by hand."""
    for name, reading in readings.items():
        told = told_by(reading, files, LEAST_TOLD)
        assert told == LEAST_TOLD, (name, told)


def self_test():
    tally_ends.self_test()
    tally_refusals.self_test()
    tally_sums.self_test()
    tally_random.self_test()
    check_stored()
    small = [file for files in small_files().values() for file in files]
    most = files_of(*AT_THE_MOST)
    refused_among = most[tally_most.refused_among_the_most.__name__]
    tally_most.check(most)
    check_right([*small, *tally_random.random_files(), *refused_among])
    check_astray([file for file in small if len(file.content) <= MOST_READ_ASTRAY], ASTRAY)
    check_astray(refused_among, ASTRAY_AT_THE_MOST)
