"""The stored files: what the programs under test read and are to write, and where a stored one
differs from what the oracle makes.
"""

from functools import cache

from model import printing
from model.filling_in import EXAMPLE
from vectors import (
    case_files, case_vectors, compression_groups, compression_later_groups, current_sheet_groups,
    judge_cases, judge_groups, judge_later_groups, leaf_lines, leaf_liquor, leaf_size_6,
    leaf_slender, marker_groups, records, steps_groups, steps_later_groups, steps_size_6_groups,
    tally_groups,
)
from vectors.start_sheets import EXAMPLE_BYTES

EXAMPLE_STDOUT = "crates/example/stdout"
LEAVES_STDIN = "crates/test_leaves/stdin"       # lines
LEAVES_STDOUT = "crates/test_leaves/stdout"
STEPS_STDIN = "crates/test_steps/stdin"         # records, not lines
STEPS_STDOUT = "crates/test_steps/stdout"
MARKER_STDIN = "crates/marker/stdin"            # one sheet
MARKER_STDOUT = "crates/marker/stdout"
SHEETS_STDIN = "crates/test_sheets/stdin"       # sheets, each with its count of bytes
SHEETS_STDOUT = "crates/test_sheets/stdout"
TALLIER_STDIN = "crates/tallier/stdin"          # sheets end to end
TALLIER_STDOUT = "crates/tallier/stdout"        # their tally
MOST_RECORDS = 100_000                          # that the program reads

# --- Records ------------------------------------------------------------------

RECORDS = (     # what a module's group names begin with, and the module
    ("", steps_groups), ("judged_", judge_groups), ("held_", current_sheet_groups),
    ("compression_", compression_groups), ("cases_", case_vectors.BEFORE),
    ("judge_", judge_later_groups), ("steps_", steps_later_groups),
    ("compression_", compression_later_groups), ("cases_s_8_", case_vectors.S_8),
    ("size_6_", steps_size_6_groups), ("cases_s_10_", case_vectors.S_10),
)


def all_groups():
    """Scripts of steps and bytes, judged sheets, current sheets judged, those asked about
    compression, the cases that people can read; then what came later, in that order too: name to
    records."""
    groups = [(prefix + name, group) for prefix, module in RECORDS
              for name, group in module.group_records().items()]
    assert len({name for name, _group in groups}) == len(groups)
    return dict(groups)


@cache
def all_records():
    return records.in_turn(all_groups())


@cache
def all_outcomes():
    return [result for _prefix, module in RECORDS for result in module.all_outcomes()]


def judged_counts():
    """Of all records that judge."""
    results = [result.judged for result in all_outcomes() if result.judged is not None]
    return judge_cases.counted(result.word() for result in results)


def asked_counts():
    """Of all records that ask about compression."""
    words = (result.word for result in all_outcomes() if result.asked is not None)
    return compression_groups.counted(words)


def record_parts():
    return [records.record_as_bytes(record) for record in all_records()]


# --- The files ----------------------------------------------------------------


@cache
def leaf_groups():
    """All lines of the leaves; those of the cases that people can read; those of S-8; those of S-9,
    and of the cases that came with it; those of S-10."""
    return {"leaves": leaf_lines.all_lines(),
            **{f"cases_{name}": lines
               for name, lines in case_vectors.BEFORE.group_leaf_lines().items()},
            **{f"liquor_{name}": lines for name, lines in leaf_liquor.group_lines().items()},
            **{f"slender_{name}": lines for name, lines in leaf_slender.group_lines().items()},
            **{f"cases_s_9_{name}": lines
               for name, lines in case_vectors.S_9.group_leaf_lines().items()},
            **{f"size_6_{name}": lines for name, lines in leaf_size_6.group_lines().items()}}


def leaf_files():
    lines = records.in_turn(leaf_groups())
    return {LEAVES_STDIN: printing.lines_as_bytes(lines),
            LEAVES_STDOUT: printing.lines_as_bytes(map(leaf_slender.answer, lines))}


def step_files():
    assert len(all_records()) < MOST_RECORDS
    return {STEPS_STDIN: b"".join(record_parts()),
            STEPS_STDOUT: printing.lines_as_bytes(result.line() for result in all_outcomes())}


def marker_files():
    """The example of document 01 as it is there, which is version 1."""
    return {MARKER_STDIN: EXAMPLE_BYTES, MARKER_STDOUT: printing.marked_text(EXAMPLE_BYTES)}


def sheet_files():
    return {SHEETS_STDIN: b"".join(marker_groups.stdin_parts()),
            SHEETS_STDOUT: b"".join(marker_groups.texts())}


def tallier_files():
    return {TALLIER_STDIN: tally_groups.stored_stdin(),
            TALLIER_STDOUT: tally_groups.stored_stdout()}


def made_files():
    """Name, relative to the repository's root, to bytes."""
    return {**leaf_files(), EXAMPLE_STDOUT: printing.judged_text(EXAMPLE), **step_files(),
            **marker_files(), **sheet_files(), **tallier_files(), **case_files.made_files()}


def made_count(name, content):
    """What a made file has, said for people."""
    line_count = content.count(b"\n")
    lines = f"{line_count} lines"
    counts = {
        STEPS_STDIN: lambda: f"{len(all_records())} records",
        STEPS_STDOUT: lambda: f"{lines} (judged: {judged_counts()}; "
                              f"compression: {asked_counts()})",
        MARKER_STDIN: lambda: "1 sheet",
        SHEETS_STDIN: marker_groups.sheets_summary,
        SHEETS_STDOUT: lambda: f"{lines} ({marker_groups.texts_summary()})",
        TALLIER_STDIN: tally_groups.stored_summary,
    }
    return counts[name]() if name in counts else lines


# --- Where a stored file differs ----------------------------------------------


def line_difference(stored, made):
    """Where the stored bytes leave those that the oracle makes."""
    stored_lines = stored.split(b"\n")
    made_lines = made.split(b"\n")
    for number, (one, other) in enumerate(zip(stored_lines, made_lines), start=1):
        if one != other:
            return f"first at line {number}"
    return f"{len(stored_lines) - 1} lines stored, {len(made_lines) - 1} made"


PARTS = {   # of the files in which parts are numbered, not lines; `groups` lists them
    STEPS_STDIN: ("record", record_parts),          # line N of stdout answers record N
    MARKER_STDIN: ("sheet", lambda: [EXAMPLE_BYTES]),
    SHEETS_STDIN: ("sheet", marker_groups.stdin_parts),
    SHEETS_STDOUT: ("the text of sheet", marker_groups.texts),
    TALLIER_STDIN: ("sheet", tally_groups.stored_sheets),
}


def part_difference(name, stored, made):
    part, parts = PARTS[name]
    for alike, (one, other) in enumerate(zip(stored, made)):
        if one != other:
            number = records.part_number(parts(), alike)
            return f"first in {part} {number}, after {alike} bytes alike"
    return f"{len(stored)} bytes stored, {len(made)} made"


def case_difference(stored, made):
    """Of a file that people read: the line too, as it is stored and as it is made."""
    stored_lines, made_lines = (content.decode("ascii", errors="replace").split("\n")
                                for content in (stored, made))
    for number, (one, other) in enumerate(zip(stored_lines, made_lines), start=1):
        if one != other:
            return f"line {number} is {one!r}, not {other!r}"
    return line_difference(stored, made)


def difference(name, stored, made):
    if name.startswith("cases/"):
        return case_difference(stored, made)
    if name in PARTS:
        return part_difference(name, stored, made)
    return line_difference(stored, made)


# --- Groups -------------------------------------------------------------------


def group_lines():
    """Which records and sheets each group has, and what they come to."""
    yield from records.group_lines(all_groups())
    yield f"judged: {judged_counts()}"
    yield f"compression: {asked_counts()}; at random, self-anchored: {compression_groups.shares()}"
    yield "marker: the one sheet of oracle/example.txt, as version 1"
    for line in records.group_lines(marker_groups.group_cases()):
        yield f"sheets_{line}"
    yield f"sheets: {marker_groups.sheets_summary()}; {marker_groups.texts_summary()}"
    yield from records.group_lines(leaf_groups())       # lines of test_leaves
    for line in records.group_lines(tally_groups.stored_groups()):
        yield f"tallied_{line}"
    yield f"tallied: {tally_groups.stored_summary()}"
    yield from tally_groups.group_lines()
