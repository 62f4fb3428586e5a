"""The oracle's command line.

python3 oracle make               writes what the programs read and are to write, beside each, and
                                  the replies in the files of cases/
python3 oracle check              makes the same again and compares it with what is stored
python3 oracle groups             lists which records, lines, sheets and files each group has
python3 oracle sheet FIGURES      writes the bytes, of version 2, of the sheet with these figures
python3 oracle ask FIGURES        writes the record that asks about compression, by D100, on that
                                  sheet
python3 oracle text SHEET         writes what the marker is to print for these bytes
python3 oracle try PROGRAM        runs the built marker on inputs fed in unusual ways
python3 oracle tally FILE         writes what the tallier is to print for these bytes
python3 oracle try-tally PROGRAM  runs the built tallier on all files that the oracle has for it

FIGURES (see oracle/example.txt), SHEET and FILE (of sheets end to end) are files, or - for standard
input.
"""

import sys

sys.dont_write_bytecode = True

from pathlib import Path

from model import (
    arithmetic, as_printed, compression, demand_3, demand_3_liquor, fields, filling_in, ground,
    judging, printing, refusals, sheet_bytes, slender, tally, tank_rules,
)
from vectors import (
    case_files, case_vectors, compression_groups, compression_later_groups, current_sheet_groups,
    figure_lines, judge_groups, judge_later_groups, leaf_lines, leaf_liquor, leaf_size_6,
    leaf_slender, liquor_points, marker_groups, marker_tries, need_points, steps_groups,
    steps_later_groups, steps_size_6_groups, stored_files, tally_groups, tally_tries,
)

ROOT = Path(__file__).resolve().parent.parent
QUICK = (fields, refusals, arithmetic, tank_rules, as_printed, ground, filling_in, sheet_bytes,
         judging, demand_3, demand_3_liquor, compression, slender, printing, tally, need_points,
         liquor_points, figure_lines, marker_tries, tally_tries)
VECTORS = (case_vectors, leaf_lines, leaf_liquor, leaf_slender, leaf_size_6, steps_groups,
           judge_groups, current_sheet_groups, compression_groups, judge_later_groups,
           steps_later_groups, compression_later_groups, steps_size_6_groups, marker_groups,
           tally_groups)

# --- make, check and groups ---------------------------------------------------


def make():
    for name, content in stored_files.made_files().items():
        path = ROOT / name
        path.parent.mkdir(parents=True, exist_ok=True)
        path.write_bytes(content)
        print(f"{name}: {stored_files.made_count(name, content)}, {len(content)} bytes")
    return 0


def check():
    status = 0
    for name, content in stored_files.made_files().items():
        path = ROOT / name
        if not path.is_file():
            print(f"{name}: differs from what the oracle makes (there is no such file)")
            status = 1
        elif (stored := path.read_bytes()) != content:
            where = stored_files.difference(name, stored, content)
            print(f"{name}: differs from what the oracle makes ({where})")
            status = 1
        else:
            print(f"{name}: as the oracle makes it")
    return status


def groups():
    for line in stored_files.group_lines():
        print(line)
    return 0


# --- sheet, ask, text and tally ------------------------------------------------


def convert(conversion, name):
    """A file to standard output; a mistake in it is one line on standard error."""
    try:
        content = sys.stdin.buffer.read() if name == "-" else Path(name).read_bytes()
        converted = conversion(content)
    except (OSError, figure_lines.Mistake) as mistake:
        print(f"{name}: {mistake}", file=sys.stderr)
        return 1
    sys.stdout.buffer.write(converted)
    return 0


# --- The command line ---------------------------------------------------------

VECTOR_COMMANDS = {"make": make, "check": check, "groups": groups}
FILE_COMMANDS = {
    "sheet": lambda name: convert(figure_lines.bytes_of, name),
    "ask": lambda name: convert(figure_lines.compression_record_of, name),
    "text": lambda name: convert(printing.marked_text, name),
    "try": marker_tries.try_program,
    "tally": lambda name: convert(tally.tallied_text, name),
    "try-tally": tally_tries.try_program,
}


def self_test(*modules):
    for module in modules:
        module.self_test()


def main(arguments):
    command, *operands = arguments or [""]
    known = FILE_COMMANDS if operands else VECTOR_COMMANDS
    if command not in known or len(operands) > 1:
        print(__doc__.strip(), file=sys.stderr)
        return 2
    if not __debug__:
        print("the oracle's checks are asserts: run it without -O", file=sys.stderr)
        return 2
    self_test(*QUICK)
    if known is FILE_COMMANDS:
        return known[command](*operands)
    try:
        self_test(*VECTORS)         # over all vectors, which takes its time
        return known[command]()
    except case_files.Mistake as mistake:
        print(mistake, file=sys.stderr)
        return 1


sys.exit(main(sys.argv[1:]))
