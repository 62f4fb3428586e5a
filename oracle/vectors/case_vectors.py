"""The cases that people can read, as vectors: what the programs are run on is just what the files
of cases/ show (see case_files.py). What came with a request is by itself, to be stored later.
"""

from functools import cache
from itertools import pairwise
from typing import NamedTuple

from model.filling_in import EXAMPLE
from vectors import records
from vectors.case_files import NAMES, REQUESTS, Mistake, tried_in, tried_in_files, written_out
from vectors.judge_checks import (
    check_beside_d100, check_beside_writing, check_demand_3, check_sides,
)
from vectors.record_answers import outcomes
from vectors.script_checks import check_outcomes

LEAST_CASES, MOST_LINES = 12, 400       # of a file

# --- Vectors ------------------------------------------------------------------


def without_unseen(found):
    """A sheet built by hand in several lines is handed over once, when it is whole."""
    return [one for one, after in pairwise((*found, None))
            if after is None or {one.opcode, after.opcode} != {records.FORGE}]


class Cases(NamedTuple):
    """Those that came with a request, or those before any part that has one."""
    request: str

    def group_of(self, part):
        """Name of the file to what its questions have for this part of Tried, if they have
        any."""
        found = {name: [getattr(one, part) for one in tried
                        if one.request == self.request and getattr(one, part) is not None]
                 for name, tried in tried_in_files().items()}
        return {name: of_file for name, of_file in found.items() if of_file}

    def group_records(self):
        """For test_steps; the first record makes a new sheet."""
        return {name: [records.new(), *without_unseen(of_file)]
                for name, of_file in self.group_of("record").items()}

    def all_records(self):
        return records.in_turn(self.group_records())

    def all_outcomes(self):
        return outcomes_of(self)

    def group_sheets(self):
        """Bytes, for test_sheets."""
        return self.group_of("content")

    def group_leaf_lines(self):
        """For test_leaves."""
        return self.group_of("leaf")

    def group_files(self):
        """Bytes, for the tallier."""
        return self.group_of("file")


@cache
def outcomes_of(cases):
    return list(outcomes(cases.all_records()))


BEFORE, S_8, S_9, S_10, S_11 = map(Cases, ("", *REQUESTS))


# --- Self test ----------------------------------------------------------------

LINES = """\
# The example tank, with a comma
tank 14,400 28800 11000 250 0 36000     # six figures
    wrong
site 105 109 115 27 30000
course 9600 250 0 15000 85
course 9600 250 0 15000 85

course 9600 250 0 15000 85
compression 3
anchors 6 14800 8
uses 2
write 125
put slot 12 0 0 0 0 1
put count 3
write
clear
judge
mark 00 76 \\
     01
ground C 240 93
pressure 105
request S-8
tank 14400 28800 11000 250 0 36000 1301
tank 14400 28800 11000 250 0 36000 1,300
request S-9
moment 12,000 12,000 1,000 5,000 7,200 1,000 14,400 200 50
moment 12,000 12,000 1,000 5,000 7,200 1,000 14,400 200 1,001
request S-11
tally
tally 00
"""
REPLIES = """\
# The example tank, with a comma
tank 14,400 28800 11000 250 0 36000     # six figures
    ok
site 105 109 115 27 30000
    ok
course 9600 250 0 15000 85
    ok
course 9600 250 0 15000 85
    ok

course 9600 250 0 15000 85
    ok
compression 3
    refused 42
anchors 6 14800 8
    ok
uses 2
    course 1 188 of 250 0.752
    course 2 188 of 250 0.752
    course 3 188 of 250 0.752
    spacing 5254000 of 8136000 0.645771878072763
    strength 2133000 of 12089700 0.1764311769522817
write 125
    bytes 00 7a  02
    bytes 00 00 38 40  00 00 70 80  00 00 2a f8  00 00 00 fa  00 00 00 00  00 00 8c a0  00 00 03 e8
    bytes 00 00 00 69  00 00 00 6d  00 00 00 73  00 00 00 1b  00 00 75 30
    bytes 00 00 00 06  00 00 39 d0  00 00 00 08
    bytes 03
    bytes 00 00 25 80  00 00 00 fa  00 00 00 00  00 00 3a 98  00 00 00 55
    bytes 00 00 25 80  00 00 00 fa  00 00 00 00  00 00 3a 98  00 00 00 55
    bytes 00 00 25 80  00 00 00 fa  00 00 00 00  00 00 3a 98  00 00 00 55
    untouched 1
put slot 12 0 0 0 0 1
put count 3
write
    refused 30
clear
judge
    refused 32
mark 00 76 \\
     01
    refused 11
ground C 240 93
    ground 720000 158100 27
pressure 105
    pressure 2123
request S-8
tank 14400 28800 11000 250 0 36000 1301
    refused 16 20
tank 14400 28800 11000 250 0 36000 1,300
    ok
request S-9
moment 12,000 12,000 1,000 5,000 7,200 1,000 14,400 200 50
    moment 39920
moment 12,000 12,000 1,000 5,000 7,200 1,000 14,400 200 1,001
    refused 40
request S-11
tally
    read 0
    sound 0
    short 0
    refused 0
    sum 0
    least none
tally 00
    read 1
    sound 0
    short 0
    refused 1
    sum 0
    least none
"""
MISTAKES = (        # lines, and how the mistake in them is said
    ("\ntonk 1", "line 2: 'tonk' is none of clear, request, tank, site, anchors, course, read, "
                 "write, judge, uses, compression, mark, tally, pressure, ground, moment, put"),
    ("tank 1 2 3 4 5", "line 1: these are 5 figures, not D H W plate allowance Fy gravity"),
    ("tank 1 2 3 4 5 6 7 8", "line 1: these are 8 figures, not D H W plate allowance Fy gravity"),
    ("request S-7", "line 1: a request is one of S-8, S-9, S-10, S-11"),
    ("anchors 6 14,80 8", "line 1: '14,80' is not a whole number"),
    ("anchors 6 4,294,967,296 8", "line 1: 4,294,967,296 is above 4294967295"),
    ("clear\nread 0x00", "line 2: these are no bytes, of two hexadecimal digits each"),
    (f"read {'00' * 701}", "line 1: these are 701 bytes; 700 is the most"),
    ("read 00 0", "line 1: these are no bytes, of two hexadecimal digits each"),
    ("mark 00 \\", "line 1: it ends in a backslash, and the file with it"),
    ("write 513", "line 1: 513 is above 512"), ("judge 1 2", "line 1: it has one operand at most"),
    ("put slot 13 0 0 0 0 0", "line 1: there is no slot 13"),
    ("put course 1", "line 1: tank, site, anchors, slot or count can be put"),
    ("put", "line 1: tank, site, anchors, slot or count can be put"),
    ("ground CC 240 93", "line 1: a class is one letter"),
    ("tally 0", "line 1: these are no bytes, of two hexadecimal digits each"),
    ("pressure", "line 1: these are 0 figures, not SPEED"),
    ("moment 1 2", "line 1: these are 2 figures, not D H GRAVITY WS XS WR XR AI AC"),
    ("clear all", "line 1: clear stands alone"),
)


def mistake_in(text):
    try:
        list(tried_in("steps", text))
    except Mistake as mistake:
        return str(mistake).removeprefix("cases/steps.txt: ")
    return None


def check_lines():
    """Questions and replies, spelled out; what is written out reads the same again."""
    tried = list(tried_in("steps", LINES))
    assert written_out(tried) == REPLIES, written_out(tried)
    assert written_out(tried_in("steps", REPLIES)) == REPLIES
    assert any(one.sheet == EXAMPLE for one in tried)
    assert [one.request for one in tried][-9:] == ["S-8"] * 3 + ["S-9"] * 3 + ["S-11"] * 3
    assert tried[-10].request == ""
    for text, said in MISTAKES:
        assert mistake_in(text) == said, (said, mistake_in(text))


def check_files():
    """Each has enough questions, and no more lines than a person reads."""
    for name in NAMES:
        tried = tried_in_files()[name]
        assert sum(bool(one.reply) for one in tried) >= LEAST_CASES, name
        assert written_out(tried).count("\n") <= MOST_LINES, name
        assert max(map(len, written_out(tried).split("\n"))) <= 100, name
    assert {*BEFORE.group_leaf_lines()} == {"pressure", "ground"}       # as `groups` lists them
    assert not {*BEFORE.group_leaf_lines()} & {*BEFORE.group_records()}
    assert not S_8.group_leaf_lines()
    assert {*S_9.group_leaf_lines()} == {"moment"}      # and nothing else
    assert not S_9.group_records() and not S_9.group_sheets()
    for cases in (BEFORE, S_8, S_10):
        assert {"judge", "marker"} <= {*cases.group_sheets()}
        assert {"steps", "read", "write", "judge", "compression"} <= {*cases.group_records()}
    assert not S_10.group_leaf_lines()
    assert {*S_11.group_files()} == {"tally"}           # and nothing else
    assert not S_11.group_records() and not S_11.group_sheets() and not S_11.group_leaf_lines()
    for cases in (BEFORE, S_8, S_9, S_10):
        assert not cases.group_files()


def self_test():
    check_lines()
    check_files()
    for cases in (BEFORE, S_8, S_10):
        found, results = cases.all_records(), cases.all_outcomes()
        check_outcomes(found, results)
        check_demand_3(results)
        check_beside_writing(found, results)
        check_beside_d100(results)
        check_sides(results)
