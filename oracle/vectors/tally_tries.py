"""The built tallier run on all files (request S-11).

`python3 oracle try-tally PROGRAM` feeds them as a file and through pipes, whole and in pieces; some
through a pipe that stays open, and some in ways in which a read fails. What the program prints is
to be the oracle's text, with nothing on standard error and an exit status of 0. The documents do
not say what is due where a read fails. Decided here: the tally of a part must not pass for that of
the whole, so nothing is printed, and the status is another; what is on standard error is open.
Behind 13 the program "stops": it waits for nothing there, makes no read that could fail, and its
text is due.
"""

import os
import pty
import subprocess
import sys
import tempfile
import tty
from random import Random
from typing import Callable, NamedTuple

from model import tally
from model.sheet_bytes import VERSION_1
from vectors import tally_groups, tally_random
from vectors.marker_tries import (
    PATIENCE, Ended, closed, ended, fed, feed, killed_late, opened, started,
)
from vectors.tally_cases import ABOVE, BELOW, JUST, by_differences
from vectors.tally_ends import length
from vectors.tally_refusals import GOES_ON_AFTER, one_of_each
from vectors.tally_sums import HIGH

SHOWN = 40          # complaints, at most; the others are counted

# --- Ways to run the program ---------------------------------------------------


def as_file(content):
    """Standard input is a file."""
    def run(program):
        with tempfile.TemporaryFile() as file:
            file.write(content)
            file.seek(0)
            return ended(started(program, stdin=file))
    return run


def through_pipe(content):
    """In one piece, or as many as the pipe makes of it."""
    def run(program):
        process = started(program, stdin=subprocess.PIPE)
        try:
            stdout, stderr = process.communicate(content, timeout=PATIENCE)
        except subprocess.TimeoutExpired:
            process.kill()
            stdout, stderr = process.communicate()
            stderr += f"(still running after {PATIENCE} s)".encode()
        return Ended(stdout, stderr, process.returncode)
    return run


def held_open(content):
    """Nobody closes the pipe before the program ends: it must not wait for more."""
    return fed_and_held_open([content])


def fed_and_held_open(pieces):
    """The same, piece by piece."""
    def run(program):
        process = started(program, stdin=subprocess.PIPE, bufsize=0)
        late = killed_late(process)
        feed(process, pieces)
        process.wait()
        late.cancel()
        return ended(process)
    return run


def last_two_parted(content):
    """The same, and the last two bytes, those of a length, come one by one."""
    return fed_and_held_open([content[:-1], content[-1:]])


def until_a_read_fails(content):
    """The bytes come from a terminal's other end, and the read after them fails: on Linux what is
    left there is read first, then the hang-up is an error."""
    def run(program):
        reading, feeding = pty.openpty()
        try:
            tty.setraw(feeding)
            os.write(feeding, content)
            os.close(feeding)
            return ended(started(program, stdin=reading))
        finally:
            os.close(reading)
    return run


def terminals():
    """Whether there are any to be had, for that."""
    try:
        for end in pty.openpty():
            os.close(end)
    except OSError:
        return False
    return True


# --- The tries ----------------------------------------------------------------


class Try(NamedTuple):
    name: str
    due: bytes | None           # what is to be printed; None where a read fails
    run: Callable               # of the program: how it ended


def try_on(name, content, way):
    return Try(name, tally.tallied_text(content), way(content))


def in_pieces_of(*sizes):
    return lambda content: fed(cut_into(content, sizes))


def cut_into(content, sizes):
    """Pieces of these sizes, over and over."""
    pieces, start, turn = [], 0, 0
    while start < len(content):
        pieces.append(content[start:start + sizes[turn % len(sizes)]])
        start += len(pieces[-1])
        turn += 1
    return pieces


# Sound, short and refused; of either version, and with gravity.
SMALL = b"".join((ABOVE, by_differences(3, -4, 62, layout=VERSION_1), HIGH,
                  by_differences(-5, gravity=1_300), JUST))
STOPPED = ABOVE + BELOW + b"\0\x4f" + ABOVE         # 13, and a sheet behind it
SMALL_SIZES = (1, 2, 3, 5, 7, 61, 79, 80, 81, 83, 84, 85, 303, 304, 305)
SOME_SIZES = (5, 61, 83, 84)        # of these, for a longer file: see FEEDING
LARGE_SIZES = (303, 304, 305, 1_021, 4_095, 4_096, 4_097, 65_535, 65_536, 65_537)
LARGE = 400_000     # bytes, about
MOST_PIECES = 150
EACH_OF = 40        # random files of which one is fed in pieces
BOTH_WAYS = 60      # files of a group at most that are fed both ways


def each_refusal():
    """A file with each that it goes on after; sound sheets are before, between and behind."""
    return ABOVE + b"".join(content + ABOVE for content in one_of_each())


def small_in_pieces():
    """So that lengths and sheets are cut at every place."""
    for name, content in (("a small file", SMALL), ("a file with 13", STOPPED),
                          ("a cut file", SMALL[:-1]), ("a byte too many", SMALL + b"\0")):
        for size in SMALL_SIZES:
            yield try_on(f"{name}, in pieces of {size}", content, in_pieces_of(size))
    refusals = each_refusal()
    for size in SOME_SIZES:
        yield try_on(f"each refusal, in pieces of {size}", refusals, in_pieces_of(size))
    rng = Random(124)
    for number in range(30):
        sizes = [rng.choice((1, 2, 3, rng.randint(1, 100))) for _ in range(50)]
        yield try_on(f"a small file, random pieces {number}", SMALL, in_pieces_of(*sizes))
    content = JUST + SMALL
    for place in range(81, 84 + 90):        # within the first sheet, the next length and behind it
        yield try_on(f"parted after {place}", content, in_pieces_of(place, len(content)))


def large_in_pieces():
    large = b"".join(tally_random.whole_sheets())[:LARGE]
    for size in LARGE_SIZES:
        content = large[:size * MOST_PIECES]
        yield try_on(f"{len(content)} bytes, in pieces of {size}", content, in_pieces_of(size))
    rng = Random(125)
    for number in range(10):
        sizes = [rng.randint(1, 5_000) for _ in range(50)]
        yield try_on(f"a large file, random pieces {number}", large, in_pieces_of(*sizes))
    for file in tally_random.random_files()[::EACH_OF]:
        sizes = [rng.choice((1, 2, rng.randint(1, 700))) for _ in range(50)]
        yield try_on(f"{file.name} at random, random pieces", file.content, in_pieces_of(*sizes))


def each_file():
    """As a file and through a pipe; those of large groups in turn."""
    for name, files in tally_groups.all_files().items():
        for number, file in enumerate(files):
            ways = (as_file, through_pipe) if len(files) <= BOTH_WAYS \
                else ((as_file, through_pipe)[number % 2],)
            for way in ways:
                yield Try(f"{name}: {file.name}", tally.text_of(file.made), way(file.content))
    stored = tally_groups.stored_stdin()
    yield try_on("the stored file", stored, as_file)
    yield try_on("the stored file, in pieces of 65,536", stored, in_pieces_of(65_536))
    yield try_on("the null device", b"", lambda _content: opened(os.devnull))


def kept_waiting():
    """The most sheets, and lengths that are none, through a pipe that stays open; two of these
    lengths in two pieces too, of which the first alone says nothing."""
    for group in tally_groups.HELD_OPEN:
        for file in group():
            yield Try(f"{group.__name__}: {file.name}", tally.text_of(file.made),
                      held_open(file.content))
    yield try_on("79 in two pieces, at the start", length(79), last_two_parted)
    yield try_on("303 in two pieces, behind a small file", SMALL + length(303), last_two_parted)


def failing_reads():
    """At once; and after some bytes, where no tally of them may be printed: behind whole sheets,
    within a sheet, within its length. Behind 13 none fails: the program "stops", so it makes no
    read there, and the tally is due. Behind the 10,000th sheet it need not read, and what it does
    there is open: none of these, and a terminal does not hold that many bytes."""
    yield Try("a directory", None, opened("/"))
    yield Try("a closed standard input", None, closed)
    yield Try("a file that is not open for reading", None, opened(os.devnull, os.O_WRONLY))
    if not terminals():
        print("there are no terminals here: reads that fail behind some bytes are not tried")
        return
    for name, content in (("nothing", b""), ("a byte", ABOVE[:1]), ("a length", ABOVE[:2]),
                          ("a cut sheet", ABOVE[:50]), ("a sheet", ABOVE), ("a small file", SMALL),
                          ("a small file and a byte", SMALL + b"\0"),
                          ("a refused sheet", HIGH), ("a cut file", SMALL[:-1])):
        yield Try(f"a read that fails behind {name}", None, until_a_read_fails(content))
    for name, content in (("13", length(79)), ("13, the greatest", length(65_535)),
                          ("a sheet and 13", ABOVE + length(303)),
                          ("a small file and 13", SMALL + length(0)),
                          ("13 and a byte", SMALL + length(81) + b"\0"),
                          ("13 and a sheet", STOPPED)):
        yield try_on(f"a read that is not made, behind {name}", content, until_a_read_fails)


def all_tries():
    yield from failing_reads()
    yield from small_in_pieces()
    yield from large_in_pieces()
    yield from kept_waiting()
    yield from each_file()


# --- What comes of them --------------------------------------------------------


def complaint_of_failing(given):
    """Of a run in which a read failed."""
    if given.stdout != b"":
        return f"a read failed, and stdout is {given.stdout!r}, not b''"
    return "a read failed, and the status is 0" if given.status == 0 else None


def complaint(one_try, program):
    """What is wrong with the program's answer, in one line, or None."""
    given = one_try.run(program)
    if one_try.due is None:
        said = complaint_of_failing(given)
        return None if said is None else f"{one_try.name}: {said}"
    due = Ended(one_try.due, b"", 0)
    wrong = [f"{name} is {got!r}, not {right!r}"
             for name, got, right in zip(Ended._fields, given, due) if got != right]
    return f"{one_try.name}: {'; '.join(wrong)}" if wrong else None


def try_program(path):
    """The status to exit with. The path is no search word, whatever the file is called."""
    program = os.path.abspath(path)
    tried, complaints = 0, []
    try:
        for one_try in all_tries():
            tried += 1
            said = complaint(one_try, program)
            if said is not None:
                complaints.append(said)
                if len(complaints) <= SHOWN:
                    print(said)
    except OSError as mistake:
        print(f"{path} cannot be run: {mistake.strerror}", file=sys.stderr)
        return 1
    result = f"{len(complaints)} not as the oracle says" if complaints \
        else "all as the oracle says"
    print(f"tallied on {path}: {tried} runs, {result}")
    return 1 if complaints else 0


# --- Self test ----------------------------------------------------------------


def self_test():
    """What is fed in pieces has every word; 6 and 3 - 4 + 62 and -5 and 0 are 62. Nine sheets of 6
    are around one of each refusal. Pieces are the whole again, and no piece is empty."""
    assert tally.tally(SMALL) == (5, 2, 2, 1, 62, -5)
    assert tally.tally(STOPPED) == (3, 1, 1, 1, -57, -63)
    assert tally.tally(SMALL[:-1]) == (5, 1, 2, 2, 62, -5)
    assert tally.tally(SMALL + b"\0") == (6, 2, 2, 2, 62, -5)
    assert tally.tally(each_refusal()) == (17, 9, 0, 8, 54, 6)
    refusals = [sheet.refusal for _own, sheet in tally.sheets_in(each_refusal())]
    assert refusals[::2] == [None] * 9
    assert [number for number, _field in refusals[1::2]] == [*GOES_ON_AFTER]
    assert {*SOME_SIZES} <= {*SMALL_SIZES}
    for sizes in ((1,), (84,), (3, 1, 500)):
        pieces = cut_into(SMALL, sizes)
        assert b"".join(pieces) == SMALL and b"" not in pieces
    assert [len(piece) for piece in cut_into(STOPPED, (100, 3))] == [100, 3, 100, 3, 48]
