"""Inputs tried by hand, and the built printing program run on them.

`python3 oracle try PROGRAM` feeds them through pipes, whole and in pieces, and in ways that
have nothing to be read. What the program prints is to be the oracle's text of the bytes fed,
with nothing on standard error and an exit status of 0.
"""

import fcntl
import os
import subprocess
import sys
import termios
import threading
import time
from typing import Callable, NamedTuple

from model import printing
from model.demand_3_liquor import GRAVITY, filled_with
from model.fields import GRAVITY_FIELD
from model.sheet_bytes import LENGTH_BYTES, VERSION_1, VERSION_2, VERSION_AT
from vectors.byte_changes import with_byte, with_length
from vectors.judge_cases import EXAMPLE, changed, with_widths
from vectors.start_sheets import EXAMPLE_BYTES, FULL, FULL_BYTES
from vectors.version_1 import HEAD_BYTES, sheet_as_bytes

PATIENCE = 10       # seconds, for the program to end
FEEDING = 1.5       # for all pieces to be read
PAUSE = 0.001       # between two looks whether a piece is read

# --- Bytes --------------------------------------------------------------------

ONE_COURSE = changed(with_widths(EXAMPLE, [9_600]), H=9_600)
SHEETS = {          # each is called sound
    "the example": EXAMPLE_BYTES,
    "a sheet of one course": sheet_as_bytes(ONE_COURSE),
    "a sheet of twelve courses": FULL_BYTES,
}


def inputs(most):
    """Name to bytes and the last line of their text; `most` is how many of 255 there are."""
    tried = {
        "nothing": (b"", "refused 11"),
        "one byte": (b"\0", "refused 11"),
        "a length with nothing behind it": (EXAMPLE_BYTES[:LENGTH_BYTES], "refused 11"),
        "300 bytes of 0": (bytes(300), "refused 13"),
        f"{most} bytes of 255": (b"\xff" * most, "refused 13"),
    }
    for name, content in SHEETS.items():
        tried[name] = content, "tank sound"
        tried[f"{name}, one byte more"] = content + b"\0", "refused 12"
        tried[f"{name}, one byte less"] = content[:-1], "refused 11"
        tried[f"{name}, many bytes more"] = content.ljust(20_000, b"\1"), "refused 12"
    return tried
HEAVY_SHEETS = {    # of version 2; each is called sound
    f"{name}, with gravity": VERSION_2.sheet_as_bytes(filled_with(GRAVITY, sheet))
    for name, sheet in (("the example", EXAMPLE), ("a sheet of one course", ONE_COURSE),
                        ("a sheet of twelve courses", FULL))
}
LONGEST_SHEET = HEAVY_SHEETS["a sheet of twelve courses, with gravity"]


def inputs_of_version_2():
    """The same of version 2. The longest sheet has 304 bytes, of which the marker reads one
    more."""
    assert len(LONGEST_SHEET) == 304
    tried = {"304 bytes of 0": (bytes(304), "refused 13"),
             "305 bytes of 0": (bytes(305), "refused 13")}
    for name, content in HEAVY_SHEETS.items():
        tried[name] = content, "tank sound"
        tried[f"{name}, one byte more"] = content + b"\0", "refused 12"
        tried[f"{name}, one byte less"] = content[:-1], "refused 11"
        tried[f"{name}, many bytes more"] = content.ljust(20_000, b"\2"), "refused 12"
        tried[f"{name}, said to be version 1"] = with_byte(content, VERSION_AT, 1), "refused 14"
        heavier = VERSION_2.with_field_bytes(content, GRAVITY_FIELD, 1_301)
        tried[f"{name}, a thousandth too much"] = heavier, "refused 16 20"
    first = VERSION_1.sheet_as_bytes(FULL)
    tried["twelve courses, said to be version 2"] = with_byte(first, VERSION_AT, 2), "refused 14"
    tried["twelve courses of version 1, four bytes more"] = first + bytes(4), "refused 12"
    longer = with_length(first, VERSION_2.length_with(12))
    tried["twelve courses of version 1, with the other length"] = longer, "refused 11"
    tried["the same and four bytes more"] = longer + bytes(4), "refused 14"
    return tried


def inputs_of_size_6():
    """S-10: version 1 has a report, and version 2 is refused."""
    tried = {}
    for name, sheet in (("the example", EXAMPLE), ("a sheet of one course", ONE_COURSE),
                        ("a sheet of twelve courses", FULL)):
        six = changed(sheet, d=6)
        first, second = (layout.sheet_as_bytes(six) for layout in (VERSION_1, VERSION_2))
        tried[f"{name}, with size 6"] = first, "tank sound"
        tried[f"{name}, with size 6 in version 2"] = second, "refused 39"
        tried[f"{name}, with size 6, one byte less"] = first[:-1], "refused 11"
        tried[f"{name}, with size 6 in version 2, one byte less"] = second[:-1], "refused 11"
    return tried


def all_inputs():
    return {**inputs(most=65_536), **inputs_of_version_2(), **inputs_of_size_6()}


# --- Ways to run the program --------------------------------------------------


class Ended(NamedTuple):
    stdout: bytes
    stderr: bytes
    status: int


def started(program, **stdin):
    return subprocess.Popen([program], stdout=subprocess.PIPE, stderr=subprocess.PIPE, **stdin)


def ended(process):
    """Once its standard input is at an end."""
    try:
        stdout, stderr = process.communicate(timeout=PATIENCE)
    except subprocess.TimeoutExpired as late:
        process.kill()
        process.wait()
        stdout, stderr = late.stdout or b"", f"(still running after {PATIENCE} s)".encode()
    return Ended(stdout, stderr, process.returncode)


def killed_late(process):
    """Lest somebody who feeds it waits for it forever; to be cancelled."""
    late = threading.Timer(PATIENCE, process.kill)
    late.daemon = True
    late.start()
    return late


def unread(pipe):
    """How many bytes in the pipe nobody has read yet."""
    return int.from_bytes(fcntl.ioctl(pipe, termios.FIONREAD, bytes(4)), sys.byteorder)


def feed(process, pieces):
    """Each piece is written when the one before it is read, so that no read gets two."""
    deadline = time.monotonic() + FEEDING
    try:
        for piece in pieces:
            process.stdin.write(piece)
            while unread(process.stdin) and process.poll() is None \
                    and time.monotonic() < deadline:
                time.sleep(PAUSE)
    except BrokenPipeError:     # it has read as many as it wants
        pass


def fed(pieces):
    """Piece by piece, and then the pipe is closed."""
    def run(program):
        process = started(program, stdin=subprocess.PIPE, bufsize=0)
        late = killed_late(process)
        try:
            feed(process, pieces)
        finally:
            late.cancel()
        return ended(process)
    return run


def opened(path, flags=os.O_RDONLY):
    """Standard input is this file or directory."""
    def run(program):
        descriptor = os.open(path, flags)
        try:
            return ended(started(program, stdin=descriptor))
        finally:
            os.close(descriptor)
    return run


def closed(program):
    """There is no standard input."""
    return ended(started(program, preexec_fn=lambda: os.closerange(0, 1)))


# --- The tries ----------------------------------------------------------------


class Try(NamedTuple):
    name: str
    content: bytes          # all that can be read
    run: Callable           # of the program: how it ended


def in_pieces(name, content, *places):
    """Parted at these places."""
    bounds = zip((0, *places), (*places, len(content)))
    return Try(name, content, fed([content[start:end] for start, end in bounds]))


def all_tries():
    for name, (content, _last_line) in all_inputs().items():
        yield in_pieces(name, content)
    for name, content in {**SHEETS, **HEAVY_SHEETS}.items():
        yield in_pieces(f"{name}, byte by byte", content, *range(1, len(content)))
    for whole in (FULL_BYTES, LONGEST_SHEET):
        yield in_pieces(f"one byte more than twelve courses, {len(whole)}, by itself",
                        whole + b"\0", len(whole))
    yield in_pieces("two bytes more than twelve courses, each by itself", LONGEST_SHEET + b"\0\0",
                    304, 305)
    for place in (3, 27, 31, 63, 64, 304 - 20, 303):
        yield in_pieces(f"twelve courses, parted after {place}", LONGEST_SHEET, place)
    for place in (1, 2, 3, HEAD_BYTES - 1, HEAD_BYTES, HEAD_BYTES + 1, len(EXAMPLE_BYTES) - 1):
        yield in_pieces(f"the example, parted after {place}", EXAMPLE_BYTES, place)
    yield Try("a closed standard input", b"", closed)
    yield Try("a directory", b"", opened("/"))
    yield Try("a file that is not open for reading", b"", opened(os.devnull, os.O_WRONLY))
    yield Try("an empty file", b"", opened(os.devnull))


def complaint(one_try, program):
    """What is wrong with the program's answer, in one line, or None."""
    expected = Ended(printing.marked_text(one_try.content), b"", 0)
    given = one_try.run(program)
    wrong = [f"{name} is {got!r}, not {due!r}"
             for name, got, due in zip(Ended._fields, given, expected) if got != due]
    return f"{one_try.name}: {'; '.join(wrong)}" if wrong else None


def try_program(path):
    """The status to exit with. The path is no search word, whatever the file is called."""
    program = os.path.abspath(path)
    tries = list(all_tries())
    try:
        complaints = [said for one_try in tries if (said := complaint(one_try, program))]
    except OSError as mistake:
        print(f"{path} cannot be run: {mistake.strerror}", file=sys.stderr)
        return 1
    for said in complaints:
        print(said)
    result = f"{len(complaints)} not as the oracle says" if complaints \
        else "all as the oracle says"
    print(f"tried by hand on {path}: {len(tries)} inputs, {result}")
    return 1 if complaints else 0


# --- Self test ----------------------------------------------------------------


def self_test():
    """The last lines, said by hand."""
    for name, (content, last_line) in all_inputs().items():
        *_before, last = printing.marked_text(content).decode("ascii").splitlines()
        assert last == last_line, (name, last)
