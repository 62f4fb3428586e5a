"""The tallier: where a file ends, cut sheets, and lengths that are none."""

from itertools import product

from model import tally
from model.sheet_bytes import (
    GOOD_LENGTHS, LAYOUTS, LENGTH_BYTES, VERSION_1, VERSION_AT, by_length, length_in,
)
from vectors.byte_changes import with_length
from vectors.tally_cases import ABOVE, BELOW, JUST, by_differences, refused, tallied

USABLE = (78, 98, 118, 138, 158, 178, 198, 218, 238, 258, 278, 298,         # 58 + 20 n
          82, 102, 122, 142, 162, 182, 202, 222, 242, 262, 282, 302)        # 62 + 20 n
HIGH = by_differences(0, H=2_401)       # 37: one course of 2,400


def length(L):
    return L.to_bytes(LENGTH_BYTES, "big")


# --- Short files --------------------------------------------------------------


def short_files():
    """An empty one has no refusal. A byte or two are no sheet: 11, or 13 if they are a length that
    is none. One sheet: sound, short, refused by judging."""
    yield tallied("empty", "0 0 0 0 0 none")
    for byte in (0, 1, 78, 255):
        yield tallied(f"one byte, {byte}", "1 0 0 1 0 none", bytes((byte,)))
    for L in (0, 78, 82, 79, 65_535):
        yield tallied(f"two bytes, {L}", "1 0 0 1 0 none", length(L))
    for layout in LAYOUTS:
        in_version = f"of version {layout.version}"
        for difference, word, counts in ((6, "sound", "1 0 0"), (0, "sound", "1 0 0"),
                                         (-1, "short", "0 1 0"), (-63, "short", "0 1 0")):
            yield tallied(f"one sheet, {word}, {in_version}, {difference}",
                          f"1 {counts} {difference} {difference}",
                          by_differences(difference, layout=layout))
        high = refused(37, by_differences(6, layout=layout, H=2_401))
        yield tallied(f"one sheet, refused 37, {in_version}", "1 0 0 1 0 none", high)
        for more in (b"\0", b"\1", b"\xff"):
            yield tallied(f"one sheet {in_version}, and one byte, {more.hex()}", "2 1 0 1 6 6",
                          by_differences(6, layout=layout), more)


# --- Cuts ---------------------------------------------------------------------


def cuts():
    """A file of 80, 84 and 124 bytes, of which each number of bytes is fed, from none to all. Cut
    where a sheet would begin it has no refusal."""
    sheets = (by_differences(6, layout=VERSION_1), BELOW, by_differences(62, -5, 7))
    whole = b"".join(sheets)
    counted = {0: (0, 0, 0, "none"), 80: (1, 0, 6, "6"), 164: (1, 1, -57, "-63"),
               288: (1, 2, 7, "-63")}
    assert [len(sheet) for sheet in sheets] == [80, 84, 124]
    for size in range(len(whole) + 1):
        before = max(place for place in counted if place <= size)
        sound, short, total, least = counted[before]
        cut = size != before
        yield tallied(f"cut after {size}",
                      f"{sound + short + cut} {sound} {short} {int(cut)} {total} {least}",
                      whole[:size])


def cuts_after_refusals():
    """The sheet before the cut one, and the cut one, would be refused otherwise."""
    for size in (0, 1, 2, 3, 63, 64, 83):
        cut = int(size > 0)
        yield tallied(f"cut after {size}, behind 37", f"{2 + cut} 1 0 {1 + cut} 6 6", ABOVE, HIGH,
                      BELOW[:size])
        yield tallied(f"37 cut after {size}", f"{1 + cut} 1 0 {cut} 6 6", ABOVE, HIGH[:size])
    for L in (302, 298):            # the file ends a byte before the sheet, which has others in it
        longest = with_length(BELOW * 4, L)[:L + 1]
        yield tallied(f"{L}, a byte too few", "2 1 0 1 6 6", ABOVE, longest)


# --- Lengths that are none ----------------------------------------------------


def lengths_that_are_none():
    """Beside the usable ones; what n of 0 and of 13 would give, and more; 0 and the greatest; and
    the usable ones with their bytes the other way round."""
    beside = {L + off for L in USABLE for off in (-2, -1, 1, 2)}
    counts = {first + 20 * n for first in (58, 62) for n in (-1, 0, 13, 14, 255, 256, 3_000)}
    swapped = {int.from_bytes(length(L), "little") for L in USABLE}
    ends = {0, 1, 2, 3, 60, 80, 84, 32_767, 32_768, 65_534, 65_535}
    return sorted((beside | counts | swapped | ends) - {*USABLE})


def unusable_lengths():
    """In the middle, with as many bytes behind as it says and sound sheets after them, and with
    sound sheets at once, of which there are too few at times; nothing behind it counts, and 13 is
    one refused. As the last two bytes of the file too."""
    for L in lengths_that_are_none():
        yield tallied(f"{L}, and its bytes behind it", "2 1 0 1 6 6",
                      ABOVE, length(L), (BELOW * (L // len(BELOW) + 1))[:L], JUST, BELOW)
        yield tallied(f"{L}, and one sheet behind it", "2 1 0 1 6 6", ABOVE, length(L), BELOW)
        yield tallied(f"{L} at the end", "3 1 1 1 -57 -63", ABOVE, BELOW, length(L))


def unusable_lengths_of_sheets():
    """A sheet whose length alone is another; at the file's start, and behind a refused one."""
    for layout in LAYOUTS:
        sheet = by_differences(-63, layout=layout)
        for off in (-20, -19, -1, 1, 2):
            other = with_length(sheet, len(sheet) - LENGTH_BYTES + off)
            by = f"version {layout.version}, {off} in its length"
            yield tallied(by, "1 0 0 1 0 none", other, JUST, BELOW)
            yield tallied(f"{by}, behind 37", "3 1 0 2 6 6", ABOVE, HIGH, other, JUST, BELOW)


def usable_lengths():
    """What is behind one that can be used is not looked at as a length: here it is 255s, refused
    for its version."""
    for L in USABLE:
        yield tallied(f"{L}", "3 1 1 1 -63 -63", JUST, length(L), b"\xff" * L, BELOW)


# --- Ended by a length that is none --------------------------------------------

# The ends, and those beside the least and the greatest usable ones of either version.
NEAREST = (0, 1, 77, 79, 81, 83, 297, 299, 301, 303, 65_535)


def sheets_before():
    """Name to the figures with 13 behind them, and the sheets: none, one, and of either version a
    sound, a short and a refused one."""
    several = [sheet for layout in LAYOUTS for sheet in (
        by_differences(6, layout=layout), by_differences(-63, layout=layout),
        refused(37, by_differences(6, layout=layout, H=2_401)))]
    return {"at the start": ("1 0 0 1 0 none", []), "behind a sheet": ("2 1 0 1 6 6", [ABOVE]),
            "behind six sheets": ("7 2 2 3 -114 -63", several)}


def that_an_unusable_length_ends():
    """Fed through a pipe that stays open. "13, 11": the two bytes of the length are enough for 13,
    however many follow; "at 11 or 13 it counts one refused and stops". So neither the bytes that
    the length asks for are waited for, nor the file's end, which 11 alone is told by."""
    for L, (place, (figures, before)) in product(NEAREST, sheets_before().items()):
        for name, behind in (("nothing", b""), ("a byte", b"\0"), ("a sheet", JUST)):
            yield tallied(f"{L} {place}, {name} behind it", figures, *before, length(L), behind)


GROUPS = (short_files, cuts, cuts_after_refusals, unusable_lengths, unusable_lengths_of_sheets,
          usable_lengths)
HELD_OPEN = (that_an_unusable_length_ends,)


# --- Self test ----------------------------------------------------------------


def check_held_open():
    """Each of the lengths ends a file, with nothing, a byte and a sheet behind it, at the start,
    behind a sheet, and behind sheets of either version and each word; it is no usable one, and a
    usable one is beside it, but for the ends."""
    assert not {*NEAREST} & {*USABLE}
    assert {L for L in NEAREST if {L - 1, L + 1} & {*USABLE}} == {*NEAREST[2:-1]}
    found, kinds = [], set()
    for group in HELD_OPEN:
        for file in group():
            *before, (own, last) = tally.sheets_in(file.content)
            assert last.refusal == (13, 0) and len(own) == LENGTH_BYTES, file.name
            behind = len(file.content) - sum(len(one) for one, _sheet in before) - LENGTH_BYTES
            found.append((length_in(own), len(before), behind))
            kinds.update((one[VERSION_AT], sheet.word) for one, sheet in before)
    assert found == [*product(NEAREST, (0, 1, 6), (0, 1, len(JUST)))]
    assert kinds == {*product((1, 2), tally.WORDS)}


def self_test():
    assert {*USABLE} == {*GOOD_LENGTHS} and len(USABLE) == 24
    none = lengths_that_are_none()
    assert not any(map(by_length, none)) and len(none) >= 60
    assert {0, 65_535, 58, 62, 318, 322, 77, 79, 81, 83, 297, 299, 301, 303} <= {*none}
    for name in ("cut after 79", "cut after 81", "cut after 82", "cut after 163"):
        content = {file.name: file.content for file in cuts()}[name]
        *_before, (_own, last) = tally.sheets_in(content)
        assert last.refusal == (11, 0), name
    for file in (*unusable_lengths(), *unusable_lengths_of_sheets()):
        *_before, (own, last) = tally.sheets_in(file.content)
        assert last.refusal == (13, 0) and len(own) == LENGTH_BYTES, file.name
    check_held_open()
