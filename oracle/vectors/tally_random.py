"""The tallier: files drawn at random from a fixed seed."""

from functools import cache
from random import Random

from model import tally
from model.fields import WATER
from model.sheet_bytes import LAYOUTS, LENGTH_BYTES, VERSION_1, by_length, length_in
from vectors.byte_changes import put_length
from vectors.judge_liquor_random import drawn_gravity
from vectors.marker_random import other_byte
from vectors.random_sheets import anchored_sheet, even, self_anchored_sheet
from vectors.scripts import end_figures
from vectors.steps_random import random_sheet
from vectors.tally_cases import file_of
from vectors.tally_ends import USABLE

WHOLE, DAMAGED, FILES, MOST_IN_FILE = 2_000, 1_500, 1_600, 40

# --- Sheets -------------------------------------------------------------------


def drawn_sheet(rng):
    """Of either version; near equality (see random_sheets.py) or drawn evenly, with its water at
    the shell's height at most in two of three of these."""
    layout = rng.choice(LAYOUTS)
    gravity = WATER if layout == VERSION_1 else drawn_gravity(rng)
    draw = rng.choice((self_anchored_sheet, anchored_sheet, random_sheet))
    if draw != random_sheet:
        return layout.sheet_as_bytes(draw(rng, gravity=gravity))
    sheet = random_sheet(rng)
    top = sum(course.width for course in sheet.courses)
    H = min(sheet.tank.H, top) if rng.random() < 2 / 3 else sheet.tank.H
    return layout.sheet_as_bytes(sheet._replace(tank=sheet.tank._replace(H=H, gravity=gravity)))


@cache
def whole_sheets():
    rng = Random(121)
    return [drawn_sheet(rng) for _ in range(WHOLE)]


def damage_a_figure(rng, content, layout, n):
    """Near an end of its range, or anything in it."""
    field = rng.choice((*layout.head_fields, *range(15, 20)))
    figure = rng.choice((*end_figures(field), even(rng, field)))
    content[:] = layout.with_field_bytes(content, field, figure, rng.randrange(n))


def damage_a_byte(rng, content, _layout, _n):
    other_byte(rng, content, rng.randrange(LENGTH_BYTES, len(content)))


def damage_a_bit(rng, content, _layout, _n):
    content[rng.randrange(LENGTH_BYTES, len(content))] ^= 1 << rng.randrange(8)


def damage_version_or_count(rng, content, layout, _n):
    other_byte(rng, content, rng.choice((LENGTH_BYTES, layout.count_at())))


def damage_widths(rng, content, layout, n):
    """Each is the greatest: with six courses they are too high."""
    for place in range(n):
        content[:] = layout.with_field_bytes(content, 15, 14_400 - rng.randrange(3), place)


def damage_all(rng, content, _layout, _n):
    content[LENGTH_BYTES:] = rng.randbytes(len(content) - LENGTH_BYTES)


IN_A_SHEET = (damage_a_figure, damage_a_figure, damage_a_figure, damage_a_byte, damage_a_bit,
              damage_version_or_count, damage_widths, damage_all)


@cache
def damaged_sheets():
    """Each as long as it was, so that what is behind it stays where it is."""
    rng = Random(122)
    sheets = []
    for _ in range(DAMAGED):
        content = bytearray(rng.choice(whole_sheets()))
        rng.choice(IN_A_SHEET)(rng, content, *by_length(length_in(content)))
        sheets.append(bytes(content))
    return sheets


# --- Files --------------------------------------------------------------------


def cut(rng, content):
    del content[rng.randrange(len(content)):]


def lose_bytes(rng, content):
    start = rng.randrange(len(content))
    del content[start:start + rng.choice((1, 2, 4, 20))]


def gain_bytes(rng, content):
    start = rng.randrange(len(content) + 1)
    content[start:start] = rng.randbytes(rng.choice((1, 2, 4, 20)))


def add_bytes(rng, content):
    content += rng.randbytes(rng.choice((1, 1, 2, 3, 100)))


IN_A_FILE = (cut, cut, lose_bytes, gain_bytes, add_bytes)


def damage_a_length(rng, sheets):
    """Of a sheet of the file: a usable one, one beside it, or any."""
    place = rng.randrange(len(sheets))
    content = bytearray(sheets[place])
    L = length_in(content)
    put_length(content, rng.choice((rng.choice(USABLE), L + 1, L - 1, L + 20, L - 20, L + 4,
                                    rng.getrandbits(16), 0, L << 8 & 65_535)))
    sheets[place] = bytes(content)


def drawn_file(rng, damaged_share):
    """Whole and damaged sheets; in one file of three its parts are damaged too."""
    sheets = [rng.choice(damaged_sheets() if rng.random() < damaged_share else whole_sheets())
              for _ in range(rng.randint(0, MOST_IN_FILE))]
    kind = rng.random()
    if sheets and kind < 1 / 6:
        damage_a_length(rng, sheets)
    content = bytearray(b"".join(sheets))
    if content and kind > 5 / 6:
        rng.choice(IN_A_FILE)(rng, content)
    return bytes(content)


@cache
def random_files():
    rng = Random(123)
    shares = [rng.choice((0, 0.1, 0.3, 0.9)) for _ in range(FILES)]
    return [file_of(f"number {number}", drawn_file(rng, share))
            for number, share in enumerate(shares, start=1)]


GROUPS = (random_files,)


# --- Self test ----------------------------------------------------------------


def self_test():
    """As many sheets as asked for, of either version and every word, with every refusal that such
    a file can have."""
    read, words, refusals, versions, lengths = 0, set(), set(), set(), set()
    ends = {"none": 0, 11: 0, 13: 0}
    for file in random_files():
        found = list(tally.sheets_in(file.content))
        read += len(found)
        for own, sheet in found:
            words.add(sheet.word)
            refusals.add((sheet.refusal or (0, 0))[0])
            lengths.add(length_in(own))
            if sheet.refusal is None:
                versions.add(own[LENGTH_BYTES])
        last = found[-1][1].refusal if found else None
        ends[last[0] if last is not None and last[0] in ends else "none"] += 1
    assert read >= 25_000 and words == {*tally.WORDS} and versions == {1, 2}
    assert refusals == {0, 11, 13, 14, 15, 16, 17, 18, 34, 37, 39}
    assert {*USABLE} <= lengths and min(ends.values()) >= 100, ends
