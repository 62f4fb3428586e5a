"""Printing: sheets and damage drawn at random from fixed seeds."""

from random import Random

from model.sheet_bytes import COURSE_BYTES, FIRST_FIELD_AT, VERSION_1, VERSION_AT
from vectors.byte_changes import exchange, put_length, right_length
from vectors.judge_cases import with_figure
from vectors.marker_cases import Case, altered, readable, whole
from vectors.marker_refusals import figures_in
from vectors.random_sheets import anchored_sheet, even, self_anchored_sheet
from vectors.scripts import end_figures
from vectors.steps_random import (
    damage_by_cut, damage_by_gap, damage_by_insertion, damage_by_swap, damage_field, damage_length,
    damage_one_bit, damage_one_byte, random_sheet,
)
from vectors.version_1 import COUNT_AT, FIELD_RANGES, HEAD_BYTES, bytes_with, sheet_as_bytes

# --- Groups: at random, from fixed seeds --------------------------------------


def random_self_anchored():
    """Most checks at equality or close to it (see random_sheets.py)."""
    rng = Random(21)
    for _ in range(900):
        yield whole(self_anchored_sheet(rng))


def random_anchored():
    rng = Random(22)
    for _ in range(900):
        yield whole(anchored_sheet(rng))


def random_even():
    """Drawn evenly, so that most are short or refused 37."""
    rng = Random(23)
    for _ in range(250):
        yield whole(random_sheet(rng))


def drawn_sheet(rng):
    return rng.choice((self_anchored_sheet, anchored_sheet, random_sheet))(rng)


def random_refused():
    """Whole sheets with a figure or two that are at odds with a range, or with another."""
    rng = Random(24)
    for _ in range(250):
        sheet = drawn_sheet(rng)
        while readable(sheet_as_bytes(sheet)):
            field = rng.choice(list(FIELD_RANGES))
            figure = rng.choice((*end_figures(field), even(rng, field)))
            sheet = with_figure(sheet, field, figure)
        yield Case(sheet_as_bytes(sheet))


def other_byte(rng, content, place):
    byte = content[place]
    content[place] = rng.choice((byte + 1, byte ^ 128, rng.randrange(256))) % 256


def damage_version(rng, content):
    other_byte(rng, content, VERSION_AT)


def damage_count(rng, content):
    other_byte(rng, content, COUNT_AT)


def damage_by_addition(rng, content):
    one = COURSE_BYTES
    content += rng.randbytes(rng.choice((1, 2, 4, one, one, rng.randint(1, 400))))


def damage_by_move(rng, content):
    """Some bytes come to another place."""
    start = rng.randrange(len(content))
    moved = content[start:start + rng.choice((1, 2, 4, 5, COURSE_BYTES, 33))]
    del content[start:start + len(moved)]
    place = rng.randrange(len(content) + 1)
    content[place:place] = moved


def damage_course_count(rng, content):
    """A course is lost or comes twice; L, n, both or neither of them follow."""
    start = rng.randrange(HEAD_BYTES, len(content), COURSE_BYTES)
    course = content[start:start + COURSE_BYTES]
    content[start:start + COURSE_BYTES] = course * rng.choice((0, 2))
    if rng.random() < 0.5:
        put_length(content, right_length(content))
    if rng.random() < 0.3:
        content[COUNT_AT] = courses_in(content)


def courses_in(content):
    """How many there are, by the bytes after the head."""
    return (len(content) - HEAD_BYTES) // COURSE_BYTES


def damage_exchange(rng, content):
    """Any two fields."""
    exchange(content, *rng.sample(figures_in(content), 2))


DAMAGES = (
    damage_one_bit, damage_one_byte, damage_by_cut, damage_by_gap,
    damage_by_insertion, damage_length, damage_field,
    damage_field, damage_field, damage_by_swap, damage_version,
    damage_count, damage_by_addition, damage_by_move, damage_course_count, damage_exchange,
    damage_exchange,
)


def random_damage():
    """Damaged until reading refuses it; some more than once, and by several refusals then."""
    rng = Random(25)
    for _ in range(1_500):
        was = sheet_as_bytes(drawn_sheet(rng))
        content = bytearray(was)
        while readable(bytes(content)):
            rng.choice(DAMAGES)(rng, content)
        if rng.random() < 0.3 and content:
            damage_one_bit(rng, content)
        yield altered(was, content)


def random_changes():
    """A bit, a byte or a figure changed, and still readable."""
    rng = Random(26)
    kinds = (damage_one_bit, damage_one_byte, damage_field)
    for _ in range(400):
        content = bytearray(sheet_as_bytes(drawn_sheet(rng)))
        rng.choice(kinds)(rng, content)
        if readable(bytes(content)):
            yield Case(bytes(content))


NOISE_SIZES = (1, 2, 3, HEAD_BYTES - 1, *map(bytes_with, (0, 1, 2, 3, 12)),
               bytes_with(12) + 1)


def random_noise():
    """Bytes of any kind, with a right L, version and n at times."""
    rng = Random(27)
    for _ in range(200):
        content = bytearray(rng.randbytes(rng.choice(NOISE_SIZES)))
        if rng.random() < 0.7:
            put_length(content, max(right_length(content), 0))
        if rng.random() < 0.7:
            content[VERSION_AT:FIRST_FIELD_AT] = bytes((VERSION_1.version,))
        if rng.random() < 0.7 and len(content) > HEAD_BYTES:
            content[COUNT_AT] = courses_in(content)
        yield Case(bytes(content))
