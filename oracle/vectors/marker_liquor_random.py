"""Printing: sheets of version 2 and their damage drawn at random from fixed seeds (request S-8)."""

from random import Random

from model.fields import FIELD_RANGES, GRAVITY_FIELD
from model.filling_in import has_size_6
from model.sheet_bytes import (
    COURSE_BYTES, FIRST_FIELD_AT, LAYOUTS, VERSION_1, VERSION_2, VERSION_AT, length_in,
)
from vectors import before_s_10
from vectors.byte_changes import exchange, put_length, right_length
from vectors.judge_cases import with_figure
from vectors.judge_liquor_random import heavy_even_sheet, heavy_sheet
from vectors.marker_cases import Case, altered, printed
from vectors.marker_random import damage_by_addition, damage_by_move, damage_version, other_byte
from vectors.random_sheets import anchored_sheet, even, self_anchored_sheet
from vectors.scripts import end_figures
from vectors.steps_liquor_random import DAMAGES as STEPS_DAMAGES
from vectors.steps_random import damage_one_bit, damage_one_byte

# --- Groups: at random, from fixed seeds --------------------------------------


def drawn_bytes(rng):
    """A whole sheet of version 2."""
    draw = rng.choice((self_anchored_sheet, anchored_sheet, None))
    sheet = heavy_even_sheet(rng) if draw is None else heavy_sheet(rng, draw)
    return VERSION_2.sheet_as_bytes(sheet)


def random_self_anchored_in_liquor():
    """Most checks at equality or close to it (see random_sheets.py)."""
    rng = Random(92)
    for _ in range(150):
        yield printed(VERSION_2.sheet_as_bytes(heavy_sheet(rng, self_anchored_sheet)), "tank")


def random_anchored_in_liquor():
    """About one in nine has size 6, which is refused since S-10."""
    rng = Random(93)
    for _ in range(120):
        sheet = heavy_sheet(rng, anchored_sheet)
        last = "refused 39" if has_size_6(sheet.anchors) else "tank"
        yield printed(VERSION_2.sheet_as_bytes(sheet), last)


def random_even_in_liquor():
    """Drawn evenly, so that most are short or refused 37."""
    rng = Random(94)
    for _ in range(50):
        yield Case(VERSION_2.sheet_as_bytes(heavy_even_sheet(rng)))


def random_refused_in_liquor():
    """A figure or two at odds with a range, or with another; field 20 in a third of them."""
    rng = Random(95)
    for _ in range(80):
        sheet = heavy_even_sheet(rng)
        while before_s_10.readable(VERSION_2.sheet_as_bytes(sheet)):
            field = rng.choice((*FIELD_RANGES, *[GRAVITY_FIELD] * 8))
            sheet = with_figure(sheet, field, rng.choice((*end_figures(field), even(rng, field))))
        yield Case(VERSION_2.sheet_as_bytes(sheet))


def damage_count(rng, content):
    other_byte(rng, content, VERSION_2.count_at())


def damage_exchange(rng, content):
    """Any two fields."""
    courses = (len(content) - VERSION_2.head_bytes()) // COURSE_BYTES
    places = [*((field, 0) for field in VERSION_2.head_fields),
              *((field, place) for place in range(courses) for field in range(15, 20))]
    exchange(content, *(VERSION_2.field_bytes(*place) for place in rng.sample(places, 2)))


def damage_to_version_1(rng, content):
    """Field 20 is lost; L, the version, both or neither of them follow."""
    del content[VERSION_2.field_bytes(GRAVITY_FIELD)]
    if rng.random() < 0.5:
        put_length(content, right_length(content))
    if rng.random() < 0.5:
        content[VERSION_AT] = VERSION_1.version


def damage_course(rng, content):
    """A course is lost or comes twice; L or n follow, or both or neither."""
    head = VERSION_2.head_bytes()
    start = rng.randrange(head, len(content), COURSE_BYTES)
    content[start:start + COURSE_BYTES] = content[start:start + COURSE_BYTES] * rng.choice((0, 2))
    if rng.random() < 0.5:
        put_length(content, right_length(content))
    if rng.random() < 0.4:
        content[VERSION_2.count_at()] = (len(content) - head) // COURSE_BYTES


DAMAGES = (
    *STEPS_DAMAGES, damage_version, damage_count, damage_by_addition, damage_by_move,
    damage_exchange, damage_to_version_1, damage_to_version_1, damage_course,
)


def random_damage_in_liquor():
    """One damage, and another one if reading accepts what comes of it, or did before S-10."""
    rng = Random(96)
    for _ in range(230):
        was = drawn_bytes(rng)
        content = bytearray(was)
        rng.choice(DAMAGES)(rng, content)
        if before_s_10.readable(bytes(content)):
            rng.choice((damage_count, damage_version, damage_by_addition))(rng, content)
        yield altered(was, content)


def random_changes_in_liquor():
    """A bit, a byte or the gravity changed, and still readable, or readable before S-10."""
    rng = Random(97)
    for _ in range(70):
        content = bytearray(drawn_bytes(rng))
        rng.choice((damage_one_bit, damage_one_byte))(rng, content)
        if before_s_10.readable(bytes(content)):
            yield Case(bytes(content))


def random_noise_in_liquor():
    """Bytes of any kind, with a right L, version and n at times."""
    rng = Random(98)
    for _ in range(30):
        layout = rng.choice(LAYOUTS)
        n = rng.choice((0, 1, 2, 3, 12))
        content = bytearray(rng.randbytes(layout.bytes_with(n)))
        if rng.random() < 0.8:
            put_length(content, right_length(content))
            assert length_in(content) == layout.length_with(n)
        if rng.random() < 0.8:
            content[VERSION_AT:FIRST_FIELD_AT] = bytes((layout.version,))
        if rng.random() < 0.7:
            content[layout.count_at()] = n
        yield Case(bytes(content))
