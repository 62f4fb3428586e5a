"""Scripts of request S-8 drawn at random from fixed seeds: steps, bytes of version 2, damage,
sheets built by hand.
"""

from functools import partial
from random import Random

from model.fields import FIELD_RANGES, GRAVITY_FIELD, with_field
from model.sheet_bytes import FIRST_FIELD_AT, LAYOUTS, VERSION_1, VERSION_2, VERSION_AT
from vectors import before_s_10
from vectors.byte_changes import put_length, right_length
from vectors.judge_liquor_random import drawn_gravity, heavy_even_sheet
from vectors.records import (
    ANCHORS, COURSE, SITE, TANK, WRITE, ask_held, judge_held, new, read, tank, write,
)
from vectors.scripts import end_figures, wrote
from vectors.steps_forged import asked
from vectors.steps_random import (
    damage_by_cut, damage_by_gap, damage_by_insertion, damage_by_swap, damage_field, damage_length,
    damage_one_bit, damage_one_byte, drawn_step, drawn_tank, one_figure_changed, random_sheet,
)

# --- Groups: at random, from fixed seeds --------------------------------------


def heavy_tank(rng):
    """At times with a gravity just outside its range, or anything."""
    figures = drawn_tank(rng)._replace(gravity=drawn_gravity(rng))
    if rng.random() < 0.2:
        other = rng.choice((*end_figures(GRAVITY_FIELD), rng.getrandbits(32)))
        figures = with_field(figures, GRAVITY_FIELD, other)
    return figures


def random_steps_in_liquor():
    """Tanks until one is accepted, then steps and writes in any order; asked about now and then."""
    rng = Random(87)
    sizes = [layout.bytes_with(n) for layout in LAYOUTS for n in (1, 2, 3, 5, 8, 12)]
    for _ in range(18):
        records = [new()]
        for _ in range(rng.randint(1, 3)):
            records.append(tank(heavy_tank(rng)))
        for _ in range(rng.randint(5, 14)):
            opcode = rng.choices((TANK, SITE, ANCHORS, COURSE, WRITE), (1, 3, 3, 8, 4))[0]
            if opcode == WRITE:
                records.append(write(rng.choice(sizes), rng.randrange(256)))
            elif opcode == TANK:
                records.append(tank(heavy_tank(rng)))
            else:
                records.append(drawn_step(rng, opcode, 14_400))
            if rng.random() < 0.15:
                records.append(rng.choice((judge_held(), ask_held())))
        yield records


def random_bytes_in_liquor():
    """Read, written, and the written bytes read again."""
    rng = Random(88)
    for _ in range(40):
        sheet = heavy_even_sheet(rng)
        content = VERSION_2.sheet_as_bytes(sheet)
        size = VERSION_2.bytes_with(sheet.count)
        assert len(content) == size and wrote(sheet.count) == f"wrote {size}"
        yield read(content), write(size - rng.choice((0, 0, 0, 1, 4)), rng.randrange(256))


DAMAGES = (
    damage_one_bit, damage_one_byte, damage_by_gap, damage_by_insertion, damage_length,
    damage_by_cut, partial(damage_by_swap, layout=VERSION_2),
    *[partial(damage_field, layout=VERSION_2, fields=tuple(FIELD_RANGES))] * 4,
    partial(damage_field, layout=VERSION_2, fields=(GRAVITY_FIELD,)),
)


def random_damage_of_version_2():
    """What is still accepted, or was before S-10, is written."""
    rng = Random(89)
    for _ in range(110):
        content = bytearray(VERSION_2.sheet_as_bytes(heavy_even_sheet(rng)))
        rng.choice(DAMAGES)(rng, content)
        if rng.random() < 0.3 and len(content) > VERSION_2.head_bytes():
            damage_one_bit(rng, content)
        accepted = before_s_10.readable(bytes(content))
        yield [read(content), *[write(len(content), rng.randrange(256))] * accepted]


def random_noise_of_either_version():
    """Bytes of any kind, with a right L, version and n at times."""
    rng = Random(90)
    for _ in range(60):
        layout = rng.choice(LAYOUTS)
        n = rng.choice((0, 1, 2, 3, 12))
        content = bytearray(rng.randbytes(layout.bytes_with(n)))
        if rng.random() < 0.8:
            put_length(content, right_length(content))
        if rng.random() < 0.8:
            version = rng.choice((layout, layout, layout, VERSION_1, VERSION_2)).version
            content[VERSION_AT:FIRST_FIELD_AT] = bytes((version,))
        if rng.random() < 0.8:
            content[layout.count_at()] = n
        yield (read(content),)


def random_forged_in_liquor():
    """One figure changed, the gravity in half of them: some are left by a run still."""
    rng = Random(91)
    for number in range(26):
        sheet = heavy_even_sheet(rng) if number % 3 else random_sheet(rng)
        if number % 2:
            other = rng.choice((*end_figures(GRAVITY_FIELD), rng.getrandbits(32)))
            changed = sheet._replace(tank=sheet.tank._replace(gravity=other))
        else:
            changed = one_figure_changed(rng, sheet)
        yield asked(changed)
