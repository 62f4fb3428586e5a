"""Scripts drawn at random from fixed seeds: steps, bytes, damage and forged sheets."""

from random import Random

from model import sheet_bytes
from model.fields import COURSE_FIELDS, SITE_FIELDS, Anchors, Course, Site, Tank, with_field
from model.filling_in import SELF_ANCHORED, has_size_6, left_by_a_run, sheet_of
from model.refusals import MOST_COURSES, MOST_SHELL_HEIGHT
from model.sheet_bytes import COURSE_BYTES, FIRST_FIELD_AT, VERSION_1, VERSION_AT, bytes_as_figures
from model.tank_rules import BOLT_CHART
from vectors.byte_changes import exchange, put_field, put_length, right_length
from vectors.records import (
    ANCHORS, COURSE, SITE, STEPS, TANK, WRITE, anchors, figures_record, forge, forged,
    forged_places, new, read, tank, write,
)
from vectors.scripts import U32_MOST, answers, end_figures, unstated, write_word
from vectors.steps_forged import asked
from vectors.version_1 import (
    FIELDS_OF, FIELD_RANGES, HEAD_BYTES, TANK_FIELDS, bytes_with, sheet_as_bytes,
)

# --- Groups: at random, from fixed seeds --------------------------------------


def drawn(rng, field):
    """A figure in the field's range, now and then an end of it."""
    least, greatest = FIELD_RANGES[field]
    return rng.choice((least, greatest)) if rng.random() < 0.2 else rng.randint(least, greatest)


def drawn_tank(rng):
    stated = Tank(*(drawn(rng, field) for field in TANK_FIELDS))
    return stated._replace(allowance=rng.randint(0, min(250, stated.plate - 1)))


def drawn_site(rng):
    return Site._make(drawn(rng, field) for field in SITE_FIELDS)


def drawn_anchors(rng, D):
    if rng.random() < 0.25:
        return SELF_ANCHORED
    circle = rng.choice((D, 300_000, rng.randint(D, 300_000)))
    return Anchors(N=drawn(rng, 12), B=circle, d=rng.choice(list(BOLT_CHART)))


def drawn_course(rng, widest):
    stated = Course._make(drawn(rng, field) for field in COURSE_FIELDS)
    return stated._replace(c=rng.randint(0, min(250, stated.t - 1)),
                           width=rng.randint(1_200, widest))


def spoiled(rng, fields, entry):
    """One or two figures near an end of their range, inside or outside, or anything."""
    for field in rng.sample(fields, rng.choice((1, 1, 2))):
        figure = rng.choice((*end_figures(field), rng.getrandbits(32), drawn(rng, field)))
        entry = with_field(entry, field, figure)
    return entry


def drawn_step(rng, opcode, D):
    draws = {TANK: drawn_tank(rng), SITE: drawn_site(rng), ANCHORS: drawn_anchors(rng, D),
             COURSE: drawn_course(rng, rng.choice((14_400, 6_400)))}
    entry = draws[opcode]
    if rng.random() < 0.25:
        entry = spoiled(rng, FIELDS_OF[STEPS[opcode].entry], entry)
    return figures_record(opcode, entry)


DRAWN_SIZES = (bytes_with(0) - 1, *map(bytes_with, (1, 3, 7, 12)))


def random_run(rng, *second):
    """Mostly a tank first, then the other steps in any order, with writes between."""
    first = drawn_tank(rng)
    records = [new()]
    if rng.random() < 0.9:
        records.append(tank(first))
    records += second
    for _ in range(rng.randint(4, 24)):
        opcode = rng.choices((TANK, SITE, ANCHORS, COURSE, WRITE), (1, 3, 3, 10, 2))[0]
        if opcode == WRITE:
            records.append(write(rng.choice(DRAWN_SIZES), rng.randrange(256)))
        else:
            records.append(drawn_step(rng, opcode, first.D))
    return records


def random_steps():
    """With N = 0 stated early, then with anchors unstated until a step happens to state them."""
    rng = Random(1)
    for _ in range(34):
        yield random_run(rng, anchors((0, 0, 0)))
    for _ in range(16):
        yield random_run(rng)


def random_sheet(rng):
    """A complete sheet that a run leaves."""
    first = drawn_tank(rng)
    n = rng.randint(1, MOST_COURSES)
    widest = min(14_400, MOST_SHELL_HEIGHT // n)
    sheet = sheet_of(first, drawn_site(rng), drawn_anchors(rng, first.D),
                     [drawn_course(rng, widest) for _ in range(n)])
    assert left_by_a_run(sheet)
    return sheet


def random_bytes_sheets():
    """Read, written, and two steps more."""
    rng = Random(2)
    for _ in range(40):
        sheet = random_sheet(rng)
        content = sheet_as_bytes(sheet)
        more = [drawn_step(rng, rng.choice((SITE, ANCHORS, COURSE)), sheet.tank.D)
                for _ in range(2)]
        word = "refused 39" if has_size_6(sheet.anchors) else write_word(sheet.count)
        before = answers([word], read(content), write(len(content), 0))
        yield *before, *more


def damage_one_bit(rng, content):
    content[rng.randrange(len(content))] ^= 1 << rng.randrange(8)


def damage_one_byte(rng, content):
    content[rng.randrange(len(content))] = rng.randrange(256)


def damage_by_cut(rng, content):
    del content[rng.randrange(len(content)):]


def damage_by_gap(rng, content):
    del content[rng.randrange(len(content))]


def damage_by_insertion(rng, content):
    content.insert(rng.randrange(len(content) + 1), rng.randrange(256))


def damage_length(rng, content):
    one, two = COURSE_BYTES, 2 * COURSE_BYTES
    put_length(content, max(0, right_length(content) + rng.choice((-two, -one, -1, 1, one, two))))


def damage_field(rng, content, layout=VERSION_1, fields=tuple(FIELD_RANGES)):
    field = rng.choice(fields)
    place = rng.randrange(max(1, content[layout.count_at()]))
    put_field(content, field, rng.choice(end_figures(field)), place, layout)


def damage_by_swap(rng, content, layout=VERSION_1):
    """Two fields before n change places."""
    exchange(content, *map(layout.field_bytes, rng.sample(layout.head_fields, 2)))


def random_damage():
    rng = Random(3)
    kinds = (damage_one_bit, damage_one_byte, damage_by_gap, damage_by_insertion, damage_length,
             damage_by_swap, damage_by_cut, *[damage_field] * 5)
    for _ in range(130):
        content = bytearray(sheet_as_bytes(random_sheet(rng)))
        rng.choice(kinds)(rng, content)
        if rng.random() < 0.3 and len(content) > HEAD_BYTES:
            damage_one_bit(rng, content)
        accepted = sheet_bytes.read(bytes(content)).refusal is None
        yield [read(content), *[write(len(content), rng.randrange(256))] * accepted]


def random_noise():
    """Bytes of any kind, with a right L at times."""
    rng = Random(4)
    for _ in range(60):
        content = bytearray(rng.randbytes(
            rng.choice((2, 3, *map(bytes_with, (0, 1, 2, 3))))))
        if rng.random() < 0.7:
            put_length(content, right_length(content))
        if rng.random() < 0.7:
            content[VERSION_AT:FIRST_FIELD_AT] = bytes((VERSION_1.version,))
        yield (read(content),)


def one_figure_changed(rng, sheet):
    """Of a sheet with a tank and a site; an unstated part stays so."""
    figures = list(bytes_as_figures(forge(sheet).payload))
    of_tank, in_site, in_anchors, in_slots = forged_places()
    in_tank = of_tank[:len(TANK_FIELDS)]        # gravity is behind them
    after_site = range(in_slots.start - 1 if sheet.anchors is None else in_anchors.start,
                       in_slots.stop)        # the count is among them
    place = rng.choice([*in_tank, *in_site, *after_site])
    near = (0, 1, figures[place] + 1, abs(figures[place] - 1), figures[place] ^ 256,
            rng.getrandbits(32))
    figures[place] = min(rng.choice(near), U32_MOST)
    return forged(figures)


def random_forged():
    """A sheet that a run leaves, with one figure changed: some are left by a run still. The
    anchors are stated, then unstated."""
    rng = Random(5)
    for _ in range(30):
        yield asked(one_figure_changed(rng, random_sheet(rng)))
    for _ in range(15):
        yield asked(one_figure_changed(rng, unstated(random_sheet(rng))))
