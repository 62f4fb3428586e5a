"""Scripts of request S-10 drawn at random from fixed seeds, with size 6 often: steps, bytes of
either version, damage, noise in the anchors, sheets built by hand.
"""

from functools import partial
from random import Random

from model.fields import FIELD_RANGES, Anchors, with_field
from model.filling_in import DROPPED_SIZE, SELF_ANCHORED
from model.refusals import METHODS
from model.sheet_bytes import LAYOUTS, VERSION_1, VERSION_2
from model.tank_rules import BOLT_CHART
from vectors.judge_cases import with_figure
from vectors.judge_liquor_random import drawn_gravity
from vectors.random_sheets import anchored_sheet
from vectors.records import (
    ANCHORS, COURSE, SITE, TANK, WRITE, anchors, ask, ask_held, forge, judge, judge_held, mark,
    new, read, tank, write,
)
from vectors.scripts import end_figures
from vectors.steps_forged import asked
from vectors.steps_random import (
    damage_by_cut, damage_by_gap, damage_by_swap, damage_field, damage_length, damage_one_bit,
    damage_one_byte, drawn_step, drawn_tank, one_figure_changed, random_sheet,
)

LEFT_SIZES = tuple(d for d in BOLT_CHART if d != DROPPED_SIZE)

# --- Draws --------------------------------------------------------------------


def drawn_size(rng):
    """The dropped one in half of all draws, its neighbour now and then."""
    return DROPPED_SIZE if rng.random() < 0.5 else rng.choice((7, *LEFT_SIZES))


def drawn_anchors(rng, D):
    """At times below D, at times with N = 0 and more."""
    if rng.random() < 0.15:
        return rng.choice((SELF_ANCHORED, Anchors(0, 0, DROPPED_SIZE)))
    least = max(D - 1, 0) if rng.random() < 0.2 else D
    circle = rng.choice((least, 300_000, rng.randint(least, 300_000)))
    return Anchors(N=rng.choice((6, 200, rng.randint(6, 200), 5)), B=circle, d=drawn_size(rng))


def sized_sheet(rng):
    """A whole one, anchored in most draws, of water in most."""
    sheet = random_sheet(rng)
    if rng.random() < 0.85:
        D = sheet.tank.D
        sheet = sheet._replace(anchors=Anchors(rng.randint(6, 200), rng.randint(D, 300_000),
                                               drawn_size(rng)))
    return sheet


def sized_bytes(rng):
    """Of either version; of version 2 with any gravity."""
    sheet = sized_sheet(rng)
    if rng.random() < 0.6:
        return VERSION_1.sheet_as_bytes(sheet)
    return VERSION_2.sheet_as_bytes(with_figure(sheet, 20, drawn_gravity(rng)))


def judgeable(rng, size=DROPPED_SIZE):
    """Drawn near equality, with this size."""
    while True:
        sheet = anchored_sheet(rng, rng.choice(METHODS))
        if sheet.anchors.d == size:
            return sheet


# --- Groups: at random, from fixed seeds --------------------------------------


def random_steps():
    """A tank or bytes, then steps, questions and now and then bytes again."""
    rng = Random(101)
    for _ in range(40):
        sheet = sized_sheet(rng)
        opening = rng.choice(((read(VERSION_1.sheet_as_bytes(sheet)),), (read(sized_bytes(rng)),),
                              (new(), tank(drawn_tank(rng)._replace(D=sheet.tank.D)))))
        records = list(opening)
        for _ in range(rng.randint(6, 16)):
            opcode = rng.choices((TANK, SITE, ANCHORS, COURSE, WRITE, None), (1, 3, 6, 4, 4, 3))[0]
            if opcode == ANCHORS:
                records.append(anchors(drawn_anchors(rng, sheet.tank.D)))
            elif opcode == WRITE:
                records.append(write(rng.choice((0, 84, 124, 200, 304)), rng.randrange(256)))
            elif opcode is None:
                records.append(rng.choice((judge_held(), judge_held(2), ask_held(),
                                           read(sized_bytes(rng)))))
            else:
                records.append(drawn_step(rng, opcode, sheet.tank.D))
        yield records


def random_bytes():
    """Read, judged, written with too little room or enough, restated and written."""
    rng = Random(102)
    for _ in range(60):
        content = sized_bytes(rng)
        size = len(content) + rng.choice((0, 4, 4, 20))
        yield (read(content), rng.choice((judge_held(), ask_held(), judge_held(2))),
               write(size, rng.randrange(256)), anchors(drawn_anchors(rng, 240_000)),
               write(size, rng.randrange(256)), mark(content))


def random_damage():
    """Anything, the three fields of the anchors often."""
    rng = Random(103)
    anywhere = (damage_one_bit, damage_one_byte, damage_by_gap, damage_length, damage_by_cut)
    for number in range(130):
        layout = LAYOUTS[number % 2]
        content = bytearray(layout.sheet_as_bytes(sized_sheet(rng)))
        damages = (*anywhere, partial(damage_by_swap, layout=layout),
                   *[partial(damage_field, layout=layout, fields=(12, 13, 14))] * 3,
                   partial(damage_field, layout=layout, fields=layout.head_fields))
        rng.choice(damages)(rng, content)
        if rng.random() < 0.2 and len(content) > layout.field_at(14) + 4:
            content[layout.field_bytes(14)] = DROPPED_SIZE.to_bytes(4, "big")
        yield read(content), write(304, rng.randrange(256)), anchors((6, 240_000, drawn_size(rng)))


def random_forged():
    """One figure changed, a part not stated, another gravity, or nothing."""
    rng = Random(104)
    for number in range(80):
        sheet = sized_sheet(rng)
        kind = number % 5
        if kind == 1:
            sheet = sheet._replace(site=None)
        elif kind == 2:
            sheet = sheet._replace(courses=sheet.courses, count=rng.choice((0, sheet.count - 1)))
        elif kind == 3:
            gravity = rng.choice((999, 1_001, *end_figures(20), drawn_gravity(rng)))
            sheet = with_figure(sheet, 20, gravity)
        elif kind == 4:
            sheet = one_figure_changed(rng, sheet)
        yield *asked(sheet), forge(sheet), judge_held(3), anchors((6, 300_000, drawn_size(rng)))


def random_judged():
    """Near equality: by bytes, and as it is by both methods; then the same with gravity, which no
    run leaves."""
    rng = Random(105)
    for _ in range(45):
        sheet = judgeable(rng)
        heavier = with_figure(sheet, 20, rng.choice((1_001, 1_300, rng.randint(1_001, 1_300))))
        method = rng.choice(METHODS)
        yield (new(), mark(VERSION_1.sheet_as_bytes(sheet)),
               *(judge(sheet, one) for one in METHODS), ask(sheet, method),
               mark(VERSION_2.sheet_as_bytes(heavier)), judge(heavier, method),
               ask(heavier, method))


def random_judged_in_version_2():
    """What S-8's random groups had in bytes and lost in part: anchored, with gravity, no size 6."""
    rng = Random(106)
    for _ in range(60):
        sheet = judgeable(rng, rng.choice(LEFT_SIZES))
        sheet = with_figure(sheet, 20, drawn_gravity(rng))
        method = rng.choice(METHODS)
        yield new(), mark(VERSION_2.sheet_as_bytes(sheet)), judge(sheet, method), ask(sheet, method)


def random_fields_of_anchors():
    """N, B and d near the ends of their ranges and of each other, in either version and by a
    step."""
    rng = Random(107)
    for number in range(70):
        sheet = sized_sheet(rng)
        stated = drawn_anchors(rng, sheet.tank.D)
        if rng.random() < 0.3:
            field = rng.choice((12, 13, 14))
            stated = with_field(stated, field, rng.choice((*end_figures(field),
                                                           FIELD_RANGES[field][0])))
        content = LAYOUTS[number % 2].sheet_as_bytes(sheet._replace(anchors=stated))
        yield read(content), read(VERSION_1.sheet_as_bytes(sheet)), anchors(stated), write(304, 1)


GROUPS = (
    random_steps, random_bytes, random_damage, random_forged, random_judged,
    random_judged_in_version_2, random_fields_of_anchors,
)
