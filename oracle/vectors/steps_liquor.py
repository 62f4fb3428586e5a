"""Scripts of request S-8: field 20 in steps and in bytes, and sheets built by hand with it."""

from itertools import product

from model import example
from model.fields import FIELD_RANGES, GRAVITY_FIELD, TANK_FIELDS, with_field
from model.filling_in import EMPTY, SELF_ANCHORED, sheet_of
from model.printing import refusal_word
from model.refusals import FIELD_REFUSAL
from model.sheet_bytes import VERSION_2, VERSION_AT
from vectors.byte_changes import field_damage, longer_by_one_throughout
from vectors.records import anchors, course, forge, new, read, site, tank, write
from vectors.scripts import (
    U32_MOST, answers, case, holding, range_word, steps_to, subsets, with_anchors, with_outside,
    with_plate, with_slot, write_for, wrote,
)
from vectors.start_sheets import (
    EXAMPLE, FULL, FULL_ANCHORS, FULL_COURSES, FULL_SITE, FULL_TANK, LOW_COURSE, ONE, TANK_ONLY,
    THREE, WIDE_TANK,
)
from vectors.steps_forged import refused_30, taken
from vectors.steps_orders import ORDER_COURSES, all_at_once, first_of, one_or_two

GRAVITIES = (999, 1_000, 1_001, 1_300, 1_301, 0, U32_MOST)
MORE_GRAVITIES = (1, 998, 1_002, 1_137, 1_299, 1_302, 1_000 + 2**8, 1_000 + 2**16, 1_000 + 2**31,
                  2**31)
OTHER_FIELDS = tuple(field for field in FIELD_RANGES if field != GRAVITY_FIELD)
HEAVY = 1_137


def filled(sheet, gravity=HEAVY):
    return sheet._replace(tank=sheet.tank._replace(gravity=gravity))


HEAVY_ONE, HEAVY_THREE, HEAVY_FULL = map(filled, (ONE, THREE, FULL))
HEAVY_EXAMPLE_BYTES = VERSION_2.sheet_as_bytes(filled(EXAMPLE))

# --- Groups: the tank's step --------------------------------------------------


def gravities_by_steps():
    """Range and what is just outside. What is accepted shows; a refused one leaves nothing."""
    for gravity in (*GRAVITIES, *MORE_GRAVITIES):
        word = range_word(GRAVITY_FIELD, gravity)
        after = "refused 32" if word.startswith("refused") else "ok"
        yield answers([word, after], new(), tank(FULL_TANK._replace(gravity=gravity)),
                      site(FULL_SITE))
    for gravity in (999, 1_301):
        yield answers([f"refused 16 {GRAVITY_FIELD}", "ok", "refused 31", "ok"], new(),
                      tank(FULL_TANK._replace(gravity=gravity)), tank(filled(ONE).tank),
                      tank(FULL_TANK._replace(gravity=gravity)), site(FULL_SITE))


def tank_order_with_gravity():
    """30, 31, 16 with each of the fields 1 to 6 and then 20, 17: each subset of these, with one
    field of 1 to 6. 17 is by the bottom plate's allowance, which may be field 4 or 5 too."""
    for field in TANK_FIELDS[:-1]:
        words = {30: "refused 30", 31: "refused 31", 16: f"refused 16 {field}",
                 GRAVITY_FIELD: f"refused 16 {GRAVITY_FIELD}", 17: "refused 17"}
        for present in subsets((30, 31, 16, GRAVITY_FIELD, 17)):
            if GRAVITY_FIELD not in present or 17 in present and field in (4, 5):
                continue
            sheet = sheet_of(FULL_TANK if 31 in present else None,
                             with_outside(FULL_SITE, 7) if 30 in present else None, None, ())
            figures = with_outside(example.TANK, GRAVITY_FIELD)
            if 17 in present:
                figures = with_plate(figures, 250, 250)
            if 16 in present:
                figures = with_outside(figures, field)
            yield case(first_of(words, present, "ok"), *holding(sheet), tank(figures))
    for gravity in (0, 999):
        for field in TANK_FIELDS[:-1]:
            figures = with_outside(WIDE_TANK, field)._replace(gravity=gravity)
            yield case(f"refused 16 {field}", new(), tank(figures))
        equal = with_plate(WIDE_TANK, 250, 250)
        yield case(f"refused 16 {GRAVITY_FIELD}", new(), tank(equal._replace(gravity=gravity)))
        yield case("refused 16 20", new(), tank(FULL_TANK._replace(gravity=gravity)))
    for gravity in (1_000, 1_300):
        equal = with_plate(WIDE_TANK, 250, 250)
        yield case("refused 17", new(), tank(equal._replace(gravity=gravity)))
        strong = with_outside(WIDE_TANK, 6)
        yield case("refused 16 6", new(), tank(strong._replace(gravity=gravity)))


def filled_in_heavy():
    """By steps, with each gravity that is one, written and read again."""
    for gravity in (1_000, 1_001, 1_137, 1_299, 1_300):
        for sheet in (filled(ONE, gravity), filled(THREE, gravity)._replace(anchors=SELF_ANCHORED)):
            n = sheet.count
            yield answers([*["ok"] * (n + 3), wrote(n), "refused 31", "ok"], *steps_to(sheet),
                          write_for(n, 3, layout=VERSION_2), tank(sheet.tank),
                          read(VERSION_2.sheet_as_bytes(sheet)))


# --- Groups: field 20 in bytes ------------------------------------------------


def gravities_in_bytes():
    """What is accepted is written as it was."""
    for n, content in ((1, VERSION_2.sheet_as_bytes(ONE)), (12, VERSION_2.sheet_as_bytes(FULL))):
        for gravity in (*GRAVITIES, *MORE_GRAVITIES):
            changed = VERSION_2.with_field_bytes(content, GRAVITY_FIELD, gravity)
            word = range_word(GRAVITY_FIELD, gravity)
            if word == "ok":
                yield answers([wrote(n)], read(changed), write_for(n, 9, layout=VERSION_2))
            else:
                yield case(word, read(changed))


def two_fields_in_bytes():
    """Field 20 outside beside each other field: it is named after 6 and before 7."""
    for field, gravity in product(OTHER_FIELDS, (999, 1_301)):
        content = VERSION_2.with_field_bytes(HEAVY_EXAMPLE_BYTES, field, FIELD_RANGES[field][1] + 1)
        content = VERSION_2.with_field_bytes(content, GRAVITY_FIELD, gravity)
        first = field if field in TANK_FIELDS else GRAVITY_FIELD
        yield case(refusal_word(FIELD_REFUSAL, first), read(content))


BYTES_ORDER_2 = (       # S-8's: in the tank's step 16 with field 20 is after field 6
    ("refused 13", longer_by_one_throughout),
    ("refused 11", lambda content: content.pop()),
    ("refused 12", lambda content: content.extend((0, 0))),
    ("refused 14", lambda content: content.__setitem__(VERSION_AT, 1)),
    ("refused 15", lambda content: content.__setitem__(VERSION_2.count_at(), 6)),
    *((word, field_damage(*change, layout=VERSION_2)) for word, *change in (
        ("refused 16 6", 6, 29_999), ("refused 16 20", 20, 1_301), ("refused 17", 5, 250),
        ("refused 16 7", 7, 151), ("refused 16 12", 12, 5), ("refused 18", 14, 13),
        ("refused 16 15", 15, 1_199, 0), ("refused 17", 17, 250, 3), ("refused 34", 15, 6_801, 5))),
)


def damaged_2(damages):
    """A sheet of seven courses, as in steps_orders.py."""
    content = bytearray(VERSION_2.as_bytes(example.TANK._replace(gravity=HEAVY), example.SITE,
                                           example.ANCHORS, courses=ORDER_COURSES))
    for _word, damage in reversed(damages):     # a cut comes after the fields that it cuts
        damage(content)
    return bytes(content)


def bytes_order_of_version_2():
    """One or two of them, then all; without 11, then without 12. Where 13 is, no n is given."""
    yield case("ok", read(damaged_2(())))
    for damages in (*one_or_two(BYTES_ORDER_2), *all_at_once(BYTES_ORDER_2)):
        yield case(damages[0][0], read(damaged_2(damages)))


# --- Groups: sheets built by hand ---------------------------------------------


def forged_gravities():
    """30: no run of steps leaves such a tank. Then those that one does, and counts such as version
    2's size in 32 bits takes for less."""
    for gravity in (*GRAVITIES, *MORE_GRAVITIES):
        good = range_word(GRAVITY_FIELD, gravity) == "ok"
        for sheet in (THREE, TANK_ONLY) if gravity in GRAVITIES else (ONE,):
            heavier = filled(sheet, gravity)
            yield taken(heavier) if good else refused_30(heavier)
    for gravity in (0, 999, 1_301):
        for sheet in (with_anchors(THREE, None), THREE._replace(site=None),
                      THREE._replace(count=4), with_slot(FULL, 11, FULL_COURSES[0])):
            yield refused_30(filled(sheet, gravity))
    for count in (2, 4, 13, 214_748_362, 214_748_367, 214_748_368, U32_MOST):
        yield refused_30(HEAVY_THREE._replace(count=count))
    for sheet in (THREE._replace(count=4), THREE._replace(tank=THREE.tank._replace(D=11_999)),
                  EMPTY._replace(site=FULL_SITE)):
        yield refused_30(sheet if sheet.tank is None else filled(sheet))
    for field in TANK_FIELDS[:-1]:
        yield refused_30(THREE._replace(tank=with_outside(HEAVY_THREE.tank, field)))
        for figure in FIELD_RANGES[field]:
            heaviest = with_field(WIDE_TANK._replace(gravity=1_300), field, figure)
            yield taken(THREE._replace(tank=heaviest, anchors=SELF_ANCHORED))


def steps_on_heavy():
    """The steps go on from a heavy sheet, whatever is refused between; the gravity stays."""
    for opening in (forge(HEAVY_THREE), read(VERSION_2.sheet_as_bytes(HEAVY_THREE))):
        yield answers(["refused 31", "refused 16 7", "ok", "refused 18", "ok", "refused 17", "ok",
                       "refused 19", wrote(4)], opening, tank(FULL_TANK),
                      site(with_outside(FULL_SITE, 7)), site(example.SITE), anchors((6, 17_999, 8)),
                      anchors(FULL_ANCHORS), course(with_plate(LOW_COURSE, 250, 250)),
                      course(LOW_COURSE), write_for(4, 5, -1, VERSION_2),
                      write_for(4, 6, layout=VERSION_2))
    yield answers(["refused 30", "ok", "held", "refused 32"], forge(filled(THREE, 999)),
                  write(512, 1), read(VERSION_2.sheet_as_bytes(HEAVY_ONE)), new(), write(512, 2))
