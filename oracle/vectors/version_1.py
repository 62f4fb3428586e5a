"""What the groups from before request S-8 go through, so that they stay what they were: the fields
of document 01, gravity left out, and the bytes of version 1.
"""

from model import fields
from model.fields import ENTRIES, GRAVITY_FIELD, WATER
from model.sheet_bytes import VERSION_1, VERSION_2

TANK_FIELDS = tuple(field for field in fields.TANK_FIELDS if field != GRAVITY_FIELD)
HEAD_FIELDS = VERSION_1.head_fields
FIELD_RANGES = {field: limits for field, limits in fields.FIELD_RANGES.items()
                if field != GRAVITY_FIELD}
FIELDS_OF = {entry: tuple(field for field in map(fields.NUMBER_OF.get, entry._fields)
                          if field != GRAVITY_FIELD) for entry in ENTRIES}

COUNT_AT = VERSION_1.count_at()
HEAD_BYTES = VERSION_1.head_bytes()
bytes_with = VERSION_1.bytes_with
length_with = VERSION_1.length_with
field_bytes = VERSION_1.field_bytes


def as_bytes(tank, site, anchors, courses):
    return VERSION_1.as_bytes(tank, site, anchors, courses=courses)


def sheet_as_bytes(sheet):
    """Of version 1, unless the gravity is one that it cannot hold; then of version 2."""
    layout = VERSION_1 if sheet.tank.gravity == WATER else VERSION_2
    return layout.sheet_as_bytes(sheet)


def all_of(entry, figure):
    """The entry whose every figure is this one, of a tank that holds water."""
    return entry(*[figure] * len(FIELDS_OF[entry]))
