"""The fields of document 01 and field 20 of request S-8, in one table; what depends on a field's
place is made from it.

An entry is what one step states, a tank, a site, anchors or a course: its figures, by the names
of its fields. The names are the document's letters or, where it has none, words. A request that
inserts a field does so here, and the bytes of the sheet, and those of the records, move with it.
"""

from collections import namedtuple
from typing import NamedTuple

WATER = 1_000       # its gravity: what document 01's tanks hold


class Field(NamedTuple):
    number: int         # document 01's, or the request's
    least: int
    greatest: int
    left_out: int | None = None     # what it is where an entry is made without it


TABLE = {   # each step's fields, in the order of document 01's steps and of the sheet's bytes
    "tank": {
        "D": Field(1, 12_000, 240_000),         # diameter
        "H": Field(2, 1_200, 76_800),           # water level above bottom
        "W": Field(3, 1, 10_000_000),           # dead weight of shell and roof
        "plate": Field(4, 100, 500),            # bottom plate
        "allowance": Field(5, 0, 250),          # its corrosion allowance
        "Fy": Field(6, 30_000, 50_000),         # its yield
        "gravity": Field(20, 1_000, 1_300, WATER),      # specific, in thousandths (S-8)
    },
    "site": {
        "V": Field(7, 60, 150),                 # wind in mph
        "Kz": Field(8, 50, 150),                # in hundredths
        "I": Field(9, 100, 125),                # in hundredths
        "Av": Field(10, 0, 500),                # vertical acceleration in thousandths of g
        "Ms": Field(11, 0, 1_000_000_000),      # earthquake moment
    },
    "anchors": {
        "N": Field(12, 6, 200),                 # anchors; 0 is allowed too
        "B": Field(13, 0, 300_000),             # bolt circle diameter
        "d": Field(14, 0, 16),                  # bolt size in eighths of an inch
    },
    "course": {
        "width": Field(15, 1_200, 14_400),
        "t": Field(16, 100, 2_000),             # its plate
        "c": Field(17, 0, 250),                 # its allowance
        "s": Field(18, 10_000, 40_000),         # design stress
        "E": Field(19, 50, 100),                # joint efficiency in hundredths
    },
}


# --- Entries ------------------------------------------------------------------


def entry_of(step):
    """The named tuple of a step's figures; `_make` takes all of them in turn."""
    fields = TABLE[step]
    left_out = [field.left_out for field in fields.values() if field.left_out is not None]
    return namedtuple(step.capitalize(), fields, defaults=left_out)


Tank, Site, Anchors, Course = ENTRIES = tuple(map(entry_of, TABLE))


# --- Numbers, names and ranges ------------------------------------------------

TANK_FIELDS, SITE_FIELDS, ANCHOR_FIELDS, COURSE_FIELDS = (
    tuple(field.number for field in fields.values()) for fields in TABLE.values())
HEAD_FIELDS = (*TANK_FIELDS, *SITE_FIELDS, *ANCHOR_FIELDS)      # those that a sheet has once

NUMBER_OF = {name: field.number for fields in TABLE.values() for name, field in fields.items()}
NAME_OF = {number: name for name, number in NUMBER_OF.items()}
FIELD_RANGES = {field.number: (field.least, field.greatest)
                for fields in TABLE.values() for field in fields.values()}

GRAVITY_FIELD = NUMBER_OF["gravity"]
WIND_FIELD = NUMBER_OF["V"]
ANCHORS_FIELD = NUMBER_OF["N"]


def with_field(entry, field, figure):
    """The entry with the figure of this field, told by its number, changed."""
    return entry._replace(**{NAME_OF[field]: figure})


def field_in_range(field, figure):
    if field not in FIELD_RANGES:
        return False
    if field == ANCHORS_FIELD and figure == 0:  # "0, or 6 to 200"
        return True
    least, greatest = FIELD_RANGES[field]
    return least <= figure <= greatest


# --- Self test ----------------------------------------------------------------


def self_test():
    """The papers' numbering, typed by hand: it is the purpose here. Field 20 is "straight after
    field 6" of the tank."""
    assert list(FIELD_RANGES) == [*range(1, 7), 20, *range(7, 20)] and len(NUMBER_OF) == 20
    assert (TANK_FIELDS, SITE_FIELDS, ANCHOR_FIELDS, COURSE_FIELDS) \
        == ((1, 2, 3, 4, 5, 6, 20), (7, 8, 9, 10, 11), (12, 13, 14), (15, 16, 17, 18, 19))
    assert Tank._fields == ("D", "H", "W", "plate", "allowance", "Fy", "gravity")
    assert [NAME_OF[number] for number in range(7, 20)] \
        == "V Kz I Av Ms N B d width t c s E".split()
    assert Tank(1, 2, 3, 4, 5, 6) == Tank(1, 2, 3, 4, 5, 6, 1_000)      # water
    assert [figure for figure in (0, 999, 1_000, 1_300, 1_301) if field_in_range(20, figure)] \
        == [1_000, 1_300]
    assert with_field(Anchors(6, 14_800, 8), 13, 9) == Anchors(N=6, B=9, d=8)
    assert [n for n in range(8) if field_in_range(ANCHORS_FIELD, n)] == [0, 6, 7]
    assert not field_in_range(0, 5) and not field_in_range(len(NAME_OF) + 1, 5)
