"""The tallier: refused sheets whose length was usable, after which it goes on, and sheets of both
versions side by side.
"""

from itertools import cycle

from model.fields import COURSE_FIELDS, FIELD_RANGES, GRAVITY_FIELD
from model.sheet_bytes import LAYOUTS, VERSION_1, VERSION_2, VERSION_AT, by_length, length_in
from vectors.byte_changes import with_byte, with_length
from vectors.judge_cases import changed
from vectors.marker_cases import marked
from vectors.scripts import just_outside
from vectors.tally_cases import (
    ABOVE, BELOW, FAR_BELOW, JUST, by_differences, refused, said, sheet_by, tallied,
)

# Refusals of bytes and of judging, but for 11 and 13, at which it stops, and for 12.
GOES_ON_AFTER = (14, 15, 16, 17, 18, 34, 37, 39)

# --- Refused sheets -----------------------------------------------------------


def far_below(layout, **figures):
    """What is to be refused: courses that would change the sum and the least."""
    return by_differences(*FAR_BELOW, layout=layout, **figures)


def by_bytes(layout):
    """14 and 15: the version, then n."""
    content = far_below(layout)
    for version in (0, 3 - layout.version, 3, 255):
        yield f"14, {version}", refused(14, with_byte(content, VERSION_AT, version))
    for n in (0, 2, 4, 12, 255):
        yield f"15, {n}", refused(15, with_byte(content, layout.count_at(), n))
    both = with_byte(with_byte(content, VERSION_AT, 9), layout.count_at(), 9)
    yield "14 and 15", refused(14, both)


def by_fields(layout):
    """16 with every field, just below its range and just above; a course's in each place."""
    content = far_below(layout)
    for field in (*layout.head_fields, *COURSE_FIELDS):
        for figure in just_outside(field):
            for place in range(len(FAR_BELOW) if field in COURSE_FIELDS else 1):
                changed_field = layout.with_field_bytes(content, field, figure, place)
                yield f"16 {field}, {figure}, {place}", refused(16, changed_field, field)
    yield "16 1 and all others", refused(16, content[:layout.field_at(1)]
                                         + b"\0" * (layout.count_at() - layout.field_at(1))
                                         + content[layout.count_at():], 1)


def by_agreement(layout):
    """17 of the bottom plate and of a course in each place; 18; 39, where it is; 34; 37."""
    for name, number, figures in (
            ("17, bottom", 17, {"plate": 250, "allowance": 250}),
            ("18, N 0 with B", 18, {"N": 0, "d": 0}), ("18, N 0 with d", 18, {"N": 0, "B": 0}),
            ("18, B below D", 18, {"B": 14_399}), ("18, no such bolt", 18, {"d": 13}),
            ("18, size 5", 18, {"d": 5}), ("18, size 6 and B below D", 18, {"B": 14_399, "d": 6}),
            ("37, a foot", 37, {"H": 3 * 2_400 + 1}), ("37, far", 37, {"H": 76_800})):
        yield name, refused(number, far_below(layout, **figures))
    for place in range(len(FAR_BELOW)):
        plate = 188 + FAR_BELOW[place]
        yield f"17, {place}", refused(
            17, layout.with_field_bytes(far_below(layout), 17, plate, place))
    six = changed(sheet_by(*FAR_BELOW, *FAR_BELOW), width=12_801)
    yield "34", refused(34, layout.sheet_as_bytes(six))
    if layout == VERSION_2:
        yield "39", refused(39, far_below(layout, d=6))
        yield "39 before 37", refused(39, far_below(layout, d=6, H=76_800))


def refused_sheets(layout):
    """Name to bytes."""
    return {f"{name}, version {layout.version}": content
            for group in (by_bytes, by_fields, by_agreement) for name, content in group(layout)}


def all_refused():
    return {name: content for layout in LAYOUTS
            for name, content in refused_sheets(layout).items()}


def number_of(content):
    """Of its refusal."""
    number, _field = marked(content).answer.refusal
    return number


def one_of_each():
    """A sheet of each refusal, in turn of version 1 and 2; 39 is of version 2 alone."""
    in_turn = cycle([refused_sheets(layout).values() for layout in LAYOUTS])
    for number, sheets in zip(GOES_ON_AFTER, in_turn):
        yield next(content for content in sheets if number_of(content) == number)


# --- Groups -------------------------------------------------------------------


def refused_in_the_middle():
    """It goes on at the next length: 6 is above, 0 is just; of the refused sheet nothing counts."""
    for name, content in all_refused().items():
        yield tallied(name, "3 2 0 1 6 0", ABOVE, content, JUST)


def refused_first_and_last():
    """With nothing before it, and with nothing behind it."""
    for number, (name, content) in enumerate(all_refused().items()):
        if number % 5 == 0:
            yield tallied(f"{name}, first", "3 1 1 1 -57 -63", content, ABOVE, BELOW)
            yield tallied(f"{name}, last", "3 1 1 1 -57 -63", ABOVE, BELOW, content)
            yield tallied(f"{name}, alone", "1 0 0 1 0 none", content)
            yield tallied(f"{name}, twice", "4 2 0 2 12 6", ABOVE, content, content, ABOVE)


def all_refusals_in_one():
    """Alone, then with a sheet of 6 before each and one of 63 below behind the last; and the other
    way round."""
    contents = list(all_refused().values())
    count = len(contents)
    yield tallied("all", f"{count} 0 0 {count} 0 none", *contents)
    for name, in_turn in (("in turn", contents), ("the other way round", contents[::-1])):
        between = [part for content in in_turn for part in (ABOVE, content)]
        yield tallied(f"all, {name}", f"{2 * count + 1} {count} 1 {count} {6 * count - 63} -63",
                      *between, BELOW)


def never_12():
    """What is behind a sheet is the next one's: by itself each of these files is 12."""
    for one, two, figures in (
            (ABOVE, JUST, "2 2 0 0 6 0"), (ABOVE, BELOW, "2 1 1 0 -57 -63"),
            (BELOW, ABOVE, "2 1 1 0 -57 -63"),
            (ABOVE, far_below(VERSION_1, H=76_800), "2 1 0 1 6 6"),
            (far_below(VERSION_2, d=6), ABOVE, "2 1 0 1 6 6"), (ABOVE, b"\0", "2 1 0 1 6 6"),
            (ABOVE, b"\0\0", "2 1 0 1 6 6"), (ABOVE, ABOVE[:-1], "2 1 0 1 6 6")):
        refused(12, one + two)
        yield tallied(f"{len(one)} and {len(two)} bytes", figures, one, two)


def lengths_of_others():
    """A usable length that is another sheet's: it has so many bytes, whatever they are. Too great,
    it takes some of what is behind; too small, the rest is where a length is looked for, and it
    begins with a figure: 0, which is 13."""
    for layout, other in (LAYOUTS, LAYOUTS[::-1]):
        one = by_differences(-63, layout=layout)
        for n, fill in ((2, 20), (3, 40), (12, 220)):
            longer = with_length(one, layout.length_with(n)) + b"\xff" * fill
            yield tallied(f"{n} courses, version {layout.version}", "3 2 0 1 6 0", JUST,
                          refused(15, longer), ABOVE)
        three = by_differences(*FAR_BELOW, layout=layout)
        shorter = with_length(three, layout.length_with(1))
        refused(15, shorter[:layout.bytes_with(1)])
        yield tallied(f"too small, version {layout.version}", "3 1 0 2 0 0", JUST, shorter, ABOVE)
        others = with_length(three, other.length_with(2))
        refused(14, others[:other.bytes_with(2)])
        yield tallied(f"version {other.version}'s, on version {layout.version}", "3 1 0 2 0 0",
                      JUST, others, ABOVE)


def versions():
    """In turn; each alone; size 6 is judged in version 1 and refused 39 in version 2, and it goes
    on after either."""
    first, second = (by_differences(6, layout=layout) for layout in LAYOUTS)
    heavy = by_differences(62, -1, gravity=1_300)
    six_first, six_second = (layout.sheet_as_bytes(sheet_by(-63, 5, d=6)) for layout in LAYOUTS)
    said("tank short", six_first)
    refused(39, six_second)
    yield tallied("1, 2", "2 2 0 0 12 6", first, second)
    yield tallied("2, 1", "2 2 0 0 12 6", second, first)
    yield tallied("1, 2, 1, 2 ..", "24 24 0 0 144 6", *(first, second) * 12)
    yield tallied("1 alone", "12 12 0 0 72 6", *(first,) * 12)
    yield tallied("2 alone", "12 12 0 0 72 6", *(second,) * 12)
    yield tallied("2 with gravity, 1", "3 2 1 0 73 -1", first, heavy, first)
    yield tallied("size 6 in 1", "3 2 1 0 -46 -63", first, six_first, second)
    yield tallied("size 6 in 2", "3 2 0 1 12 6", first, six_second, second)
    yield tallied("size 6 in both", "5 3 1 1 -40 -63", first, six_first, second, six_second, first)
    yield tallied("size 6 in both, the other way round", "4 2 1 1 -46 -63",
                  first, six_second, second, six_first)
    yield tallied("size 6 alone, in 1", "1 0 1 0 -58 -63", six_first)
    yield tallied("size 6 alone, in 2", "1 0 0 1 0 none", six_second)
    sound_six = VERSION_1.sheet_as_bytes(sheet_by(0, 5, d=6))
    yield tallied("size 6 in 1, sound", "2 1 0 1 5 0", sound_six,
                  refused(39, VERSION_2.sheet_as_bytes(sheet_by(0, 5, d=6))))


GROUPS = (refused_in_the_middle, refused_first_and_last, all_refusals_in_one, never_12,
          lengths_of_others, versions)

# --- Self test ----------------------------------------------------------------


def self_test():
    """Every refusal, 16 with every field, those of judging among them; each has a usable length and
    as many bytes as that says. One of each is one of each, and of both versions in turn."""
    found = set()
    for name, content in all_refused().items():
        refusal = marked(content).answer.refusal
        found.add(refusal)
        layout, n = by_length(length_in(content))
        assert len(content) == layout.bytes_with(n), name
    assert {number for number, _field in found} == {*GOES_ON_AFTER}
    each = [*one_of_each()]
    assert [number_of(content) for content in each] == [*GOES_ON_AFTER]
    assert [by_length(length_in(content))[0] for content in each] == [*LAYOUTS] * 4
    assert {field for number, field in found if number == 16} == {*FIELD_RANGES}
    assert GRAVITY_FIELD in {field for _number, field in found}
