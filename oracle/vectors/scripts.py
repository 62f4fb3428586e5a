"""Making scripts: records that follow each other, the first of which sets the current sheet, so
that no case hangs on what went before it.

Each group of scripts is a function that yields them; `case` and `answers` also say, by hand, what
the answer is to be. `python3 oracle groups` lists the records, and so the lines, of each group.
"""

from itertools import combinations

from model.fields import FIELD_RANGES, Anchors, Course, Tank, field_in_range, with_field
from model.filling_in import has_size_6, left_by_a_run, made, run_to
from model.printing import refusal_word
from model.refusals import FIELD_REFUSAL
from model.sheet_bytes import VERSION_1, VERSION_2
from vectors.record_answers import outcomes
from vectors.records import OPENING, STEPS, figures_record, forge, new, read, write

U32_MOST = 2**32 - 1

# --- Making scripts -----------------------------------------------------------


def case(word, *records):
    """A script whose last answer is this word."""
    *_before, last = outcomes(records)
    assert last.word == word, (word, last)
    return records


def answers(words, *records):
    """A script whose answers, after the first record's, are these words."""
    given = [result.word for result in outcomes(records)][1:]
    assert given == words, (words, given)
    return records


def step_record(step, entry):
    opcode = next(opcode for opcode, one in STEPS.items() if one == step)
    return figures_record(opcode, entry)


def steps_to(sheet):
    """From the empty sheet to this one, which a run leaves. Size 6 was stated before S-10; now that
    step is refused, and the anchors are unstated at the end."""
    records = (new(), *(step_record(step, entry) for step, entry in run_to(sheet)))
    *_before, last = outcomes(records)
    assert last.sheet == (unstated(sheet) if has_size_6(sheet.anchors) else sheet)
    return records


def wrote(n):
    """The word for a sheet of n courses."""
    return f"wrote {VERSION_2.bytes_with(n)}"


def write_for(n, fill, more=0, layout=VERSION_1):
    """Writing with as many bytes as the version has for n courses, or so many more. Version 1's is
    the size that was enough before request S-8."""
    return write(layout.bytes_with(n) + more, fill)


def write_word(n, more=0, layout=VERSION_1):
    """The word for that, on a sheet of n courses."""
    return wrote(n) if layout.bytes_with(n) + more >= VERSION_2.bytes_with(n) else "refused 19"


def anchors_word(figures):
    """The word for stating such anchors, that are not refused otherwise, on a sheet with a tank."""
    return "refused 39" if has_size_6(Anchors(*figures)) else "ok"


def holding(sheet):
    """Records that make this sheet the current one: steps, where they are few, or bytes with
    size 6."""
    if has_size_6(sheet.anchors) and left_by_a_run(sheet):
        return (read(VERSION_1.sheet_as_bytes(sheet)),)
    if sheet.count <= 3 and left_by_a_run(sheet):
        return steps_to(sheet)
    return (forge(sheet),)


def with_plate(entry, plate, allowance):
    """A tank or a course with these two."""
    if isinstance(entry, Tank):
        return entry._replace(plate=plate, allowance=allowance)
    return entry._replace(t=plate, c=allowance)


def with_slot(sheet, place, figures):
    """The slot changed, and nothing else."""
    slots = (*sheet.courses[:place], Course._make(figures), *sheet.courses[place + 1:])
    return sheet._replace(courses=slots)


def with_anchors(sheet, figures):
    """The sheet with these figures of anchors, or unstated."""
    return sheet._replace(anchors=made(Anchors, figures))


def unstated(sheet):
    """The sheet before its anchors are stated."""
    return sheet._replace(anchors=None)


def just_outside(field):
    """One past each end; below 0 that is the u32 that stands for -1."""
    least, greatest = FIELD_RANGES[field]
    return greatest + 1, (least - 1) % 2**32


def with_outside(entry, *fields):
    """The entry with each of these fields just above its range."""
    for field in fields:
        above, _below = just_outside(field)
        entry = with_field(entry, field, above)
    return entry


def end_figures(field):
    """Both ends of the range, one to either side, 0 and the greatest that a u32 holds."""
    least, greatest = FIELD_RANGES[field]
    return sorted({0, least, least + 1, greatest - 1, greatest, U32_MOST, *just_outside(field)})


def range_word(field, figure):
    return "ok" if field_in_range(field, figure) else refusal_word(FIELD_REFUSAL, field)


def subsets(numbers):
    for size in range(len(numbers) + 1):
        yield from combinations(numbers, size)


def records_by_name(groups):
    """Name of the group to its records."""
    by_name = {}
    for group in groups:
        scripts = list(group())
        assert all(script[0].opcode in OPENING for script in scripts)
        by_name[group.__name__] = [record for script in scripts for record in script]
    return by_name
