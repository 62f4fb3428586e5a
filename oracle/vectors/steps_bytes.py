"""Scripts of writing, with buffers of every kind, and of reading bytes of every kind."""

from itertools import product

from model import example
from model.fields import COURSE_FIELDS, SITE_FIELDS
from model.filling_in import SELF_ANCHORED, sheet_of
from model.refusals import MOST_COURSES
from model.sheet_bytes import COURSE_BYTES, LAYOUTS, VERSION_AT
from vectors.byte_changes import put_field, right_length, with_byte, with_length
from vectors.records import MOST_BUFFER, MOST_READ, anchors, new, read, site, write
from vectors.scripts import (
    answers, case, holding, just_outside, range_word, steps_to, unstated, with_anchors,
    with_outside, with_plate, with_slot, write_for, write_word, wrote,
)
from vectors.start_sheets import (
    FULL_ANCHORS, FULL_BYTES, FULL_COURSES, FULL_SITE, FULL_TANK, LOW_COURSE, ONE, ONE_BYTES, THREE,
    THREE_BYTES, WIDE_COURSE, WIDE_TANK, full_with, high_sheet, widths_to,
)
from vectors.steps_forged import all_at
from vectors.steps_in_turn import PLATE_CASES, REFUSED_COURSES, anchor_cases
from vectors.version_1 import (
    COUNT_AT, FIELD_RANGES, HEAD_BYTES, TANK_FIELDS, as_bytes, bytes_with, length_with,
    sheet_as_bytes,
)

# --- Groups: write ------------------------------------------------------------


def write_sizes():
    """One byte short of version 1, exact, one longer, much longer, none; then the sheet is as it
    was."""
    for n in range(1, 13):
        need = bytes_with(n)
        one_less = bytes_with(n - 1)
        sizes = ((need - 1, "refused 19"), (need, write_word(n)), (need + 1, write_word(n, 1)),
                 (MOST_BUFFER, wrote(n)), (0, "refused 19"), (one_less, "refused 19"))
        lent = [write(size, (37 * n + 91 * place) % 256) for place, (size, _) in enumerate(sizes)]
        words = ["ok"] * (n + 3) + [word for _size, word in sizes] + ["ok"]
        yield answers(words, *steps_to(full_with(n)), *lent, site(example.SITE))


def write_fills():
    """The bytes behind the sheet's, and the whole buffer of a refused write, stay."""
    for fill in (0, 1, 127, 128, 136, 200, 255):
        yield answers([write_word(1, 60), "refused 19", "refused 19", "held", "refused 32"],
                      read(ONE_BYTES), write_for(1, fill, 60), write_for(1, fill, -1),
                      write(1, fill), new(), write_for(2, fill))


def write_incomplete():
    """Every kind of sheet that lacks a part, with buffers too short for any and long enough."""
    sizes = (0, *(bytes_with(n) + less for n in (0, 1) for less in (-1, 0)), 200)
    yield answers(["refused 32"] * 6, new(), *(write(size, 50) for size in sizes))
    for with_site, figures, courses in product((0, 1), (None, (0, 0, 0), FULL_ANCHORS),
                                               (0, 1, 3)):
        sheet = sheet_of(FULL_TANK, FULL_SITE if with_site else None, figures,
                         FULL_COURSES[:courses])
        lacks = {35: courses == 0, 36: not with_site, 38: figures is None}
        word = next((f"refused {number}" for number, lack in lacks.items() if lack),
                    wrote(courses))
        before = steps_to(sheet)
        yield case(word, *before, *(write(size, 50 + size) for size in sizes))


def write_unstated_anchors():
    """Beside every number of courses, with a site and without, until N = 0 is stated; 38 goes
    before 19."""
    for n, site_figures in product(range(MOST_COURSES + 1), (FULL_SITE, None)):
        need = bytes_with(n)
        lack = "refused 35" if n == 0 else "refused 36" if site_figures is None else None
        words = [lack or "refused 38"] * 4 + ["ok", lack or write_word(n)]
        before = holding(unstated(full_with(n))._replace(site=site_figures))
        lent = [write(size, 19 * n) for size in (0, need - 1, need, need + 1)]
        yield answers(["ok"] * (len(before) - 1) + words, *before, *lent, anchors((0, 0, 0)),
                      write_for(n, n))


def write_ends():
    """Figures at the ends of their ranges, by steps, written and read again. Since S-10 the lowest
    anchors are refused by the step, and read: steps_size_6.py has these ends without size 6."""
    for sheet in (all_at(0, (1_200,)), all_at(0, (1_200,) * 12), all_at(1, (14_400,) * 5),
                  all_at(1, widths_to(76_800, 12))):
        yield case("ok", *steps_to(sheet), write_for(sheet.count, 99),
                   read(sheet_as_bytes(sheet)))


# --- Groups: bytes ------------------------------------------------------------


def cut_bytes():
    """Below two bytes and from there on, it is 11."""
    head, last = HEAD_BYTES, bytes_with(11)
    some = (0, 1, 2, 3, head - 2, head - 1, head, head + 1, bytes_with(1) - 1,
            *(bytes_with(n) for n in (1, 2, 3, 5, 7, 9)), last - 1, last, last + 1,
            len(FULL_BYTES) - 2, len(FULL_BYTES) - 1)
    for content, lengths in ((ONE_BYTES, range(len(ONE_BYTES))),
                             (THREE_BYTES, range(len(THREE_BYTES))), (FULL_BYTES, some)):
        for length in lengths:
            yield case("refused 11", read(content[:length]))
        yield case("ok", read(content))


def longer_bytes():
    most = MOST_READ - len(FULL_BYTES)
    for content in (ONE_BYTES, THREE_BYTES, FULL_BYTES):
        for more in (1, 2, COURSE_BYTES, 100, most):
            yield case("refused 12", read(content + bytes(more)))
        yield case("refused 12", read(content + content[-COURSE_BYTES:]))
        yield case("refused 12", read(content.ljust(MOST_READ, b"\xff")))


FIRST_LENGTHS, SECOND_LENGTHS = (
    tuple(layout.length_with(n) for n in range(1, MOST_COURSES + 1)) for layout in LAYOUTS)


def length_word(L, right):
    """Over the body of a sheet whose L is right."""
    if L not in FIRST_LENGTHS + SECOND_LENGTHS:
        return "refused 13"
    return "ok" if L == right else "refused 12" if L < right else "refused 11"


def every_length():
    one, three = (right_length(content) for content in (ONE_BYTES, THREE_BYTES))
    for L in range(401):        # past the last one, and past that of a thirteenth course
        yield case(length_word(L, one), read(with_length(ONE_BYTES, L)))
    for L in (0, one - 1, *FIRST_LENGTHS, three - 1, three + 1, FIRST_LENGTHS[-1] + 1,
              length_with(13)):
        yield case(length_word(L, three), read(with_length(THREE_BYTES, L)))
    # such as a byte's worth of n, or a wrong order of L's two bytes, takes for right
    for L in (three << 8, (three << 8) + 1, *map(length_with, (256, 259, 515)), 2**15,
              2**15 + three, 65_533, 65_534, 65_535):
        yield case("refused 13", read(with_length(THREE_BYTES, L)))


def length_of_no_sheet():
    """No course, or thirteen and more, with L, the bytes and the count byte of one mind."""
    for n in (0, 13, 14, 15, 20, (MOST_READ - HEAD_BYTES) // COURSE_BYTES):
        content = as_bytes(FULL_TANK, FULL_SITE, FULL_ANCHORS, (LOW_COURSE,) * n)
        yield case("refused 13", read(content))


def versions():
    for content in (ONE_BYTES, THREE_BYTES, FULL_BYTES):
        for version in (0, 2, 3, 128, 129, 254, 255):
            yield case("refused 14", read(with_byte(content, VERSION_AT, version)))


def count_bytes():
    for n in range(256):
        content = with_byte(THREE_BYTES, COUNT_AT, n)
        yield case("ok" if n == 3 else "refused 15", read(content))
    for n in (0, 1, 11, 12, 13, 255):
        content = with_byte(FULL_BYTES, COUNT_AT, n)
        yield case("ok" if n == 12 else "refused 15", read(content))


def ranges_in_bytes():
    """Every field at both ends and one past; what is accepted is written again."""
    parts = (WIDE_TANK, FULL_SITE, SELF_ANCHORED, (WIDE_COURSE,) * 3)
    places = [(field, 0) for field in (*TANK_FIELDS, *SITE_FIELDS)]
    places += product(COURSE_FIELDS, (0, 1, 2))
    for field, place in places:
        for figure in sorted({*FIELD_RANGES[field], *just_outside(field)}):
            content = bytearray(as_bytes(*parts))
            put_field(content, field, figure, place)
            word = range_word(field, figure)
            again = [write_for(3, field, 5)] if word == "ok" else []
            yield case(write_word(3, 5) if again else word, read(content), *again)


def anchors_in_bytes():
    for word, figures in anchor_cases(FULL_TANK.D, of_size_6="ok"):
        yield case(word, read(sheet_as_bytes(with_anchors(ONE, figures))))


def each_byte():
    """Set to 0, to 255 and plus one."""
    for place, byte in enumerate(THREE_BYTES):
        for other in sorted({0, 255, (byte + 1) % 256} - {byte}):
            yield (read(with_byte(THREE_BYTES, place, other)),)


def steps_in_bytes():
    """A step's refusal inside bytes, in the first, a middle and the last course."""
    for word, *plates in PLATE_CASES:
        wrong = ONE._replace(tank=with_plate(FULL_TANK, *plates))
        yield case(word, read(sheet_as_bytes(wrong)))
        for place in range(3):
            wrong = with_slot(THREE, place, with_plate(FULL_COURSES[place], *plates))
            yield case(word, read(sheet_as_bytes(wrong)))
    for word, wrong in REFUSED_COURSES:
        for n, place in ((1, 0), (3, 0), (3, 1), (3, 2), (12, 6), (12, 11)):
            yield case(word, read(sheet_as_bytes(with_slot(full_with(n), place, wrong))))


def heights_in_bytes():
    """At 76,800 and one above; then 34 in the sixth course, the last one being wrong too."""
    for n in range(6, 13):
        yield case("ok", read(sheet_as_bytes(high_sheet(76_800, n))))
        yield case("refused 34", read(sheet_as_bytes(high_sheet(76_801, n))))
        high = high_sheet(14_400 * n, n)
        yield case("refused 34", read(sheet_as_bytes(high)))
        wrong = with_slot(high, n - 1, with_outside(high.courses[n - 1], 19))
        word = "refused 16 19" if n == 6 else "refused 34"
        yield case(word, read(sheet_as_bytes(wrong)))


def everything_small():
    """0 to 3 bytes of a few values each."""
    lengths = tuple(map(length_with, (0, 1, 3)))
    few = (0, 1, 2, *lengths, 255)
    yield case("refused 11", read(b""))
    for byte in few:
        yield case("refused 11", read(bytes((byte,))))
    pairs, triples = product(few, repeat=2), product((0, 1, *lengths[1:], 255), repeat=3)
    for high, low, *rest in (*pairs, *triples):
        word = "refused 11" if 256 * high + low in FIRST_LENGTHS + SECOND_LENGTHS else "refused 13"
        yield case(word, read(bytes((high, low, *rest))))
