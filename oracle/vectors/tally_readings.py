"""Readings of request S-11: the right one, written a second time, and those that go astray.

What is read is a file, and what comes of it is its six figures. A reading is what it takes for a
sheet's own bytes, where it stops, what it makes of a sheet, and what it adds and takes the least
of. A sum in 32 bits is none that can be told: see greatest_sums in tally_most.py.
"""

from collections import Counter
from functools import cache
from typing import Callable, NamedTuple

from model import judging
from model.fields import WATER
from model.filling_in import COURSE, has_size_6, sheet_of
from model.refusals import API_650, D100
from model.sheet_bytes import bytes_refusal, by_length, entries_in, length_in
from model.tank_rules import course_head, hoop_head, hoop_need, house_floor, required_plate
from vectors.marker_cases import marked

OF_VERSION_1, OF_VERSION_2 = frozenset(range(78, 299, 20)), frozenset(range(82, 303, 20))

# --- What a sheet is ----------------------------------------------------------


class Plate(NamedTuple):
    """Of a course."""
    need: int
    required: int
    t: int
    c: int


class Seen(NamedTuple):
    number: int         # of the refusal, or 0
    word: str
    plates: tuple       # of its courses; where it is refused, those that it would have
    blanks: int         # how many slots hold no course
    floor: int          # what is required of one that needs nothing


NOTHING = (), 0, 0


def as_if_accepted(content):
    """The sheet with these figures, whatever refuses it; None where there are none, or none that
    can be reckoned with."""
    refusal = bytes_refusal(content)
    if refusal is not None and refusal[0] not in (14, 15):
        return None
    layout, _n = by_length(length_in(content))
    entries = list(entries_in(layout, content))
    once, courses = entries[:3], [entry for step, entry in entries if step == COURSE]
    if not all(course.s and course.E for course in courses):
        return None
    return sheet_of(*(entry for _step, entry in once), courses)


def plates_of(sheet, method):
    """Without a verdict, which figures that are refused need not have."""
    tank = sheet.tank
    for edge, course in judging.bottom_edges(sheet):
        h = hoop_head(method, course_head(tank.H, edge))
        need = hoop_need(h, tank.D, course.s, course.E, tank.gravity)
        yield Plate(need, required_plate(need, course.c, tank.D), course.t, course.c)


def seen_as(sheet, number, method=D100):
    """A sheet that this refuses, or nothing (0)."""
    word = "refused" if number else judging.word(judging.report_of(sheet, method))
    if sheet is None:
        return Seen(number, word, *NOTHING)
    return Seen(number, word, tuple(plates_of(sheet, method)), 12 - sheet.count,
                house_floor(sheet.tank.D))


@cache
def seen(content):
    sheet, answer = marked(content)
    if answer.refusal is None:
        return seen_as(sheet, 0)
    return seen_as(as_if_accepted(content), answer.refusal[0])


@cache
def seen_by_api_650(content):
    sheet, answer = marked(content)
    return seen_as(sheet, 0, API_650) if answer.refusal is None else seen(content)


@cache
def seen_as_water(content):
    """The gravity is not looked at."""
    sheet, answer = marked(content)
    if answer.refusal is not None:
        return seen(content)
    return seen_as(sheet._replace(tank=sheet.tank._replace(gravity=WATER)), 0)


def judging_size_6(content):
    """In version 2 too."""
    sheet = seen(content)
    return seen_as(as_if_accepted(content), 0) if sheet.number == 39 else sheet


def refusing_size_6(content):
    """In version 1 too."""
    six = not seen(content).number and has_size_6(marked(content).sheet.anchors)
    return seen(content)._replace(number=39, word="refused") if six else seen(content)


# --- What is added -------------------------------------------------------------


def differences(sheet):
    return [plate.t - plate.required for plate in sheet.plates]


def judged(sheet):
    """Of its judged courses."""
    return [] if sheet.number else differences(sheet)


def judged_by(one):
    """The same, by another difference of a course."""
    return lambda sheet: [] if sheet.number else list(map(one, sheet.plates))


def also(*numbers):
    """Those of sheets with such a refusal too."""
    return lambda sheet: differences(sheet) if sheet.number in (0, *numbers) else []


def of_word(word):
    """Of tanks with this word alone."""
    return lambda sheet: judged(sheet) if sheet.word == word else []


def of_courses(part):
    """Of these of its judged courses alone."""
    return lambda sheet: judged(sheet)[part]


def with_blanks(difference):
    """And of its blank slots."""
    return lambda sheet: [] if sheet.number \
        else [*judged(sheet), *[difference(sheet)] * sheet.blanks]


def in_16_bits(found):
    return (sum(found) + 2**15) % 2**16 - 2**15


def least_of(found):
    return min(found, default=None)


def as_counted(without):
    """The word, or none of a sheet with such a refusal."""
    return lambda sheet: None if sheet.number in without else sheet.word


# --- Readings -----------------------------------------------------------------


class Reading(NamedTuple):
    usable: frozenset = OF_VERSION_1 | OF_VERSION_2
    rest: bool = False                  # a sheet's bytes are all that are left
    end: bool = False                   # the end is a sheet too
    stops: frozenset = frozenset((11, 13))
    skips: bool = False                 # where 13 does not stop it: the bytes that L says
    most: int = 10_000
    among: Callable = lambda _sheet: True       # whether it is one of the most
    past: bool = False                  # a byte past the most counts as refused
    see: Callable = seen
    word: Callable = as_counted(())
    words: tuple = ("sound", "short", "refused")        # that are read
    added: Callable = judged
    total: Callable = sum
    compared: Callable = judged
    least: Callable = least_of


def stopping(*numbers):
    return Reading(stops=frozenset((11, 13, *numbers)))


def both(added):
    return Reading(added=added, compared=added)


EVERY = (14, 15, 16, 17, 18, 34, 37, 39)
RIGHT = Reading()
ASTRAY = {
    # counting
    "short counted as sound":
        Reading(word=lambda sheet: "sound" if sheet.word == "short" else sheet.word),
    "refused counted as short":
        Reading(word=lambda sheet: "short" if sheet.word == "refused" else sheet.word),
    "37 counted as short":
        Reading(word=lambda sheet: "short" if sheet.number == 37 else sheet.word),
    "37 not counted": Reading(word=as_counted((37,))),
    "11 not counted": Reading(word=as_counted((11,))),
    "13 not counted": Reading(word=as_counted((13,))),
    "refused not read": Reading(words=("sound", "short")),
    # adding
    "a refused sheet's courses added": both(also(*EVERY)),
    "a refused sheet's courses added to the sum": Reading(added=also(*EVERY)),
    "a refused sheet's courses in the least": Reading(compared=also(*EVERY)),
    **{f"the courses of {number} added": both(also(number)) for number in EVERY},
    "a short tank's courses left out": both(of_word("sound")),
    "a sound tank's courses left out": both(of_word("short")),
    "the sum unsigned": Reading(total=lambda found: sum(map(abs, found))),
    "the size of the sum": Reading(total=lambda found: abs(sum(found))),
    "the sum of those above 0": Reading(total=lambda found: sum(max(one, 0) for one in found)),
    "the sum not below 0": Reading(total=lambda found: max(sum(found), 0)),
    "the sum in 16 bits": Reading(total=in_16_bits),
    "the sum of first courses": Reading(added=of_courses(slice(1))),
    "the sum of leasts": Reading(added=lambda sheet: sorted(judged(sheet))[:1]),
    "required minus plate": both(judged_by(lambda plate: plate.required - plate.t)),
    "required minus plate in the sum": Reading(total=lambda found: -sum(found)),
    "hoop need in place of required": both(judged_by(lambda plate: plate.t - plate.need)),
    "required without the floor": both(judged_by(lambda plate: plate.t - plate.need - plate.c)),
    "plate less its allowance":
        both(judged_by(lambda plate: plate.t - plate.c - plate.required)),
    "twelve slots, the blank ones of 0": both(with_blanks(lambda _sheet: 0)),
    "twelve slots, the blank ones by the floor": both(with_blanks(lambda sheet: -sheet.floor)),
    # the least
    "the greatest": Reading(least=lambda found: max(found, default=None)),
    "the least by its size": Reading(least=lambda found: min(found, key=abs, default=None)),
    "the least's size": Reading(least=lambda found: min(map(abs, found), default=None)),
    "the least not above 0": Reading(least=lambda found: min((0, *found)) if found else None),
    "the least not below 0": Reading(least=lambda found: max(0, min(found)) if found else None),
    "the least of short courses":
        Reading(compared=lambda sheet: [one for one in judged(sheet) if one < 0]),
    "the least of short tanks": Reading(compared=of_word("short")),
    "the least of sound tanks": Reading(compared=of_word("sound")),
    "the least of first courses": Reading(compared=of_courses(slice(1))),
    "the least of last courses": Reading(compared=of_courses(slice(-1, None))),
    "the least but for the first course": Reading(least=lambda found: least_of(found[1:])),
    "the least but for the last course": Reading(least=lambda found: least_of(found[:-1])),
    "the least of the sheets' sums":
        Reading(compared=lambda sheet: [sum(judged(sheet))] if judged(sheet) else []),
    "0 in place of none": Reading(least=lambda found: min(found, default=0)),
    "none where the sum is 0": Reading(least=lambda found: least_of(found) if sum(found) else None),
    # where it stops
    "going on after 13": Reading(stops=frozenset((11,))),
    "going on after 13, behind as many bytes": Reading(stops=frozenset((11,)), skips=True),
    "going on after 11": Reading(stops=frozenset((13,))),
    **{f"stopping after {number}": stopping(number) for number in EVERY},
    "stopping after each refusal": stopping(*EVERY),
    "the end counted as 11": Reading(end=True),
    "by the rest of the file": Reading(rest=True),
    "the lengths of version 1 alone": Reading(usable=OF_VERSION_1),
    "the lengths of version 2 alone": Reading(usable=OF_VERSION_2),
    # judging
    "by API 650": Reading(see=seen_by_api_650),
    "gravity not looked at": Reading(see=seen_as_water),
    "size 6 judged in version 2": Reading(see=judging_size_6),
    "size 6 refused in version 1": Reading(see=refusing_size_6),
}
ASTRAY_AT_THE_MOST = {
    "the 10,001st read": Reading(most=10_001),
    "all read": Reading(most=10**9),
    "9,999 read": Reading(most=9_999),
    "a byte past the 10,000th refused": Reading(past=True),
    "refused ones not among the 10,000": Reading(among=lambda sheet: not sheet.number),
    "short ones not among the 10,000": Reading(among=lambda sheet: sheet.word != "short"),
}

# --- A file read so -----------------------------------------------------------


def next_sheet(reading, content, start):
    """Its bytes, as they are taken, and where the next one begins."""
    L = length_in(content[start:start + 2])
    behind = start + 2 + (L if L in reading.usable or reading.skips else 0)
    if L not in reading.usable:
        return content[start:start + 2], behind
    return content[start:None if reading.rest else behind], behind


def number_in(reading, own, sheet):
    """The refusal; 13 of a length that it does not know."""
    return 13 if len(own) >= 2 and length_in(own) not in reading.usable else sheet.number


def figures_read(reading, content):
    """The six figures."""
    counts, added, compared, start, taken = Counter(), [], [], 0, 0
    while taken < reading.most and (start < len(content) or reading.end):
        own, behind = next_sheet(reading, content, start)
        sheet = reading.see(own)
        taken += reading.among(sheet)
        counts[reading.word(sheet)] += 1
        added += reading.added(sheet)
        compared += reading.compared(sheet)
        number = number_in(reading, own, sheet)
        if number in reading.stops:
            break
        start = start + 2 if number == 11 else behind
    if reading.past and taken == reading.most and start < len(content):
        counts["refused"] += 1
    return (sum(counts[word] for word in reading.words), counts["sound"], counts["short"],
            counts["refused"], reading.total(added), reading.least(compared))


def told_by(reading, files, enough):
    """How many of these it answers otherwise; no more than enough."""
    told = 0
    for file in files:
        told += figures_read(reading, file.content) != file.made
        if told == enough:
            break
    return told
