"""All groups of printing, what they come to, and the checks over all of them."""

import re
from collections import Counter
from functools import cache

from model import demand_3, printing
from model.fields import FIELD_RANGES, WATER
from model.filling_in import has_size_6
from model.judging import Anchored
from model.printing import MARKER_READS
from model.refusals import D100
from model.sheet_bytes import VERSION_AT
from vectors import case_vectors, marker_liquor, marker_liquor_random, marker_size_6
from vectors.judge_cases import counted
from vectors.judge_need_steps import courses_of, told_by
from vectors.liquor_readings import IN_COURSES, IN_RESISTANCE
from vectors.liquor_readings import RIGHT as RIGHT_IN_LIQUOR
from vectors.liquor_readings import told_by as told_by_liquor
from vectors.marker_cases import (
    LONGEST, MOST_BYTES, SHORTEST, Case, marked, readable, text_of,
)
from vectors.marker_random import (
    random_anchored, random_changes, random_damage, random_even, random_noise, random_refused,
    random_self_anchored,
)
from vectors.marker_refusals import (
    additions, allowances, anchors, cases_on_the_tank, cuts, each_byte, exchanged_fields,
    fields_outside, heights, high_water, lengths, other_byte_orders, refusals_all_at_once,
    refusals_alone_and_two, tried_by_hand, two_fields_outside, versions_and_counts,
)
from vectors.marker_texts import (
    accelerations, allowances_beside_floors, course_counts, courses_in_turn, high_edges_at_steps,
    largest_needs, longest_and_shortest, moments, needs_and_plates, needs_beside_steps, plates,
    pressures, pulls, resistances, short_by_a_step, standings_in_turn,
)
from vectors.need_points import ASTRAY, RIGHT
from vectors.record_answers import Judged
from vectors.records import MARK, Record
from vectors.size_6_readings import ASTRAY as ASTRAY_WITH_SIZE_6
from vectors.size_6_readings import IN_BYTES
from vectors.size_6_readings import RIGHT as RIGHT_OF_SIZE_6
from vectors.size_6_readings import record_read

LEAST_SHEETS, MOST_SHEETS = 5_000, 14_000

# --- All groups ---------------------------------------------------------------

IN_STEPS = (needs_beside_steps, allowances_beside_floors, short_by_a_step, largest_needs)
GROUPS = (
    cases_on_the_tank, tried_by_hand,
    refusals_alone_and_two, refusals_all_at_once, fields_outside, two_fields_outside, allowances,
    anchors, heights, high_water,
    cuts, additions, lengths, versions_and_counts, each_byte, exchanged_fields, other_byte_orders,
    course_counts, needs_and_plates, plates, pressures, moments, resistances, pulls,
    accelerations, courses_in_turn, standings_in_turn, longest_and_shortest,
    random_self_anchored, random_anchored, random_even, random_refused, random_damage,
    random_changes, random_noise, *IN_STEPS,
)
GRAVITY_SHOWS = (
    marker_liquor.needs_beside_steps_in_liquor, marker_liquor.courses_read_astray,
    marker_liquor.resistances_read_astray, marker_liquor.equality_in_liquor,
)
IN_LIQUOR = (
    marker_liquor.both_versions_printed, marker_liquor.example_in_liquor,
    marker_liquor.tried_by_hand_of_version_2,
    marker_liquor.refusals_of_version_2, marker_liquor.fields_outside_in_version_2,
    marker_liquor.two_fields_outside_in_version_2, marker_liquor.agreement_in_version_2,
    marker_liquor.cuts_of_version_2, marker_liquor.additions_to_version_2,
    marker_liquor.lengths_and_versions, marker_liquor.lengths_over_version_2,
    marker_liquor.versions_and_counts_of_version_2, marker_liquor.other_layout,
    marker_liquor.exchanged_with_gravity,
    *GRAVITY_SHOWS,
    marker_liquor.largest_in_liquor, marker_liquor.course_counts_in_liquor,
    marker_liquor_random.random_self_anchored_in_liquor,
    marker_liquor_random.random_anchored_in_liquor, marker_liquor_random.random_even_in_liquor,
    marker_liquor_random.random_refused_in_liquor, marker_liquor_random.random_damage_in_liquor,
    marker_liquor_random.random_changes_in_liquor, marker_liquor_random.random_noise_in_liquor,
)
LATER_GROUPS = (high_edges_at_steps, *IN_LIQUOR)    # stored after the cases that people can read
LATEST_GROUPS = marker_size_6.GROUPS                # and those of S-10 after S-8's cases


@cache
def group_cases():
    """Name of the group to its cases, without bytes that came before; those that people can read,
    all of them, stand before the later groups, but for what came with a request."""
    before = set()
    groups = {}
    for group in (*GROUPS, *LATER_GROUPS, *LATEST_GROUPS):
        cases = {case.content: case for case in group() if case.content not in before}
        before.update(cases)
        groups[group.__name__] = list(cases.values())
    later, latest = ({group.__name__: groups.pop(group.__name__) for group in of_request}
                     for of_request in (LATER_GROUPS, LATEST_GROUPS))
    return {**groups, **{f"cases_{name}": list(map(Case, contents))
                         for name, contents in case_vectors.BEFORE.group_sheets().items()}, **later,
            **{f"cases_s_8_{name}": list(map(Case, contents))
               for name, contents in case_vectors.S_8.group_sheets().items()}, **latest,
            **{f"cases_s_10_{name}": list(map(Case, contents))
               for name, contents in case_vectors.S_10.group_sheets().items()}}


def all_cases():
    return [case for cases in group_cases().values() for case in cases]


def stdin_parts():
    """The bytes of each sheet with their count before them."""
    return [len(content).to_bytes(2, "big") + content for content, _was in all_cases()]


def texts():
    return [text_of(content) for content, _was in all_cases()]


# --- What they come to --------------------------------------------------------


def word_on(printed_text):
    """Sound, short or refused."""
    *_before, last_line = printed_text.decode("ascii").splitlines()
    first, second, *_field = last_line.split()
    return second if first == "tank" else first


def damaged_count():
    return sum(case.was is not None for case in all_cases())


def report_sizes():
    """In bytes."""
    return [len(one) for one in texts() if word_on(one) != "refused"]


def sheets_summary():
    return f"{len(all_cases())} sheets, {damaged_count()} of them damaged"


def texts_summary():
    sizes = report_sizes()
    return f"{counted(map(word_on, texts()))}; the longest report has {max(sizes)} bytes, " \
        f"the shortest {min(sizes)}"


# --- Self test, over all vectors ----------------------------------------------


def check_counts():
    cases = all_cases()
    contents = [case.content for group in (*GROUPS, *LATER_GROUPS, *LATEST_GROUPS)
                for case in group_cases()[group.__name__]]
    assert LEAST_SHEETS <= len({*contents}) == len(contents) and len(cases) <= MOST_SHEETS
    assert damaged_count() >= len(cases) / 3
    assert all(len(case.content) <= MOST_BYTES for case in cases)


def check_damage():
    for content, was in all_cases():
        assert was is None or readable(was) and not readable(content)


def check_stdin():
    """It falls apart into the same sheets again."""
    stdin = b"".join(stdin_parts())
    start = 0
    for content, _was in all_cases():
        end = start + 2 + int.from_bytes(stdin[start:start + 2], "big")
        assert stdin[start + 2:end] == content
        start = end
    assert start == len(stdin)


NUMBER, PULL, VERDICT = "(0|[1-9][0-9]*)", "(0|-?[1-9][0-9]*)", "(ok|short)"
FORM = re.compile(
    f"(course [1-9][0-9]? {NUMBER} {NUMBER} {NUMBER} {VERDICT}\n){{1,12}}"
    f"wind {NUMBER} {NUMBER}\n"
    f"(pull {PULL} {PULL}\nanchors spacing {VERDICT} strength {VERDICT}\n"
    f"|self wind {VERDICT} resist {NUMBER} (none|lift|over)\n)"
    "tank (sound|short)\n"
    f"|refused (1[1-5]|17|18|34|37|39|16 ({'|'.join(map(str, FIELD_RANGES))}))\n")


def check_forms():
    """Course numbers count up, and the tank is short when a word before it says so."""
    for one in texts():
        assert FORM.fullmatch(one.decode("ascii")), one
        *checks, _tank = lines = [line.split() for line in one.decode("ascii").splitlines()]
        numbers = [int(line[1]) for line in lines if line[0] == "course"]
        assert numbers == [*range(1, len(numbers) + 1)]
        if word_on(one) != "refused":
            falls_short = any({"short", "over"} & {*line} for line in checks)
            assert word_on(one) == ("short" if falls_short else "sound"), one


def numbers_at(word, place):
    """All numbers at this place of the lines that start with this word."""
    lines = (line.split() for one in texts() for line in one.decode("ascii").splitlines())
    return {int(words[place]) for words in lines if words[0] == word}


def signed_length(number):
    """In digits, and below 0 for a number below 0."""
    digits = len(str(abs(number)))
    return -digits if number < 0 else digits


def check_numbers():
    """As many digits as the ranges let each number have, and 0 where it can be."""
    below = range(-7, 0)
    for word, place, lengths, nought in (
            ("course", 2, range(1, 5), True),               # need
            ("course", 3, (3, 4), False),                   # required
            ("course", 4, (3, 4), False),                   # t
            ("wind", 1, (4,), False),                       # p
            ("wind", 2, range(2, 9), False),                # M
            ("self", 4, range(3, 10), False),               # T
            ("pull", 1, (*below, *range(1, 6)), True),      # by wind
            ("pull", 2, (*below, *range(1, 9)), True)):     # by earthquake
        numbers = numbers_at(word, place)
        assert {*map(signed_length, numbers)} == {*lengths} and (0 in numbers) == nought, \
            (word, place)


def check_lighter_tanks():
    """With Av above 0 the second pull has every length that it has at all, and is 0."""
    pulls = set()
    for content, _was in all_cases():
        sheet, answer = marked(content)
        standing = answer.report.standing
        if answer.refusal is None and isinstance(standing, Anchored) \
                and sheet.site.Av > 0:
            pulls.add(standing.earthquake_pull)
    assert 0 in pulls
    assert {*map(signed_length, pulls)} == {*map(signed_length, numbers_at("pull", 2))}


def check_steps():
    """Each reading of S-7 that goes astray is told apart by many texts, in some by a verdict."""
    cases = [case for group in IN_STEPS for case in group_cases()[group.__name__]]
    answers = (marked(case.content) for case in cases)
    tanks = [courses_of(Judged(sheet, D100, *answer)) for sheet, answer in answers]
    assert told_by(RIGHT, tanks) == (0, 0)
    for name, reading in ASTRAY.items():
        otherwise, turned = told_by(reading, tanks)
        assert otherwise >= 40 and turned >= 5, (name, otherwise, turned)


def check_versions():
    """Sheets of either version, and reports of many with gravity above water's; each reading of S-8
    that goes astray is told apart by some text."""
    reports = [marked(content) for content, _was in all_cases()
               if word_on(text_of(content)) != "refused"]
    versions = Counter(content[VERSION_AT] for content, _was in all_cases() if readable(content))
    assert {*versions} == {1, 2} and min(versions.values()) >= 500
    heavy = [Judged(sheet, D100, *answer) for sheet, answer in reports
             if sheet.tank.gravity > WATER]
    assert len(heavy) >= 400 and told_by_liquor(RIGHT_IN_LIQUOR, heavy) == (0, 0)
    by_hand = [Judged(sheet, D100, *answer) for group in GRAVITY_SHOWS
               for sheet, answer in (marked(one.content) for one in group_cases()[group.__name__])]
    for name, reading in {**IN_COURSES, **IN_RESISTANCE}.items():
        if name != "head before the foot":      # it is API 650's
            otherwise, turned = told_by_liquor(reading, by_hand)
            assert otherwise >= 4 and turned >= 2, (name, otherwise, turned)


def check_size_6():
    """Reports on sheets with size 6 in version 1, and 39 in version 2, alone and before 37. Every
    text has the refusal of S-10's words; each reading that goes astray in bytes or in judging them
    is told apart by some that are not drawn at random."""
    said = {True: Counter(), False: Counter()}
    for content, _was in all_cases():
        refusal = marked(content).answer.refusal
        read = record_read(RIGHT_OF_SIZE_6, None, Record(MARK, content))
        assert read == (None if refusal is None else refusal[0]), content
        if has_size_6(marked(content).sheet.anchors):
            assert content[VERSION_AT] == 1
            said[True][word_on(text_of(content))] += 1
        said[False][text_of(content)] += 1
    assert min(said[True][word] for word in ("sound", "short")) >= 100 and said[True]["refused"] > 9
    assert said[False][b"refused 39\n"] >= 150
    by_hand = [case.content for group in LATEST_GROUPS if not group.__name__.startswith("random")
               for case in group_cases()[group.__name__]]
    for name in IN_BYTES:
        told = sum(record_read(ASTRAY_WITH_SIZE_6[name], None, Record(MARK, content))
                   != record_read(RIGHT_OF_SIZE_6, None, Record(MARK, content))
                   for content in by_hand)
        assert told >= 2, (name, told)


def check_refusals():
    """All that bytes lead to, 16 with every field."""
    words = {one for one in texts() if word_on(one) == "refused"}
    numbers = (*range(11, 16), 17, 18, 34, 37, 39)
    assert words == {*(printing.refusal_text((number, 0)) for number in numbers),
                     *(printing.refusal_text((16, field)) for field in FIELD_RANGES)}


def check_over_long():
    """What the marker does not read makes no difference."""
    for content, _was in all_cases():
        if len(content) > MARKER_READS:
            assert printing.marked_text(content[:MARKER_READS]) == text_of(content)


def check_sizes():
    sizes = report_sizes()
    assert max(sizes) == len(printing.judged_text(LONGEST)) == 452
    assert min(sizes) == len(printing.judged_text(SHORTEST)) == 75


def check_demand_3():
    """Of every sheet that gets a report."""
    for content, _was in all_cases():
        word = word_on(text_of(content))
        if word != "refused":
            sheet = marked(content).sheet
            assert demand_3.borne_out(sheet, D100, word), sheet


def self_test():
    check_counts()
    check_damage()
    check_stdin()
    check_forms()
    check_numbers()
    check_lighter_tanks()
    check_steps()
    check_versions()
    check_size_6()
    check_refusals()
    check_over_long()
    check_sizes()
    check_demand_3()
