"""All groups of records of request S-10: scripts, reading and writing, sheets built by hand,
judging and compression; and the checks over them.
"""

from collections import Counter
from functools import cache

from model.filling_in import has_size_6
from model.judging import NO_REPORT
from model.refusals import METHODS
from model.sheet_bytes import VERSION_AT
from vectors import (
    judge_size_6, steps_size_6, steps_size_6_bytes, steps_size_6_forged, steps_size_6_random,
)
from vectors.judge_checks import (
    check_beside_d100, check_beside_writing, check_demand_3, check_sides,
)
from vectors.record_answers import outcomes
from vectors.records import (
    ANCHORS, ASKING, COURSE, FORGE, JUDGING, MARK, READ, SITE, TANK, WRITE, in_turn, new,
)
from vectors.script_checks import check_outcomes
from vectors.size_6_readings import ASTRAY, RIGHT, told_by

PARTS = (steps_size_6, steps_size_6_bytes, steps_size_6_forged, judge_size_6, steps_size_6_random)
GROUPS = tuple(group for part in PARTS for group in part.GROUPS)

# --- Records ------------------------------------------------------------------


@cache
def group_records():
    """Name of the group to its records; the first makes a new sheet, which what judges leaves."""
    return {group.__name__: [new(), *(record for script in group() for record in script)]
            for group in GROUPS}


def all_records():
    return in_turn(group_records())


@cache
def all_outcomes():
    return list(outcomes(all_records()))


@cache
def all_asked():
    """The sheet that each record finds, the record and its outcome."""
    results = all_outcomes()
    found = [None, *(result.sheet for result in results[:-1])]
    return list(zip(found, all_records(), results, strict=True))


# --- Self test, over all of these ---------------------------------------------


def check_readings():
    """S-10's words answer every record, and each reading that goes astray is told apart by some
    that are not drawn at random."""
    by_hand = all_asked()[:-sum(len(group_records()[group.__name__])
                                for group in steps_size_6_random.GROUPS)]
    assert told_by(RIGHT, all_asked()) == 0
    for name, reading in ASTRAY.items():
        told = told_by(reading, by_hand)
        assert told >= 3, (name, told)


def check_words():
    """39 by a step, by bytes of version 2 and by writing, at many sizes of buffer and over unstated
    and stated anchors; 30 in every question."""
    words = Counter()
    sizes, over = set(), Counter()
    for before, (opcode, payload), result in all_asked():
        words[opcode, result.word] += 1
        if result.word == "refused 39" and opcode == WRITE:
            sizes.add(int.from_bytes(payload[:4], "big"))
        if result.word == "refused 39" and opcode == ANCHORS:
            anchors = before.anchors
            over["none" if anchors is None else "6" if has_size_6(anchors) else
                 "self" if anchors.N == 0 else "other"] += 1
    assert {opcode for opcode, word in words if word == "refused 39"} \
        == {ANCHORS, READ, WRITE, MARK}
    assert min(words[opcode, "refused 39"] for opcode in (ANCHORS, READ, WRITE, MARK)) >= 30
    assert {0, 1, 79, 80, 83, 84, 303, 304, 305, 512} <= sizes
    assert min(over[kind] for kind in ("none", "6", "self", "other")) >= 8, over
    for opcode in (TANK, SITE, ANCHORS, COURSE, WRITE, *JUDGING[1:], *ASKING):
        assert words[opcode, "refused 30"] >= 10, opcode
    for number in (11, 12, 13, 14, 15, 17, 18, 34):
        assert words[READ, f"refused {number}"] >= 3, number


def check_after_reading():
    """Sheets with size 6 that were read go through each step, accepted and refused, every count and
    both methods; nothing but another statement of anchors, or another sheet, takes size 6 away."""
    steps, counts = Counter(), set()
    by_reading = False
    for before, (opcode, payload), result in all_asked():
        if opcode in (READ, FORGE) or before is None:
            by_reading = opcode == READ
            if opcode == READ and has_size_6(result.sheet.anchors):
                assert payload[VERSION_AT] == 1
                counts.add(result.sheet.count)
        elif by_reading and has_size_6(before.anchors):
            steps[opcode, result.word.split()[0]] += 1
            if not has_size_6(result.sheet.anchors) and result.sheet.tank is not None:
                assert (opcode, result.word) == (ANCHORS, "ok")
    assert counts == {*range(1, 13)}
    for kind in ((TANK, "refused"), (SITE, "ok"), (SITE, "refused"), (ANCHORS, "ok"),
                 (ANCHORS, "refused"), (COURSE, "ok"), (COURSE, "refused"), (WRITE, "refused")):
        assert steps[kind] >= 8, (kind, steps)
    assert (WRITE, "wrote") not in steps


AREAS = {"size 6's": 334, "none": 0, "size 7's": 462, "a bit less": 333, "a bit more": 335}


def check_bolts():
    """Reports and replies on sheets with size 6: sound and short, short by strength, by either
    pull; another area is told apart by verdicts."""
    turned, kinds = Counter(), Counter()
    methods = set()
    for result in all_outcomes():
        judged = result.judged
        if judged is None or judged.report == NO_REPORT or not has_size_6(judged.sheet.anchors):
            continue
        standing = judged.report.standing
        wind, earthquake = standing.pulls()
        kinds[judged.word()] += 1
        kinds["wind" if wind > earthquake else "earthquake"] += 1
        kinds["strength"] += not standing.strength.holds
        methods.add(judged.method)
        pull = max(wind, earthquake, 0)
        for name, A in AREAS.items():
            turned[name] += (1_000 * pull <= 19_950 * A) != standing.strength.holds
    assert methods == {*METHODS} and turned["size 6's"] == 0
    assert min(turned[name] for name in AREAS if name != "size 6's") >= 3, turned
    assert min(kinds[kind] for kind in ("sound", "short", "wind", "earthquake", "strength")) >= 30
    asked = [result.asked for result in all_outcomes() if result.asked is not None
             and has_size_6(result.asked.sheet.anchors) and result.asked.reply is not None]
    assert min(Counter(one.reply.holds for one in asked).values()) >= 10
    assert {one.method for one in asked} == {*METHODS}


def self_test():
    check_outcomes(all_records(), all_outcomes())
    check_demand_3(all_outcomes())
    check_beside_writing(all_records(), all_outcomes())
    check_beside_d100(all_outcomes())
    check_sides(all_outcomes())
    check_readings()
    check_words()
    check_after_reading()
    check_bolts()
