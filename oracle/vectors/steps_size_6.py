"""Scripts of request S-10: size 6 stated, the order of the anchors' step with 39, and writing."""

from itertools import permutations, product

from model.fields import Anchors
from model.filling_in import DROPPED_SIZE, EMPTY, SELF_ANCHORED, has_size_6, sheet_of
from model.refusals import API_650, METHODS, MOST_COURSES
from model.sheet_bytes import LAYOUTS, VERSION_1, VERSION_2
from vectors.record_answers import outcomes
from vectors.records import (
    MOST_BUFFER, anchors, ask_held, course, forge, judge_held, new, read, site, tank, write,
)
from vectors.scripts import (
    U32_MOST, answers, case, holding, steps_to, subsets, unstated, with_anchors, with_outside,
    with_slot, write_for, wrote,
)
from vectors.start_sheets import (
    ALMOST_BLANK, EXAMPLE, FULL, FULL_ANCHORS, FULL_COURSES, FULL_SITE, FULL_TANK, LOW_COURSE, ONE,
    TANK_ONLY, THREE, full_with, high_sheet, widths_to,
)
from vectors.steps_forged import all_at
from vectors.steps_in_turn import REFUSED_ANCHORS
from vectors.steps_orders import first_of

SIZES = {       # every one that the range has, and its word on a tank whose D is at most B
    d: "refused 39" if d == 6 else "ok" if d in (7, 8, 9, 10, 11, 12, 14, 16) else "refused 18"
    for d in range(17)
}
ALMOST_SIX = tuple(DROPPED_SIZE + more for more in (2**8, 2**16, 2**24, 2**31))


def with_size(sheet, d=DROPPED_SIZE):
    """The sheet with anchors of this size."""
    return sheet._replace(anchors=sheet.anchors._replace(d=d))


SIX_EXAMPLE, SIX_ONE, SIX_THREE, SIX_FULL = map(with_size, (EXAMPLE, ONE, THREE, FULL))
SIX = SIX_ONE.anchors           # on the full sheet's tank


def first(sheet):
    """Its bytes of version 1, to be read."""
    return read(VERSION_1.sheet_as_bytes(sheet))


def second(sheet):
    return read(VERSION_2.sheet_as_bytes(sheet))


# --- Groups: size 6 stated ----------------------------------------------------

WITHOUT_ANCHORS = (     # what the step finds: part of a sheet, a whole one, and nothing but a tank
    TANK_ONLY, unstated(ONE), TANK_ONLY._replace(site=FULL_SITE),
    unstated(THREE)._replace(site=None), unstated(FULL),
    TANK_ONLY._replace(tank=FULL_TANK._replace(gravity=1_137)),
)
STATED_BEFORE = (Anchors(6, 18_000, 7), Anchors(200, 300_000, 16), SELF_ANCHORED, FULL_ANCHORS)


def what_is_lacking(sheet):
    """Writing's word, with much room."""
    return "refused 35" if sheet.count == 0 else "refused 36" if sheet.site is None \
        else "refused 38" if sheet.anchors is None else wrote(sheet.count)


def sizes_stated():
    """Each size over unstated anchors, each time anew, and then one after the other."""
    for sheet in WITHOUT_ANCHORS:
        before = steps_to(sheet)
        words = ["ok"] * (len(before) - 1)
        for d in (5, 6, 7):
            word = SIZES[d]
            after = sheet._replace(anchors=FULL_ANCHORS) if word == "ok" else sheet
            yield answers([*words, word, what_is_lacking(after)], *before,
                          anchors(FULL_ANCHORS._replace(d=d)), write(MOST_BUFFER, d))
        yield answers([*words, *SIZES.values(), *["refused 16 14"] * 4], *before,
                      *(anchors(FULL_ANCHORS._replace(d=d)) for d in (*SIZES, *ALMOST_SIX)))


def stated_over_stated():
    """39 leaves the anchors that were stated before, which are judged and written."""
    for stated, sheet in product(STATED_BEFORE, (EXAMPLE, full_with(6))):
        n = sheet.count
        before = steps_to(sheet._replace(anchors=stated))
        plain = (judge_held(), judge_held(API_650), ask_held(), write(MOST_BUFFER, 1))
        lines = [result.line() for result in outcomes((*before, *plain))][-4:]
        script = (*before, anchors(SIX), *plain, anchors(SIX), *plain)
        results = list(outcomes(script))[len(before):]
        assert [results[place].word for place in (0, 5)] == ["refused 39"] * 2
        assert [result.line() for result in (*results[1:5], *results[6:])] == [*lines, *lines]
        assert results[4].word == wrote(n)
        yield script


def circles_and_counts():
    """N and B at their ends, past them, and at D; 16 and 18 come first."""
    for D in (12_000, 18_000, 240_000):
        words = {}
        for N, B in product((0, 1, 5, 6, 7, 199, 200, 201, U32_MOST),
                            (0, 1, D - 1, D, D + 1, 299_999, 300_000, 300_001, U32_MOST)):
            words[N, B] = "refused 16 12" if not (N == 0 or 6 <= N <= 200) \
                else "refused 16 13" if B > 300_000 \
                else "refused 18" if N == 0 or B < D else "refused 39"
        yield answers(["ok", *words.values()], new(), tank(FULL_TANK._replace(D=D)),
                      *(anchors((*point, 6)) for point in words))


def among_steps():
    """After the tank in each order with the others, and before it."""
    steps = {"site": site(FULL_SITE), "course": course(FULL_COURSES[0]), "six": anchors(SIX),
             "anchors": anchors(FULL_ANCHORS)}
    for order in permutations(steps):
        words = ["refused 39" if name == "six" else "ok" for name in order]
        yield answers(["refused 32", "ok", *words, wrote(1), "accepted"], new(), anchors(SIX),
                      tank(FULL_TANK._replace(H=6_100)), *map(steps.get, order),
                      write(MOST_BUFFER, 3), judge_held())
    for order in permutations(("site", "course", "six")):   # the anchors are unstated at the end
        words = ["refused 39" if name == "six" else "ok" for name in order]
        yield answers(["ok", *words, *["refused 38"] * 4, "ok", wrote(1)], new(), tank(FULL_TANK),
                      *map(steps.get, order), write(MOST_BUFFER, 4), judge_held(),
                      judge_held(API_650), ask_held(), steps["anchors"], write(MOST_BUFFER, 5))
    for figures in (SIX, (0, 0, 6), (24, 0, 6), (5, 0, 6), (24, 300_001, 6), (200, 300_000, 6)):
        yield answers(["refused 32", "refused 32", "ok"], new(), anchors(figures),
                      write(MOST_BUFFER, 6), tank(FULL_TANK))
    shell = high_sheet(76_800, 12)
    yield answers([*["ok"] * 14, "refused 39", "refused 33", "refused 38", "ok", wrote(12)],
                  *steps_to(unstated(shell)), anchors(SIX), course(LOW_COURSE),
                  write(MOST_BUFFER, 7), anchors(FULL_ANCHORS), write(MOST_BUFFER, 8))


# --- Groups: the order of the anchors' step -----------------------------------

OUTSIDE = {     # figures that have 16; size 6 is in its range
    "refused 16 12": {"N": 5}, "refused 16 12 above": {"N": 201}, "refused 16 13": {"B": 300_001},
    "refused 16 14": {"d": 17},
}
AT_ODDS = (     # figures that have 18, of any tank or of one with D 18,000
    {"N": 0}, {"N": 0, "B": 0}, {"B": 0}, {"B": 17_999}, {"B": 1}, {"d": 13}, {"d": 5},
)


def order_sheets(present):
    """30 in three ways, with 32 and without."""
    kept = EMPTY if 32 in present else TANK_ONLY
    if 30 not in present:
        yield kept
    else:
        yield kept._replace(site=with_outside(FULL_SITE, 7))
        yield with_slot(kept, 11, ALMOST_BLANK)
        yield with_anchors(kept, SIX)       # no reading leaves size 6 without a site and a course


def anchors_order_with_39():
    """Each of 30, 32, 16, 18 and 39 alone, and before each later one; 16 by each field, 18 in each
    of its ways. What 18 says of a size leaves no 39, and what 16 says of field 14 neither."""
    for present in subsets((30, 32, 16, 18, 39)):
        ways_of_16 = OUTSIDE.items() if 16 in present else ((None, {}),)
        ways_of_18 = AT_ODDS if 18 in present else ({},)
        for (word, outside), at_odds in product(ways_of_16, ways_of_18):
            figures = SIX._replace(d=6 if 39 in present else 7)._replace(**{**at_odds, **outside})
            if 39 in present and figures.d != 6 or 16 in present and {*outside} & {*at_odds}:
                continue
            said = {30: "refused 30", 32: "refused 32", 16: word and " ".join(word.split()[:3]),
                    18: "refused 18", 39: "refused 39"}
            for sheet in order_sheets(present):
                yield case(first_of(said, present, "ok"), *holding(sheet), anchors(figures))


# --- Groups: writing ----------------------------------------------------------


def write_sizes():
    """39 with no room, too little by either version's size, enough and much; the buffer and the
    sheet stay. With another size stated it is written."""
    for n in range(1, MOST_COURSES + 1):
        sheet = with_size(full_with(n))
        old, needed = (layout.bytes_with(n) for layout in LAYOUTS)
        sizes = (0, 1, old - 1, old, needed - 1, needed, needed + 1, MOST_BUFFER)
        lent = [write(size, (41 * n + 7 * place) % 256) for place, size in enumerate(sizes)]
        yield answers([*["refused 39"] * len(sizes), "ok", "refused 39", "ok", "refused 19",
                       wrote(n)],
                      first(sheet), *lent, site(FULL_SITE), write(needed, n),
                      anchors(FULL_ANCHORS), write(needed - 1, n), write(needed, n))
        yield answers(["refused 39"] * 2, forge(sheet), write(0, n), write(needed, n))


def write_in_every_room():
    """Of a sheet of one course, from none to past what either version needs."""
    yield answers([*["refused 39"] * 100, "ok"], first(SIX_ONE),
                  *(write(size, 200 + size % 50) for size in range(100)), site(FULL_SITE))


def write_order_with_39():
    """30, 32, 35, 36, 38, 39, 19. 38 and 39 are never present together. No run leaves size 6 on a
    sheet that 32, 35 or 36 is said of: that is 30. Without them and 38 it is in bytes of version 1
    or, with 30, built by hand."""
    words = {number: f"refused {number}" for number in (30, 32, 35, 36, 38, 39, 19)}
    for present in subsets(tuple(words)):
        if {38, 39} <= {*present} or 32 in present and 30 not in present \
                and not {35, 36, 38} <= {*present}:
            continue
        stated = None if 38 in present else SIX._replace(d=6 if 39 in present else 7)
        sheet = sheet_of(None if 32 in present else FULL_TANK,
                         None if 36 in present else FULL_SITE, stated,
                         () if 35 in present else FULL_COURSES[:2])
        by_size = 39 in present and {32, 35, 36} & {*present}
        if 30 in present and not by_size:
            sheet = with_slot(sheet, 11, ALMOST_BLANK)
        word = "refused 30" if by_size else first_of(words, present, wrote(2))
        for more in (-1, -4) if 19 in present else (0,):
            yield case(word, *holding(sheet), write_for(sheet.count, 12, more, VERSION_2))
        if 19 in present:
            yield case(word, *holding(sheet), write(0, 0))


def restated_with_the_least_left():
    """What steps_in_turn.py's groups had until S-10, with size 7 for 6: over unstated anchors and
    over each other, refused ones between."""
    least = (6, 18_000, 7)
    before = steps_to(unstated(ONE))
    for one, other in permutations((least, (0, 0, 0), (24, 18_654, 12)), 2):
        yield answers([*["ok"] * 3, "refused 38", "ok", wrote(1), "ok", wrote(1)], *before,
                      write(84, 3), anchors(one), write(84, 4), anchors(other), write(84, 5))
    words, wrong = zip(*REFUSED_ANCHORS)
    for opening in (before, (new(), tank(FULL_TANK))):
        yield answers([*["ok"] * (len(opening) - 1), "ok", *words, "refused 31", "refused 39"],
                      *opening, anchors(least), *map(anchors, wrong), tank(FULL_TANK),
                      anchors((6, 18_000, 6)))


def ends_written():
    """What steps_bytes.py's write_ends and steps_versions.py's both_versions had until S-10: the
    lowest figures, now with the least size that is left, by steps and by either version."""
    for sheet in (all_at(0, (1_200,)), all_at(0, (1_200,) * 12), all_at(1, (14_400,) * 5),
                  all_at(1, widths_to(76_800, 12))):
        kept = with_size(sheet, 7) if has_size_6(sheet.anchors) else sheet
        n = kept.count
        yield answers([*["ok"] * (n + 3), wrote(n), "ok", wrote(n), "ok", wrote(n)],
                      *steps_to(kept), write_for(n, 99, layout=VERSION_2), first(kept),
                      write_for(n, 98, layout=VERSION_2), second(kept),
                      write_for(n, 97, layout=VERSION_2))


def lowest_in_both_versions():
    """Read, judged, asked about and written: the lines are the same."""
    for d in (7, 8, 16):
        sheet = with_size(all_at(0, (1_200,)), d)
        asking = (*map(judge_held, METHODS), *map(ask_held, METHODS), write(84, 7))
        scripts = [(reading(sheet), *asking) for reading in (first, second)]
        lines = [[result.line() for result in outcomes(script)] for script in scripts]
        assert lines[0] == lines[1] and lines[0][-1].startswith("wrote 84")
        yield from scripts


GROUPS = (
    sizes_stated, stated_over_stated, circles_and_counts, among_steps, anchors_order_with_39,
    write_sizes, write_in_every_room, write_order_with_39, restated_with_the_least_left,
    ends_written, lowest_in_both_versions,
)
