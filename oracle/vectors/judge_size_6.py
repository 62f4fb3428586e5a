"""Judging and compression: size 6 in sheets of standing tanks (request S-10), handed in as bytes of
version 1, by record, and read and then held.
"""

from itertools import product

from model.filling_in import has_size_6
from model.refusals import METHODS
from model.sheet_bytes import VERSION_1, VERSION_2
from vectors.judge_cases import (
    EXAMPLE, FIFTHS, TALL_FIFTHS, TALL_UPWARD, UPWARD, changed, course_changed, outcome, refused,
    report_on, short, sound, sound_if, with_widths,
)
from vectors.record_answers import outcomes
from vectors.records import ask, ask_held, judge, judge_held, mark, new, read, site
from vectors.scripts import answers, with_anchors
from vectors.start_sheets import FULL, widths_to

MOST = 6_663            # 19,950 x 334 is 6,663,300: the greatest whole pull that size 6 bears
SIX = changed(EXAMPLE, d=6)
SIX_FIFTHS, SIX_TALL = (changed(sheet, d=6) for sheet in (FIFTHS, TALL_FIFTHS))

# --- Groups: what the bolts bear ----------------------------------------------


def strength():
    """By either pull, at the most, one more, and that with size 7; by both pulls alike."""
    for off in (-1, 0, 1):
        # (Ms - 2 W) / 15 by earthquake; the wind pull, (20,736 - W) / 6, is far less
        for W in (11_000, 20_000):
            Ms = 15 * (MOST + off) + 2 * W
            strong = changed(SIX_FIFTHS, W=W, Ms=Ms)
            yield sound_if(off <= 0, strong, "strength", shows=f"{MOST + off} holds")
            yield sound(changed(strong, d=7), shows=f"{MOST + off} holds")
            yield sound_if(off <= 0, changed(strong, Ms=Ms - 14), "strength",
                           shows=f"{MOST + off} holds")
        # (368,640 - W) / 6 by wind
        W = TALL_UPWARD - 6 * (MOST + off)
        windy = changed(SIX_TALL, W=W, Ms=0)
        yield sound_if(off <= 0, windy, "strength", shows=f"anchored {MOST + off}")
        yield sound(changed(windy, d=7), shows=f"anchored {MOST + off}")
        for more in (0, 1):         # the earthquake pull is the same, and one more
            both = changed(windy, Ms=15 * (MOST + off + more) + 2 * W)
            yield sound_if(off + more <= 0, both, "strength",
                           shows=f"anchored {MOST + off} {MOST + off + more}")
    for W, Ms in ((UPWARD, 2 * UPWARD), (UPWARD + 600, 0), (10_000_000, 0)):
        yield sound(changed(SIX_FIFTHS, W=W, Ms=Ms))       # no pull, or both below 0
    yield short(changed(SIX_FIFTHS, Ms=1_000_000_000), "strength")


def standing():
    """The example tank; spacing at its boundary; N and B at their ends; a course short too."""
    yield sound(SIX, "anchored 2133 -191")
    yield sound(changed(SIX, B=22_918))
    yield short(changed(SIX, B=22_919), "spacing")
    yield short(changed(SIX, Ms=1_000_000, B=22_919), "spacing", "strength")
    yield short(changed(course_changed(SIX, 2, t=187), Ms=1_000_000), "course 2", "strength")
    yield short(course_changed(SIX, 3, t=187), "course 3")
    for N, B in product((6, 7, 199, 200), (14_400, 14_401, 22_918, 299_999, 300_000)):
        sheet = changed(SIX, N=N, B=B)
        yield sound_if(355 * B <= 1_356_000 * N, sheet, "spacing")
    for n in range(1, 13):
        sheet = changed(with_widths(SIX, widths_to(14_400 + 3_600 * n, n) if n > 1 else [9_600]),
                        H=6_000 + 300 * n)
        for record in (mark(VERSION_1.sheet_as_bytes(sheet)), judge(sheet)):
            assert outcome(record).word == "accepted"
        yield mark(VERSION_1.sheet_as_bytes(sheet)), *(judge(sheet, one) for one in METHODS)
    for method in METHODS:
        yield sound(SIX, method=method)
        full = with_anchors(FULL, (24, 18_654, 6))
        assert report_on(full, method).standing == report_on(changed(full, d=7),
                                                             method).standing._replace(
            strength=report_on(full, method).standing.strength)
        yield (judge(full, method),)


def refused_when_judged():
    """37 and 42 as ever; 39 for the bytes of version 2; 30 with gravity, which 42 comes after."""
    for sheet in (SIX, with_anchors(FULL, (24, 18_654, 6))):
        second = VERSION_2.sheet_as_bytes(sheet)
        heavy = changed(sheet, gravity=1_001)
        yield refused("refused 39", mark(second), mark(VERSION_2.sheet_as_bytes(heavy)))
        yield refused("refused 42", *(judge(sheet, method) for method in (0, 3)))
        yield refused("refused 30", *(judge(heavy, method) for method in (0, 1, 2, 3)))
        yield refused("refused 30", *(judge(sheet._replace(site=None), method)
                                      for method in (0, 1, 2)))
    high = changed(SIX, H=28_801)
    yield refused("refused 37", mark(VERSION_1.sheet_as_bytes(high)), judge(high), judge(high, 2))
    yield refused("refused 39", mark(VERSION_2.sheet_as_bytes(high)))


# --- Groups: compression ------------------------------------------------------


def compression():
    """The size makes no difference; by record and held, by both methods; holding and short."""
    for Ms, t, gravity_too in ((30_000, 250, True), (0, 250, False), (500_000, 250, False),
                               (10_000_000, 250, False), (900_000_000, 2_000, True),
                               (30_000, 188, False)):
        sheet = changed(SIX, Ms=Ms, t=t)
        script = (*(ask(sheet, method) for method in METHODS), ask(changed(sheet, d=7)),
                  read(VERSION_1.sheet_as_bytes(sheet)), *map(ask_held, METHODS))
        words = {result.word for result in outcomes((new(), *script))} - {"held", "ok"}
        assert len(words) == 1 and words.pop().startswith("stress")
        yield script
        if gravity_too:
            heavy = changed(sheet, gravity=1_300)
            assert outcome(ask(heavy)).word == "refused 30"
            assert outcome(ask(changed(heavy, d=7))).word.startswith("stress")
            yield ask(heavy), ask(changed(heavy, d=7)), ask(sheet, 3), ask(heavy, 3)
    for sheet, word in ((changed(SIX, H=28_801), "refused 37"),
                        (SIX._replace(site=None), "refused 30"),
                        (SIX._replace(courses=EXAMPLE.courses, count=0), "refused 30")):
        assert outcome(ask(sheet)).word == word
        yield ask(sheet), ask(sheet, 2)


def held():
    """Read and judged, the site stated again and judged, as by record."""
    for V, W in ((105, 11_000), (150, 1), (150, 11_000)):
        sheet = changed(SIX, W=W)
        later = changed(sheet, V=V, Ms=40_000)
        by_record = [outcome(judge(later, method)).line() for method in METHODS]
        opening = (read(VERSION_1.sheet_as_bytes(sheet)), site(later.site))
        script = (*opening, *map(judge_held, METHODS), ask_held())
        assert [result.line() for result in outcomes(script)][2:4] == by_record
        assert has_size_6(later.anchors)
        yield script
    yield answers(["refused 42", "refused 42", "accepted"], read(VERSION_1.sheet_as_bytes(SIX)),
                  judge_held(3), ask_held(0), judge_held())


GROUPS = (
    strength, standing, refused_when_judged, compression, held,
)
