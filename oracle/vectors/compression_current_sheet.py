"""Compression asked of the current sheet (COMPRESSION_HELD): groups of scripts."""

from itertools import cycle
from random import Random

from model import example
from model.fields import Course
from model.filling_in import EMPTY, sheet_of
from model.refusals import API_650, D100, METHODS
from vectors.compression_cases import EXAMPLE, EXAMPLE_SAID, SELF, SELF_SAID, outcome
from vectors.compression_random import random_anchored_sheet, random_standing
from vectors.current_sheet_groups import filled_in
from vectors.current_sheet_scripts import (
    BETWEEN, LEFT_OUT, LETTERS, NO_ANCHORS, SELF_BYTES, SIX_ANCHORS, from_empty,
)
from vectors.judge_cases import changed
from vectors.random_sheets import anchored_sheet, self_anchored_sheet
from vectors.record_answers import outcomes
from vectors.records import (
    ask, ask_held, course, forge, judge, judge_held, mark, new, read, site, tank,
)
from vectors.scripts import U32_MOST, unstated, with_outside, with_slot, write_for, write_word
from vectors.start_sheets import ALMOST_BLANK, EXAMPLE_BYTES
from vectors.steps_random import drawn_site

# --- Groups of scripts: the current sheet -------------------------------------


def said_by(said, method):
    """30 goes before 42, and 42 before every other refusal and reply."""
    return "refused 42" if said != "refused 30" and method not in METHODS else said


def asked_after_each(methods, *turns):
    """A script of these turns, the first of which sets the current sheet: a record, its word, and
    what is said of the sheet that it leaves, asked by each of these methods."""
    script = []
    for record, _word, _said in turns:
        script += record, *map(ask_held, methods)
    results = outcomes(script)
    for _record, word, said in turns:
        own = next(results)
        assert own.word == word, (word, own)
        for method in methods:
            line = next(results).line()
            assert line == said_by(said, method), (said, method, line)
    return script


def said_briefly(brief):
    """A refusal's number or, by the letter of its anchors, the example's reply."""
    return {"0": SELF_SAID, "6": EXAMPLE_SAID}.get(brief, f"refused {brief}")


def in_many_ways():
    """Without end: the methods by which a script asks."""
    return cycle(((D100, API_650), (API_650, 3, D100), (0, API_650), (D100, 2**8 + 1),
                  (API_650, U32_MOST)))


def held_in_orders():
    """The example tank filled in step by step, its anchors stated at every place, or never."""
    orders = (*LEFT_OUT[::4], *BETWEEN[::5])
    for (order, briefs), methods in zip(orders, in_many_ways()):
        yield asked_after_each(methods, *from_empty(order, briefs, LETTERS, said_briefly))


def shaken(Ms):
    return site(example.SITE._replace(Ms=Ms))


def held_and_restated():
    """Site, anchors and a course stated again, refused and written; the question follows the
    sheet that is left. 74,297 is the greatest moment without lift."""
    by_six, by_none = (f"stress 318 allowed {allowed} holds yes" for allowed in (11_113, 13_632))
    for opening, word, methods in ((read(EXAMPLE_BYTES), "ok", (D100, API_650)),
                                   (forge(EXAMPLE), "held", (API_650, D100, 7))):
        yield asked_after_each(
            methods, (opening, word, EXAMPLE_SAID), (shaken(74_297), "ok", by_six),
            (NO_ANCHORS, "ok", by_none), (write_for(3, 1), write_word(3), by_none),
            (shaken(74_298), "ok", "refused 43"), (write_for(3, 2), write_word(3), "refused 43"),
            (tank(example.TANK), "refused 31", "refused 43"),
            (site(with_outside(example.SITE, 11)), "refused 16 11", "refused 43"),
            (course(Course(width=9_600, t=100, c=99, s=10_000, E=50)), "ok", "refused 43"),
            (SIX_ANCHORS, "ok", by_six),
            (shaken(145_755), "ok", "stress 528 allowed 11113 holds yes"),
            (NO_ANCHORS, "ok", "refused 43"),
            (shaken(0), "ok", "stress 99 allowed 13632 holds yes"),
            (read(b""), "refused 11", "refused 32"))


def held_beside_others():
    """What is handed in beside it is nothing to the current sheet, nor is being asked."""
    others = (ask(SELF), ask(EXAMPLE, API_650), ask(changed(SELF, Ms=74_298)), judge(SELF, API_650),
              ask(EXAMPLE._replace(count=4)), mark(SELF_BYTES), ask(unstated(EXAMPLE), 3),
              judge_held(), ask(EMPTY))
    for opening, said in (
            (read(EXAMPLE_BYTES), EXAMPLE_SAID), (read(SELF_BYTES), SELF_SAID),
            (new(), "refused 32"), (forge(EXAMPLE._replace(count=4)), "refused 30"),
            (forge(changed(SELF, H=28_801)), "refused 37"),
            (forge(changed(SELF, Ms=74_298)), "refused 43")):
        own, *results = outcomes((opening, *others))
        beside_it = zip(others, (result.word for result in results), strict=True)
        yield asked_after_each((D100,), (opening, own.word, said),
                               *((other, word, said) for other, word in beside_it))


def held_forged():
    """Sheets that no run leaves, and some that lack something."""
    for sheet, number in ((EXAMPLE._replace(count=4), 30), (changed(SELF, D=11_999), 30),
                          (EXAMPLE._replace(tank=None), 30),
                          (with_slot(SELF, 11, ALMOST_BLANK), 30),
                          (EMPTY._replace(site=EXAMPLE.site), 30), (EMPTY, 32),
                          (sheet_of(EXAMPLE.tank, EXAMPLE.site, None, ()), 35),
                          (SELF._replace(site=None), 36), (unstated(SELF), 38),
                          (changed(SELF, H=76_800), 37), (changed(SELF, Ms=145_755), 43)):
        yield asked_after_each((D100, 0, API_650, 2**32 - 1),
                               (forge(sheet), "held", f"refused {number}"))


def held_random_fills():
    """Sheets close to equality in judging or in this question, asked while they are filled in; then
    with another site, and theirs again."""
    rng = Random(41)
    draws = (self_anchored_sheet, anchored_sheet, random_standing, random_anchored_sheet)
    for draw in draws * 2:
        sheet = draw(rng)
        script = []
        for record in filled_in(rng, sheet):
            script.append(record)
            if rng.random() < 0.5:
                script.append(ask_held(rng.choice((*METHODS, *METHODS, 0))))
        script += (ask_held(API_650), site(drawn_site(rng)), ask_held(),
                   site(sheet.site), ask_held())
        *_before, last = outcomes(script)
        assert last.sheet == sheet and last.line() == outcome(ask(sheet)).line()
        yield script
