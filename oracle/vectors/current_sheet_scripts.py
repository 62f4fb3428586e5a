"""Making scripts that judge the current sheet (JUDGE_HELD) after every step.

A turn is a record, its word and what is said, by hand, of judging the sheet that it leaves, by D100
or by each of several methods; from there the next turn goes on.
"""

from model import example, filling_in
from model.refusals import D100
from vectors.judge_cases import self_anchored
from vectors.record_answers import NO_REPORT_TEXT, outcomes
from vectors.records import anchors, course, judge_held, new, site, tank
from vectors.version_1 import sheet_as_bytes

# --- Making scripts -----------------------------------------------------------


def says(line, said):
    """A refusal is said in full; a report's line begins with these words, .. being any one."""
    if said.startswith("refused"):
        return line == f"{said} {NO_REPORT_TEXT}"
    return all(one in ("..", word) for one, word in zip(said.split(), line.split()))


def judged_by_methods(*turns):
    """A script of these turns, the first of which sets the current sheet; what is said
    maps each method to its words, in the order in which they are asked."""
    script = []
    for record, _word, said_by in turns:
        script += record, *map(judge_held, said_by)
    results = outcomes(script)
    for _record, word, said_by in turns:
        own = next(results)
        assert own.word == word, (word, own)
        for said in said_by.values():
            line = next(results).line()
            assert says(line, said), (said, line)
    return script


def judged_after_each(*turns):
    """The same by D100."""
    return judged_by_methods(*((record, word, {D100: said}) for record, word, said in turns))


def anchored_report(wind, pulls, n, spacing="holds", strength="holds"):
    """What is said of an anchored tank whose courses hold."""
    word = "sound" if spacing == strength == "holds" else "short"
    return f"accepted {word} wind {wind} anchored {pulls} {spacing} .. {strength} .. " \
        f"uses .. .. courses {n}"


def self_report(wind, verdict, resist, n):
    """Of a self-anchored one, whose earthquake verdict holds as well."""
    word = "sound" if verdict == "holds" else "short"
    return f"accepted {word} wind {wind} self {verdict} .. {resist} holds .. " \
        f"uses .. .. courses {n}"


# --- The example tank ---------------------------------------------------------

EXAMPLE = filling_in.EXAMPLE
SELF = self_anchored(EXAMPLE)
SELF_BYTES = sheet_as_bytes(SELF)
NO_ANCHORS = anchors((0, 0, 0))
SIX_ANCHORS = anchors(example.ANCHORS)
CALM = site(example.SITE._replace(V=96))
NEXT_COURSE = course(example.COURSES[0])

# By its anchors: of the example as it is, then with the calm site, then with a course more.
SAID = {
    SIX_ANCHORS: (anchored_report("2123 73371", "2133 -191", 3),
                  anchored_report("1800 62208", "1530 -191", 3),
                  anchored_report("1800 110592", "4145 -191", 4)),
    NO_ANCHORS: (self_report("2123 73371", "short", "94646 none", 3),
                 self_report("1800 62208", "short", "94646 none", 3),
                 self_report("1800 110592", "short", "94646 none", 4)),
}
SIX_SAID, SELF_SAID = SAID[SIX_ANCHORS][0], SAID[NO_ANCHORS][0]

REFUSED_ANCHORS = (     # on the example tank
    ("refused 16 12", (5, 14_800, 8)), ("refused 16 13", (6, 300_001, 8)),
    ("refused 16 14", (6, 14_800, 17)), ("refused 18", (6, 14_399, 8)),
    ("refused 18", (6, 14_800, 13)), ("refused 18", (0, 14_800, 0)), ("refused 18", (0, 0, 8)),
)


def refused_anchors(said):
    """Turns that leave the sheet as it was judged before them."""
    return [(anchors(figures), word, said) for word, figures in REFUSED_ANCHORS]


# --- Its steps in other orders ------------------------------------------------

LETTERS = {
    "t": tank(example.TANK), "s": site(example.SITE), "c": NEXT_COURSE, "0": NO_ANCHORS,
    "6": SIX_ANCHORS,
}


def said_briefly(brief):
    """A refusal's number or, by the letter of its anchors, the example's report."""
    return {"0": SELF_SAID, "6": SIX_SAID}.get(brief, f"refused {brief}")


def accepted_steps(order, briefs, letters=LETTERS, said=said_briefly):
    """Turns of the steps with these letters, each of which is accepted."""
    for letter, brief in zip(order, briefs.split(), strict=True):
        yield letters[letter], "ok", said(brief)


def from_empty(order, briefs, letters=LETTERS, said=said_briefly):
    """Turns of the empty sheet, of steps that are refused for want of a tank, and of those from
    the tank on."""
    yield new(), "held", said("32")
    refused = order.index("t")
    for letter in order[:refused]:
        yield letters[letter], "refused 32", said("32")
    yield from accepted_steps(order[refused:], briefs, letters, said)


LEFT_OUT = (        # the anchors are, or they come before the tank; said from the tank on
    ("tsccc", "35 35 38 38 38"), ("tcscc", "35 36 38 38 38"), ("tccsc", "35 36 36 38 38"),
    ("tcccs", "35 36 36 36 38"), ("stcscc", "35 36 38 38 38"), ("ctsccc", "35 35 38 38 38"),
    ("0tsccc", "35 35 38 38 38"), ("6tcccs", "35 36 36 36 38"),
    ("s06ctcsscc", "35 36 38 38 38 38"),
)
BETWEEN = (         # the anchors are, at every place; up to the third course H is above Hs
    ("t0sccc", "35 35 35 37 37 0"), ("ts6ccc", "35 35 35 37 37 6"), ("tsc0cc", "35 35 38 37 37 0"),
    ("tscc6c", "35 35 38 38 37 6"), ("t6cscc", "35 35 36 37 37 6"), ("tc0scc", "35 36 36 37 37 0"),
    ("tcs6cc", "35 36 38 37 37 6"), ("tcsc0c", "35 36 38 38 37 0"), ("t0ccsc", "35 35 36 36 37 0"),
    ("tc6csc", "35 36 36 36 37 6"), ("tcc0sc", "35 36 36 36 37 0"), ("tccs6c", "35 36 36 38 37 6"),
    ("t6cccs", "35 35 36 36 36 6"), ("tc0ccs", "35 36 36 36 36 0"), ("tcc6cs", "35 36 36 36 36 6"),
    ("tccc0s", "35 36 36 36 36 0"), ("t06cccs0", "35 35 35 36 36 36 6 0"),
    ("tc6c0cs6", "35 36 36 36 36 36 0 6"),
)
