"""The tallier: "up to 10,000 sheets", "Past 10,000 sheets it stops reading". These files are made
when they are needed and not stored.
"""

from model.sheet_bytes import VERSION_1
from vectors.byte_changes import with_length
from vectors.tally_cases import ABOVE, BELOW, JUST, by_differences, refused, tallied
from vectors.tally_sums import HIGH, NEEDS_BY_HAND, far_plate, far_required

MOST = 10_000
FIRST = by_differences(6, layout=VERSION_1)
SIX = refused(39, by_differences(6, d=6))

BEHIND = (("a stray byte", b"\0"), ("a short sheet", BELOW), ("a sound sheet", JUST),
          ("a refused sheet", HIGH), ("an unusable length", b"\0\0"), ("a cut sheet", JUST[:-1]))

# --- Groups -------------------------------------------------------------------


def at_the_most():
    """One less, as many, one more and many more; the 10,001st is of another word each time, and
    below or above the others by far."""
    almost = [ABOVE] * (MOST - 1)
    yield tallied("9,999", "9999 9999 0 0 59994 6", *almost)
    yield tallied("9,999 and a byte", "10000 9999 0 1 59994 6", *almost, b"\0")
    for name, last, figures in (("sound", JUST, "10000 10000 0 0 59994 0"),
                                ("short", BELOW, "10000 9999 1 0 59931 -63"),
                                ("refused 37", HIGH, "10000 9999 0 1 59994 6"),
                                ("refused 39", SIX, "10000 9999 0 1 59994 6"),
                                ("of version 1", FIRST, "10000 10000 0 0 60000 6"),
                                ("refused 13", b"\0\0", "10000 9999 0 1 59994 6"),
                                ("cut", BELOW[:-1], "10000 9999 0 1 59994 6"),
                                ("cut in its length", BELOW[:1], "10000 9999 0 1 59994 6")):
        yield tallied(f"the 10,000th is {name}", figures, *almost, last)
        behind = BEHIND if name in ("sound", "refused 37") else BEHIND[:2]
        for then, content in behind if not name.startswith("cut") else ():
            yield tallied(f"the 10,000th is {name}, then {then}", figures, *almost, last, content)
    yield tallied("the 10,000th has an unusable length, and its bytes",
                  "10000 9999 0 1 59994 6", *almost, with_length(BELOW, 81), JUST, JUST)
    yield tallied("20,000", "10000 10000 0 0 60000 6", *[ABOVE] * MOST, *[BELOW] * MOST)


def refused_among_the_most():
    """They count: half of all, all but one, all; the first, the last."""
    half = MOST // 2
    for behind in ((), (BELOW,), (b"\1",)):
        more = f"and {len(behind)} more, {len(b''.join(behind))}"
        yield tallied(f"every other one, {more}", "10000 5000 0 5000 30000 6",
                      *[HIGH, ABOVE] * half, *behind)
        yield tallied(f"the first half, {more}", "10000 0 5000 5000 -315000 -63",
                      *[SIX] * half, *[BELOW] * half, *behind)
        yield tallied(f"all, {more}", "10000 0 0 10000 0 none", *[HIGH] * MOST, *behind)
        yield tallied(f"all but the last, {more}", "10000 1 0 9999 6 6", *[HIGH] * (MOST - 1),
                      ABOVE, *behind)
        yield tallied(f"the first alone, {more}", "10000 9999 0 1 59994 6", HIGH,
                      *[ABOVE] * (MOST - 1), *behind)
    yield tallied("one of three", "10000 3333 3333 3334 -189981 -63",
                  *[HIGH, ABOVE, BELOW] * (MOST // 3), HIGH, BELOW, ABOVE)


def greatest_sums():
    """120,000 courses, the farthest that the ranges permit: below 2 to the 31, either way."""
    below = 12 - sum(NEEDS_BY_HAND)
    yield tallied("far below", f"10000 0 10000 0 {MOST * below} -8654",
                  *[far_required(251, 250, gravity=1_300)] * MOST)
    yield tallied("far above", "10000 10000 0 0 217440000 1812", *[far_plate(12)] * MOST)


def that_end_by_themselves():
    """Fed through a pipe that stays open: with nothing behind the 10,000th, a byte, a sheet, more
    than a pipe holds; nothing more is waited for."""
    figures = "10000 5000 5000 0 -285000 -63"
    for name, behind in (("nothing", b""), ("a byte", b"\0"), ("a sheet", ABOVE),
                         ("2,000 sheets", ABOVE * 2_000)):
        yield tallied(f"{name} behind the 10,000th", figures, *[ABOVE, BELOW] * (MOST // 2), behind)


GROUPS = (at_the_most, refused_among_the_most, greatest_sums)
HELD_OPEN = (that_end_by_themselves,)

# --- Self test ----------------------------------------------------------------


def check(files):
    """Of these groups' files, by the name of the group: the 10,000th is of every kind, with nothing
    and with something behind it; sums are farther than 16 bits hold, and not than 32."""
    at_most, refused_ones, far = (files[group.__name__] for group in GROUPS)
    assert {file.made.read for file in at_most} == {MOST - 1, MOST}
    assert {file.made[1:4] for file in at_most} == {
        (MOST, 0, 0), (MOST - 1, 1, 0), (MOST - 1, 0, 1), (MOST - 1, 0, 0)}
    assert {0, 1, 83, 84, 85, 168} <= {len(file.content) - len(ABOVE) * (MOST - 1)
                                       for file in at_most}
    assert {file.made.read for file in refused_ones} == {MOST}
    assert {file.made.refused for file in refused_ones} == {1, 3_334, 5_000, MOST - 1, MOST}
    sums = [file.made.sum for file in far]
    assert -2**31 < min(sums) < -7 * 10**8 and 2 * 10**8 < max(sums) < 2**31
