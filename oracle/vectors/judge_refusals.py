"""Judging: document 01's example and cases, the readings that go astray, and the refusals."""

from itertools import product

from model import filling_in
from model.demand_3 import FULL_HEADS
from model.fields import COURSE_FIELDS, Anchors, with_field
from model.filling_in import EMPTY, NO_COURSE, SELF_ANCHORED, sheet_of, shell_height, take_step
from model.printing import refusal_word
from model.refusals import FIELD_REFUSAL, METHODS, MOST_COURSES
from model.sheet_bytes import VERSION_AT
from model.tank_rules import hoop_need, resistance, shell_weight_on_rim
from vectors.byte_changes import damaged_by, longer_by_one_throughout, with_byte
from vectors.judge_cases import (
    EXAMPLE, SELF, changed, course_changed, handed_in, outcome, refused, reported, self_anchored,
    short, sound, sound_if, with_figure, with_widths,
)
from vectors.records import judge, mark, to_judge
from vectors.scripts import U32_MOST, just_outside, subsets, unstated, with_anchors, with_slot
from vectors.start_sheets import ALMOST_BLANK, widths_to
from vectors.steps_bytes import (
    anchors_in_bytes, everything_small, heights_in_bytes, length_of_no_sheet, longer_bytes,
    steps_in_bytes, versions,
)
from vectors.steps_forged import (
    all_at, forged_allowances, forged_anchors, forged_anchors_unstated, forged_ends_taken,
    forged_figures, forged_heights, forged_huge, forged_parts_taken, forged_without_tank,
    forged_wrong_and_unstated,
)
from vectors.steps_orders import BYTES_ORDER, bytes_order_all_at_once, damaged, first_of, lacking
from vectors.version_1 import (
    COUNT_AT, FIELD_RANGES, HEAD_BYTES, as_bytes, sheet_as_bytes,
)

# --- Groups: document 01's example and cases ----------------------------------


def example_cases():
    yield sound(EXAMPLE, "wind 2123 73371 anchored 2133 -191")
    yield sound(changed(EXAMPLE, V=96), "wind 1800 62208")
    yield sound(changed(EXAMPLE, V=97), "wind 1812 62623")
    yield sound(changed(EXAMPLE, B=22_918))
    yield short(changed(EXAMPLE, B=22_919), "spacing")
    standing = self_anchored(EXAMPLE)
    for Ms, lift in ((30_000, "none"), (74_297, "none"), (74_298, "lift"), (145_754, "lift")):
        yield short(changed(standing, Ms=Ms), "wind", shows=f"94646 {lift} holds")
    yield short(changed(standing, Ms=145_755), "wind", "earthquake", shows="94646 over short")
    yield short(changed(standing, W=18_342), "wind")
    yield sound(changed(standing, W=18_343))
    yield short(changed(standing, D=60_000), "wind", shows="| 165 188 250 holds")
    yield short(changed(standing, D=60_001), "wind", shows="| 165 250 250 holds")
    yield refused("refused 37", *handed_in(changed(EXAMPLE, H=28_801)))
    thirteen = as_bytes(EXAMPLE.tank, EXAMPLE.site, EXAMPLE.anchors, [EXAMPLE.courses[0]] * 13)
    yield refused("refused 13", mark(thirteen))
    yield refused("refused 30", judge(with_widths(EXAMPLE, [5_900] * 12)._replace(count=13)))


def readings_astray():
    """Sheets on which each of the four wrong readings would show, in the word too."""
    # the need of course 1 is 260: h to mid-course makes it 230, one foot higher 250
    assert hoop_need(30_600 - 7_650 // 2, 60_000, 15_000, 85) == 230
    assert hoop_need(30_600 - 1_200, 60_000, 15_000, 85) == 250
    for t, holds in ((230, False), (250, False), (259, False), (260, True)):
        yield sound_if(holds, course_changed(FULL_HEADS, 1, t=t), "course 1",
                       shows=f"| 260 260 {t}")
    # the floor with the allowance would be 238
    yield sound(changed(EXAMPLE, t=188, c=50), "| 60 188 188 holds")
    yield sound(changed(EXAMPLE, t=188, c=128), "| 60 188 188 holds")
    yield short(changed(EXAMPLE, t=188, c=129), "course 1", shows="| 60 189 188 short")
    # T with wL uncapped would be 333,669
    assert resistance(14_400, shell_weight_on_rim(18_345, 27, 14_400), 183_579) == 333_669
    yield sound(SELF, "122400 none")
    yield sound(changed(SELF, Ms=150_000), "122400 lift")
    yield short(changed(SELF, Ms=200_000), "earthquake", shows="122400 over")
    # cut toward zero these would be 12,089, which the bolts bear, 0 and 2,132
    yield short(changed(EXAMPLE, Ms=257_197), "strength", shows="2133 12090")
    yield sound(changed(EXAMPLE, Ms=33_551), "2133 1")
    yield sound(EXAMPLE, "2133 -191")


# --- Groups: refusals ---------------------------------------------------------


def judge_order():
    """Each subset of the refusals that a sheet can have, with 42 and, by both methods, without.
    Without 30 a sheet without a tank is the empty one, which has no course, no site and no anchors
    either, nor an H for 37. A sheet without a course has H above Hs, so that 35 comes with 37,
    unless H is 0 and 30 is there."""
    words = {number: f"refused {number}" for number in (30, 42, 32, 35, 36, 38, 37)}
    for present in subsets(tuple(words)):
        if 32 in present and (37 in present or 30 not in present
                              and not {35, 36, 38} <= set(present)):
            continue
        if 35 in present and not {30, 32, 37} & set(present):
            continue
        H = 28_801 if 37 in present else 0 if 35 in present else 28_800
        sheet = lacking(present, EXAMPLE.tank._replace(H=H), EXAMPLE.site, EXAMPLE.courses[:3])
        for method in (7,) if 42 in present else METHODS:
            if present:
                yield refused(first_of(words, present, ""), judge(sheet, method))
            else:
                yield short(sheet, "wind", method=method)


def incomplete():
    """Steps that leave a sheet without a part; anchors without a tank are left by none."""
    yield refused("refused 32", judge(EMPTY))
    for anchors in (SELF_ANCHORED, EXAMPLE.anchors):
        yield refused("refused 30", judge(EMPTY._replace(anchors=anchors)))
    for anchors in (None, SELF_ANCHORED, EXAMPLE.anchors):
        for n in (1, 3):
            no_site = sheet_of(EXAMPLE.tank, None, anchors, EXAMPLE.courses[:n])
            yield refused("refused 36", judge(no_site))
        yield refused("refused 35", judge(sheet_of(EXAMPLE.tank, EXAMPLE.site, anchors, ())))
        yield refused("refused 35", judge(sheet_of(EXAMPLE.tank, None, anchors, ())))


def unstated_anchors():
    """38 beside every number of courses, and before 37; 36 without a site. With N = 0 stated
    the same sheet is judged as self-anchored."""
    for n in range(1, 13):
        sheet = changed(with_widths(SELF, [6_400] * n), W=150_000)
        Hs = shell_height(sheet)
        for H in sorted({Hs, min(Hs + 1, 76_800), 76_800}):
            stated = changed(sheet, H=H)
            yield sound(stated, "self holds") if H == Hs \
                else refused("refused 37", *handed_in(stated))
            yield refused("refused 38", judge(unstated(stated)))
            yield refused("refused 36", judge(unstated(stated)._replace(site=None)))
    for end, widths in ((0, [1_200]), (0, [1_200] * 12), (1, [12_800] * 6), (1, [6_400] * 12)):
        yield refused("refused 38", judge(unstated(all_at(end, widths))))


def stated_in_turn():
    """The example tank as steps leave it, whose anchors are unstated, refused, stated, stated
    again and refused."""
    sheet = unstated(EXAMPLE)
    yield refused("refused 38", judge(sheet))
    for figures in ((5, 14_800, 8), (6, 14_399, 8), (0, 0, 8)):
        sheet = take_step(sheet, filling_in.ANCHORS, Anchors(*figures)).sheet
        yield refused("refused 38", judge(sheet))
    for figures, *rules in (((0, 0, 0), "wind"), (EXAMPLE.anchors,), ((0, 0, 0), "wind"),
                            ((6, 22_919, 8), "spacing"), (EXAMPLE.anchors,)):
        sheet = take_step(sheet, filling_in.ANCHORS, Anchors(*figures)).sheet
        yield reported(sheet, rules, "self short" if figures == (0, 0, 0) else "anchored")
    for figures in ((5, 14_800, 8), (6, 14_399, 8), (0, 0, 8)):
        sheet = take_step(sheet, filling_in.ANCHORS, Anchors(*figures)).sheet
        yield sound(sheet, "anchored 2133 -191")


def broken_slots():
    """30 by a slot alone, and with each of the later refusals."""
    no_course = sheet_of(EXAMPLE.tank, None, SELF_ANCHORED, ())
    for sheet in (EXAMPLE, changed(EXAMPLE, H=28_801), unstated(EXAMPLE),
                  EXAMPLE._replace(site=None), no_course, no_course._replace(site=EXAMPLE.site),
                  unstated(no_course), EMPTY):
        for place in (sheet.count, 11):         # slots that are to be blank
            for slot in (EXAMPLE.courses[0], ALMOST_BLANK, NO_COURSE._replace(width=1)):
                yield refused("refused 30", judge(with_slot(sheet, place, slot)))
    for place in range(3):
        hole = with_slot(EXAMPLE, place, NO_COURSE)
        yield refused("refused 30", judge(hole))
        yield refused("refused 37" if place == 2 else "refused 30", judge(hole._replace(count=2)))


def blank_slot_rubbish():
    for place, field in product(range(3, MOST_COURSES), COURSE_FIELDS):
        rubbish = (1, 7, FIELD_RANGES[field][1], U32_MOST)[(place + field) % 4]
        figures = with_field(NO_COURSE, field, rubbish)
        yield refused("refused 30", judge(with_slot(EXAMPLE, place, figures)))


def counts_astray():
    """Too large or too small, also such as a narrower number takes for right."""
    twelve = with_widths(EXAMPLE, [6_400] * 12)
    for count in (0, 11, 13, 14, 255, 256 + 12, 2**16 + 12, 2**31 + 12, U32_MOST):
        yield refused("refused 30", judge(twelve._replace(count=count)))
    for count in (0, 2, 4, 12, 13, 256 + 3, 2**16 + 3, 2**31 + 3, U32_MOST):
        yield refused("refused 30", judge(EXAMPLE._replace(count=count)))
    for count in (1, 12, 13, U32_MOST):
        yield refused("refused 30", judge(EMPTY._replace(count=count)))


def openings(*groups):
    """The scripts of these groups open with the sheet or the bytes that they are about."""
    return [(to_judge(script[0]),) for group in groups for script in group()]


def forged_as_in_scripts():
    """Every kind of sheet that no run of steps leaves, and some beside them that a run does."""
    return openings(forged_figures, forged_without_tank, forged_heights,
                    forged_anchors, forged_allowances, forged_huge,
                    forged_wrong_and_unstated)


def left_by_a_run():
    """Built by hand, complete or not, and never refused 30."""
    cases = openings(forged_ends_taken, forged_parts_taken,
                     forged_anchors_unstated)
    assert all(outcome(record).word != "refused 30" for (record,) in cases)
    return cases


def reading_singly():
    """Each refusal of reading; 11 to 15, then those of the steps."""
    for damage in BYTES_ORDER:
        word, _change = damage
        yield refused(word, to_judge(damaged((damage,))))


def reading_as_in_scripts():
    """11 to 18 and 34, and beside them what reading accepts."""
    return openings(bytes_order_all_at_once, longer_bytes,
                    length_of_no_sheet, versions, anchors_in_bytes,
                    steps_in_bytes, heights_in_bytes, everything_small)


def reading_before_judging():
    """H above Hs as well: what reading refuses goes before 37."""
    high = changed(EXAMPLE, H=28_801)
    content = sheet_as_bytes(high)
    yield refused("refused 37", mark(content))
    for length in (0, 1, 2, HEAD_BYTES, len(content) - 1):
        yield refused("refused 11", mark(content[:length]))
    yield refused("refused 12", mark(content + b"\0"))
    yield refused("refused 13", damaged_by(content, longer_by_one_throughout))
    yield refused("refused 14", mark(with_byte(content, VERSION_AT, 0)))
    yield refused("refused 15", mark(with_byte(content, COUNT_AT, 2)))
    for field in FIELD_RANGES:
        for figure in just_outside(field):
            outside = with_figure(changed(EXAMPLE, H=76_800), field, figure)
            yield refused(refusal_word(FIELD_REFUSAL, field),
                          mark(sheet_as_bytes(outside)))
    for wrong in (changed(high, allowance=250), course_changed(high, 3, c=250)):
        yield refused("refused 17", mark(sheet_as_bytes(wrong)))
    for anchors in ((6, 14_399, 8), (6, 14_400, 13), (0, 14_400, 0), (0, 0, 8)):
        wrong = with_anchors(high, anchors)
        yield refused("refused 18", mark(sheet_as_bytes(wrong)))
    wrong = with_widths(changed(EXAMPLE, H=76_800), widths_to(76_801, 8))
    yield refused("refused 34", mark(sheet_as_bytes(wrong)))
