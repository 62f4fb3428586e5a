"""All groups of scripts of steps, reading and writing, and the checks over all of them."""

from collections import Counter
from functools import cache

from model.filling_in import EMPTY
from model.sheet_bytes import bytes_as_figures
from vectors.record_answers import outcomes, sheet_text
from vectors.records import forge, forged_places, in_turn
from vectors.script_checks import check_outcomes
from vectors.scripts import records_by_name, unstated, with_anchors
from vectors.start_sheets import EXAMPLE
from vectors.steps_bytes import (
    anchors_in_bytes, count_bytes, cut_bytes, each_byte, every_length, everything_small,
    heights_in_bytes, length_of_no_sheet, longer_bytes, ranges_in_bytes, steps_in_bytes, versions,
    write_ends, write_fills, write_incomplete, write_sizes, write_unstated_anchors,
)
from vectors.steps_forged import (
    forged_allowances, forged_anchors, forged_anchors_unstated, forged_counts, forged_ends_taken,
    forged_figures, forged_heights, forged_huge, forged_parts_taken, forged_slots,
    forged_without_tank, forged_wrong_and_unstated,
)
from vectors.steps_in_turn import (
    allowances_by_steps, anchors_by_steps, ranges_by_steps, reading_states_anchors,
    refused_anchors_stay_unstated, refused_course_between, refused_then_accepted, restated_anchors,
    restated_before_courses, restated_site, shell_height_at_most, stated_anchors_stay, tank_twice,
    thirteenth_course, two_fields_outside, unstated_then_stated, write_after_each_step,
)
from vectors.steps_orders import (
    anchors_order, bytes_order, bytes_order_all_at_once, course_order, example_as_bytes,
    example_in_orders, example_tank_late, site_order, tank_order, write_order,
)
from vectors.steps_random import (
    random_bytes_sheets, random_damage, random_forged, random_noise, random_steps,
)
from vectors.version_1 import FIELD_RANGES

LEAST_RECORDS = 2_500

# --- All groups ---------------------------------------------------------------

GROUPS = (
    example_in_orders, example_tank_late, example_as_bytes,
    tank_order, site_order, anchors_order, course_order, write_order,
    bytes_order, bytes_order_all_at_once,
    ranges_by_steps, two_fields_outside, allowances_by_steps, anchors_by_steps,
    restated_site, restated_anchors, restated_before_courses, tank_twice, refused_then_accepted,
    unstated_then_stated, write_after_each_step, refused_anchors_stay_unstated,
    stated_anchors_stay, reading_states_anchors,
    thirteenth_course, shell_height_at_most, refused_course_between,
    forged_figures, forged_counts, forged_slots, forged_without_tank, forged_heights,
    forged_anchors, forged_allowances, forged_huge, forged_ends_taken, forged_parts_taken,
    forged_anchors_unstated, forged_wrong_and_unstated,
    write_sizes, write_fills, write_incomplete, write_unstated_anchors, write_ends,
    cut_bytes, longer_bytes, every_length, length_of_no_sheet, versions, count_bytes,
    ranges_in_bytes, anchors_in_bytes, each_byte, steps_in_bytes, heights_in_bytes,
    everything_small,
    random_steps, random_bytes_sheets, random_damage, random_noise, random_forged,
)


@cache
def group_records():
    return records_by_name(GROUPS)


def all_records():
    return in_turn(group_records())


@cache
def all_outcomes():
    return list(outcomes(all_records()))


# --- Self test, over all vectors ----------------------------------------------


def check_forms():
    """The figures and the text of a sheet, spelled out: places are typed by hand, for the layout is
    what is checked here."""
    three = (9_600, 250, 0, 15_000, 85) * 3
    for sheet, stated, shown in ((EXAMPLE, (1, 6, 14_800, 8), "6 14800 8"),
                                 (with_anchors(EXAMPLE, (0, 0, 0)), (1, 0, 0, 0), "0 0 0"),
                                 (unstated(EXAMPLE), (0, 0, 0, 0), "-")):
        assert bytes_as_figures(forge(sheet).payload) == (
            1, 14_400, 28_800, 11_000, 250, 0, 36_000, 1_000, 1, 105, 109, 115, 27, 30_000,
            *stated, 3, *three, *(0,) * 45)
        assert sheet_text(sheet) == (
            " tank 14400 28800 11000 250 0 36000 1000 site 105 109 115 27 30000 "
            f"anchors {shown} count 3{' course 9600 250 0 15000 85' * 3}{' -' * 9}")
    assert forge(EMPTY).payload == bytes(4 * 79)
    assert forged_places() == (range(1, 8), range(9, 14), range(15, 18), range(19, 79))
    assert sheet_text(EMPTY) == f" tank - site - anchors - count 0{' -' * 12}"


# --- Self test --------------------------------------------------------------


def self_test():
    check_forms()
    records, results = all_records(), all_outcomes()
    assert len(records) >= LEAST_RECORDS
    check_outcomes(records, results)
    words = Counter(result.word for result in results)
    numbers = {int(word.split()[1]) for word in words if word.startswith("refused")}
    assert numbers == {*range(11, 20), *range(30, 37), 38, 39}      # 37 and 42 are judge's alone
    fields = {word for word in words if word.startswith("refused 16")}
    assert fields == {f"refused 16 {field}" for field in FIELD_RANGES}
