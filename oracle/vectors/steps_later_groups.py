"""The groups of scripts that came after the cases that people can read, and are stored after them;
and the checks over them.
"""

from collections import Counter
from functools import cache

from model.fields import GRAVITY_FIELD
from model.filling_in import EMPTY
from vectors.record_answers import outcomes
from vectors.records import FORGE, READ, TANK, WRITE, in_turn
from vectors.script_checks import check_outcomes
from vectors.scripts import records_by_name
from vectors.steps_liquor import (
    bytes_order_of_version_2, filled_in_heavy, forged_gravities, gravities_by_steps,
    gravities_in_bytes, steps_on_heavy, tank_order_with_gravity, two_fields_in_bytes,
)
from vectors.steps_liquor_random import (
    random_bytes_in_liquor, random_damage_of_version_2, random_forged_in_liquor,
    random_noise_of_either_version, random_steps_in_liquor,
)
from vectors.steps_versions import (
    additions_to_version_2, both_versions, counts_of_version_2, cuts_of_version_2,
    every_length_and_version, heavy_read_and_written, lengths_over_sheets, other_layout,
    steps_in_version_2, twelve_heavy_courses, version_1_then_restated, write_fills_of_version_2,
    write_incomplete_heavy, write_sizes_of_version_2,
)

GROUPS = (
    gravities_by_steps, tank_order_with_gravity, filled_in_heavy, gravities_in_bytes,
    two_fields_in_bytes, bytes_order_of_version_2, forged_gravities, steps_on_heavy,
    both_versions, heavy_read_and_written, version_1_then_restated,
    write_sizes_of_version_2, write_fills_of_version_2, write_incomplete_heavy,
    every_length_and_version, lengths_over_sheets, other_layout, cuts_of_version_2,
    additions_to_version_2, counts_of_version_2, steps_in_version_2, twelve_heavy_courses,
    random_steps_in_liquor, random_bytes_in_liquor, random_damage_of_version_2,
    random_noise_of_either_version, random_forged_in_liquor,
)


@cache
def group_records():
    return records_by_name(GROUPS)


def all_records():
    return in_turn(group_records())


@cache
def all_outcomes():
    return list(outcomes(all_records()))


# --- Self test, over all of these ---------------------------------------------


def check_words():
    """Every refusal that reading and writing have, by version 2 too; 16 with field 20 in a step and
    in bytes."""
    pairs = list(zip(all_records(), all_outcomes(), strict=True))
    words = {result.word for record, result in pairs if record.opcode == READ}
    assert {f"refused {number}" for number in (*range(11, 16), 17, 18, 34, 39)} <= words
    for opcode in (TANK, READ):
        assert any(record.opcode == opcode and result.word == f"refused 16 {GRAVITY_FIELD}"
                   for record, result in pairs)
    written = Counter(result.word for record, result in pairs if record.opcode == WRITE)
    assert {f"wrote {64 + 20 * n}" for n in range(1, 13)} <= {*written}
    assert written["refused 19"] >= 60 and written["refused 30"] >= 20


def check_gravities():
    """Held sheets with many gravities; forged ones with gravities that no run leaves."""
    held = Counter(result.sheet.tank.gravity for result in all_outcomes()
                   if result.sheet.tank is not None)
    assert min(held[gravity] for gravity in (1_000, 1_001, 1_137, 1_300)) >= 10
    forged = {result.sheet.tank.gravity
              for record, result in zip(all_records(), all_outcomes(), strict=True)
              if record.opcode == FORGE and result.sheet.tank is not None}
    assert {0, 999, 1_301, 2**32 - 1} <= forged
    assert EMPTY in {result.sheet for result in all_outcomes()}


def self_test():
    check_outcomes(all_records(), all_outcomes())
    check_words()
    check_gravities()
