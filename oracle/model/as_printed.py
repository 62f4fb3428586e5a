"""The model's data beside document 01's own text, where `shared/` is there to be read: the table of
fields, the bolt chart and the list of refusals. Each was typed by hand once, and nothing else would
tell a slip of the finger from the paper.
"""

import re
from pathlib import Path

from model.fields import ANCHORS_FIELD, FIELD_RANGES, field_in_range
from model.refusals import REFUSALS
from model.tank_rules import BOLT_CHART

DOCUMENT_01 = Path(__file__).resolve().parent.parent.parent / "shared" / "01-scope.md"
RANGE = re.compile(r"^\| ([0-9]+) \| [^|]* \| (0, or )?([0-9,]+) to ([0-9,]+) \|$", re.MULTILINE)
BOLTS = re.compile(r"Bolt chart, d to A in thousandths of a square inch: (.*?) \(UNC\)")
REFUSAL = re.compile(r"^- ([1-9][0-9]): ", re.MULTILINE)


def whole(digits):
    return int(digits.replace(",", ""))


def check_ranges(text):
    """Those that document 01 has; a later request may add others."""
    rows = RANGE.findall(text)
    assert len(rows) == 19      # field 20 is S-8's
    for number, or_none, least, greatest in rows:
        field = int(number)
        assert FIELD_RANGES[field] == (whole(least), whole(greatest)), field
        assert bool(or_none) == (field == ANCHORS_FIELD)
        assert field_in_range(field, 0) == (bool(or_none) or whole(least) == 0)


def check_bolts(text):
    (chart,) = BOLTS.findall(text)
    pairs = (pair.split(" ") for pair in chart.split(", "))
    assert {int(d): int(A) for d, A in pairs} == BOLT_CHART


def check_refusals(text):
    """In both lists of the document, those of document 02 left out."""
    numbers = [int(number) for number in REFUSAL.findall(text)]
    assert numbers == [number for number in REFUSALS if number < 38]


def self_test():
    if DOCUMENT_01.is_file():
        text = DOCUMENT_01.read_text(encoding="utf-8")
        check_ranges(text)
        check_bolts(text)
        check_refusals(text)
