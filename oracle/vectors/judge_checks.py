"""What is checked of the outcomes of any records that judge: demand 3, and the refusals and reports
beside those of other questions.
"""

from model import demand_3, judging
from model.arithmetic import Verdict, use_bits
from model.refusals import API_650, D100, METHODS
from model.sheet_bytes import write_refusal
from vectors.records import JUDGING, MARK, MOST_BUFFER

# --- Checks of any judged records ---------------------------------------------


def check_demand_3(results):
    """Of every sheet that gets a report."""
    for number, result in enumerate(results, start=1):
        if result.word == "accepted":
            sheet, method, word = result.judged.sheet, result.judged.method, result.judged.word()
            assert demand_3.borne_out(sheet, method, word), \
                f"demand 3: record {number} is called {word} by method {method}; exact fractions " \
                f"do not bear it out: {sheet}"


def check_sides(results):
    """Every check holds just when need is at most capacity, and its use is that of the two."""
    for sheet, _method, refusal, report in filter(None, (result.judged for result in results)):
        if refusal is None:
            found = {name: Verdict(need <= capacity, use_bits(need, capacity))
                     for name, (need, capacity) in judging.sides(sheet, report).items()}
            assert found == judging.verdicts(report), sheet


def check_beside_writing(records, results):
    """Up to 38 a sheet is refused as in writing, but for 42 straight after 30, and then by 37
    alone. Bytes are never refused 38 or 42, and no sheet 39, which is writing's."""
    for record, result in zip(records, results, strict=True):
        if record.opcode == MARK:
            assert result.word not in ("refused 38", "refused 42")
        elif record.opcode in JUDGING:
            refusal = write_refusal(result.judged.sheet, MOST_BUFFER)
            if result.judged.method not in METHODS and refusal != (30, 0):
                refusal = 42, 0
            expected = (None, (37, 0)) if refusal in (None, (39, 0)) else (refusal,)
            assert result.judged.refusal in expected


def check_beside_d100(results):
    """By API 650 a sheet is refused as by D100, or its report differs in no more than the needs
    and what hangs on them; none of them is greater."""
    for sheet, method, refusal, report in filter(None, (result.judged for result in results)):
        if method == API_650:
            other = judging.judge(sheet, D100)
            assert refusal == other.refusal
            assert report._replace(courses=()) == other.report._replace(courses=())
            for one, more in zip(report.courses, other.report.courses, strict=True):
                assert one.need <= more.need and one.required <= more.required and one.t == more.t
