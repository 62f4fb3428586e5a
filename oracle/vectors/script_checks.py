"""What is checked of the outcomes of any script, record by record."""

from model import sheet_bytes
from model.fields import NUMBER_OF
from model.filling_in import DROPPED_SIZE, EMPTY, has_size_6, left_by_a_run, left_by_description
from model.refusals import MOST_COURSES
from model.sheet_bytes import VERSION_1, VERSION_2, VERSION_AT, bytes_as_figures
from vectors.record_answers import lent_buffer
from vectors.records import (
    ANCHORS, ASKING, COMPRESSION, COMPRESSION_HELD, FORGE, JUDGE, JUDGE_HELD, JUDGING, MARK,
    OPENING, READ, WRITE, forge,
)

# --- Checks of any script -----------------------------------------------------


def check_read_and_write(content, result):
    """Reading then writing accepted bytes of version 2 gives the same bytes; from those of version
    1 it gives version 2's, with the same meaning, but for size 6, which is refused. They state
    anchors."""
    if result.word == "ok":
        version = content[VERSION_AT]
        size = VERSION_2.bytes_with(result.sheet.count)
        refusal, number, written = sheet_bytes.write(result.sheet, bytes(size))
        if has_size_6(result.sheet.anchors):
            assert (version, refusal, written) == (1, (39, 0), bytes(size))
            return
        assert (refusal, number, len(written)) == (None, size, size)
        assert written == content if version == 2 \
            else (version, result.sheet.tank.gravity) == (1, 1_000)
        assert sheet_bytes.read(written) == (None, result.sheet)
        assert result.sheet.anchors is not None
    else:
        assert result.sheet == EMPTY


def check_write(record, result):
    """Writing then reading gives the same sheet; a refused write leaves the buffer."""
    if result.word.startswith("refused"):
        lent = lent_buffer(*bytes_as_figures(record.payload))
        assert result.text == f" buffer {lent.hex()}"
    else:
        said, number = result.word.split()
        buffer = bytes.fromhex(result.text.removeprefix(" buffer "))
        assert said == "wrote" and sheet_bytes.read(buffer[:int(number)]) == (None, result.sheet)


def check_judged(before, record, result):
    """Judging and asking leave the current sheet as it is; the held one is that one."""
    assert result.sheet == before
    if record.opcode in (JUDGE_HELD, COMPRESSION_HELD):
        assert (result.judged or result.asked).sheet == before


def check_unstated(before, record, result):
    """38 is said of a sheet whose anchors are unstated, and by these records alone."""
    question = result.judged or result.asked
    about = before if question is None else question.sheet
    assert about.anchors is None
    assert record.opcode in (WRITE, JUDGE, JUDGE_HELD, COMPRESSION, COMPRESSION_HELD)


def check_size_6(sheet):
    """S-10: a sheet with it is left by a run just when some bytes of version 1 are read as it. Such
    bytes have a byte for n, and every part."""
    parts = sheet.tank, sheet.site, sheet.anchors
    in_bytes = None not in parts and sheet.count <= MOST_COURSES
    left = in_bytes and sheet_bytes.read(VERSION_1.sheet_as_bytes(sheet)) == (None, sheet)
    assert left_by_a_run(sheet) == left


def check_39(before, record, result):
    """A step that states size 6, bytes of version 2 that have it, or writing a sheet with it."""
    if record.opcode == WRITE:
        assert has_size_6(before.anchors) and left_by_a_run(before)
    elif record.opcode == ANCHORS:
        assert bytes_as_figures(record.payload)[-1] == DROPPED_SIZE
    else:
        assert record.opcode in (READ, MARK) and record.payload[VERSION_AT] == 2
        size = record.payload[VERSION_2.field_bytes(NUMBER_OF["d"])]
        assert bytes_as_figures(size) == (DROPPED_SIZE,)


def check_outcome(before, record, result):
    assert left_by_a_run(result.sheet) == left_by_description(result.sheet)
    if has_size_6(result.sheet.anchors):
        check_size_6(result.sheet)
    if record.opcode == FORGE:
        assert forge(result.sheet) == record
    if record.opcode == READ:
        check_read_and_write(record.payload, result)
    elif result.word.startswith("refused"):
        assert result.sheet == before
    if record.opcode == WRITE:
        check_write(record, result)
    if record.opcode in JUDGING + ASKING:
        check_judged(before, record, result)
    if record.opcode not in OPENING:
        assert before.anchors is None or result.sheet.anchors is not None
    if result.word == "refused 38":
        check_unstated(before, record, result)
    if result.word == "refused 39":
        check_39(before, record, result)


def check_outcomes(records, results):
    """Of records that follow each other, the first of which sets the current sheet. Where none was
    built by hand, a run leaves it."""
    sheet, by_hand = None, False
    for record, result in zip(records, results, strict=True):
        check_outcome(sheet, record, result)
        if record.opcode in OPENING:
            by_hand = record.opcode == FORGE
        assert by_hand or left_by_a_run(result.sheet)
        sheet = result.sheet
