"""What groups from before request S-10 draw by, so that they stay what they were: whether bytes
were accepted when size 6 came in either version.
"""

from functools import cache

from model import sheet_bytes
from model.fields import NUMBER_OF
from model.filling_in import DROPPED_SIZE
from model.sheet_bytes import VERSION_2, bytes_as_figures, bytes_refusal, by_length, length_in

SIZE_FIELD = NUMBER_OF["d"]
KEPT_SIZE = DROPPED_SIZE + 1        # in the bolt chart too: 16 to 18 are as with size 6


@cache
def readable(content):
    """Now size 6 is refused in version 2 alone; any other size has the answer that it had."""
    if bytes_refusal(content) is None and by_length(length_in(content))[0] == VERSION_2:
        size = bytes_as_figures(content[VERSION_2.field_bytes(SIZE_FIELD)])
        if size == (DROPPED_SIZE,):
            content = VERSION_2.with_field_bytes(content, SIZE_FIELD, KEPT_SIZE)
    return sheet_bytes.read(content).refusal is None
