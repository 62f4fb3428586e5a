"""Changes of a sheet's bytes, by which the vectors make bytes that reading refuses.

A damage changes a bytearray in place; the others give new bytes.
"""

from model.sheet_bytes import LENGTH_BYTES, VERSION_1, figures_as_bytes
from vectors.records import read, to_judge


def put_field(content, field, figure, place=0, layout=VERSION_1):
    content[layout.field_bytes(field, place)] = figures_as_bytes((figure,))


def exchange(content, one, other):
    """The figures of these two slices."""
    content[one], content[other] = content[other], content[one]


def with_length(content, L):
    """The bytes with this L."""
    return L.to_bytes(LENGTH_BYTES, "big") + content[LENGTH_BYTES:]


def put_length(content, L):
    content[:] = with_length(bytes(content), L)


def right_length(content):
    """The L that these many bytes ask for."""
    return len(content) - LENGTH_BYTES


def with_byte(content, place, byte):
    return content[:place] + bytes((byte,)) + content[place + 1:]


def longer_by_one_throughout(content):
    """13 alone: the bytes are as many as L says."""
    put_length(content, int.from_bytes(content[:LENGTH_BYTES], "big") + 1)
    content.append(0)


def field_damage(field, figure, place=0, layout=VERSION_1):
    return lambda content: put_field(content, field, figure, place, layout)


def damaged_by(content, change):
    """The bytes after a damage, handed in for judging."""
    content = bytearray(content)
    change(content)
    return to_judge(read(content))
