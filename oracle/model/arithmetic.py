"""Rounding of exact fractions, and the use of a check: the nearest f64 of need over capacity.

Document 01's "rounded up", "rounded down" and "toward the greater number", and its paragraph "Each
check says that it holds or falls short together with its use".
"""

import struct
from fractions import Fraction
from functools import cache
from math import ceil, floor, isqrt
from typing import NamedTuple

# --- Rounding -----------------------------------------------------------------

def rounded_down(numerator, denominator):
    return floor(Fraction(numerator, denominator))


def rounded_up(numerator, denominator):
    """Toward the greater number, on both sides of zero."""
    return ceil(Fraction(numerator, denominator))


def greatest_root(factor, most):
    """The greatest whole n with factor * n * n at most `most`."""
    n = isqrt(floor(Fraction(most, factor)))
    assert factor * n * n <= most < factor * (n + 1) * (n + 1)
    return n


def root_up(square):
    """The least whole n with n x n at least this whole number."""
    n = isqrt(square)
    return n if n * n == square else n + 1


# --- Use and verdict ("Each check says that it holds or falls short ...") ------

SIDE_LIMIT = 2**53  # "Both sides stay below 2 to the 53"


def nearest_f64_bits(need, capacity):
    """Bit pattern of the f64 nearest to need / capacity, ties to even."""
    if need == 0:
        return 0
    quotient = Fraction(need, capacity)
    # quotient = scaled * 2**exponent, with scaled from 2**52 up to below 2**53
    exponent = need.bit_length() - capacity.bit_length() - 53
    scaled = quotient / Fraction(2) ** exponent
    if scaled >= 2**53:
        exponent += 1
        scaled /= 2
    assert 2**52 <= scaled < 2**53
    significand = floor(scaled)
    rest = scaled - significand
    half = Fraction(1, 2)
    if rest > half or (rest == half and significand % 2 == 1):
        significand += 1
    if significand == 2**53:
        significand = 2**52
        exponent += 1
    biased_exponent = exponent + 52 + 1023
    assert 1 <= biased_exponent <= 2046  # a normal f64
    bits = (biased_exponent << 52) | (significand - 2**52)
    # Cross-check: Python divides whole numbers with correct rounding.
    assert bits == int.from_bytes(struct.pack(">d", need / capacity), "big")
    return bits


@cache
def use_bits(need, capacity):
    assert 0 <= need < SIDE_LIMIT and 1 <= capacity < SIDE_LIMIT
    return nearest_f64_bits(need, capacity)


class Verdict(NamedTuple):
    holds: bool
    use: int  # the bit pattern of the f64


def verdict(need, capacity):
    """Holds when need is at most capacity; its use is need over capacity."""
    return Verdict(need <= capacity, use_bits(need, capacity))


# --- Self test: numbers -------------------------------------------------------


def self_test():
    # ties to even: they need a side of 2**53 or more (see the vectors of leaf 5)
    assert nearest_f64_bits(2**53 + 1, 1) == nearest_f64_bits(2**53, 1)
    assert nearest_f64_bits(2**53 + 3, 1) == nearest_f64_bits(2**53 + 4, 1)
    assert nearest_f64_bits(2**54 - 1, 1) == nearest_f64_bits(2**54, 1)
    assert nearest_f64_bits(1, 1) == 0x3FF0_0000_0000_0000
    assert nearest_f64_bits(0, 7) == 0
    assert [rounded_up(-3, 2), rounded_down(-3, 2), rounded_up(3, 2)] == [-1, -2, 2]
    assert [greatest_root(2, most) for most in (0, 1, 2, 7, 8, 9)] == [0, 0, 1, 1, 2, 2]
    assert [root_up(square) for square in (0, 1, 2, 4, 5, 24, 25, 26)] == [0, 1, 2, 2, 3, 5, 5, 6]
    assert root_up(10**18) == 10**9 and root_up(10**18 + 1) == 10**9 + 1
