"""Edges of the leaves of plain arithmetic and of data: points at a whole quotient and beside it,
ranges, bolts, long divisions.
"""

from itertools import product

from model.arithmetic import greatest_root
from vectors.leaf_points import (
    EDGE_DRAWS, HALF, SIDE, SIGN, SIZE, U32, U64, WORD, beside, even_draw, from_one, small_draw,
)
from vectors.version_1 import FIELD_RANGES

# --- Edges of the arithmetic leaves -------------------------------------------


def division_edges(rng):
    """Whole quotients with one to either side, small and large; quotients near 1."""
    for draw in (even_draw, small_draw):
        for _ in range(EDGE_DRAWS):
            den = small_draw(rng, from_one(WORD))
            quotient = draw(rng, (0, WORD[1] // den))
            for num in beside(den * quotient):
                yield num, den
            for num in beside(den):
                yield num, den


def signed_division_edges(rng):
    for draw in (even_draw, small_draw):
        for _ in range(EDGE_DRAWS):
            den = small_draw(rng, from_one(SIZE))
            quotient = draw(rng, (0, SIZE[1] // den))
            for neg, size in product(SIGN, (0, *beside(den), *beside(den * quotient))):
                yield neg, size, den


def root_edges(rng):
    """Perfect squares and their neighbours, up to the largest."""
    for most in (7_800_000_000_000_000_000, 18_000_000_000_000_000_000, WORD[1]):
        for factor in (1, 2, 3, 12_000_000):
            n = greatest_root(factor, most)
            for square in (factor * n * n, factor * (n - 1) * (n - 1), most):
                for near in beside(square):
                    yield factor, near
        for _ in range(EDGE_DRAWS):
            factor = small_draw(rng, (1, most))
            n = even_draw(rng, (0, greatest_root(factor, most)))
            for near in beside(factor * n * n):
                yield factor, near


def middle_neighbour(capacity, shift, gap):
    """need with need * 2**shift = capacity * middle + gap, middle being half way between
    two neighbouring f64 (an odd whole number of 54 bits, over 2**shift); else None."""
    middle = -gap * pow(capacity, -1, 2**shift) % 2**shift
    if shift == 53:
        middle += 2**53
    if not 2**53 <= middle < 2**54:
        return None
    assert middle % 2 == 1 and (capacity * middle + gap) % 2**shift == 0
    return (capacity * middle + gap) // 2**shift


def quotient_edges(rng):
    """No exact tie exists here: it would be an odd whole number of 54 bits times a power
    of two, and that number would divide need, which is below 2**53. So these take the
    points nearest to a tie, on either side of it."""
    for draw in (even_draw, small_draw):
        for _ in range(2 * EDGE_DRAWS):
            capacity = draw(rng, SIDE) | 1
            for shift, gap in product((53, 54), (-1, 1)):
                need = middle_neighbour(capacity, shift, gap)
                if need is not None:
                    yield need, capacity
    top = SIDE[1]
    for near in (1, 2, 3, top // 2, top // 2 + 1, top // 2 + 2, top - 2, top - 1, top):
        yield near, near            # a use of 1
        yield near - 1, near        # just below 1
        yield near + 1, near        # just above 1
        yield near, top             # down to 1 over nearly 2**53
        yield near, top - 1
        yield top, near             # up to nearly 2**53
        yield top - 1, near
    for power in range(0, 53, 4):   # powers of two and the quotients beside them
        for near in beside(2**power):
            yield near, 2**power
            yield 2**power, near
            yield near, top
    for _ in range(EDGE_DRAWS):     # whole quotients with one to either side
        capacity = small_draw(rng, from_one(SIDE))
        quotient = even_draw(rng, (0, SIDE[1] // capacity))
        for need in beside(capacity * quotient):
            yield need, capacity


def signed_edges(_rng):
    for neg, size in product(SIGN, (0, 1, 9, 10, 11, 99, 100, 211, 2**31, 2**32, 2**62)):
        for near in beside(size):
            yield neg, near


# --- Edges of the data leaves -------------------------------------------------


def field_edges(_rng):
    fields = [*range(0, 22), U32[1]]
    for field in fields:
        figures = [*range(0, 6), U32[1]]
        for end in FIELD_RANGES.get(field, (6, 200)):
            figures += beside(end)
        for figure in figures:
            yield field, figure


def bolt_edges(_rng):
    for d in range(0, 34):
        yield (d,)


def refusal_edges(_rng):
    return ()


# --- Edges of the long divisions ----------------------------------------------

MOST_A, MOST_B = U64[1], U32[1]


def long_extremes():
    return ((0, 0, 1, 1), (0, MOST_B, MOST_B, MOST_B), (1, 0, 1, 7), (1, 1, 1, 1), (1, 1, 2, 1),
            (1, 1, MOST_B, MOST_B), (MOST_A, 1, 1, 1), (MOST_A, MOST_B, 1, 1),
            (MOST_A, MOST_B, MOST_B, 1), (MOST_A, MOST_B, MOST_B, MOST_B),
            (MOST_A, 1, MOST_B, MOST_B), (MOST_A, MOST_B, 1, 2))


def long_carries():
    """Between the halves of the product and of the quotient; whole quotients, and one past."""
    yield from ((HALF - 1, 1, 1, 1), (HALF, 1, 1, 1), (HALF - 1, HALF - 1, 1, 1),
                (HALF + 1, HALF - 1, 1, 3))
    for b, c, d in ((MOST_B, 65_537, 257), (35, 6, 5)):
        for a in beside(c * d * 123_456_789):
            yield a, b, c, d


def long_all_ones():
    """The low half of the quotient is all ones and something is left over, so that rounding up
    carries into the high one. No b is as large as c d."""
    for high, b, c, d in ((0, 1, 2**7, 2), (1, 1, 2, 1), (2, 1, 1, 3), (5, 10, 7, 9),
                          (2**20 - 1, 1, 2**11, 2), (2**31 - 1, MOST_B, 2**31, 3)):
        too_much = (high + 1) * HALF * c * d
        yield (too_much - 1) // b, b, c, d


def long_edges(_rng):
    yield from long_extremes()
    yield from long_carries()
    yield from long_all_ones()
