"""Leaf 9, the last rounding of request S-9: `9 NUMBER`, the root of an unsigned 64-bit number, rounded
up. But for random ones the root is said by hand, with the number or by what the number is made from.
"""

from functools import cache
from itertools import chain
from math import ceil, floor, isqrt, sqrt
from random import Random

from model.arithmetic import root_up
from model.slender import MOST_MOMENT
from vectors.leaf_points import HALF, U64, beside

ROOT_LEAF = 9
MOST_ROOT = HALF                # of 2^64 - 1
LAST_WHOLE = HALF - 1           # the last one whose square is in U64
NUMBER_BITS = range(6, 65)     # of a random number; those of fewer are all asked
ROOT_BITS = range(6, 33)       # of the root of a random square
NUMBERS, SQUARES = 200, 100     # at random

# --- Small ones and squares: numbers with their roots -------------------------


def counted():
    """0 to 36."""
    yield 0, 0
    for n in range(1, 7):
        for number in range((n - 1) ** 2 + 1, n * n + 1):
            yield number, n


def around(n):
    """The square with one less and one more, of 2 or more."""
    return zip(beside(n * n), (n, n, n + 1))


def powers():
    """Of 2 and 10, with the roots next to them."""
    for power in (*(2**bits for bits in range(1, 33)), *(10**digits for digits in range(1, 10))):
        for n in beside(power):
            if 2 <= n <= LAST_WHOLE:
                yield from around(n)


WIDTHS = {      # bits, and the root of the number that needs one more
    31: 46_341, 32: 65_536, 53: 94_906_266, 63: 3_037_000_500,
}


def widths():
    """Where an f64 or a narrower or a signed type ends; the squares before and after that."""
    for bits, root in WIDTHS.items():
        last, first, next_one = beside(2**bits)
        yield from ((last, root), (first, root), (next_one, root + (bits == 32)))
        yield from (*around(root - 1), *around(root))


# --- 10^18, and the largest ---------------------------------------------------


def most_moments():
    """10^18, and up to 1,000,000,001 less and more; an f64 has every 128th number above it."""
    square = MOST_MOMENT**2
    for apart in (*range(13), *beside(64), *beside(128), *beside(192), *beside(10**9)):
        yield square - apart, MOST_MOMENT
        yield square + apart, MOST_MOMENT + (apart > 0)
    for n in (MOST_MOMENT - 2, MOST_MOMENT + 2):
        yield from around(n)


def largest():
    """Around the last square, 2^33 - 2 below the last number; from the last number down."""
    square = LAST_WHOLE**2
    for apart in (*range(13), *beside(1_024), *beside(2_048), *beside(2**32 - 2)):
        yield square - apart, LAST_WHOLE
        yield square + apart, LAST_WHOLE + (apart > 0)
    yield from around(LAST_WHOLE - 1)
    for below in (*range(1, 33), *(near for bits in range(6, 33) for near in beside(2**bits))):
        yield U64[1] + 1 - below, MOST_ROOT


# --- What a root by f64 gets wrong --------------------------------------------


def f64_root(number):
    return sqrt(float(number))


LEAST_WRONG_UP = 2**52 + 1                  # 2^26 by f64: below that square 1/(2n) is told
LEAST_WRONG_DOWN = (2**26 + 1) ** 2 - 1     # 2^26 + 1 by f64


def last_taken(n, sign):
    """The greatest distance from the square of n at which the f64 root is n still."""
    near, far = 0, n
    while far - near > 1:
        middle = (near + far) // 2
        near, far = (middle, far) if f64_root(n * n + sign * middle) == n else (near, middle)
    return near


def by_f64(rng):
    """The last numbers whose f64 root is a whole n though they are above or below its square, and
    those one past them."""
    usual = (2**26, 2**26 + 1, 2**26 + 2, 10**8, MOST_MOMENT, 3_037_000_499, LAST_WHOLE)
    drawn = (rng.randrange(2 ** (bits - 1), 2**bits) for bits in range(28, 33) for _ in range(4))
    for n in (*usual, *WIDTHS.values(), *drawn):
        above, below = (last_taken(n, sign) for sign in (1, -1))
        for apart in (above, above + 1):
            yield n * n + apart, n + (apart > 0)
        for apart in (below, below + 1):
            yield n * n - apart, n
    below = last_taken(MOST_ROOT, -1)
    yield from ((MOST_ROOT**2 - apart, MOST_ROOT) for apart in (below, below + 1))


# --- At random ----------------------------------------------------------------


def add_random_numbers(roots, rng):
    """As many new ones, each bit length in turn; nothing is said."""
    goal = len(roots) + NUMBERS
    while len(roots) < goal:
        bits = NUMBER_BITS[(goal - len(roots)) % len(NUMBER_BITS)]
        roots.setdefault(rng.randrange(2 ** (bits - 1), 2**bits))


def add_random_squares(roots, rng):
    """As many new ones with those beside, each bit length of the root in turn."""
    left = SQUARES
    while left:
        bits = ROOT_BITS[left % len(ROOT_BITS)]
        n = rng.randrange(2 ** (bits - 1), 2**bits)
        if n * n not in roots:
            roots.update(around(n))
            left -= 1


# --- The group ----------------------------------------------------------------


@cache
def by_hand():
    """Number to root."""
    return dict(chain(counted(), powers(), widths(), most_moments(), largest(),
                      by_f64(Random(ROOT_LEAF))))


@cache
def said_roots():
    """Number to root, or to None; in the order in which they are asked."""
    rng = Random(ROOT_LEAF)
    roots = dict(by_hand())
    add_random_numbers(roots, rng)
    add_random_squares(roots, rng)
    return roots


def root_line(number):
    return f"{ROOT_LEAF} {number}"


def root_lines():
    return [*map(root_line, said_roots())]


# --- Self test ----------------------------------------------------------------


def unless_square(n, number):
    return n if n * n == number else n + 1


ASTRAY = {      # roots that are not the right one
    "down": isqrt,
    "one more always": lambda number: isqrt(number) + 1,
    "to the nearest": lambda number: (isqrt(4 * number) + 1) // 2,
    "f64 up": lambda number: ceil(f64_root(number)),
    "f64 down, one more unless a square":
        lambda number: unless_square(floor(f64_root(number)), number),
    "f64 to the nearest, one more unless a square":
        lambda number: unless_square(round(f64_root(number)), number),
    "f64 down, one more if its square in 64 bits is below":
        lambda number: floor(f64_root(number)) + (floor(f64_root(number)) ** 2 % 2**64 < number),
    "number in 32 bits": lambda number: root_up(number % 2**32),
    "number in 53 bits": lambda number: root_up(number % 2**53),
    "number in 63 bits": lambda number: root_up(number % 2**63),
    "root in 31 bits": lambda number: root_up(number) % 2**31,
    "root in 32 bits": lambda number: root_up(number) % 2**32,
    "root up to 2^32 - 1": lambda number: min(root_up(number), LAST_WHOLE),
}


def check_least():
    """By whole numbers, of every answer; and what is said of it."""
    for number, said in said_roots().items():
        n = root_up(number)
        assert U64[0] <= number <= U64[1] and 0 <= n <= MOST_ROOT, number
        assert n * n >= number and (n == 0 or number > (n - 1) * (n - 1)), number
        assert said in (n, None), (number, said)
    made = chain(counted(), powers(), widths(), most_moments(), largest(),
                 by_f64(Random(ROOT_LEAF)))
    assert all(root_up(number) == said for number, said in made)


def check_numbers():
    """All that the group is there for."""
    roots = said_roots()
    assert {*range(37), 10**18, LAST_WHOLE**2, U64[1]} <= {*roots}
    assert sum(said is None for said in roots.values()) == NUMBERS
    at_random = [number for number, said in roots.items() if said is None]
    assert {number.bit_length() for number in at_random} == {*NUMBER_BITS}
    squares = [n for n in map(isqrt, roots) if {*beside(n * n)} <= {*roots}]
    assert {n.bit_length() for n in squares} == {*range(1, 33)}
    assert sum(said == MOST_ROOT for said in roots.values()) >= 100


def check_f64():
    """The least that it gets wrong, and many others; on one side of a square as on the other."""
    for number, name in ((LEAST_WRONG_UP, "f64 up"),
                         (LEAST_WRONG_DOWN, "f64 down, one more unless a square")):
        wrong = [one for one in by_hand() if ASTRAY[name](one) != root_up(one)]
        assert min(wrong) == number and len(wrong) >= 50, (name, min(wrong), len(wrong))
    assert last_taken(2**26, 1) == 1 and last_taken(2**26 - 1, 1) == 0
    assert last_taken(MOST_ROOT, -1) == 1_024


def check_astray():
    """Each is told apart by numbers that are not at random."""
    for name, root in ASTRAY.items():
        apart = sum(root(number) != root_up(number) for number in by_hand())
        assert apart >= 30, (name, apart)


def self_test():
    check_least()
    check_numbers()
    check_f64()
    check_astray()
