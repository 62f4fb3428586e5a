"""Request S-9: figures drawn at random, from a fixed seed. Most get a moment, of any size; the others
are 40, 44 or 45."""

from math import isqrt
from random import Random

from model.slender import MOST_MOMENT, RANGES, Figures, rounded
from vectors.leaf_points import U32, even_draw, small_draw
from vectors.leaf_slender_cases import (
    AT_RANDOM, LOWEST, Asked, answer_of, widest, with_turning,
)

COUNT = 2_000


def slender_tank(rng):
    """D and H of any size alike, as far as they are slender; shell and roof as they may stand on it."""
    draw = rng.choice((even_draw, small_draw))
    H = draw(rng, (LOWEST, 76_800))
    D = rng.choice((even_draw, small_draw))(rng, (12_000, widest(H)))
    Ws, Wr = (small_draw(rng, limits) for limits in (RANGES.Ws, RANGES.Wr))
    Xs, Xr = rng.choice(((H // 2, H), (even_draw(rng, (0, H)), even_draw(rng, RANGES.Xr))))
    return Figures(D, H, even_draw(rng, RANGES.gravity), Ws, Xs, Wr, Xr, 0, 0)


def usual(rng):
    return slender_tank(rng)._replace(Ai=even_draw(rng, RANGES.Ai), Ac=even_draw(rng, RANGES.Ac))


def weak(rng):
    """Accelerations of any bit length alike, 0 among them."""
    return slender_tank(rng)._replace(Ai=small_draw(rng, RANGES.Ai), Ac=small_draw(rng, RANGES.Ac))


def even(rng):
    """Every figure drawn evenly from its range, but for D."""
    figures = Figures(*(even_draw(rng, limits) for limits in RANGES))
    H = even_draw(rng, (LOWEST, 76_800))
    return figures._replace(D=even_draw(rng, (12_000, widest(H))), H=H)


def light(rng):
    """The smallest tanks, hardly shaken."""
    H = even_draw(rng, (LOWEST, rng.choice((LOWEST + 99, 12_000))))
    D = even_draw(rng, (12_000, widest(H)))
    Ai, Ac = (rng.choice((0, 1, rng.randint(2, 9))) for _ in range(2))
    return Figures(D, H, small_draw(rng, RANGES.gravity), rng.randint(1, 900), rng.randint(0, H),
                   rng.randint(1, 300), H, Ai, Ac)


def at_most(rng):
    """A moment of 1,000,000,000, a little more or a little less, by the weights of shell and roof."""
    Xs = even_draw(rng, (60_000, 76_799))
    tank = usual(rng)._replace(Xs=Xs, Xr=Xs + 1, Ai=rng.randint(960, 1_000))
    tank = tank._replace(D=even_draw(rng, (12_000, min(60_000, widest(tank.H)))))
    found = rounded(tank._replace(Ws=1, Xs=0, Wr=1, Xr=0))
    goal = isqrt((MOST_MOMENT + rng.randint(-3, 3))**2 - found.convective_moment**2)
    water = found.impulsive_moment
    return with_turning(tank, (goal - water) * 1_200_000 // tank.Ai)


def heavy(rng):
    """Shell and roof of four fifths of the greatest weight or more, high up: nearly all 45."""
    Ws, Wr = (even_draw(rng, (8_000_000, limits[1])) for limits in (RANGES.Ws, RANGES.Wr))
    Xs, Xr = (even_draw(rng, (70_000, limits[1])) for limits in (RANGES.Xs, RANGES.Xr))
    return usual(rng)._replace(Ws=Ws, Wr=Wr, Xs=Xs, Xr=Xr, Ai=even_draw(rng, (950, 1_000)))


def flat(rng):
    """Equality and one past it, or any D above."""
    H = even_draw(rng, (LOWEST, 76_800))
    D = rng.choice((widest(H) + 1, even_draw(rng, (widest(H) + 1, 240_000))))
    return usual(rng)._replace(D=D, H=H)


def far(rng):
    """One figure or more outside its range, near it or anywhere."""
    figures = rng.choice((usual, flat, even))(rng)
    for name in rng.sample(Figures._fields, rng.choice((1, 1, 1, 2, 3))):
        least, greatest = getattr(RANGES, name)
        below = [rng.randint(0, least - 1), least - 1] if least else []
        above = (greatest + 1, U32[1])
        outside = [greatest + 1, even_draw(rng, above), small_draw(rng, above)]
        figures = figures._replace(**{name: rng.choice(below + outside)})
    return figures


KINDS = {       # in a hundred
    usual: 36, weak: 19, even: 14, light: 6, at_most: 6, heavy: 7, flat: 6, far: 6,
}


def random():
    rng = Random(9)
    for kind in rng.choices([*KINDS], KINDS.values(), k=COUNT):
        yield Asked(kind(rng), AT_RANDOM)


GROUPS = (random,)


# --- Self test ----------------------------------------------------------------


def shares():
    """How many get a moment of so many digits, and how many each refusal."""
    found = {}
    for asked in random():
        answer = answer_of(asked.figures)
        word = f"{len(answer):2} digits" if answer.isdecimal() else answer
        found[word] = found.get(word, 0) + 1
    return dict(sorted(found.items()))


def self_test():
    found = shares()
    assert sum(found.values()) == COUNT
    assert sum(count for word, count in found.items() if "digits" in word) >= 1_500, found
    assert all(found[f"{digits:2} digits"] >= 50 for digits in range(3, 10)), found
    assert found[" 1 digits"] >= 5 and found[" 2 digits"] >= 1      # 0; 74 to 99
    assert all(found[f"refused {number} 0"] >= 100 for number in (40, 44, 45)), found
    close = [rounded(asked.figures).moment - MOST_MOMENT for asked in random()
             if answer_of(asked.figures) not in ("refused 40 0", "refused 44 0")]
    assert {-2, -1, 0, 1, 2} <= {*close}
