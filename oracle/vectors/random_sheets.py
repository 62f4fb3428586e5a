"""Random sheets for judging, drawn so that most checks are at equality or close to it.

Each rule is met by nothing or by little; those asked to be broken are missed by little, as far
as the ranges let them be. The courses' rule is that of the method handed in, and the tank holds
water, if no other gravity is handed in (S-8). Document 01's letters; every draw comes from the rng
handed in.
"""

from model.arithmetic import rounded_down, rounded_up
from model.fields import FIELD_RANGES, WATER, Anchors, Course, Site, Tank
from model.filling_in import SELF_ANCHORED, sheet_of
from model.refusals import API_650, D100, MOST_COURSES, MOST_SHELL_HEIGHT
from model.tank_rules import (
    BOLT_CHART, FOOT, STANDARD_I, STANDARD_KZ, bolt_area, course_head, hoop_head, hoop_need,
    required_plate, resistance, shell_weight_on_rim, water_on_rim, weight_in_earthquake,
    wind_moment, wind_pressure,
)

MOST_NEED = 1_750       # a step of S-7's; leaves room for an allowance in the greatest plate
SELF_RULES = ("course", "wind", "earthquake")
ANCHORED_RULES = ("course", "spacing", "wind pull", "earthquake pull")
NEED_STARTS = {D100: 0, API_650: FOOT}      # with the water this far above the edge


def within(field, figure):
    """The figure, or the end of the field's range that it is past."""
    least, greatest = FIELD_RANGES[field]
    return min(max(figure, least), greatest)


def even(rng, field):
    return rng.randint(*FIELD_RANGES[field])


def little(rng, most):
    """Nothing, next to nothing, or anything up to the most."""
    return rng.choice((0, 0, 1, 2, rng.randint(0, max(most, 0))))


def broken_rules(rng, rules):
    """None of them in half of all draws, else one or two."""
    return rng.sample(rules, rng.choice((0, 0, 1, 2)))


# --- Tank, site and shell -----------------------------------------------------


def diameter(rng):
    """At and beside the floor's boundaries, small, or anything."""
    return rng.choice((rng.choice((60_000, 60_001, 144_000, 144_001)), rng.randint(12_000, 30_000),
                       rng.randint(12_000, 100_000), even(rng, 1)))


def widths(rng):
    n = rng.randint(1, MOST_COURSES)
    widest = min(14_400, MOST_SHELL_HEIGHT // n)
    if rng.random() < 0.4:
        return [rng.randint(1_200, widest)] * n
    return [rng.randint(1_200, widest) for _ in range(n)]


def water_level(rng, course_widths, method):
    """At the top, at and beside where a course's need starts, or anything up to the top."""
    Hs = sum(course_widths)
    edge = sum(course_widths[:rng.randint(1, len(course_widths))])
    levels = (Hs, edge + NEED_STARTS[method] + rng.choice((-1, 0, 1)), rng.randint(1_200, Hs),
              rng.randint(1_200, Hs))
    return min(max(rng.choice(levels), 1_200), Hs)


def bottom(rng):
    """Plate, allowance and yield, by their names; at times there is next to nothing left of the
    plate."""
    plate = even(rng, 4)
    most = min(250, plate - 1)
    return {"plate": plate, "allowance": rng.choice((0, most, rng.randint(0, most))),
            "Fy": even(rng, 6)}


def wind_figures(rng):
    """V, Kz and I, by their names."""
    standard = {"V": even(rng, 7), "Kz": STANDARD_KZ, "I": STANDARD_I}
    return rng.choice((standard, {"V": even(rng, 7), "Kz": even(rng, 8), "I": even(rng, 9)}))


def moment_of(wind, D, course_widths):
    """M."""
    p = wind_pressure(wind["Kz"], wind["I"], wind["V"])
    return wind_moment(p, D, sum(course_widths))


# --- Courses ------------------------------------------------------------------


def stress_and_efficiency(rng, h, D, gravity):
    """Such that a plate in range can do; h as the method has it."""
    while True:
        s, E = even(rng, 18), even(rng, 19)
        if hoop_need(h, D, s, E, gravity) <= MOST_NEED:
            return s, E


def course(rng, D, h, width, gravity, broken):
    s, E = stress_and_efficiency(rng, h, D, gravity)
    c = rng.choice((0, 0, even(rng, 17)))
    required = required_plate(hoop_need(h, D, s, E, gravity), c, D)
    t = required - 1 - little(rng, 5) if broken else required + little(rng, 40)
    return Course(width=width, t=within(16, max(t, c + 1)), c=c, s=s, E=E)


def courses(rng, D, H, course_widths, method, gravity, broken):
    """At most one of them broken."""
    wrong = rng.randrange(len(course_widths)) if broken else None
    edge = 0
    for place, width in enumerate(course_widths):
        h = hoop_head(method, course_head(H, edge))
        yield course(rng, D, h, width, gravity, place == wrong)
        edge += width


# --- Both ways of standing ----------------------------------------------------


def self_weight(rng, M, D, broken):
    least = rounded_up(3_600 * M, D)
    return within(3, least - 1 - little(rng, 9) if broken else least + little(rng, least))


def earthquake_moment(rng, T, broken):
    """Close to one of the boundaries of lift."""
    most = rounded_down(1_540 * T, 1_000)
    if broken:
        return within(11, most + 1 + little(rng, 9))
    lift_starts = rounded_down(785 * T, 1_000) + 1
    return within(11, rng.choice((most - little(rng, most), lift_starts - little(rng, 3))))


def circle_and_anchors(rng, D, broken):
    """B and N; least is the fewest anchors that B allows."""
    B = within(13, D + rng.choice((0, rng.randint(0, 2_000), rng.randint(0, 60_000))))
    least = max(6, rounded_up(355 * B, 1_356_000))
    if broken:
        N = max(6, least - 1)
        return max(B, rounded_down(1_356_000 * N, 355) + 1), N
    N = least + little(rng, 20)
    widest = within(13, rounded_down(1_356_000 * N, 355))
    return rng.choice((B, B, widest)), N


def most_borne(d):
    """The greatest whole pull that a bolt of this size bears."""
    return rounded_down(19_950 * bolt_area(d), 1_000)


def pull_aimed_at(rng, most, broken):
    """The most that the bolt bears, around 0, or anything."""
    if broken:
        return most
    return rng.choice((most, most - little(rng, most), little(rng, 2), -little(rng, most),
                       rng.randint(-most, most)))


def self_anchored_sheet(rng, method=D100, gravity=WATER):
    broken = broken_rules(rng, SELF_RULES)
    D, course_widths = diameter(rng), widths(rng)
    H, of_bottom = water_level(rng, course_widths, method), bottom(rng)
    wind = wind_figures(rng)
    Av = rng.choice((0, even(rng, 10)))
    W = self_weight(rng, moment_of(wind, D, course_widths), D, "wind" in broken)
    tank = Tank(D=D, H=H, W=W, **of_bottom, gravity=gravity)
    wL = water_on_rim(tank.plate - tank.allowance, tank.Fy, H, D, gravity)
    T = resistance(D, shell_weight_on_rim(W, Av, D), wL)
    Ms = earthquake_moment(rng, T, "earthquake" in broken)
    shell = list(courses(rng, D, H, course_widths, method, gravity, "course" in broken))
    return sheet_of(tank, Site(**wind, Av=Av, Ms=Ms), SELF_ANCHORED, shell)


def anchored_sheet(rng, method=D100, gravity=WATER):
    broken = broken_rules(rng, ANCHORED_RULES)
    D, course_widths = diameter(rng), widths(rng)
    H, of_bottom = water_level(rng, course_widths, method), bottom(rng)
    wind = wind_figures(rng)
    M = moment_of(wind, D, course_widths)
    B, N = circle_and_anchors(rng, D, "spacing" in broken)
    d = rng.choice(list(BOLT_CHART))
    most = most_borne(d)
    aims = [pull_aimed_at(rng, most, f"{name} pull" in broken) for name in ("wind", "earthquake")]
    W = within(3, rounded_up(4_800 * M - N * B * aims[0], B) - ("wind pull" in broken))
    shell = list(courses(rng, D, H, course_widths, method, gravity, "course" in broken))
    Av = even(rng, 10)
    upward = N * aims[1] + weight_in_earthquake(W, Av)      # 4,800 Ms / B
    Ms = within(11, rounded_down(upward * B, 4_800) + ("earthquake pull" in broken))
    return sheet_of(Tank(D=D, H=H, W=W, **of_bottom, gravity=gravity),
                    Site(**wind, Av=Av, Ms=Ms), Anchors(N=N, B=B, d=d), shell)
