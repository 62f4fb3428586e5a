"""Printing: texts that tell printing mistakes apart, and the steps of request S-7."""

from itertools import count, product

from model import judging
from model.arithmetic import greatest_root, rounded_down, rounded_up
from model.demand_3 import JUST_PAST, STEPPED
from model.fields import Anchors, field_in_range
from model.filling_in import shell_height
from model.refusals import D100
from model.tank_rules import BOLT_CHART, house_floor, resistance, shell_weight_on_rim, wind_moment
from vectors.judge_cases import (
    EXAMPLE, FIFTHS, SELF, TALL_FIFTHS, TALL_UPWARD, UPWARD, changed, course_changed, self_anchored,
    with_courses, with_widths,
)
from vectors.judge_equality import BREAKS
from vectors.judge_high_edges import (
    allowance_past_floor, on_edge, points_on_edges, seven_and_one_less,
)
from vectors.judge_lighter_tank import shaken_about, turning
from vectors.judge_need_steps import FLOORS_NEARED, UPRIGHT, on_first_of, on_point, plates_about
from vectors.leaf_points import beside
from vectors.marker_cases import CALM, LARGEST, LONGEST, SHORTEST, STORM, Case, whole
from vectors.need_points import (
    DOWN, LARGEST_BY_BOTH, LARGEST_BY_D100, UP, beside_step, of_mils, whole_mils,
)
from vectors.random_sheets import within
from vectors.scripts import subsets
from vectors.start_sheets import FULL_COURSES, widths_to
from vectors.version_1 import sheet_as_bytes

# --- Groups: texts that tell printing mistakes apart --------------------------


def telling(least, greatest):
    """Numbers in this range: powers of ten and their neighbours, no two digits alike, zeros
    inside, all digits alike."""
    numbers = {0}
    for digits in range(1, 11):
        power = 10**(digits - 1)
        numbers |= {*beside(power), 5 * power + 5, 7 * power, 10 * power - 1,
                    int("1234567890"[:digits]), int("9876543210"[:digits]), int("4" * digits)}
    return sorted(number for number in numbers if least <= number <= greatest)


def told_apart(n):
    """Each of n courses with a need, a required plate and a plate that no other number is."""
    courses = [(6_100 + 13 * k, 1_100 + 61 * k, 2 + 3 * k, 10_000 + 7 * k, 50 + k)
               for k in range(n)]
    sheet = with_courses(changed(EXAMPLE, D=240_000, W=7_000_000, N=70, B=250_000), courses)
    sheet = changed(sheet, H=shell_height(sheet))
    courses = judging.report_of(sheet, D100).courses
    numbers = [number for course in courses for number in course.plates()]
    assert len({*numbers}) == 3 * n, numbers
    return sheet


def course_counts():
    """One to twelve courses; up to the top and half way, and both ways of standing."""
    for n in range(1, 13):
        sheet = told_apart(n)
        differing = with_courses(changed(EXAMPLE, H=1_200, W=100_000), FULL_COURSES[:n])
        for one in (sheet, changed(sheet, H=sheet.tank.H // 2), differing):
            for base in (one, self_anchored(one)):
                yield whole(base, f"course {n}", "tank")


def telling_courses(most):
    """Needs up to the most, and c. The needs are telling numbers or, as S-7 has steps, those next
    to them; with the last of the allowances the required plates are just the telling ones."""
    plates = telling(250, most + 250)
    numbers = {*telling(0, most), *(plate - 250 for plate in plates)}
    needs = {beside_it(number) for number in numbers for beside_it in (DOWN, UP)}
    yield from product(sorted(needs), (0, 7, 250))
    for plate in plates:
        need = UP(plate - 250)
        yield need, plate - need


def needs_and_plates():
    """In course 2, where h is H less 1,200: s 10,000, E 50 and D 240,000 make it h 13 / 150."""
    base = with_widths(changed(EXAMPLE, D=240_000, B=240_000, W=1_000_000, s=10_000, E=50),
                       [1_200, *[12_600] * 6])
    for need, c in telling_courses(6_550):
        required = max(need + c, 313)
        for t in sorted({within(16, required), within(16, required - 1)}):
            word = "ok" if t >= required else "short"
            sheet = changed(base, H=1_200 + 150 * need // 13, c=c, t=2_000)
            yield whole(course_changed(sheet, 2, t=t), f"course 2 {need} {required} {t} {word}")


def plates():
    """In the last of three courses, to which the water does not reach."""
    thicknesses = {*telling(100, 2_000), *beside(188), *beside(250), *beside(313), 1_999, 2_000}
    for D, floor in ((14_400, 188), (100_000, 250), (240_000, 313)):
        base = changed(EXAMPLE, D=D, B=240_000, H=9_600, W=1_000_000)
        for t in sorted(thicknesses):
            word = "ok" if t >= floor else "short"
            yield whole(course_changed(base, 3, t=t), f"course 3 0 {floor} {t} {word}")


PRESSURES = (       # Kz, I, V, p; no site has 5,999
    (50, 100, 60, 1_800), (50, 110, 146, 1_801), (52, 119, 145, 1_999), (54, 123, 140, 2_000),
    (51, 115, 149, 2_001), (55, 125, 149, 2_345), (77, 124, 143, 2_999), (70, 124, 150, 3_000),
    (77, 119, 146, 3_001), (86, 108, 150, 3_210), (133, 109, 134, 3_999), (103, 117, 147, 4_000),
    (98, 123, 147, 4_001), (99, 117, 150, 4_004), (128, 113, 150, 4_999), (127, 117, 148, 5_000),
    (131, 115, 147, 5_001), (134, 112, 148, 5_050), (140, 124, 150, 6_000),
    (145, 123, 148, 6_001), (150, 125, 150, 6_480),
)


def pressures():
    """p has four digits always: the least, the greatest, round ones and their neighbours."""
    for (Kz, I, V, p), base in product(PRESSURES, (EXAMPLE, SELF)):
        yield whole(changed(base, Kz=Kz, I=I, V=V), f"wind {p}")


def shell_of(Hs):
    return widths_to(Hs, rounded_up(Hs, 14_000))


def wind_for(M):
    """A site's wind that some tank has this moment in, and its p."""
    return (CALM, 1_800) if M <= 7_000_000 else (STORM, 6_480)


def sheet_of_moment(M):
    """The lowest shell on which some D has this moment."""
    wind, p = wind_for(M)
    lowest = greatest_root(p * 240_000, M * 345_600_000_000)
    for Hs in count(max(lowest, 1_200)):
        D = rounded_down(M * 345_600_000_000, p * Hs * Hs)
        if field_in_range(1, D) and wind_moment(p, D, Hs) == M:
            return changed(with_widths(SELF, shell_of(Hs)), D=D, H=1_200, **wind)


def moments():
    """From 90, on the smallest tank, to 26,542,080 on the largest."""
    for M in (90, *telling(90, 26_000_000)):
        _wind, p = wind_for(M)
        yield whole(sheet_of_moment(M), f"wind {p} {M}")
    yield whole(LARGEST, "course 1 6660 6910 2000 short", "wind 6480 26542080")


def sheet_of_resistance(T):
    """The least D that has this T by some W and Av; tb is 1, so that wL is 136."""
    for D in count(max(rounded_up(T, 2_600), 12_000)):
        on_rim = rounded_up(144_000_000 * T, D * D)
        if resistance(D, on_rim, 0) != T:
            continue
        wt = on_rim - 136
        for Av in range(501):
            W = rounded_up(wt * 710_000 * D, 2_712_000 * (10_000 - 4 * Av))
            if field_in_range(3, W) and shell_weight_on_rim(W, Av, D) == wt:
                return changed(SELF, D=D, H=1_200, W=W, plate=100, allowance=99, Fy=30_000, Av=Av)


def resistances():
    """From 138 to 919,258,400; lift by an earthquake moment of 0, T and 2 T."""
    for T in (138, *telling(138, 500_000_005)):
        sheet = sheet_of_resistance(T)
        for Ms, lift in ((0, "none"), (T, "lift"), (2 * T, "over")):
            if field_in_range(11, Ms):
                yield whole(changed(sheet, Ms=Ms), f"resist {T} {lift}")
    most = changed(self_anchored(LARGEST), W=10_000_000, Av=0, allowance=0)
    yield whole(most, "resist 919258400 lift")


def pulled(wind, earthquake):
    """A sheet with these two pulls, or None; nothing in them is rounded. Av is 500 or, where the
    tank would be too light for them, 0."""
    for Av, (sheet, upward) in product((500, 0), ((FIFTHS, UPWARD), (TALL_FIFTHS, TALL_UPWARD))):
        W = upward - 6 * wind
        Ms = 15 * earthquake + W // 2 * (2_500 - Av) // 500     # W is even
        if field_in_range(3, W) and field_in_range(11, Ms):
            return changed(sheet, W=W, Av=Av, Ms=Ms)
    return None


def pulls():
    """Every length with either sign, and 0, in both places; alike, and of different sign."""
    for number, sign in product(telling(0, 55_000_000), (1, -1)):
        pull = sign * number
        for wind, earthquake in ((pull, 0), (0, pull), (pull, pull), (pull, -pull),
                                 (pull, pull + 1), (pull, -1)):
            sheet = pulled(wind, earthquake)
            if sheet is not None:
                yield whole(sheet, f"pull {wind} {earthquake}")
    light = changed(TALL_FIFTHS, D=14_400, B=14_400, W=1, **STORM)
    yield whole(changed(light, Ms=1_000_000_000), "pull 88474 55555556")
    small = changed(EXAMPLE, D=12_000, B=12_000, W=1, Ms=1_000_000_000)
    yield whole(small, "pull 4077 66666667")
    heavy = changed(with_widths(EXAMPLE, [1_200]), H=1_200, D=12_000, B=300_000, W=10_000_000,
                    Ms=0, **CALM)
    yield whole(changed(heavy, Av=0), "pull -1666666 -1666666")
    yield whole(changed(heavy, Av=500), "pull -1666666 -1333333")


def accelerations():
    """The example tank, the second pull of which goes from below 0 to above; then tanks whose
    second pull comes to be the larger one, and more than the bolts bear."""
    for Av, pull in ((0, -211), (1, -210), (26, -192), (27, -191), (28, -191), (250, -28),
                     (286, -1), (287, -1), (288, 0), (289, 1), (499, 155), (500, 155)):
        yield whole(changed(EXAMPLE, Av=Av), f"pull 2133 {pull}", "tank sound")
    for d, most, W in ((6, 6_663, 328_662), (8, 12_089, 296_106), (16, 49_875, 69_390)):
        sheet = turning(changed(TALL_FIFTHS, d=d, W=W), most, 250)
        for Av, shaken in shaken_about(sheet, 250):
            strength, word = ("ok", "sound") if Av < 250 else ("short", "short")
            yield whole(shaken, f"pull {most}", f"anchors spacing ok strength {strength}",
                        f"tank {word}")


def courses_in_turn():
    """Each of one to twelve courses the only one that is short, and the only one that is not."""
    for n in range(1, 13):
        for base in (EXAMPLE, SELF):
            sound = with_widths(changed(base, H=1_200, W=100_000), [2_400] * n)
            yield whole(sound, "tank sound")
            others_short = changed(sound, t=187)
            for number in range(1, n + 1):
                need = 5 if number == 1 else 0
                yield whole(course_changed(sound, number, t=187),
                            f"course {number} {need} 188 187 short", "tank short")
                if n > 2:
                    yield whole(course_changed(others_short, number, t=188),
                                f"course {number} {need} 188 188 ok", "tank short")


def standings_in_turn():
    """Each verdict ok and short with each other's; with lift none, lift and over."""
    for course in (250, 187):
        sound = "sound" if course == 250 else "short"
        standing = course_changed(SELF, 2, t=course)
        weights = ((18_345, "ok resist 122400"), (18_342, "short resist 122388"))
        quakes = ((0, "none"), (30_000, "none"), (150_000, "lift"), (200_000, "over"))
        for (W, wind), (Ms, lift) in product(weights, quakes):
            word = "short" if W == 18_342 or lift == "over" else sound
            yield whole(changed(standing, W=W, Ms=Ms), f"self wind {wind} {lift}", f"tank {word}")
        for short in subsets(("spacing", "strength")):
            sheet = course_changed(EXAMPLE, 2, t=course)
            for rule in short:
                sheet = BREAKS[rule](sheet)
            spacing, strength = ("short" if rule in short else "ok"
                                 for rule in ("spacing", "strength"))
            yield whole(sheet, f"anchors spacing {spacing} strength {strength}",
                        f"tank {'short' if short else sound}")


def longest_and_shortest():
    yield whole(LONGEST, "course 12 1250 1250 1000 short", "wind 6480 26542080",
                "pull -1078193 2179267", "anchors spacing short strength short", "tank short")
    yield whole(SHORTEST, "course 1 5 188 250 ok", "wind 1800 90", "self wind ok resist",
                "tank sound")
    for letter, figures in (("d", (7, 16)), ("N", (7, 10, 63)), ("t", (100, 999, 1_001, 2_000)),
                            ("Ms", (0, 1_000, 420_000_000)), ("W", (1, 600_000, 10_000_000)),
                            ("E", (51, 99, 100)), ("V", (60, 100)), ("H", (1_200, 62_400))):
        for figure in figures:
            yield whole(changed(LONGEST, **{letter: figure}), "tank short")
    for letter, figures in (("W", (1, 26, 28, 400)), ("Ms", (0, 200, 1_000)), ("t", (187, 1_000)),
                            ("D", (13_333, 13_334)), ("E", (50, 100)), ("V", (120, 150))):
        for figure in figures:
            yield whole(changed(SHORTEST, **{letter: figure}), "tank")
    yield Case(sheet_as_bytes(self_anchored(LONGEST)))
    yield Case(sheet_as_bytes(self_anchored(LARGEST)))
    for d in BOLT_CHART:
        yield Case(sheet_as_bytes(SHORTEST._replace(anchors=Anchors(N=6, B=12_000, d=d))))


# --- Groups: the steps of request S-7 -----------------------------------------


def at_required_and_less(sheet, number, need, c):
    """The lines of this course with what it requires and a mil less, or the least plate above c."""
    required = max(need + c, house_floor(sheet.tank.D))
    for t in plates_about(required, c):
        verdict, word = ("ok", "sound") if t >= required else ("short", "short")
        yield whole(course_changed(sheet, number, t=t, c=c),
                    f"course {number} {need} {required} {t} {verdict}", f"tank {word}")


def needs_beside_steps():
    """Exact ones just below a step, at it and just above, and one to four mils past it."""
    needs = [pair for step in (5, 10, 60, 125, 185, 190, 250, 315, 1_000, 1_750)
             for pair in beside_step(step)]
    for place, (need, point) in enumerate((*needs, *whole_mils())):
        number, sheet = on_first_of(((1, 2), (2, 1))[place % 2], UPRIGHT, point, D100)
        c = min(max(house_floor(point.D) - need, 0) + 1 + place % 4, 250)
        yield from at_required_and_less(sheet, number, need, c)


def allowances_beside_floors():
    """The need with c is next to the floor, at it, and past it by one to four; the exact one is
    three mils short of it. Without a need, c alone is so."""
    for D, (_first, second, third, _last) in FLOORS_NEARED.items():
        house = house_floor(D)
        for need, past in product((second, third), range(-1, 5)):
            if need <= house + past:
                sheet = on_point(UPRIGHT, of_mils(need - 3, D), D100, 1)
                yield from at_required_and_less(sheet, 1, need, house + past - need)
        dry = changed(with_widths(UPRIGHT, [1_200, 1_200]), D=D, H=1_200, t=2_000)
        for c in (house - 4, *beside(house), 250):
            if c <= 250:
                yield from at_required_and_less(dry, 2, 0, c)


def short_by_a_step():
    """D 14,400, H 38,470, s 10,000, E 50: exactly 200.044. Then as little past a step as can be."""
    for sheet, need, c in ((STEPPED, 205, 0), (JUST_PAST, 180, 210)):
        yield from at_required_and_less(sheet, 1, need, c)


def largest_needs():
    for (need, point), c in product((*LARGEST_BY_BOTH, *LARGEST_BY_D100), (3, 250)):
        yield whole(course_changed(on_point(UPRIGHT, point, D100, 1), 1, c=c),
                    f"course 1 {need} {need + c} 2000 short", "tank short")


HIGH_EDGES = (60_001, 65_535, 65_536, 72_000, 75_600)


def high_edges_at_steps():
    """Some of those judged; then the first seven."""
    of_some = [one for one in points_on_edges(D100) if one[0] in HIGH_EDGES]
    for place, (edge, below, need, point) in enumerate(of_some):
        sheet = on_edge(UPRIGHT, edge, below, point, D100)
        c = allowance_past_floor(need, point.D, 1 + place % 4)
        yield from at_required_and_less(sheet, below + 1, need, c)
    of_first = [one for one in seven_and_one_less() if one[0] == D100][:8]
    for _method, sheet, needs, thinner in of_first:
        lines = []
        for number, need in needs.items():
            t = sheet.courses[number - 1].t
            required, verdict = (t + 1, "short") if number == thinner else (t, "ok")
            lines.append(f"course {number} {need} {required} {t} {verdict}")
        yield whole(sheet, *lines, f"tank {'sound' if thinner is None else 'short'}")
