"""Readings of request S-6: the right one, written a second time, and those that go astray."""

from fractions import Fraction
from math import ceil, floor

from model import compression
from model.compression import CHART, F_L, MOST_ELASTIC, MOST_INELASTIC
from model.filling_in import shell_height
from vectors.compression_cases import figures_on

# --- Readings of S-6, the right one and those that go astray ------------------


def own_net(sheet):
    return figures_on(sheet).t


def left_of(plate, allowance):
    """Where nothing is left it is no reading."""
    return max(plate - allowance, 1)


def left_of_course(course):
    return left_of(course.t, course.c)


def class_1(ratio):
    controls = "elastic" if ratio <= MOST_ELASTIC else \
        "inelastic" if ratio <= MOST_INELASTIC else "plastic"
    return F_L[controls](ratio)


def class_2(ratio):
    if ratio <= Fraction("0.0035372"):
        return F_L["elastic"](ratio)
    return 6_925 + 886_000 * ratio if ratio <= MOST_INELASTIC else Fraction(18_000)


def equality_inelastic(ratio):
    return F_L["inelastic"](ratio) if ratio == MOST_ELASTIC else class_1(ratio)


def plain_elastic(ratio):
    return 1_750_000 * ratio if ratio <= MOST_ELASTIC else class_1(ratio)


def by_power_rule(i):
    """The entry that the chart would have if it went on."""
    least, greatest = 0, 10**9
    while least < greatest:
        middle = (least + greatest + 1) // 2
        if 10**9 * middle**25 <= 72**25 * i**21:
            least = middle
        else:
            greatest = middle - 1
    return least


def stress_read(sheet, t, reduced_by, circle, factor, weight, rounding):
    D, Av, Ms = sheet.tank.D, sheet.site.Av, sheet.site.Ms
    wt = weight(sheet.tank.W / (circle * Fraction(D, 1_200)))
    by_moment = Fraction(factor) * Ms * 1_440_000 / (D * D)
    upward = wt * (1 + Fraction(reduced_by) * Av / 1_000) + by_moment
    return rounding(upward * 1_000 / (12 * t))


def allowed_read(sheet, t, of_diameter, of_ratio, water, modulus, place, chart, helped, safety,
                 seismic, level, parts, rounding):
    ratio = Fraction(t, 1_000) / (Fraction(sheet.tank.D, 100) * of_diameter)
    i = place(10_000 * Fraction(water) * Fraction(level(sheet), 1_200) / modulus / ratio**2)
    e = chart(i) if helped(figures_on(sheet).anchored) else 0
    by_pressure = Fraction(e, 100_000) * modulus * ratio / safety
    return rounding(Fraction(seismic) * (parts(of_ratio(ratio)) + parts(by_pressure)))


def exactly(figure):
    return figure


def without_anchors(anchored):
    return not anchored


def water_of(sheet):
    return sheet.tank.H


STRESS_PARTS = {"reduced_by": Fraction("0.4"), "circle": Fraction(355, 113),
                "factor": Fraction("1.273"),
                "weight": exactly, "rounding": ceil}
ALLOWED_PARTS = {"of_diameter": Fraction(1, 2), "of_ratio": class_1,
                 "water": Fraction("0.433"),
                 "modulus": 29_000_000, "place": floor, "chart": compression.entry,
                 "helped": without_anchors, "safety": 2, "seismic": Fraction("1.333"),
                 "level": water_of,
                 "parts": exactly, "rounding": floor}


def read_as(sheet, net=own_net, stress=(), allowed=()):
    """Stress and allowed stress, if these parts of them are read so."""
    t = net(sheet)
    return stress_read(sheet, t, **{**STRESS_PARTS, **dict(stress)}), \
        allowed_read(sheet, t, **{**ALLOWED_PARTS, **dict(allowed)})


def read_astray(asked, net=None, stress=(), allowed=()):
    """The same, where what is read right is taken from the reply."""
    t = (net or own_net)(asked.sheet)
    return (stress_read(asked.sheet, t, **{**STRESS_PARTS, **dict(stress)})
            if net or stress else asked.reply.stress,
            allowed_read(asked.sheet, t, **{**ALLOWED_PARTS, **dict(allowed)})
            if net or allowed else asked.reply.allowed)


ASTRAY = {
    "the plate without its allowance off": {"net": lambda sheet: sheet.courses[0].t},
    "the bottom plate's allowance":
        {"net": lambda sheet: left_of(sheet.courses[0].t, sheet.tank.allowance)},
    "the bottom plate": {"net": lambda sheet: left_of(sheet.tank.plate, sheet.tank.allowance)},
    "the last course": {"net": lambda sheet: left_of_course(sheet.courses[sheet.count - 1])},
    "the thinnest course": {"net": lambda sheet: min(map(left_of_course,
                                                         sheet.courses[:sheet.count]))},
    "wt reduced": {"stress": {"reduced_by": "-0.4"}},
    "all of Av": {"stress": {"reduced_by": "1"}},
    "no Av": {"stress": {"reduced_by": "0"}},
    "22/7": {"stress": {"circle": Fraction(22, 7)}},
    "a closer circle": {"stress": {"circle": Fraction(314_159_265_358_979, 10**14)}},
    "1.2732": {"stress": {"factor": "1.2732"}},
    "4 over the circle": {"stress": {"factor": Fraction(4 * 113, 355)}},
    "wt in hundredths": {"stress": {"weight": lambda wt: Fraction(floor(100 * wt), 100)}},
    "wt whole": {"stress": {"weight": ceil}},
    "stress rounded down": {"stress": {"rounding": floor}},
    "stress to the nearest": {"stress": {"rounding": round}},
    "a psi past the whole stress": {"stress": {"rounding": lambda exact: floor(exact) + 1}},
    "D for R": {"allowed": {"of_diameter": 1}},
    "class 2": {"allowed": {"of_ratio": class_2}},
    "equality inelastic": {"allowed": {"of_ratio": equality_inelastic}},
    "elastic without its square": {"allowed": {"of_ratio": plain_elastic}},
    "62.4 pounds": {"allowed": {"water": Fraction("62.4") / 144}},
    "0.434": {"allowed": {"water": "0.434"}},
    "30,000,000": {"allowed": {"modulus": 30_000_000}},
    "argument rounded up": {"allowed": {"place": ceil}},
    "argument to the nearest": {"allowed": {"place": round}},
    "argument below the whole one": {"allowed": {"place": lambda exact: max(ceil(exact) - 1, 0)}},
    "argument of 32 bits": {"allowed": {"place": lambda exact: floor(exact) % 2**32}},
    "entry rounded up": {"allowed": {"chart": lambda i: compression.entry(i) + (i > 0)}},
    "the chart up to 639": {"allowed": {"chart": lambda i: compression.entry(min(i, 639))}},
    "the power rule past 640": {"allowed": {"chart": by_power_rule}},
    "nothing past 640": {"allowed": {"chart": lambda i: CHART[i] if i <= 640 else 0}},
    "help for all": {"allowed": {"helped": lambda _anchored: True}},
    "help for the anchored": {"allowed": {"helped": lambda anchored: anchored}},
    "help for none": {"allowed": {"helped": lambda _anchored: False}},
    "no safety factor": {"allowed": {"safety": 1}},
    "four thirds": {"allowed": {"seismic": Fraction(4, 3)}},
    "1.33": {"allowed": {"seismic": "1.33"}},
    "no increase": {"allowed": {"seismic": 1}},
    "Hs for H": {"allowed": {"level": shell_height}},
    "rounded in parts": {"allowed": {"parts": floor}},
    "allowed rounded up": {"allowed": {"rounding": ceil}},
    "allowed to the nearest": {"allowed": {"rounding": round}},
    "a psi short of the whole allowed": {"allowed": {"rounding": lambda exact: ceil(exact) - 1}},
}
