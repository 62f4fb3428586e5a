"""The leaves: single rules that test_leaves is asked about, `LEAF A B C D`.

Each leaf has the domain of its arguments, its answer, the documents' own figures for it (document
01's, those of leaf 23 as request S-7 changes them; S-2's for leaf 40, S-3's for leaf 50, S-5's for
leaves 51 and 52), and its edges: points at equality or at a whole quotient, which for leaf 21 is a
step of S-7's, with those one to either side.
"""

from fractions import Fraction
from typing import Callable, NamedTuple

from model import compression
from model.arithmetic import greatest_root, rounded_down, rounded_up, use_bits
from model.fields import field_in_range
from model.refusals import API_650, D100, refusal_at
from model.tank_rules import (
    bolt_area, course_head, course_verdict, hoop_need, house_floor, larger_pull, net_pull,
    required_plate, resistance, self_earthquake_verdict, self_wind_verdict, shell_weight_on_rim,
    spacing_verdict, strength_verdict, uplift, water_on_rim, water_on_rim_cap, water_on_rim_root,
    weight_in_earthquake, wind_moment, wind_pressure,
)
from vectors.leaf_edges_compression import allowed_edges, argument_edges, entry_edges
from vectors.leaf_edges_ground import ground_edges
from vectors.leaf_edges_numbers import (
    bolt_edges, division_edges, field_edges, long_edges, quotient_edges, refusal_edges, root_edges,
    signed_division_edges, signed_edges,
)
from vectors.leaf_edges_tank import (
    course_verdict_edges, floor_edges, head_edges, hoop_need_edges, larger_pull_edges, lift_edges,
    lighter_pull_edges, method_edges, net_pull_edges, pressure_edges, pulls_allowed, required_edges,
    resistance_edges, self_wind_edges, shell_weight_edges, spacing_edges, standard_site_edges,
    strength_edges, water_cap_edges, water_edges, water_root_edges, weight_left_edges,
    wind_moment_edges,
)
from vectors.leaf_points import (
    A, AV, B, B_FIELD, BYTE, C, CLASSES, COEFFICIENT, D, E, FY, H, HEIGHT, I, KZ, LEAST_PULL,
    MAPPED, MOMENT, MS, N, NEED, NET, P, PARTS, PLACES, PLATE, PULL, REQUIRED, S, SIDE, SIGN, SIZE,
    T, TB, U32, U64, V, W, WEIGHT_PARTS, WL, WORD, WT, ends, from_one, no_ends,
)
from vectors.leaf_texts import (
    decimal, ground_text, halves, hexadecimal, hoop_head_text, in_parts, refusal_text, signed,
    standard_site_text, verdict_text, yes_or_no,
)
from vectors.version_1 import FIELD_RANGES

RANDOM_POINTS = 220    # new ones for each leaf that does not say another number

# --- The leaves ---------------------------------------------------------------


class Leaf(NamedTuple):
    domain: tuple                               # the range of each argument
    answer: Callable                            # of the arguments: the line to be written
    figures: tuple                              # the documents' own
    edges: Callable                             # of the random numbers: points
    usual: tuple = ()                           # a part of the domain, for more random points
    random: int = RANDOM_POINTS                 # how many points from the whole of it
    allowed: Callable = lambda point: True      # where the ranges alone do not say it
    ends: Callable = ends                       # of a range: the figures that are combined


LEAVES = {
    1: Leaf(
        (WORD, from_one(WORD)),
        lambda num, den: decimal(rounded_down(num, den)),
        ((2_712_000 * 11_000 * 9_892, 710_000 * 14_400), (28_800 * 14_400, 11_250)),
        division_edges,
    ),
    2: Leaf(
        (WORD, from_one(WORD)),
        lambda num, den: decimal(rounded_up(num, den)),
        ((13 * 28_800 * 14_400, 72 * 15_000 * 85),
         (13 * 19_200 * 14_400, 72 * 15_000 * 85),
         (13 * 9_600 * 14_400, 72 * 15_000 * 85),
         (6 * 109 * 115 * 105 * 105, 390_625),
         (2_123 * 14_400 * 28_800 * 28_800, 345_600_000_000)),
        division_edges,
    ),
    3: Leaf(
        (SIGN, SIZE, from_one(SIZE)),
        lambda neg, size, den: decimal(rounded_up(signed(neg, size), den)),
        ((0, 4_800 * 73_371 - 11_000 * 14_800, 6 * 14_800),
         (1, 11_000 * 14_800 - 4_800 * 30_000, 6 * 14_800)),
        signed_division_edges,
    ),
    4: Leaf(
        (from_one(WORD), WORD),
        lambda factor, most: decimal(greatest_root(factor, most)),
        ((12_000_000, 6_241 * 250 * 250 * 36_000 * 28_800),),
        root_edges,
    ),
    5: Leaf(
        (SIDE, from_one(SIDE)),
        lambda need, capacity: hexadecimal(use_bits(need, capacity)),
        ((188, 250), (355 * 14_800, 1_356_000 * 6), (1_000 * 2_133, 19_950 * 606),
         (3_600 * 73_371, 11_000 * 14_400), (1_000 * 30_000, 1_540 * 94_646)),
        quotient_edges,
    ),
    6: Leaf(
        (SIGN, SIZE),
        lambda neg, size: decimal(signed(neg, size)),
        ((0, 2_133), (1, 211)),
        signed_edges,
    ),
    10: Leaf(
        (U32, U32),
        lambda field, figure: yes_or_no(field_in_range(field, figure)),
        ((1, 14_400), (2, 28_800), (3, 11_000), (4, 250), (5, 0), (6, 36_000), (7, 105),
         (8, 109), (9, 115), (10, 27), (11, 30_000), (12, 6), (13, 14_800), (14, 8),
         (15, 9_600), (16, 250), (17, 0), (18, 15_000), (19, 85)),
        field_edges,
        usual=((0, 20), (0, 400_000)),
    ),
    11: Leaf(
        (U32,),
        lambda d: decimal(bolt_area(d)),
        ((8,),),
        bolt_edges,
    ),
    12: Leaf(
        (PLACES, (0, max(FIELD_RANGES))),
        lambda place, field: refusal_text(*refusal_at(place, field)),
        (),
        refusal_edges,
    ),
    20: Leaf(
        (U32, U32),
        lambda level, bottom_edge: decimal(course_head(level, bottom_edge)),
        ((28_800, 0), (28_800, 9_600), (28_800, 19_200), (28_800, 28_800), (28_801, 28_800)),
        head_edges,
        usual=(H, HEIGHT),
    ),
    21: Leaf(
        (HEIGHT, D, S, E),
        lambda h, diameter, s, efficiency: decimal(hoop_need(h, diameter, s, efficiency)),
        ((28_800, 14_400, 15_000, 85), (19_200, 14_400, 15_000, 85), (9_600, 14_400, 15_000, 85)),
        hoop_need_edges,
    ),
    22: Leaf(
        (U32,),
        lambda diameter: decimal(house_floor(diameter)),
        ((14_400,), (60_000,), (60_001,), (144_000,), (144_001,)),
        floor_edges,
        usual=(D,),
    ),
    23: Leaf(
        (NEED, C, U32),
        lambda need, c, diameter: decimal(required_plate(need, c, diameter)),
        ((60, 0, 14_400), (40, 0, 14_400), (20, 0, 14_400), (60, 0, 60_000), (60, 0, 60_001),
         (60, 0, 144_000), (60, 0, 144_001)),
        required_edges,
        usual=((0, 400), C, D),
    ),
    24: Leaf(
        (REQUIRED, PLATE),
        lambda required, t: verdict_text(course_verdict(required, t)),
        ((188, 250),),
        course_verdict_edges,
        usual=((0, 2_000), PLATE),
    ),
    25: Leaf(
        (KZ, I, V),
        lambda exposure, importance, speed: decimal(
            wind_pressure(exposure, importance, speed)),
        ((109, 115, 105), (109, 115, 96), (109, 115, 97)),
        pressure_edges,
    ),
    26: Leaf(
        (P, D, HEIGHT),
        lambda pressure, diameter, height: decimal(wind_moment(pressure, diameter, height)),
        ((2_123, 14_400, 28_800), (1_800, 14_400, 28_800), (1_812, 14_400, 28_800)),
        wind_moment_edges,
    ),
    27: Leaf(
        (U32,),
        standard_site_text,
        ((105,), (96,), (97,)),
        standard_site_edges,
    ),
    28: Leaf(
        (W, AV, D),
        lambda weight, acceleration, diameter: decimal(
            shell_weight_on_rim(weight, acceleration, diameter)),
        ((11_000, 27, 14_400), (18_342, 27, 14_400), (18_343, 27, 14_400)),
        shell_weight_edges,
    ),
    29: Leaf(
        (TB, FY, H),
        lambda tb, yield_stress, level: decimal(water_on_rim_root(tb, yield_stress, level)),
        ((250, 36_000, 28_800),),
        water_root_edges,
    ),
    30: Leaf(
        (H, D),
        lambda level, diameter: decimal(water_on_rim_cap(level, diameter)),
        ((28_800, 14_400), (28_800, 60_000), (28_800, 60_001)),
        water_cap_edges,
    ),
    31: Leaf(
        (TB, FY, H, D),
        lambda tb, yield_stress, level, diameter: decimal(
            water_on_rim(tb, yield_stress, level, diameter)),
        ((250, 36_000, 28_800, 14_400),),
        water_edges,
    ),
    32: Leaf(
        (D, WT, WL),
        lambda diameter, wt, wL: decimal(resistance(diameter, wt, wL)),
        ((14_400, shell_weight_on_rim(11_000, 27, 14_400), 36_864),
         (14_400, shell_weight_on_rim(11_000, 27, 14_400), 183_579)),
        resistance_edges,
    ),
    33: Leaf(
        (MS, T),
        uplift,
        ((30_000, 94_646), (74_297, 94_646), (74_298, 94_646), (145_754, 94_646),
         (145_755, 94_646)),
        lift_edges,
        usual=((0, 300_000), (0, 300_000)),
    ),
    34: Leaf(
        (MS, from_one(T)),
        lambda moment, resisting: verdict_text(self_earthquake_verdict(moment, resisting)),
        ((30_000, 94_646), (74_297, 94_646), (74_298, 94_646), (145_754, 94_646),
         (145_755, 94_646)),
        lift_edges,
        usual=((0, 300_000), (1, 300_000)),
    ),
    35: Leaf(
        (MOMENT, W, B, N),
        lambda moment, weight, circle, anchors: decimal(
            net_pull(moment, weight, circle, anchors)),
        ((73_371, 11_000, 14_800, 6), (30_000, 11_000, 14_800, 6)),
        net_pull_edges,
    ),
    36: Leaf(
        (SIGN, PULL, SIGN, PULL),
        lambda neg_one, one, neg_other, other: decimal(
            larger_pull(signed(neg_one, one), signed(neg_other, other))),
        ((0, 2_133, 1, 211), (1, 211, 0, 2_133), (1, 211, 1, 211)),
        larger_pull_edges,
        usual=(SIGN, (0, -LEAST_PULL), SIGN, (0, -LEAST_PULL)),
        allowed=pulls_allowed,
    ),
    37: Leaf(
        (B_FIELD, N),
        lambda circle, anchors: verdict_text(spacing_verdict(circle, anchors)),
        ((14_800, 6), (22_918, 6), (22_919, 6)),
        spacing_edges,
    ),
    38: Leaf(
        (PULL, A),
        lambda pull, area: verdict_text(strength_verdict(pull, area)),
        ((2_133, 606), (0, 606)),
        strength_edges,
        usual=((0, 60_000), A),
    ),
    39: Leaf(
        (MOMENT, W, D),
        lambda moment, weight, diameter: verdict_text(
            self_wind_verdict(moment, weight, diameter)),
        ((73_371, 11_000, 14_400), (73_371, 18_342, 14_400), (73_371, 18_343, 14_400)),
        self_wind_edges,
    ),
    40: Leaf(
        (BYTE, U32, U32),
        ground_text,
        ((ord("C"), 240, 93),),
        ground_edges,
        usual=((CLASSES[0], CLASSES[-1]), MAPPED, MAPPED),
    ),
    50: Leaf(
        (U32, U32),
        hoop_head_text,
        ((API_650, 28_800), (API_650, 19_200), (API_650, 9_600),
         (D100, 28_800), (D100, 19_200), (D100, 9_600)),
        method_edges,
        usual=((D100, API_650), U32),
        random=20,      # nearly all of them refused
    ),
    51: Leaf(
        (W, AV),
        lambda weight, acceleration: decimal(
            in_parts(weight_in_earthquake(weight, acceleration))),
        ((11_000, 27), (11_000, 0)),
        weight_left_edges,
        random=30,
    ),
    52: Leaf(
        (MOMENT, WEIGHT_PARTS, B, N),
        lambda moment, weight, circle, anchors: decimal(
            net_pull(moment, Fraction(weight, PARTS), circle, anchors)),
        ((30_000, 108_812_000, 14_800, 6), (30_000, 110_000_000, 14_800, 6),
         (73_371, 110_000_000, 14_800, 6)),
        lighter_pull_edges,
        random=30,
        ends=tuple,     # no more than the two themselves
    ),
    7: Leaf(
        (U64, U32, from_one(U32), from_one(U32)),
        lambda a, b, c, d: halves(rounded_down(a * b, c * d)),
        ((28_800 * 14_400**2, 433, 139_200_000, 250**2),),
        long_edges,
        random=6,
        ends=no_ends,
    ),
    8: Leaf(
        (U64, U32, from_one(U32), from_one(U32)),
        lambda a, b, c, d: halves(rounded_up(a * b, c * d)),
        ((113 * 11_000 * 2_527 * 14_400 + 1_355_745_000 * 30_000, 8, 71 * 250 * 12,
          14_400 * 1_200),),
        long_edges,
        random=6,
        ends=no_ends,
    ),
    53: Leaf(
        (U64,),
        lambda i: decimal(compression.entry(i)),
        ((297,),),
        entry_edges,
        random=0,
        ends=no_ends,
    ),
    54: Leaf(
        (H, D, NET),
        lambda level, diameter, t: decimal(compression.argument(level, diameter, t)),
        ((28_800, 14_400, 250),),
        argument_edges,
        random=12,
        ends=no_ends,
    ),
    55: Leaf(
        (NET, D, COEFFICIENT),
        lambda t, diameter, e: decimal(compression.allowed(t, diameter, e)),
        ((250, 14_400, 0), (250, 14_400, 3_753)),
        allowed_edges,
        random=16,
        ends=no_ends,
    ),
}
