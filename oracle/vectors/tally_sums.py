"""The tallier: the sum and the least, and what is called sound and short."""

from itertools import permutations

from model import tally
from model.fields import Course
from model.sheet_bytes import LAYOUTS, VERSION_1, VERSION_2
from vectors.judge_cases import EXAMPLE, FIFTHS, SELF, changed, course_changed, with_courses
from vectors.tally_cases import (
    ABOVE, BELOW, FAR_BELOW, JUST, by_differences, refused, said, sheet_by, tallied,
)

HIGH = refused(37, by_differences(*FAR_BELOW, H=76_800))

# --- Sums ---------------------------------------------------------------------


def sums():
    """Above 0, 0 with courses, below 0; within a sheet and over sheets."""
    for differences in ((1,), (0,), (-1,), (5, -5), (5, -4), (5, -6), (0, 0, 0), (-88,), (1_812,),
                        (-1, -2, -3), (88, -88), (-50, 20, 30)):
        total, least = sum(differences), min(differences)
        counts = "0 1" if least < 0 else "1 0"
        yield tallied(f"one sheet, {differences}", f"1 {counts} 0 {total} {least}",
                      by_differences(*differences))
        sheets = [by_differences(one, layout=VERSION_1) for one in differences]
        short = sum(one < 0 for one in differences)
        yield tallied(f"as many sheets, {differences}",
                      f"{len(sheets)} {len(sheets) - short} {short} 0 {total} {least}", *sheets)
    yield tallied("0 after 1 and before -1", "4 3 1 0 0 -1", by_differences(1), JUST, JUST,
                  by_differences(-1))
    yield tallied("from below to above and back", "4 2 2 0 -1 -63", BELOW, by_differences(63),
                  by_differences(62), BELOW)


def leasts():
    """In the first, a middle and the last sheet, and there in the first, a middle and the last
    course; above 0, 0 and below. The other differences are different."""
    for least, word in ((3, "sound"), (0, "sound"), (-4, "short")):
        for sheet_at in range(3):
            for course_at in range(3):
                rows = [[9, 8, 7], [10, 20, 5], [6, 30, 11]]
                rows[sheet_at][course_at] = least
                total = sum(map(sum, rows))
                counts = "3 3 0 0" if word == "sound" else "3 2 1 0"
                yield tallied(f"{least} in sheet {sheet_at + 1}, course {course_at + 1}",
                              f"{counts} {total} {least}", *(by_differences(*row) for row in rows))
    for in_turn in permutations((-88, -1, 12)):
        yield tallied(f"{in_turn}", "3 1 2 0 -77 -88", *map(by_differences, in_turn))


def equal_leasts():
    """The same least twice: in a sheet, in two, and all alike."""
    for least, counts in ((-7, "0 1 0"), (0, "1 0 0"), (4, "1 0 0")):
        yield tallied(f"{least} twice in a sheet", f"1 {counts} {2 * least + 9} {least}",
                      by_differences(least, 9, least))
        sound, short, _refused = map(int, counts.split())
        yield tallied(f"{least} in two sheets",
                      f"3 {2 * sound + 1} {2 * short} 0 {2 * least + 9} {least}",
                      by_differences(least), by_differences(9), by_differences(least))
        yield tallied(f"{least} alone", f"5 {5 * sound} {5 * short} 0 {60 * least} {least}",
                      *[by_differences(*[least] * 12)] * 5)


def refused_beside_sums():
    """A refused sheet is below the others by far, and with all of its courses: nothing moves."""
    for place in range(4):
        sheets = [ABOVE, BELOW, JUST]
        sheets.insert(place, HIGH)
        yield tallied(f"refused 37 as sheet {place + 1}", "4 2 1 1 -57 -63", *sheets)
    yield tallied("37 between all", "7 2 1 4 -57 -63", HIGH, ABOVE, HIGH, BELOW, HIGH, JUST, HIGH)
    over = refused(37, by_differences(1_812, 1_812, H=76_800))
    yield tallied("above by far, and refused", "3 2 0 1 6 0", JUST, over, ABOVE)


def course_counts():
    """One to twelve courses, each different, in both versions; courses are not sheets."""
    for n in range(1, 13):
        differences = [10 * n + k for k in range(n)]        # 120 to 131 of twelve
        total = 10 * n * n + n * (n - 1) // 2
        for layout in LAYOUTS:
            yield tallied(f"{n}, version {layout.version}", f"1 1 0 0 {total} {10 * n}",
                          by_differences(*differences, layout=layout))
    # 100 + 101 + .. + 111 are 1,266
    yield tallied("twelve and one and twelve", "3 2 1 0 2531 -1",
                  *(by_differences(*differences) for differences in
                    (range(100, 112), (-1,), range(111, 99, -1))))
    every = [by_differences(*range(1, n + 1)) for n in range(1, 13)]
    assert sum(n * (n + 1) // 2 for n in range(1, 13)) == 364
    yield tallied("one to twelve", "12 12 0 0 364 1", *every)


# --- The ends of the ranges ----------------------------------------------------

# Twelve courses as low as widths let them be, with the most water, gravity and stress: the edges
# are at 0, 1,200 .. 8,400, 19,200, 33,600, 48,000 and 62,400. The first one's need is 8,655, and
# the plate is a mil above the allowance, so it is 8,654 short. By 13 x h x 240,000 x 1.3 /
# (72 x 10,000 x 50), which is 0.1126667 h, in steps of five.
WIDTHS = (*[1_200] * 7, 10_800, *[14_400] * 4)
NEEDS_BY_HAND = (8_655, 8_520, 8_385, 8_250, 8_115, 7_980, 7_845, 7_710, 6_490, 4_870, 3_245,
                 1_625)
FAR = {"D": 240_000, "H": 76_800, "B": 240_000, "s": 10_000, "E": 50}


def far_required(t, c, layout=VERSION_2, **figures):
    """Required far above plate."""
    courses = [Course(width=width, t=t, c=c, s=10_000, E=50) for width in WIDTHS]
    sheet = changed(with_courses(EXAMPLE, courses), **{**FAR, **figures})
    return said("tank short", layout.sheet_as_bytes(sheet))


def far_plate(n, layout=VERSION_2):
    """Plate far above required: 2,000 and the floor of a small tank, 188."""
    return by_differences(*[1_812] * n, layout=layout)


def ends_of_ranges():
    """The closest that the ranges permit: -8,654, by the greatest need with the plate a mil above
    its allowance, and 1,812. In version 1, which holds water, it is -6,659."""
    total = 12 - sum(NEEDS_BY_HAND)
    for t, c in ((251, 250), (100, 99), (101, 100)):
        yield tallied(f"required above plate, {t} and {c}", f"1 0 1 0 {total} -8654",
                      far_required(t, c, gravity=1_300))
    yield tallied("required above plate, c 0", f"1 0 1 0 {1_200 - sum(NEEDS_BY_HAND)} -8555",
                  far_required(100, 0, gravity=1_300))
    least = tally.tally(far_required(251, 250, VERSION_1)).least
    assert least == 1 - 6_660
    for n in (1, 12):
        for layout in LAYOUTS:
            yield tallied(f"plate above required, {n} courses, version {layout.version}",
                          f"1 1 0 0 {n * 1_812} 1812", far_plate(n, layout))
    yield tallied("both", f"2 1 1 0 {12 * 1_812 + total} -8654", far_plate(12),
                  far_required(251, 250, gravity=1_300))
    yield tallied("both, the other way round", f"2 1 1 0 {12 * 1_812 + total} -8654",
                  far_required(100, 99, gravity=1_300), far_plate(12))
    for count in (10, 100):     # past 16 bits, either way
        yield tallied(f"{count} far below", f"{count} 0 {count} 0 {count * total} -8654",
                      *[far_required(251, 250, gravity=1_300)] * count)
        yield tallied(f"{count} far above", f"{count} {count} 0 0 {count * 12 * 1_812} 1812",
                      *[far_plate(12)] * count)


def required_by_each():
    """Required by the floor, each of the three; by the need; by the need and the allowance. The
    hoop need alone, or without its allowance, gives another sum."""
    for D, floor in ((12_000, 188), (60_000, 188), (60_001, 250), (144_000, 250), (144_001, 313),
                     (240_000, 313)):
        sheet = sheet_by(0, 0, t=400, D=D, B=0, N=0, d=0, W=10_000_000)
        yield tallied(f"the floor, D {D}", f"1 1 0 0 {2 * (400 - floor)} {400 - floor}",
                      VERSION_2.sheet_as_bytes(sheet))
    # 13 x 14,400 x 60,000 / (72 x 10,000 x 50) is 312; then 260, 208, 156, 104 and 52
    deep = sheet_by(*[0] * 6, t=400, D=60_000, N=0, B=0, d=0, W=10_000_000, H=14_400, s=10_000,
                    E=50)
    for c, required in ((0, (315, 260, 210, 188, 188, 188)), (1, (316, 261, 211, 188, 188, 188)),
                        (100, (415, 360, 310, 260, 205, 188)),
                        (250, (565, 510, 460, 410, 355, 305))):
        differences = [400 - one for one in required]
        counts = "0 1" if min(differences) < 0 else "1 0"
        yield tallied(f"need, and allowance {c}",
                      f"1 {counts} 0 {sum(differences)} {min(differences)}",
                      VERSION_2.sheet_as_bytes(changed(deep, c=c)))


# --- Sound and short ----------------------------------------------------------


def standing_alone():
    """Each course holds, by 62; the tank is short by one check of its way of standing, and sound
    without it. The courses of a short tank count as any."""
    windless = changed(SELF, Ms=0)
    for name, holds, breaks in (
            ("spacing", changed(EXAMPLE, B=22_918), changed(EXAMPLE, B=22_919)),
            ("strength", changed(FIFTHS, W=11_500, Ms=15 * 12_089 + 23_000),
             changed(FIFTHS, W=11_500, Ms=15 * 12_090 + 23_000)),
            ("wind", changed(windless, W=18_343), changed(windless, W=18_342)),
            ("earthquake", changed(SELF, Ms=122_400 * 154 // 100),
             changed(SELF, Ms=122_400 * 154 // 100 + 1))):
        for layout in LAYOUTS:
            sound, short = map(layout.sheet_as_bytes, (holds, breaks))
            in_version = f"{name}, version {layout.version}"
            yield tallied(f"{in_version}, holds", "1 1 0 0 186 62", said("tank sound", sound))
            yield tallied(f"{in_version}, breaks", "1 0 1 0 186 62", said("tank short", short))
            yield tallied(f"{in_version}, both", "2 1 1 0 372 62", short, sound)
            yield tallied(f"{in_version}, beside others", "4 3 1 0 192 0",
                          ABOVE, short, JUST, JUST)


def short_by_both():
    """By a course and by its standing: one short, not two. By each course: one, not twelve."""
    astray = course_changed(changed(EXAMPLE, B=22_919), 2, t=187)
    yield tallied("a course and spacing", "1 0 1 0 123 -1", VERSION_2.sheet_as_bytes(astray))
    yield tallied("twelve courses", "1 0 1 0 -12 -1", by_differences(*[-1] * 12))
    yield tallied("the last of twelve", "1 0 1 0 10 -1", by_differences(*[1] * 11, -1))
    yield tallied("the first of twelve", "2 1 1 0 10 -1", by_differences(-1, *[1] * 11), JUST)


def liquor():
    """With gravity the need is greater: 312 x 1.3 is 405.6. Where water is sound, liquor is short
    by ten mils; beside the floor it makes no difference."""
    course = {"t": 400, "s": 10_000, "E": 50}
    tank = {"D": 60_000, "N": 0, "B": 0, "d": 0, "W": 10_000_000, "H": 14_400}
    for gravity, need, counts in ((1_000, 315, "1 0"), (1_001, 315, "1 0"), (1_282, 400, "1 0"),
                                  (1_283, 405, "0 1"), (1_300, 410, "0 1")):
        sheet = changed(with_courses(EXAMPLE, [EXAMPLE.courses[0]._replace(width=14_400)]),
                        **tank, **course, gravity=gravity)
        difference = 400 - need
        content = VERSION_2.sheet_as_bytes(sheet)
        yield tallied(f"gravity {gravity}", f"1 {counts} 0 {difference} {difference}", content)
        sound, short = map(int, counts.split())
        yield tallied(f"gravity {gravity}, beside water",
                      f"3 {1 + sound} {1 + short} 0 {difference - 57} {min(difference, -63)}",
                      ABOVE, content, BELOW)
    for gravity in (1_000, 1_001, 1_300):
        yield tallied(f"gravity {gravity}, by the floor", "1 1 0 0 186 62",
                      VERSION_2.sheet_as_bytes(changed(EXAMPLE, gravity=gravity)))


def of_one_kind():
    """All refused: the sum is 0, and there is no least. Only sound, only short; refused ones beside
    either."""
    for count in (1, 2, 7, 40):
        yield tallied(f"{count} refused", f"{count} 0 0 {count} 0 none", *[HIGH] * count)
        yield tallied(f"{count} sound", f"{count} {count} 0 0 {6 * count} 6", *[ABOVE] * count)
        yield tallied(f"{count} short", f"{count} 0 {count} 0 {-63 * count} -63", *[BELOW] * count)
        yield tallied(f"{count} sound and refused", f"{2 * count} {count} 0 {count} 0 0",
                      *[HIGH, JUST] * count)
        yield tallied(f"{count} short and refused",
                      f"{2 * count} 0 {count} {count} {-63 * count} -63", *[BELOW, HIGH] * count)
    yield tallied("refused, then a byte", "4 0 0 4 0 none", *[HIGH] * 3, b"\0")
    yield tallied("refused, then 13", "4 0 0 4 0 none", *[HIGH] * 3, b"\0\0", ABOVE)


GROUPS = (sums, leasts, equal_leasts, refused_beside_sums, course_counts, ends_of_ranges,
          required_by_each, standing_alone, short_by_both, liquor, of_one_kind)


# --- Self test ----------------------------------------------------------------


def self_test():
    """Edges and needs of far_required: each is the least multiple of five at or above 1,690 h /
    15,000."""
    edges = [sum(WIDTHS[:place]) for place in range(12)]
    assert sum(WIDTHS) == 76_800 and edges == [0, 1_200, 2_400, 3_600, 4_800, 6_000, 7_200, 8_400,
                                               19_200, 33_600, 48_000, 62_400]
    for edge, need in zip(edges, NEEDS_BY_HAND, strict=True):
        assert (need - 5) * 15_000 < 1_690 * (76_800 - edge) <= need * 15_000
    found = [file.made for group in GROUPS for file in group()]
    assert min(one.least for one in found if one.least is not None) == -8_654
    assert max(one.least for one in found if one.least is not None) == 1_812
    assert any(one.sum == 0 and one.least is not None and one.least < 0 for one in found)
