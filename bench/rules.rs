//! The rules of document 01, with S-5, S-7 and S-8 of document 02, for both programs: ranges, what a step's figures are refused for,
//! the versions of a sheet's bytes, and the figures of a report.

/// The ends of each field's range, by the field's number; 0 is no field.
pub const RANGES: [(u32, u32); 21] = [
    (1, 0), (12_000, 240_000), (1_200, 76_800), (1, 10_000_000), (100, 500), (0, 250), (30_000, 50_000),
    (60, 150), (50, 150), (100, 125), (0, 500), (0, 1_000_000_000), (6, 200), (0, 300_000), (0, 16),
    (1_200, 14_400), (100, 2_000), (0, 250), (10_000, 40_000), (50, 100), (1_000, 1_300),
];

/// A refusal's number, and its field or 0.
pub type Refusal = (u32, u32);

#[inline(always)]
fn in_range(field: usize, x: u32) -> Result<(), Refusal> {
    let (least, most) = RANGES[field];
    if (x < least || most < x) && !(field == 12 && x == 0) { Err((16, field as u32)) } else { Ok(()) }
}

#[inline(always)]
fn in_ranges<const N: usize>(first: usize, figures: [u32; N]) -> Result<(), Refusal> {
    for (field, x) in (first..).zip(figures) {
        in_range(field, x)?;
    }
    Ok(())
}

/// By L, the number of courses and the version: each version's byte, and where its site begins.
#[inline(always)]
pub fn version(length: usize) -> Option<(usize, u8, usize)> {
    for (number, site) in [(1, 27), (2, 31)] {
        let n = (length + 2).saturating_sub(site + 33) / 20;
        if (1..=12).contains(&n) && length + 2 == site + 33 + 20 * n {
            return Some((n, number, site));
        }
    }
    None
}

/// In version 1 the site follows where the gravity stands in version 2.
#[inline(always)]
pub fn with_gravity(mut tank: [u32; 7], number: u8) -> [u32; 7] {
    if number == 1 {
        tank[6] = 1_000;
    }
    tank
}

#[inline(always)]
pub fn tank(f: [u32; 7]) -> Result<(), Refusal> {
    in_ranges::<6>(1, *f.first_chunk().unwrap())?;
    in_range(20, f[6])?;
    if f[3] <= f[4] { Err((17, 0)) } else { Ok(()) }
}

#[inline(always)]
pub fn site(f: [u32; 5]) -> Result<(), Refusal> {
    in_ranges(7, f)
}

/// Size 6 is refused 39 but in version 1.
#[inline(always)]
pub fn anchors(diameter: u32, f: [u32; 3], version: u8) -> Result<(), Refusal> {
    in_ranges(12, f)?;
    let [number, circle, size] = f;
    let bad = if number == 0 { circle != 0 || size != 0 } else { circle < diameter || stress_area(size) == 0 };
    match () {
        _ if bad => Err((18, 0)),
        _ if size == 6 && version != 1 => Err((39, 0)),
        _ => Ok(()),
    }
}

#[inline(always)]
pub fn course(f: [u32; 5]) -> Result<(), Refusal> {
    in_ranges(15, f)?;
    if f[1] <= f[2] { Err((17, 0)) } else { Ok(()) }
}

/// By bolt size; 0 is no such bolt.
pub fn stress_area(size: u32) -> u64 {
    match size {
        6 => 334,
        7 => 462,
        8 => 606,
        9 => 763,
        10 => 969,
        11 => 1_155,
        12 => 1_405,
        14 => 1_900,
        16 => 2_500,
        _ => 0,
    }
}

#[inline(always)]
pub fn need(head: u64, d: u64, g: u64, s: u64, e: u64) -> u64 {
    5 * (13 * head * d * g).div_ceil(5 * 72_000 * s * e)
}

#[inline(always)]
pub fn required(need: u64, allowance: u64, d: u64) -> u64 {
    let floor = if d <= 60_000 { 188 } else if d <= 144_000 { 250 } else { 313 };
    floor.max(need + allowance)
}

pub fn pressure(kz: u64, i: u64, v: u64) -> u64 {
    (6 * kz * i * v * v).div_ceil(390_625).max(1_800)
}

pub fn moment(p: u64, d: u64, hs: u64) -> u64 {
    (p * d * hs * hs).div_ceil(345_600_000_000)
}

pub fn self_wind(m: u64, w: u64, d: u64) -> bool {
    3_600 * m <= w * d
}

/// T, in foot-pounds; `tb` is the bottom plate less its allowance.
pub fn resistance(d: u64, w: u64, av: u64, tb: u64, fy: u64, h: u64, g: u64) -> u64 {
    let wt = 2_712_000 * w * (10_000 - 4 * av) / (710_000 * d);
    let wl = (6_241 * tb * tb * (fy * g / 1_000) * h / 12_000_000).isqrt().min(h * d * g / 11_250_000);
    d * d * (wt + wl) / 144_000_000
}

pub fn lift(ms: u64, t: u64) -> &'static str {
    if 1_000 * ms <= 785 * t { "none" } else if 1_000 * ms <= 1_540 * t { "lift" } else { "over" }
}

/// The weight that resists uplift in the wind, as a numerator and a divisor.
pub fn whole_weight(w: u64) -> (u64, u64) {
    (w, 1)
}

/// And in an earthquake.
pub fn reduced_weight(w: u64, av: u64) -> (u64, u64) {
    (w * (10_000 - 4 * av), 10_000)
}

/// Rounded once, toward the greater number.
pub fn pull(moment: u64, (num, den): (u64, u64), b: u64, n: u64) -> i64 {
    -((num * b) as i64 - (4_800 * moment * den) as i64).div_euclid((den * n * b) as i64)
}

pub fn spacing(b: u64, n: u64) -> bool {
    355 * b <= 1_356_000 * n
}

pub fn strength(pull: i64, size: u32) -> bool {
    1_000 * pull.max(0) as u64 <= 19_950 * stress_area(size)
}
