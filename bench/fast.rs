//! The same, written for speed: no report is built, and nothing is allocated for a sheet. Numbers below 1,000 come from a
//! table; they and the words are stored whole, and what comes next is stored over the bytes past their end.
use std::io::{self, Read, Write};

mod rules;
use rules::Refusal;

/// Above the longest text, and above the longest sheet with its length.
const ROOM: usize = 1 << 17;
const MOST_TEXT: usize = 2_048;

/// Where the next byte of the text goes.
type Place = *mut u8;

/// Stores the first `n` of these bytes. Past the longest text the buffer has room for those that are stored over.
#[inline(always)]
fn first<const N: usize>(at: Place, bytes: [u8; N], n: usize) -> Place {
    unsafe {
        at.cast::<[u8; N]>().write_unaligned(bytes);
        at.add(n)
    }
}

#[inline(always)]
fn word<const N: usize>(at: Place, word: &[u8; N]) -> Place {
    first(at, *word, N)
}

/// Of each number below 1,000: a blank and its digits, as the first bytes of four; how many digits; and three, with zeros in front.
static SMALL: [u64; 1_000] = {
    let mut table = [0; 1_000];
    let mut n = 0;
    while n < 1_000 {
        let three = 0x30_30_30 | n / 100 | n / 10 % 10 << 8 | n % 10 << 16;
        let skipped = (n < 100) as u64 + (n < 10) as u64;
        table[n as usize] = 0x20 | three >> 8 * skipped << 8 | (3 - skipped) << 32 | three << 40;
        n += 1;
    }
    table
};

/// With a blank in front.
#[inline(always)]
fn figure(at: Place, n: u64) -> Place {
    if n < 1_000 {
        let entry = SMALL[n as usize];
        first(at, (entry as u32).to_le_bytes(), 1 + (entry >> 32 & 3) as usize)
    } else {
        large(at, n)
    }
}

fn large(at: Place, n: u64) -> Place {
    let entry = SMALL[(n % 1_000) as usize];
    first(figure(at, n / 1_000), (entry >> 40).to_le_bytes(), 3)
}

fn signed(at: Place, z: i64) -> Place {
    if z >= 0 {
        return figure(at, z as u64);
    }
    let end = figure(unsafe { at.add(1) }, z.unsigned_abs());
    word(at, b" -");
    end
}

#[inline(always)]
fn verdict(at: Place, holds: bool) -> Place {
    if holds { word(at, b" ok") } else { word(at, b" short") }
}

#[inline(always)]
fn figures<const N: usize>(bytes: &[u8]) -> [u32; N] {
    let bytes = &bytes[..4 * N];
    std::array::from_fn(|i| u32::from_be_bytes([bytes[4 * i], bytes[4 * i + 1], bytes[4 * i + 2], bytes[4 * i + 3]]))
}

/// The number of courses, the version, and where its site begins.
fn version(bytes: &[u8]) -> Result<(usize, u8, usize), Refusal> {
    if bytes.len() < 2 {
        return Err((11, 0));
    }
    let length = u16::from_be_bytes([bytes[0], bytes[1]]) as usize;
    let Some((n, number, site)) = rules::version(length) else { return Err((13, 0)) };
    match () {
        _ if bytes.len() < 2 + length => Err((11, 0)),
        _ if bytes.len() > 2 + length => Err((12, 0)),
        _ if bytes[2] != number => Err((14, 0)),
        _ if bytes[site + 32] as usize != n => Err((15, 0)),
        _ => Ok((n, number, site)),
    }
}

/// In one go over the bytes; where a later course is refused, the refusal is stored over the lines before it.
fn report(bytes: &[u8], mut at: Place) -> Result<Place, Refusal> {
    let (n, number, tail) = version(bytes)?;
    let tank = rules::with_gravity(figures(&bytes[3..]), number);
    let (site, anchors) = (figures(&bytes[tail..]), figures(&bytes[tail + 20..]));
    rules::tank(tank)?;
    rules::site(site)?;
    rules::anchors(tank[0], anchors, number)?;
    let [d, h, w, plate, allowance, fy, g] = tank.map(u64::from);
    let [v, kz, i, av, ms] = site.map(u64::from);
    let mut sound = true;
    let mut height = 0;
    for (i, part) in bytes[tail + 33..tail + 33 + 20 * n].chunks_exact(20).enumerate() {
        let course = figures(part);
        rules::course(course)?;
        let [width, plate, c, s, e] = course.map(u64::from);
        let need = rules::need(h.saturating_sub(height), d, g, s, e);
        let required = rules::required(need, c, d);
        height += width;
        if height > 76_800 {
            return Err((34, 0));
        }
        at = word(at, b"course");
        at = figure(at, i as u64 + 1);
        at = figure(at, need);
        at = figure(at, required);
        at = figure(at, plate);
        at = verdict(at, required <= plate);
        at = word(at, b"\n");
        sound &= required <= plate;
    }
    if h > height {
        return Err((37, 0));
    }
    let p = rules::pressure(kz, i, v);
    let m = rules::moment(p, d, height);
    at = word(at, b"wind");
    at = figure(at, p);
    at = figure(at, m);
    if anchors[0] == 0 {
        let t = rules::resistance(d, w, av, plate - allowance, fy, h, g);
        let (wind, lift) = (rules::self_wind(m, w, d), rules::lift(ms, t));
        at = word(at, b"\nself wind");
        at = verdict(at, wind);
        at = word(at, b" resist");
        at = figure(at, t);
        at = word(at, b" ");
        at = word(at, lift.as_bytes().first_chunk::<4>().unwrap());
        at = word(at, b"\n");
        sound &= wind && lift != "over";
    } else {
        let (n, b) = (anchors[0] as u64, anchors[1] as u64);
        let wind = rules::pull(m, rules::whole_weight(w), b, n);
        let quake = rules::pull(ms, rules::reduced_weight(w, av), b, n);
        let (spacing, strength) = (rules::spacing(b, n), rules::strength(wind.max(quake), anchors[2]));
        at = word(at, b"\npull");
        at = signed(at, wind);
        at = signed(at, quake);
        at = word(at, b"\nanchors spacing");
        at = verdict(at, spacing);
        at = word(at, b" strength");
        at = verdict(at, strength);
        at = word(at, b"\n");
        sound &= spacing && strength;
    }
    Ok(word(at, if sound { b"tank sound\n" } else { b"tank short\n" }))
}

/// The text, at the start of the buffer, and its length.
fn mark(bytes: &[u8], out: &mut [u8; MOST_TEXT]) -> usize {
    let start = out.as_mut_ptr();
    let end = report(bytes, start).unwrap_or_else(|(number, field)| {
        let at = figure(word(start, b"refused"), number as u64);
        word(if number == 16 { figure(at, field as u64) } else { at }, b"\n")
    });
    end as usize - start as usize
}

/// Fills the buffer from `held` on, and gives where the input ends in it.
fn fill(input: &mut impl Read, space: &mut [u8], held: usize) -> io::Result<usize> {
    let mut end = held;
    while end < space.len() {
        match input.read(&mut space[end..])? {
            0 => break,
            n => end += n,
        }
    }
    Ok(end)
}

fn main() -> io::Result<()> {
    let (mut input, mut output) = (io::stdin().lock(), io::stdout().lock());
    let (mut space, mut out) = (vec![0; ROOM], vec![0; ROOM]);
    let (mut held, mut used) = (0, 0);
    loop {
        let end = fill(&mut input, &mut space, held)?;
        let mut at = 0;
        while at + 2 <= end {
            let next = at + 2 + u16::from_be_bytes([space[at], space[at + 1]]) as usize;
            if next > end && end == ROOM {
                break;
            }
            if used + MOST_TEXT > ROOM {
                output.write_all(&out[..used])?;
                used = 0;
            }
            used += mark(&space[at + 2..next.min(end)], out[used..].first_chunk_mut().unwrap());
            at = next.min(end);
        }
        if end < ROOM {
            return output.write_all(&out[..used]);
        }
        space.copy_within(at.., 0);
        held = end - at;
    }
}
