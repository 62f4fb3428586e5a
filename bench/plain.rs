//! Marks a file of many sheets, written plainly: a sheet, its report, its text. Each sheet comes after two bytes of its length.
use std::fmt::{self, Display};
use std::io::{self, BufReader, BufWriter, Read, Write};

mod rules;
use rules::Refusal;

struct Sheet {
    tank: [u32; 7],
    site: [u32; 5],
    anchors: [u32; 3],
    courses: Vec<[u32; 5]>,
    height: u32,
}

struct Line {
    need: u64,
    required: u64,
    plate: u32,
}

enum Standing {
    SelfAnchored { wind: bool, resistance: u64, lift: &'static str },
    Anchored { wind: i64, quake: i64, spacing: bool, strength: bool },
}

struct Report {
    lines: Vec<Line>,
    pressure: u64,
    moment: u64,
    standing: Standing,
    sound: bool,
}

fn figures<const N: usize>(bytes: &[u8]) -> [u32; N] {
    std::array::from_fn(|i| u32::from_be_bytes(bytes[4 * i..4 * i + 4].try_into().unwrap()))
}

fn read(bytes: &[u8]) -> Result<Sheet, Refusal> {
    let Some(length) = bytes.first_chunk() else { return Err((11, 0)) };
    let length = u16::from_be_bytes(*length) as usize;
    let Some((n, number, site)) = rules::version(length) else { return Err((13, 0)) };
    if bytes.len() < 2 + length {
        return Err((11, 0));
    }
    if bytes.len() > 2 + length {
        return Err((12, 0));
    }
    if bytes[2] != number {
        return Err((14, 0));
    }
    if bytes[site + 32] as usize != n {
        return Err((15, 0));
    }
    let mut sheet = Sheet {
        tank: rules::with_gravity(figures(&bytes[3..]), number),
        site: figures(&bytes[site..]),
        anchors: figures(&bytes[site + 20..]),
        courses: Vec::new(),
        height: 0,
    };
    rules::tank(sheet.tank)?;
    rules::site(sheet.site)?;
    rules::anchors(sheet.tank[0], sheet.anchors, number)?;
    for part in bytes[site + 33..].chunks(20) {
        let course = figures(part);
        rules::course(course)?;
        sheet.height += course[0];
        if sheet.height > 76_800 {
            return Err((34, 0));
        }
        sheet.courses.push(course);
    }
    Ok(sheet)
}

fn judge(sheet: &Sheet) -> Result<Report, Refusal> {
    let [d, h, w, plate, allowance, fy, g] = sheet.tank.map(u64::from);
    let [v, kz, i, av, ms] = sheet.site.map(u64::from);
    let [n, b, _] = sheet.anchors.map(u64::from);
    if h > sheet.height as u64 {
        return Err((37, 0));
    }
    let mut lines = Vec::new();
    let mut edge = 0;
    for &course in &sheet.courses {
        let [width, _, c, s, e] = course.map(u64::from);
        let need = rules::need(h.saturating_sub(edge), d, g, s, e);
        lines.push(Line { need, required: rules::required(need, c, d), plate: course[1] });
        edge += width;
    }
    let pressure = rules::pressure(kz, i, v);
    let moment = rules::moment(pressure, d, sheet.height as u64);
    let standing = if n == 0 {
        let resistance = rules::resistance(d, w, av, plate - allowance, fy, h, g);
        Standing::SelfAnchored { wind: rules::self_wind(moment, w, d), resistance, lift: rules::lift(ms, resistance) }
    } else {
        let wind = rules::pull(moment, rules::whole_weight(w), b, n);
        let quake = rules::pull(ms, rules::reduced_weight(w, av), b, n);
        let strength = rules::strength(wind.max(quake), sheet.anchors[2]);
        Standing::Anchored { wind, quake, spacing: rules::spacing(b, n), strength }
    };
    let stands = match standing {
        Standing::SelfAnchored { wind, lift, .. } => wind && lift != "over",
        Standing::Anchored { spacing, strength, .. } => spacing && strength,
    };
    let sound = stands && lines.iter().all(Line::holds);
    Ok(Report { lines, pressure, moment, standing, sound })
}

impl Line {
    fn holds(&self) -> bool {
        self.required <= self.plate as u64
    }
}

fn verdict(holds: bool) -> &'static str {
    if holds { "ok" } else { "short" }
}

impl Display for Report {
    fn fmt(&self, f: &mut fmt::Formatter) -> fmt::Result {
        for (i, line) in self.lines.iter().enumerate() {
            writeln!(f, "course {} {} {} {} {}", i + 1, line.need, line.required, line.plate, verdict(line.holds()))?;
        }
        writeln!(f, "wind {} {}", self.pressure, self.moment)?;
        match self.standing {
            Standing::SelfAnchored { wind, resistance, lift } => {
                writeln!(f, "self wind {} resist {resistance} {lift}", verdict(wind))?
            }
            Standing::Anchored { wind, quake, spacing, strength } => {
                writeln!(f, "pull {wind} {quake}")?;
                writeln!(f, "anchors spacing {} strength {}", verdict(spacing), verdict(strength))?
            }
        }
        writeln!(f, "tank {}", if self.sound { "sound" } else { "short" })
    }
}

fn mark(bytes: &[u8], out: &mut impl Write) -> io::Result<()> {
    match read(bytes).and_then(|sheet| judge(&sheet)) {
        Ok(report) => write!(out, "{report}"),
        Err((16, field)) => writeln!(out, "refused 16 {field}"),
        Err((number, _)) => writeln!(out, "refused {number}"),
    }
}

fn main() -> io::Result<()> {
    let mut input = BufReader::new(io::stdin().lock());
    let mut out = BufWriter::new(io::stdout().lock());
    let mut length = [0; 2];
    while input.read_exact(&mut length).is_ok() {
        let mut sheet = Vec::new();
        input.by_ref().take(u16::from_be_bytes(length) as u64).read_to_end(&mut sheet)?;
        mark(&sheet, &mut out)?;
    }
    out.flush()
}
