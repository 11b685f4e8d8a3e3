//! The lines of the bench program `bench_wide`: what a line asks, what must be written for it, and lines made from a seed.

use crate::ccnet_frame::{body, check};
use crate::ccnet_wide::{read, write, Form, Unread, Unwritten};
use crate::random::Random;
use crate::sheet::Sheet;
use std::collections::BTreeMap;
use std::fmt;

/// The most bytes of a room, and of what is made to be read.
const ROOM: usize = 65_536;

/// A line that is tried.
#[derive(Clone, Debug, PartialEq, Eq)]
pub enum Line {
    /// So many data bytes, all the same, to be written into a room of that size.
    Write { form: Form, room: usize, address: u8, lead: [u8; 2], data: usize, fill: u8 },
    /// So many bytes, made and read: `check` turns bits of the check's low byte.
    Read { form: Form, bytes: usize, start: u8, address: u8, length: u8, lead: [u8; 2], says: u16, fill: u8, check: u8 },
}

fn name(form: Form) -> &'static str {
    match form {
        Form::Code => "code",
        Form::Subcommand => "subcommand",
        Form::Once => "once",
    }
}

impl fmt::Display for Line {
    fn fmt(&self, f: &mut fmt::Formatter) -> fmt::Result {
        match *self {
            Line::Write { form, room, address, lead: [first, second], data, fill } => write!(
                f,
                "write {}, room {room}: address {address:02X}h lead {first:02X}h {second:02X}h data {data} of {fill:02X}h",
                name(form)
            ),
            Line::Read { form, bytes, start, address, length, lead: [first, second], says, fill, check } => write!(
                f,
                "read {}, bytes {bytes}: start {start:02X}h address {address:02X}h length {length:02X}h \
                 lead {first:02X}h {second:02X}h says {says} fill {fill:02X}h check {check:02X}h",
                name(form)
            ),
        }
    }
}

impl Line {
    /// The line that a text is, if it is to be tried.
    pub fn parse(text: &str) -> Option<Line> {
        let words: Vec<&str> = text.split(' ').collect();
        let form = Form::ALL.into_iter().find(|&form| words.get(1) == Some(&format!("{},", name(form)).as_str()))?;
        let byte = |at: usize| u8::from_str_radix(words.get(at)?.strip_suffix('h')?, 16).ok();
        let size = words.get(3)?.strip_suffix(':')?.parse().ok()?;
        match words[0] {
            "write" => Some(Line::Write {
                form,
                room: size,
                address: byte(5)?,
                lead: [byte(7)?, byte(8)?],
                data: words.get(10)?.parse().ok()?,
                fill: byte(12)?,
            }),
            "read" => Some(Line::Read {
                form,
                bytes: size,
                start: byte(5)?,
                address: byte(7)?,
                length: byte(9)?,
                lead: [byte(11)?, byte(12)?],
                says: words.get(14)?.parse().ok()?,
                fill: byte(16)?,
                check: byte(18)?,
            }),
            _ => None,
        }
    }

    /// What must be written for the line, and what it reached.
    pub fn told(&self, reached: &mut Reached) -> String {
        match *self {
            Line::Write { form, room, address, lead, data, fill } => {
                match write(form, address, &lead, &vec![fill; data], room) {
                    Err(why) => {
                        reached.unwritten(why);
                        format!("  {self}\n    refused {}, room kept\n", why.number())
                    }
                    Ok(frame) => {
                        reached.add(format!("written, {}", name(form)));
                        reached.length(frame.len());
                        let (front, end) = (hex(&frame[..8]), hex(&frame[frame.len() - 2..]));
                        let length = frame.len();
                        format!(
                            "  {self}\n    length {length}:{front} ..{end}, rest kept\n{}",
                            readings(&frame, fill, reached)
                        )
                    }
                }
            }
            Line::Read { fill, .. } => format!("  {self}\n{}", readings(&self.made(), fill, reached)),
        }
    }

    /// The bytes that a line to be read makes.
    fn made(&self) -> Vec<u8> {
        let Line::Read { form, bytes, start, address, length, lead, says, fill, check: turned } = *self else {
            return Vec::new();
        };
        let mut made = vec![start, address, length];
        made.extend(&lead[..form.lead()]);
        made.extend(says.to_be_bytes());
        made.resize(made.len().max(bytes), fill);
        made.truncate(bytes);
        if let Some(end) = bytes.checked_sub(2) {
            let [low, high] = check(&made[..end]).to_le_bytes();
            made[end..].copy_from_slice(&[low ^ turned, high]);
        }
        made
    }
}

fn hex(bytes: &[u8]) -> String {
    bytes.iter().map(|byte| format!(" {byte:02X}")).collect()
}

/// The bytes read in each form, and as a narrow frame.
fn readings(bytes: &[u8], fill: u8, reached: &mut Reached) -> String {
    let mut line = String::from("   ");
    let mut good = 0;
    for form in Form::ALL {
        line += &format!(" {}:", name(form));
        match read(form, bytes) {
            Err(why) => {
                reached.unread(why);
                line += &format!(" refused {} data 0 fill 0;", why.number());
            }
            Ok(frame) => {
                good += 1;
                reached.add(format!("read, {}", name(form)));
                let lead = match *frame.lead {
                    [] => "no code".to_string(),
                    [code] => format!("code {code:02X}h"),
                    [code, subcommand, ..] => format!("code {code:02X}h subcommand {subcommand:02X}h"),
                };
                let same = frame.data.iter().filter(|&&byte| byte == fill).count();
                line += &format!(" address {:02X}h {lead} data {} fill {same};", frame.address, frame.data.len());
            }
        }
    }
    if good > 1 {
        reached.add("good in more than one form".to_string());
    }
    match body(bytes) {
        Err(why) => line + &format!(" narrow: refused {}\n", why.number()),
        Ok(_) => {
            reached.add("a good narrow frame".to_string());
            line + &format!(" narrow: address {:02X}h\n", bytes[1])
        }
    }
}

/// What must be written for a whole sheet: a line that is not tried stands as it is.
pub fn told(sheet: &str, reached: &mut Reached) -> String {
    sheet.lines().map(|text| Line::parse(text).map_or_else(|| format!("{text}\n"), |line| line.told(reached))).collect()
}

/// How many lines reached what must not be missed.
#[derive(Default)]
pub struct Reached(BTreeMap<String, u64>);

/// Each of these must be reached by one line of a hundred.
const PLACES: [&str; 23] = [
    "written, code",
    "written, subcommand",
    "written, once",
    "written, 256 or 257 bytes",
    "written, 65534 or 65535 bytes",
    "not written: TooShort",
    "not written: TooLong",
    "not written: Room",
    "not written: Address",
    "read, code",
    "read, subcommand",
    "read, once",
    "not read: UnderSix",
    "not read: Opening",
    "not read: LengthByte",
    "not read: Cut",
    "not read: Small",
    "not read: Small, under 256 by one",
    "not read: Other",
    "not read: Check",
    "good in more than one form",
    "a good narrow frame",
    "lines",
];

impl Reached {
    fn add(&mut self, what: String) {
        *self.0.entry(what).or_default() += 1;
    }

    fn unwritten(&mut self, why: Unwritten) {
        self.add(format!("not written: {why:?}"));
    }

    fn unread(&mut self, why: Unread) {
        self.add(format!("not read: {why:?}"));
    }

    fn length(&mut self, n: usize) {
        match n {
            256 | 257 => self.add("written, 256 or 257 bytes".to_string()),
            65_534 | 65_535 => self.add("written, 65534 or 65535 bytes".to_string()),
            _ => {}
        }
    }

    /// A line that was made from a seed.
    fn line(&mut self, line: &Line) {
        self.add("lines".to_string());
        if let Line::Read { form, bytes: 255, start: 2, address: 1..=15, length: 0, says: 255, .. } = *line {
            if read(form, &line.made()) == Err(Unread::Small) {
                self.add("not read: Small, under 256 by one".to_string());
            }
        }
    }
}

impl Sheet for Reached {
    fn made(&mut self, seed: u64, index: u64) -> (String, String) {
        made(seed, index, self)
    }

    fn table(&self) -> (String, Vec<String>) {
        let count = |place: &str| self.0.get(place).copied().unwrap_or(0);
        let table = PLACES.iter().map(|place| format!("{:>8}  {place}\n", count(place))).collect();
        let few =
            PLACES.iter().filter(|place| count(place) * 100 < count("lines")).map(|place| place.to_string()).collect();
        (table, few)
    }
}

/// The line of that place in a run, and what must be written for it.
fn made(seed: u64, index: u64, reached: &mut Reached) -> (String, String) {
    let mut random = Random::new(seed.wrapping_mul(0x2545_F491_4F6C_DD1D) ^ index);
    let line = if random.once_in(2) { to_write(&mut random) } else { to_read(&mut random) };
    reached.line(&line);
    (format!("{line}\n"), line.told(reached))
}

/// A frame's length: around each limit, short, or any.
fn length(random: &mut Random) -> usize {
    let (low, high) = random.pick(&[(254, 258), (255, 257), (256, 700), (256, 3_000), (65_533, 65_536), (250, 262)]);
    random.within(low, high) as usize
}

fn address(random: &mut Random) -> u8 {
    let any = random.within(0, 16) as u8;
    random.pick(&[3, 3, 1, 15, 0, 16, any])
}

fn to_write(random: &mut Random) -> Line {
    let form = random.pick(&Form::ALL);
    let length = length(random);
    let rooms = [ROOM, length, length, length - 1, length + 1, 0];
    Line::Write {
        form,
        room: random.pick(&rooms).min(ROOM),
        address: address(random),
        lead: [random.byte(), random.byte()],
        data: length - 7 - form.lead(),
        fill: random.byte(),
    }
}

fn to_read(random: &mut Random) -> Line {
    let form = random.pick(&Form::ALL);
    if random.once_in(8) {
        return around(form, random);
    }
    let few = random.within(0, 12) as usize;
    let bytes = if random.once_in(4) { random.pick(&[few, few, 5, 6, 6]) } else { length(random).min(65_535) };
    let says = random.pick(&[bytes, bytes, bytes, bytes, bytes + 1, bytes.saturating_sub(1), 255, 256]) as u16;
    let mut line = Line::Read {
        form,
        bytes,
        start: 2,
        address: address(random),
        length: 0,
        lead: [random.byte(), random.byte()],
        says,
        fill: random.byte(),
        check: 0,
    };
    let (any, turned) = (random.byte(), random.within(1, 255) as u8);
    if let Line::Read { start, length, check, .. } = &mut line {
        match random.below(10) {
            0 => *start = any,
            1 => *length = any,
            2 => *check = turned,
            _ => {}
        }
    }
    line
}

/// Bytes that say their length in more than one form, a true length of 255, or a narrow frame.
fn around(form: Form, random: &mut Random) -> Line {
    let address = random.within(1, 15) as u8;
    let (bytes, length, fill) = match random.below(3) {
        0 => (257, 0, 1),
        1 => (255, 0, random.byte()),
        _ => random.pick(&[(255, 255, 0x41), (100, 100, 0x41), (12, 12, 0x41)]),
    };
    let lead = [random.pick(&[1, 0x60]), 1];
    Line::Read { form, bytes, start: 2, address, length, lead, says: bytes as u16, fill, check: 0 }
}

#[cfg(test)]
mod tests {
    use super::*;

    #[test]
    fn a_line_is_its_text() {
        let mut reached = Reached::default();
        for index in 0..2_000 {
            let (text, told) = made(1, index, &mut reached);
            let line = Line::parse(text.trim_end()).expect("a line");
            assert_eq!(format!("{line}\n"), text);
            assert_eq!(line.told(&mut Reached::default()), told);
        }
    }
}
