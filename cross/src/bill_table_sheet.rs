//! The lines of the bench program `bench_bill_table` (Q-1 of document 02): what a line asks, what must be written for it, and lines made
//! from a seed.
//!
//! ```text
//! word 19h 4Eh 4Ch 43h 82h, bills 100     what the word says, and the total of so many bills
//! table, room 120: 19 4E 4C 43 82         a body that is read as a table, and the table written into a room
//! ```

use crate::bill_table::{meaning, total, Meaning, Table, LENGTH, WORD};
use crate::ccnet_frame::TYPES;
use crate::random::Random;
use crate::reach::{places, Reach, Reached};
use crate::sheet::Sheet;
use crate::tables;
use std::fmt;

/// What the table's bytes are before a line.
const BEFORE: u8 = 0x5A;

/// A line that is tried.
#[derive(Clone, Debug, PartialEq, Eq)]
pub enum Line {
    Word { word: [u8; WORD], bills: u32 },
    Table { room: usize, body: Vec<u8> },
}

impl fmt::Display for Line {
    fn fmt(&self, f: &mut fmt::Formatter) -> fmt::Result {
        match self {
            Line::Word { word, bills } => {
                write!(f, "word")?;
                word.iter().try_for_each(|byte| write!(f, " {byte:02X}h"))?;
                write!(f, ", bills {bills}")
            }
            Line::Table { room, body } => {
                write!(f, "table, room {room}:")?;
                body.iter().try_for_each(|byte| write!(f, " {byte:02X}"))
            }
        }
    }
}

impl Line {
    /// The line that a text is, if it is to be tried.
    pub fn parse(text: &str) -> Option<Line> {
        let byte = |word: &str| u8::from_str_radix(word, 16).ok();
        if let Some(said) = text.strip_prefix("table, room ") {
            let (room, body) = said.split_once(':')?;
            let body = body.split_whitespace().map(byte).collect::<Option<_>>()?;
            return Some(Line::Table { room: room.parse().ok()?, body });
        }
        let (bytes, bills) = text.strip_prefix("word ")?.split_once(", bills ")?;
        let bytes: Vec<u8> = bytes.split(' ').map(|word| byte(word.strip_suffix('h')?)).collect::<Option<_>>()?;
        Some(Line::Word { word: bytes.try_into().ok()?, bills: bills.parse().ok()? })
    }

    /// What must be written for the line.
    pub fn told(&self) -> String {
        match self {
            Line::Word { word, bills } => {
                let total = match total(*word, *bills) {
                    Err(_) => "total refused 2".to_string(),
                    Ok(None) => "no total".to_string(),
                    Ok(Some(money)) => format!("total {money}"),
                };
                format!("  {self}\n    {}, {total}\n", says(*word).unwrap_or("no such bill".to_string()))
            }
            Line::Table { room, body } => {
                let (table, taken) = match Table::read(body) {
                    Some(table) => (table, "taken"),
                    None => (Table::read(&[BEFORE; LENGTH]).expect("120 bytes"), "not taken"),
                };
                let mut lent = vec![0; *room];
                let written = match table.write(&mut lent) {
                    Ok(length) => {
                        let bytes: String = lent[..length].iter().map(|byte| format!(" {byte:02X}")).collect();
                        format!("length {length}:{bytes}, rest kept")
                    }
                    Err(_) => "refused 1, room kept".to_string(),
                };
                let words: Vec<String> =
                    (0..TYPES).filter_map(|kind| Some(format!(" {kind} {}", says(table.word(kind))?))).collect();
                format!("  {self}\n    {taken} -> {written}\n    words:{}\n", words.join(";"))
            }
        }
    }
}

/// What a word says, unless it is no bill.
fn says(word: [u8; WORD]) -> Option<String> {
    match meaning(word) {
        Meaning::NoSuchBill => None,
        Meaning::Unusable => Some("unusable".to_string()),
        Meaning::Value(money) => Some(format!("value {money}")),
    }
}

/// What must be written for a whole sheet: a line that is not tried stands as it is.
pub fn told(sheet: &str) -> String {
    sheet.lines().map(|text| Line::parse(text).map_or_else(|| format!("{text}\n"), |line| line.told())).collect()
}

// What is reached: 200 of 20,000 lines is one of a hundred.
places! {
    Word = 200, "word":
        "no such bill" "unusable, only its zeros" "unusable, only its places" "unusable, only a letter" "unusable, both" "zeros" "zeros 9" "places"
        "places 9" "no zeros" "no places" "first byte 0" "first byte 255";
    Letter = 200, "word: unusable, only its letter, at each place":
        "first, before A" "first, behind Z" "second, before A" "second, behind Z" "third, before A" "third, behind Z";
    Bills = 200, "bills": "0" "1" "2 to 999,999" "1,000,000" "1,000,001" "4,294,967,295";
    Refused = 200, "total refused": "of a value" "of an unusable word" "of no such bill";
    Large = 200, "total over 4,294,967,295";
    Body = 200, "table, of so many bytes": "0" "1" "2 to 4" "5" "6 to 118" "119" "120" "121" "122 to 300";
    Room = 200, "table, room": "0" "1 to 118" "119" "120" "121 to 299" "300";
    Words = 200, "table, words": "none" "all 24" "a value and an unusable one";
}

/// Lines made from a seed, and what they reached.
#[derive(Default)]
pub struct Lines {
    reach: Reach<Place>,
    lines: u64,
}

impl Sheet for Lines {
    const COUNT: u64 = 10_000;
    const BYTES: usize = 65_536;

    fn made(&mut self, seed: u64, index: u64) -> (String, String) {
        let random = &mut Random::new(seed.wrapping_mul(0x2545_F491_4F6C_DD1D) ^ index);
        let line = if random.below(3) < 2 { a_word(random) } else { a_table(random) };
        self.lines += 1;
        self.reach.count(&reached(&line));
        (format!("{line}\n"), line.told())
    }

    fn table(&self) -> (String, Vec<String>) {
        (self.reach.table(), self.reach.missing(self.lines))
    }
}

fn a_word(random: &mut Random) -> Line {
    let mut word = tables::word(random);
    if random.once_in(8) {
        word[0] = random.pick(&[0, 255]);
    }
    if random.once_in(20) {
        // one bit of a word, or of none
        word = if random.once_in(2) { word } else { [0; WORD] };
        word[random.below(WORD as u32) as usize] ^= 1 << random.below(8);
    }
    if random.once_in(20) {
        (word[1], word[4]) = (random.pick(&[0x40, 0x5B, 0x61]), random.pick(&[0x0A, 0x8A, 0xFF]));
    }
    if random.once_in(10) {
        word[random.within(1, 3) as usize] = random.pick(&[0x40, 0x5B]);
    }
    if random.once_in(12) {
        word = [0; WORD];
    }
    let any = random.within(2, 999_999);
    let bills = random.pick(&[0, 1, any, any, any, any, 1_000_000, 1_000_000, 1_000_001, u32::MAX]);
    Line::Word { word, bills }
}

fn a_table(random: &mut Random) -> Line {
    let length = match random.below(18) {
        0 => 0,
        1 => 1,
        2 => random.within(2, 4),
        3 => 5,
        4..=5 => random.within(6, 118),
        6..=7 => 119,
        8 => 121,
        9 => random.within(122, 300),
        _ => 120,
    };
    let (mut body, fewest) = (Vec::new(), random.pick(&[0, 1, 1, 4]));
    while body.len() < length as usize {
        body.extend(if random.below(4) < fewest { tables::word(random) } else { [0; WORD] });
    }
    if fewest == 4 {
        // a bill for every type
        body.chunks_mut(WORD).filter(|word| word.iter().all(|&byte| byte == 0)).for_each(|word| word[0] = 1);
    }
    body.truncate(length as usize);
    let (few, more) = (random.within(1, 118), random.within(121, 299));
    let room = random.pick(&[0, few, 119, 120, 120, 120, more, 300]) as usize;
    Line::Table { room, body }
}

fn reached(line: &Line) -> Reached<Place> {
    let mut all = Reached::nothing();
    match line {
        Line::Word { word, bills } => word_reached(*word, *bills, &mut all),
        Line::Table { room, body } => table_reached(*room, body, &mut all),
    }
    all
}

fn word_reached(word: [u8; WORD], bills: u32, all: &mut Reached<Place>) {
    let [first, letters @ .., last] = word;
    let wrong: Vec<usize> = (0..3).filter(|&place| !letters[place].is_ascii_uppercase()).collect();
    let many = last & 0x7F;
    let place = match (meaning(word), last) {
        (Meaning::NoSuchBill, _) => 0,
        (Meaning::Unusable, _) if many > 9 && !wrong.is_empty() => 4,
        (Meaning::Unusable, _) if !wrong.is_empty() => 3,
        (Meaning::Unusable, 0..=0x7F) => 1,
        (Meaning::Unusable, _) => 2,
        (_, 0x00) => 9,
        (_, 0x80) => 10,
        (_, 0x09) => 6,
        (_, 0x89) => 8,
        (_, 0..=0x7F) => 5,
        _ => 7,
    };
    all.part(Place::Word, place);
    if let (3, [one]) = (place, &wrong[..]) {
        match letters[*one] {
            0x40 => all.part(Place::Letter, 2 * one),
            0x5B => all.part(Place::Letter, 2 * one + 1),
            _ => {}
        }
    }
    let valued = matches!(meaning(word), Meaning::Value(_));
    match first {
        0 if valued => all.part(Place::Word, 11),
        255 if valued => all.part(Place::Word, 12),
        _ => {}
    }
    all.part(
        Place::Bills,
        match bills {
            0 => 0,
            1 => 1,
            2..=999_999 => 2,
            1_000_000 => 3,
            1_000_001 => 4,
            _ => 5,
        },
    );
    match (total(word, bills), meaning(word)) {
        (Err(_), Meaning::Value(_)) => all.part(Place::Refused, 0),
        (Err(_), Meaning::Unusable) => all.part(Place::Refused, 1),
        (Err(_), Meaning::NoSuchBill) => all.part(Place::Refused, 2),
        (Ok(Some(money)), _) if money.whole > u64::from(u32::MAX) => all.mark(Place::Large),
        _ => {}
    }
}

fn table_reached(room: usize, body: &[u8], all: &mut Reached<Place>) {
    all.part(
        Place::Body,
        match body.len() {
            0 => 0,
            1 => 1,
            2..=4 => 2,
            5 => 3,
            6..=118 => 4,
            119 => 5,
            120 => 6,
            121 => 7,
            _ => 8,
        },
    );
    all.part(
        Place::Room,
        match room {
            0 => 0,
            1..=118 => 1,
            119 => 2,
            120 => 3,
            121..=299 => 4,
            _ => 5,
        },
    );
    let Some(table) = Table::read(body) else { return };
    let words: Vec<Meaning> = (0..TYPES).map(|kind| meaning(table.word(kind))).collect();
    let (value, unusable) =
        (words.iter().any(|word| matches!(word, Meaning::Value(_))), words.contains(&Meaning::Unusable));
    match words.iter().filter(|&&word| word != Meaning::NoSuchBill).count() {
        0 => all.part(Place::Words, 0),
        TYPES => all.part(Place::Words, 1),
        _ => {}
    }
    if value && unusable {
        all.part(Place::Words, 2);
    }
}

#[cfg(test)]
mod tests {
    use super::*;

    #[test]
    fn the_lines_of_the_format() {
        for (line, wanted) in [
            ("word 19h 4Eh 4Ch 43h 82h, bills 100", "value 25 NLC 2, total 2500 NLC 2"),
            ("word 02h 55h 53h 41h 01h, bills 3", "value 20 USA 0, total 60 USA 0"),
            ("word 00h 00h 00h 00h 00h, bills 3", "no such bill, no total"),
            ("word 02h 55h 53h 41h 0Ah, bills 3", "unusable, no total"),
            ("word 02h 55h 53h 41h 01h, bills 1000001", "value 20 USA 0, total refused 2"),
            ("word 02h 55h 53h 41h 0Ah, bills 1000001", "unusable, total refused 2"),
            ("word 00h 55h 53h 41h 01h, bills 3", "value 0 USA 0, total 0 USA 0"),
        ] {
            assert_eq!(told(line), format!("  {line}\n    {wanted}\n"));
        }
        let line = "table, room 119: 19 4E 4C 43 82 00 00 00 00 00 02 55 53 41 0A";
        let wanted = "    taken -> refused 1, room kept\n    words: 0 value 25 NLC 2; 2 unusable\n";
        assert_eq!(told(line), format!("  {line}\n{wanted}"));
        let zeros = " 00".repeat(120);
        let wanted = format!("  table, room 120:\n    taken -> length 120:{zeros}, rest kept\n    words:\n");
        assert_eq!(told("table, room 120:"), wanted);
        let over = format!("table, room 300:{}", " 41".repeat(121));
        let before = " 5A".repeat(120);
        let says: Vec<String> = (0..24).map(|kind| format!(" {kind} unusable")).collect();
        let wanted =
            format!("  {over}\n    not taken -> length 120:{before}, rest kept\n    words:{}\n", says.join(";"));
        assert_eq!(told(&over), wanted);
        assert_eq!(told("02, Q-1: two examples"), "02, Q-1: two examples\n");
    }

    #[test]
    fn a_line_is_its_text() {
        let mut lines = Lines::default();
        for index in 0..500 {
            let (text, wanted) = lines.made(1, index);
            assert_eq!(format!("{}\n", Line::parse(text.trim_end()).expect("a line")), text);
            assert_eq!(told(&text), wanted);
        }
    }
}
