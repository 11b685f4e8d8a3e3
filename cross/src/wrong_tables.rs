//! Wrong readings of "Money taken in, and not only bills" (Q-1 of document 02), each followed beside the right one. A recording whose
//! report would have other lines about bills by a wrong reading tells it from the right one: that is what it reaches.

use crate::bill_table::{LENGTH, MOST, PLACES, WORD};
use crate::ccnet_frame::{classify, Class, Place as Where, TYPES};
use crate::reach::{Place, Reached};
use crate::validator::Command;

/// How somebody might read the request.
#[derive(Clone, Copy, Debug, PartialEq, Eq)]
enum Reading {
    Right,
    /// A short table leaves the rest of the old one.
    KeepsRest,
    /// This one-byte body in answer to GET BILL TABLE is a table.
    Takes(u8),
    /// A body over 120 bytes is a table: its first 120 bytes; or no table holds any more.
    TakesOver,
    OverClears,
    /// An answer to a POLL, or to another command, is a table.
    TakesToPoll,
    TakesToOther,
    /// What a POLL would list is no table; a stacked bill is credited.
    ListedIsNone,
    StackedIsBill,
    /// After a damaged answer, after none, or after a RESET no table holds.
    DamagedClears,
    SilentClears,
    ResetClears,
    /// The first table holds.
    FirstHolds,
    /// A table values the bills that come after it.
    FromNowOn,
    /// The top bit of a word's last byte does not matter, or means the other of the two.
    AllZeros,
    Exchanged,
    /// Ten zeros are usable, or ten places; nine are not.
    TenZeros,
    TenPlaces,
    NotNineZeros,
    NotNinePlaces,
    /// Small letters are usable, or what stands before A, or behind Z.
    SmallLetters,
    BeforeA,
    BehindZ,
    /// A first byte of 0 is no bill; one above 9 is unusable.
    ZeroIsNone,
    OneDigit,
    /// The value of one bill, or of the next type.
    EachBill,
    NextType,
}

/// The wrong readings, and what a recording reaches that tells one from the right reading: a place, and a part of it.
const WRONG: [(Reading, Place, usize); 28] = [
    (Reading::KeepsRest, Place::TableHolds, 0),
    (Reading::Takes(0x00), Place::TableHolds, 1),
    (Reading::Takes(0xFF), Place::TableHolds, 2),
    (Reading::Takes(0x30), Place::TableHolds, 3),
    (Reading::TakesOver, Place::TableHolds, 4),
    (Reading::OverClears, Place::TableHolds, 5),
    (Reading::TakesToPoll, Place::TableHolds, 6),
    (Reading::TakesToOther, Place::TableHolds, 7),
    (Reading::ListedIsNone, Place::TableHolds, 8),
    (Reading::StackedIsBill, Place::TableHolds, 9),
    (Reading::DamagedClears, Place::TableHolds, 10),
    (Reading::SilentClears, Place::TableHolds, 11),
    (Reading::ResetClears, Place::TableHolds, 12),
    (Reading::FirstHolds, Place::TableHolds, 13),
    (Reading::FromNowOn, Place::TableHolds, 14),
    (Reading::AllZeros, Place::TableSays, 0),
    (Reading::Exchanged, Place::TableSays, 1),
    (Reading::TenZeros, Place::TableSays, 2),
    (Reading::TenPlaces, Place::TableSays, 3),
    (Reading::NotNineZeros, Place::TableSays, 4),
    (Reading::NotNinePlaces, Place::TableSays, 5),
    (Reading::SmallLetters, Place::TableSays, 6),
    (Reading::BeforeA, Place::TableSays, 7),
    (Reading::BehindZ, Place::TableSays, 8),
    (Reading::ZeroIsNone, Place::TableSays, 9),
    (Reading::OneDigit, Place::TableSays, 10),
    (Reading::EachBill, Place::TableSays, 11),
    (Reading::NextType, Place::TableSays, 12),
];

/// A table by a reading, with the bills and those that it values.
#[derive(Clone)]
struct Followed {
    reading: Reading,
    table: [u8; LENGTH],
    /// How many bytes of it were sent; none before any.
    length: Option<usize>,
    bills: [u32; TYPES],
    valued: [u32; TYPES],
}

impl Followed {
    fn by(reading: Reading) -> Followed {
        Followed { reading, table: [0; LENGTH], length: None, bills: [0; TYPES], valued: [0; TYPES] }
    }

    fn credited(&mut self, kind: u8) {
        self.bills[usize::from(kind)] += 1;
        self.valued[usize::from(kind)] += 1;
    }

    /// An undamaged answer to a command.
    fn answered(&mut self, command: Command, body: &[u8]) {
        let asked = command == Command::Table;
        let is_table = asked && body.len() <= LENGTH && !matches!(body, [0x00 | 0x30 | 0xFF]);
        match (self.reading, classify(body)) {
            (Reading::Takes(one), _) if asked && body == [one] => self.take(body),
            (Reading::TakesOver, _) if asked && body.len() > LENGTH => self.take(&body[..LENGTH]),
            (Reading::OverClears, _) if asked && body.len() > LENGTH => self.take(&[]),
            (Reading::TakesToPoll, Class::Unknown) if command == Command::Poll => {
                self.take(&body[..body.len().min(LENGTH)])
            }
            (Reading::TakesToOther, Class::Unknown) if !asked && command != Command::Poll => {
                self.take(&body[..body.len().min(LENGTH)])
            }
            (Reading::ListedIsNone, Class::State | Class::Bill(..)) if asked => {}
            (Reading::StackedIsBill, Class::Bill(Where::Stacked, kind)) if asked => {
                self.credited(kind);
                self.take(body);
            }
            (Reading::ResetClears, Class::Ack) if command == Command::Reset => self.take(&[]),
            (Reading::FirstHolds, _) if self.length.is_some() => {}
            _ if is_table => self.take(body),
            _ => {}
        }
    }

    fn take(&mut self, body: &[u8]) {
        if self.reading != Reading::KeepsRest {
            self.table = [0; LENGTH];
        }
        self.table[..body.len()].copy_from_slice(body);
        self.length = Some(body.len());
        if self.reading == Reading::FromNowOn {
            self.valued = [0; TYPES];
        }
    }

    fn word(&self, kind: usize) -> [u8; WORD] {
        let mut word = [0; WORD];
        word.copy_from_slice(&self.table[kind * WORD..][..WORD]);
        word
    }

    /// What a word says, by the reading: a whole number and decimals. Nothing for a word without a value.
    fn value(&self, [first, letters @ .., last]: [u8; WORD]) -> Option<(u64, u8)> {
        let reading = self.reading;
        let letter = |&letter: &u8| match letter {
            b'A'..=b'Z' => true,
            b'a'..=b'z' => reading == Reading::SmallLetters,
            1..=0x40 => reading == Reading::BeforeA,
            0x5B => reading == Reading::BehindZ,
            _ => false,
        };
        let (many, places) = (last & !PLACES, last >= PLACES);
        let most = match (reading, places) {
            (Reading::TenZeros, false) | (Reading::TenPlaces, true) => MOST + 1,
            (Reading::NotNineZeros, false) | (Reading::NotNinePlaces, true) => MOST - 1,
            _ => MOST,
        };
        let places = match reading {
            Reading::AllZeros => false,
            Reading::Exchanged => !places,
            _ => places,
        };
        let none = many > most
            || !letters.iter().all(letter)
            || reading == Reading::ZeroIsNone && first == 0
            || reading == Reading::OneDigit && first > 9;
        let zeros = if places { 0 } else { many };
        (!none).then(|| (u64::from(first) * 10_u64.pow(u32::from(zeros)), if places { many } else { 0 }))
    }

    /// The lines about bills.
    fn lines(&self) -> String {
        let mut text = String::new();
        for (kind, bills) in self.bills.iter().enumerate().filter(|(_, &bills)| bills > 0) {
            text += &format!("type {kind} bills {bills}\n");
            let kind = if self.reading == Reading::NextType { (kind + 1) % TYPES } else { kind };
            let word = self.word(kind);
            let count = match self.reading {
                Reading::EachBill => 1,
                Reading::FromNowOn if self.valued[kind] == 0 => continue,
                Reading::FromNowOn => self.valued[kind],
                _ => *bills,
            };
            if let Some((whole, decimals)) = self.value(word) {
                let letters: String = word[1..4].iter().copied().map(char::from).collect();
                text += &format!("value {} {letters} {decimals}\n", u64::from(count) * whole);
            }
        }
        text
    }
}

/// The bills and the table, by the right reading and by the wrong ones.
pub struct Tables {
    right: Followed,
    wrong: Vec<Followed>,
    /// The last command, and whether a bill table was asked for.
    command: Command,
    asked: bool,
}

impl Default for Tables {
    fn default() -> Tables {
        Tables {
            right: Followed::by(Reading::Right),
            wrong: WRONG.iter().map(|&(reading, ..)| Followed::by(reading)).collect(),
            command: Command::Reset,
            asked: false,
        }
    }
}

impl Tables {
    fn each(&mut self) -> impl Iterator<Item = &mut Followed> {
        std::iter::once(&mut self.right).chain(&mut self.wrong)
    }

    /// A command is accepted.
    pub fn asked(&mut self, command: Command) {
        self.command = command;
        self.asked |= command == Command::Table;
    }

    /// The last command that was accepted.
    pub fn command(&self) -> Command {
        self.command
    }

    pub fn credited(&mut self, kind: u8) {
        self.each().for_each(|one| one.credited(kind));
    }

    /// An undamaged answer.
    pub fn answered(&mut self, body: &[u8]) {
        let command = self.command;
        self.each().for_each(|one| one.answered(command, body));
    }

    pub fn damaged(&mut self) {
        self.cleared_by(Reading::DamagedClears);
    }

    pub fn silent(&mut self) {
        self.cleared_by(Reading::SilentClears);
    }

    fn cleared_by(&mut self, reading: Reading) {
        if self.command == Command::Table {
            self.wrong.iter_mut().filter(|one| one.reading == reading).for_each(|one| one.take(&[]));
        }
    }

    /// Marks what the report shows of the table.
    pub fn ended(&self, all: &mut Reached<Place>) {
        if !self.asked {
            return;
        }
        let right = self.right.lines();
        for (&(_, place, part), wrong) in WRONG.iter().zip(&self.wrong) {
            if wrong.lines() != right {
                all.part(place, part);
            }
        }
        let Some(length) = self.right.length else { return };
        let seen = (0..TYPES).filter(|&kind| self.right.bills[kind] > 0);
        if seen.clone().next().is_some() {
            let part = match length {
                1 => 0,
                2..=4 => 1,
                5 => 2,
                6..=118 => 3,
                119 => 4,
                _ => 5,
            };
            all.part(Place::TableHeld, part);
        }
        for kind in seen {
            all.part(Place::TableWord, class(self.right.word(kind)));
        }
    }
}

/// Which part of the row is a word's.
fn class(word: [u8; WORD]) -> usize {
    let [first, letters @ .., last] = word;
    if word == [0; WORD] {
        return 0;
    }
    if let Some(&letter) = letters.iter().find(|letter| !letter.is_ascii_uppercase()) {
        return match letter {
            0x40 => 4,
            0x5B => 5,
            0x61..=0x7A => 6,
            _ => 7,
        };
    }
    match last {
        0x0A => 1,
        0x8A => 2,
        0x0B..=0x7F | 0x8B.. => 3,
        _ if first == 0 => 8,
        0x00 => 9,
        0x01..=0x08 => 10,
        0x09 => 11,
        0x80 => 12,
        0x81..=0x88 => 13,
        0x89 => 14,
    }
}

#[cfg(test)]
mod tests {
    use super::*;
    use crate::recording::{records, Record};
    use crate::replay::{Bench, Played, Rooms};
    use crate::validator::{Bill, Closing};

    /// The bills and tables of a recording.
    fn followed(bytes: &[u8]) -> Tables {
        let (mut tables, mut host, mut rooms, mut frame) =
            (Tables::default(), Bench::fresh(), Rooms::new(), Vec::new());
        for record in records(bytes).flatten() {
            let played = host.play(record, &mut rooms);
            match (record, played) {
                (Record::Ask(command), Played::Validator(_)) => {
                    tables.asked(command);
                    frame.clear();
                }
                (Record::ValidatorByte(byte), Played::Validator(step)) => {
                    frame.push(byte);
                    match step.closing {
                        Some(Closing::Damaged(_)) => tables.damaged(),
                        Some(closing) => {
                            tables.answered(&frame[3..frame.len() - 2]);
                            if let (Some(Bill::Credited), Closing::Answered(Class::Bill(_, kind))) =
                                (step.bill, closing)
                            {
                                tables.credited(kind);
                            }
                        }
                        None => {}
                    }
                }
                _ => {}
            }
        }
        tables
    }

    #[test]
    fn the_right_reading_gives_the_report() {
        for turn in 0..200 {
            let bytes = crate::tables::recording(turn, turn);
            let report = crate::report::report(&bytes);
            let bills = |line: &&str| line.starts_with("type ") || line.starts_with("value ");
            let wanted: Vec<&str> = report.lines().filter(bills).collect();
            assert_eq!(followed(&bytes).right.lines().lines().collect::<Vec<_>>(), wanted);
        }
    }

    #[test]
    fn places_are_told_from_zeros() {
        let mut tables = Tables::default();
        tables.credited(0);
        tables.asked(Command::Table);
        tables.answered(b"\x19NLC\x82");
        let mut all = Reached::nothing();
        tables.ended(&mut all);
        assert_eq!(
            all.named("bill table: value, told from")[..2],
            ["places are zeros too", "zeros are places and places zeros"]
        );
        assert_eq!(all.named("bill table: held"), ["5"]);
    }
}
