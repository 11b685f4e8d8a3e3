//! Recordings about money taken in (Q-1 of document 02): bills are stacked, and bill tables read that value them.

use crate::bill_table::{LENGTH, MOST, PLACES, WORD};
use crate::ccnet_frame::{self, TYPES};
use crate::random::Random;
use crate::recording::Record;
use crate::replay::{Bench, Rooms};
use crate::validator::{Command, Phase, Session};

/// A recording with bills of a few types and some tables; `turn` says how long the last one is.
pub fn recording(seed: u64, turn: u64) -> Vec<u8> {
    let mut random = Random::new(seed);
    let kinds = kinds(&mut random);
    let mut till = Till { random, kinds, host: Bench::fresh(), rooms: Rooms::new(), recorded: Vec::new() };
    let before = till.random.below(3);
    till.bills(before);
    if !till.random.once_in(6) {
        let table = till.table();
        till.exchange(Command::Table, &table);
    }
    for _ in 0..till.random.within(0, 4) {
        till.keeps();
    }
    let mut last = till.table();
    last.truncate(match turn % 10 {
        0..=1 => LENGTH,
        2 => 1,
        3 => till.random.within(2, 4) as usize,
        4 => WORD,
        5 => till.random.within(6, 118) as usize,
        6 => LENGTH - 1,
        _ => 0,
    });
    if matches!(last[..], [0x00 | 0x30 | 0xFF]) {
        last = vec![0x14];
    }
    till.bills(1);
    if turn % 10 == 7 {
        last = till.listed();
    }
    if !last.is_empty() {
        till.exchange(Command::Table, &last);
    }
    for _ in 0..till.random.within(0, 3) {
        till.keeps();
    }
    let after = till.random.below(2);
    till.bills(after);
    till.recorded
}

/// Two to four types, the first and the last among them more often than others.
fn kinds(random: &mut Random) -> Vec<u8> {
    let mut kinds = vec![random.below(TYPES as u32) as u8];
    for _ in 0..random.within(1, 3) {
        let any = random.below(TYPES as u32) as u8;
        kinds.push(random.pick(&[any, any, any, 0, 1, 22, 23, 23]));
    }
    kinds
}

struct Till {
    random: Random,
    /// The types of the bills, perhaps one of them twice.
    kinds: Vec<u8>,
    host: Bench,
    rooms: Rooms,
    recorded: Vec<u8>,
}

impl Till {
    fn play(&mut self, record: Record) {
        record.write(&mut self.recorded);
        self.host.play(record, &mut self.rooms);
    }

    /// A command on a quiet line, and the frame that answers it.
    fn exchange(&mut self, command: Command, body: &[u8]) {
        self.ask(command);
        let frame = ccnet_frame::write(Session::ADDRESS, body).expect("a body of 1 to 250 bytes");
        self.hear(&frame);
    }

    fn ask(&mut self, command: Command) {
        if self.host.validator.phase() != Phase::Idle {
            self.play(Record::Tick(1_000));
        }
        let ms = self.random.pick(&[20, 20, 20, 21, 500]);
        self.play(Record::Tick(ms));
        self.play(Record::Ask(command));
    }

    fn hear(&mut self, bytes: &[u8]) {
        for &byte in bytes {
            self.play(Record::ValidatorByte(byte));
        }
    }

    /// So many bills of each type, or one fewer.
    fn bills(&mut self, most: u32) {
        for kind in self.kinds.clone() {
            for _ in 0..most.saturating_sub(self.random.below(2)).max(most / 2) {
                if !self.random.once_in(4) {
                    self.exchange(Command::Poll, &[0x15]);
                }
                self.exchange(Command::Poll, &[0x81, kind]);
            }
        }
    }

    /// A whole table with a word for each type, most of which are not there.
    fn table(&mut self) -> Vec<u8> {
        let mut table = vec![0; LENGTH];
        for kind in 0..TYPES {
            if self.kinds.contains(&(kind as u8)) || self.random.once_in(4) {
                table[kind * WORD..][..WORD].copy_from_slice(&word(&mut self.random));
            }
        }
        table
    }

    /// A body that is listed where it answers a POLL.
    fn listed(&mut self) -> Vec<u8> {
        let kind = self.random.pick(&self.kinds);
        match self.random.below(6) {
            0 => vec![self.random.pick(&[0x10, 0x14, 0x15, 0x1A, 0x41, 0x46])],
            1 => vec![0x80, kind],
            2 => vec![0x82, kind],
            3 => vec![0x1B, self.random.byte()],
            _ => vec![0x81, kind],
        }
    }

    /// Something that leaves the table as it is.
    fn keeps(&mut self) {
        let table = self.table();
        match self.random.below(11) {
            0 => self.exchange(Command::Table, &[0x00]),
            1 => self.exchange(Command::Table, &[0xFF]),
            2 => self.exchange(Command::Table, &[0x30]),
            3..=4 => {
                let more = self.random.pick(&[1, 1, 2, 5, 129, 130]);
                let more = if more > 5 { self.random.within(1, more) } else { more };
                let more: Vec<u8> = (0..more).map(|_| self.random.byte()).collect();
                self.exchange(Command::Table, &[table, more].concat());
            }
            5 => self.exchange(Command::Poll, &table),
            6 => {
                let command = self.random.pick(&[Command::Stack, Command::Return, Command::Hold, Command::Reset]);
                self.exchange(command, &table);
            }
            7..=8 => {
                self.ask(Command::Table);
                let mut frame = ccnet_frame::write(Session::ADDRESS, &table).expect("a body of 120 bytes");
                match self.random.below(4) {
                    0..=1 => frame[LENGTH + 3] ^= 1 << self.random.below(8),
                    2 => frame[1] = 0x04,
                    _ => frame.truncate(self.random.within(1, 124) as usize),
                }
                self.hear(&frame);
                self.play(Record::Tick(400));
            }
            9 => {
                self.ask(Command::Table);
                self.play(Record::Tick(10));
            }
            _ => self.exchange(Command::Reset, &[0x00]),
        }
    }
}

/// Letters, as makers use them and any.
fn letters(random: &mut Random) -> [u8; 3] {
    let mut any = || random.within(0x41, 0x5A) as u8;
    let any = [any(), any(), any()];
    random.pick(&[any, *b"USA", *b"NLC", *b"EUR", *b"AAA", *b"ZZZ"])
}

/// A word: mostly one with a value, around every limit.
pub fn word(random: &mut Random) -> [u8; WORD] {
    let [one, two, three] = letters(random);
    let any = random.byte();
    let first = random.pick(&[1, 2, 5, 9, 10, 25, 100, 255, any]);
    let some = random.within(1, 8) as u8;
    let last = random.pick(&[some, some | PLACES]);
    let with = |last| [first, one, two, three, last];
    let another = |random: &mut Random, letter: u8| {
        let mut word = with(last);
        word[random.within(1, 3) as usize] = letter;
        word
    };
    match random.below(16) {
        0 => [0; WORD],
        1 => with(MOST + 1),
        2 => with(PLACES | (MOST + 1)),
        3 => with(random.pick(&[0x0B, 0x10, 0x7F, 0x8B, 0x90, 0xFF])),
        4 => another(random, 0x40),
        5 => another(random, 0x5B),
        6 => another(random, 0x61 + any % 26),
        7 => another(random, any & 0x3F),
        8 => [0, one, two, three, last],
        9 => with(0),
        10 => with(PLACES),
        11 => with(MOST),
        12 => with(PLACES | MOST),
        _ => with(last),
    }
}

/// What a validator on a bench at work says to GET BILL TABLE: a table, or more than one.
pub fn body(random: &mut Random) -> Vec<u8> {
    let length = match random.below(12) {
        0 => 1,
        1 => random.within(2, 5),
        2..=3 => random.within(6, 119),
        4 => random.within(121, 250),
        _ => LENGTH as u32,
    };
    let mut body = Vec::new();
    while body.len() < length as usize {
        body.extend(word(random));
    }
    body.truncate(length as usize);
    body
}

#[cfg(test)]
mod tests {
    use super::*;

    #[test]
    fn bills_are_credited_and_tables_kept() {
        let (mut bills, mut valued) = (0, 0);
        for turn in 0..100 {
            let bytes = recording(turn, turn);
            let bench = crate::replay::replay(&bytes).unwrap();
            assert_eq!(bench.declined, 0);
            bills += bench.validator.bills().iter().sum::<u32>();
            valued += crate::report::report(&bytes).lines().filter(|line| line.starts_with("value ")).count();
        }
        assert!(bills > 300 && valued > 50, "{bills} {valued}");
    }
}
