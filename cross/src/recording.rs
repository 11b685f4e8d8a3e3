//! What a recording holds: "A record is one kind byte and then its numbers".

use crate::dispenser_frame::{Code, Command};
use crate::number;
use crate::validator;

/// "Accept recordings of up to 4,294,967,295 bytes" (Q-7 of document 02).
pub const LONGEST: usize = 4_294_967_295;

#[derive(Clone, Copy, Debug, PartialEq, Eq)]
pub enum Record {
    /// Kind 0: a dispenser request, its counts as they stand in the recording.
    Request(Command),
    /// Kind 1: a byte from the dispenser.
    DispenserByte(u8),
    /// Kind 2: milliseconds, "given to both sessions".
    Tick(u32),
    /// Kind 3: a byte from the validator.
    ValidatorByte(u8),
    /// Kind 4: a validator request.
    Ask(validator::Command),
    /// Kind 5: the operator's clear call, "with no further number" (Q-9 of document 02).
    Clear,
}

pub const REQUEST: u8 = 0;
pub const DISPENSER_BYTE: u8 = 1;
pub const TICK: u8 = 2;
pub const VALIDATOR_BYTE: u8 = 3;
pub const ASK: u8 = 4;
pub const CLEAR: u8 = 5;

/// Why a recording is bad.
#[derive(Clone, Copy, Debug, PartialEq, Eq)]
pub enum Fault {
    Number,
    Cut,
    Unknown,
    TooLong,
}

impl Fault {
    /// "recording: bad number; cut short; unknown kind or value; over 65,536 bytes", where Q-7 has 4,294,967,295
    pub fn number(self) -> u8 {
        match self {
            Fault::Number => 21,
            Fault::Cut => 22,
            Fault::Unknown => 23,
            Fault::TooLong => 24,
        }
    }
}

/// A bad recording: why, and where the record begins that shows it, or where the byte past the longest recording stands.
#[derive(Clone, Copy, Debug, PartialEq, Eq)]
pub struct Bad {
    pub fault: Fault,
    pub at: usize,
}

/// Reads the records of one piece, and ends at the first bad one.
pub struct Records<'a> {
    bytes: &'a [u8],
    at: usize,
}

/// The records of one piece that is a whole recording, however long it is: there is no 24.
pub fn records(bytes: &[u8]) -> Records<'_> {
    Records { bytes, at: 0 }
}

impl Records<'_> {
    /// Where the next record begins.
    pub fn at(&self) -> usize {
        self.at
    }

    #[inline]
    fn number(&mut self) -> Result<u32, Fault> {
        match number::read(self.bytes, self.at) {
            Ok((value, next)) => {
                self.at = next;
                Ok(value)
            }
            Err(number::Fault::Bad) => Err(Fault::Number),
            Err(number::Fault::Cut) => Err(Fault::Cut),
        }
    }

    /// "a byte above 255 is 23, judged after the record's numbers"
    #[inline]
    fn byte(&mut self) -> Result<u8, Fault> {
        u8::try_from(self.number()?).map_err(|_| Fault::Unknown)
    }

    #[inline(always)]
    fn record(&mut self, kind: u8) -> Result<Record, Fault> {
        match kind {
            REQUEST => {
                let (code, upper, lower) = (self.number()?, self.number()?, self.number()?);
                let code = Code::of(code).ok_or(Fault::Unknown)?;
                Ok(Record::Request(Command { code, upper, lower }))
            }
            DISPENSER_BYTE => Ok(Record::DispenserByte(self.byte()?)),
            TICK => Ok(Record::Tick(self.number()?)),
            VALIDATOR_BYTE => Ok(Record::ValidatorByte(self.byte()?)),
            ASK => {
                let code = self.number()?;
                Ok(Record::Ask(validator::Command::of(code).ok_or(Fault::Unknown)?))
            }
            CLEAR => Ok(Record::Clear),
            _ => Err(Fault::Unknown),
        }
    }
}

impl Iterator for Records<'_> {
    type Item = Result<Record, Bad>;

    #[inline(always)]
    fn next(&mut self) -> Option<Self::Item> {
        let at = self.at;
        let kind = *self.bytes.get(at)?;
        self.at += 1;
        Some(self.record(kind).map_err(|fault| Bad { fault, at }))
    }
}

/// The most bytes of a record: its kind and three numbers of five groups.
const RECORD: usize = 16;

/// Reads a recording that comes "in pieces of any size including empty ones". Of what has come it keeps the record that is begun.
#[derive(Clone, Debug, Default)]
pub struct Pieces {
    /// Where the record begins that is not whole yet.
    at: usize,
    begun: [u8; RECORD],
    length: usize,
    bad: Option<Bad>,
}

impl Pieces {
    pub fn fresh() -> Pieces {
        Pieces::default()
    }

    /// Takes the next piece, and hands over each record that is whole by it. "After a fault further pieces change nothing."
    #[inline]
    pub fn piece(&mut self, bytes: &[u8], each: impl FnMut(Record)) {
        if self.bad.is_some() {
            return;
        }
        let left = LONGEST - (self.at + self.length);
        let (within, past) = bytes.split_at(bytes.len().min(left));
        self.bad = self.within(within, each).err();
        // "an earlier 21 or 23 wins"
        if self.bad.is_none() && !past.is_empty() {
            self.bad = Some(Bad { fault: Fault::TooLong, at: LONGEST });
        }
    }

    /// A piece that does not go past the longest recording: 21 or 23, if it shows one. Records are handed over in one place alone, so that
    /// a compiler may put there what is done with them.
    #[inline]
    fn within(&mut self, bytes: &[u8], mut each: impl FnMut(Record)) -> Result<(), Bad> {
        let (length, rest) = if self.length > 0 { self.whole(bytes)? } else { (0, bytes) };
        // the record that was begun, if it is whole by now, and what comes behind it
        let whole = self.begun;
        for part in [&whole[..length], rest] {
            let mut records = records(part);
            let begins = loop {
                let begins = records.at();
                match records.next() {
                    Some(Ok(record)) => each(record),
                    Some(Err(Bad { fault: Fault::Cut, .. })) => {
                        let begun = &part[begins..];
                        self.begun[..begun.len()].copy_from_slice(begun);
                        self.length = begun.len();
                        break begins;
                    }
                    Some(Err(Bad { fault, at })) => return Err(Bad { fault, at: self.at + at }),
                    None => break begins,
                }
            };
            self.at += begins;
        }
        Ok(())
    }

    /// Goes on with the record that is begun, byte by byte. Once it is whole it is no longer begun: its length, and the bytes behind it.
    #[cold]
    fn whole<'a>(&mut self, bytes: &'a [u8]) -> Result<(usize, &'a [u8]), Bad> {
        for (taken, &byte) in (1..).zip(bytes) {
            self.begun[self.length] = byte;
            self.length += 1;
            match records(&self.begun[..self.length]).next() {
                Some(Err(Bad { fault: Fault::Cut, .. })) => {}
                Some(Err(Bad { fault, .. })) => return Err(Bad { fault, at: self.at }),
                _ => return Ok((std::mem::take(&mut self.length), &bytes[taken..])),
            }
        }
        Ok((0, &[]))
    }

    pub fn is_bad(&self) -> bool {
        self.bad.is_some()
    }

    /// "Number 22 is given only when the caller says that the recording has ended."
    pub fn ended(&self) -> Result<(), Bad> {
        match self.bad {
            Some(bad) => Err(bad),
            None if self.length > 0 => Err(Bad { fault: Fault::Cut, at: self.at }),
            None => Ok(()),
        }
    }
}

impl Record {
    /// Appends the record.
    pub fn write(self, bytes: &mut Vec<u8>) {
        match self {
            Record::Request(Command { code, upper, lower }) => {
                write(REQUEST, &[u32::from(code.byte()), upper, lower], bytes)
            }
            Record::DispenserByte(byte) => write(DISPENSER_BYTE, &[u32::from(byte)], bytes),
            Record::Tick(ms) => write(TICK, &[ms], bytes),
            Record::ValidatorByte(byte) => write(VALIDATOR_BYTE, &[u32::from(byte)], bytes),
            Record::Ask(command) => write(ASK, &[u32::from(command.byte())], bytes),
            Record::Clear => write(CLEAR, &[], bytes),
        }
    }
}

/// Appends a kind byte and numbers. Only the comparison writes recordings: what it writes need not be good.
pub fn write(kind: u8, numbers: &[u32], bytes: &mut Vec<u8>) {
    bytes.push(kind);
    for &n in numbers {
        number::write(n, bytes);
    }
}

#[cfg(test)]
mod tests {
    use super::*;

    fn first(bytes: &[u8]) -> Result<Record, Bad> {
        records(bytes).next().unwrap()
    }

    fn bad(fault: Fault, at: usize) -> Result<Record, Bad> {
        Err(Bad { fault, at })
    }

    #[test]
    fn each_kind() {
        let ten = Command { code: Code::PayUpper, upper: 10, lower: 0 };
        assert_eq!(first(&[0, 0x45, 10, 0]), Ok(Record::Request(ten)));
        assert_eq!(first(&[1, 0x86, 0x01]), Ok(Record::DispenserByte(0x86)));
        assert_eq!(first(&[2, 0xE8, 0x07]), Ok(Record::Tick(1_000)));
        assert_eq!(first(&[3, 0x02]), Ok(Record::ValidatorByte(2)));
        assert_eq!(first(&[4, 0x33]), Ok(Record::Ask(validator::Command::Poll)));
        assert_eq!(first(&[4, 0x41]), Ok(Record::Ask(validator::Command::Table)));
        assert_eq!(first(&[5]), Ok(Record::Clear));
    }

    #[test]
    fn a_clear_has_no_number() {
        let mut all = records(&[5, 5, 2, 1, 5, 0x80, 0x00]);
        let good = [Record::Clear, Record::Clear, Record::Tick(1), Record::Clear];
        assert!(good.iter().all(|&record| all.next() == Some(Ok(record))));
        assert_eq!(all.next(), Some(bad(Fault::Unknown, 5)));
    }

    #[test]
    fn an_unknown_kind_is_23_at_once() {
        assert_eq!(first(&[0x06]), bad(Fault::Unknown, 0));
        assert_eq!(first(&[0xFF, 0x80, 0x00]), bad(Fault::Unknown, 0));
    }

    #[test]
    fn values_are_judged_after_the_numbers() {
        assert_eq!(first(&[0, 0x47, 0, 0]), bad(Fault::Unknown, 0));
        assert_eq!(first(&[0, 0x47, 0]), bad(Fault::Cut, 0));
        assert_eq!(first(&[0, 0x47, 0, 0x80, 0x00]), bad(Fault::Number, 0));
        assert_eq!(first(&[1, 0xFF, 0x01]), Ok(Record::DispenserByte(255)));
        assert_eq!(first(&[1, 0x80, 0x02]), bad(Fault::Unknown, 0));
        assert_eq!(first(&[3, 0x80, 0x02]), bad(Fault::Unknown, 0));
        assert_eq!(first(&[4, 0x34]), bad(Fault::Unknown, 0));
        assert_eq!(first(&[4, 0xB3, 0x02]), bad(Fault::Unknown, 0)); // 133h is not 33h
        assert_eq!(first(&[0, 0xC5, 0x02, 1, 0]), bad(Fault::Unknown, 0)); // 145h is not 45h
    }

    #[test]
    fn a_number_before_the_end_of_the_recording_hides_it() {
        // two at once: a bad number, and nothing where the next should be
        assert_eq!(first(&[0, 0x80, 0x00]), bad(Fault::Number, 0));
        assert_eq!(first(&[0, 0x45, 0x80]), bad(Fault::Cut, 0));
        assert_eq!(first(&[0]), bad(Fault::Cut, 0));
    }

    /// What was read of a recording before its end or its first bad record, written again.
    fn again(bytes: &[u8]) -> Vec<u8> {
        let mut again = Vec::new();
        records(bytes).map_while(Result::ok).for_each(|record| record.write(&mut again));
        again
    }

    #[test]
    fn what_was_read_and_is_written_again_has_the_same_bytes() {
        let every = [0, 0x45, 10, 0, 0, 0x77, 0xFF, 0x7F, 0x80, 0x01, 1, 0xFF, 0x01, 2, 0xFF, 0xFF, 0xFF, 0xFF, 0x0F];
        let every = [&every[..], &[3, 0x7F, 4, 0x38, 5, 2, 0, 5]].concat();
        assert_eq!(again(&every), every);
        for index in 0..2_000 {
            let (_, bytes) = crate::generate::recording(9, index);
            let good = match crate::replay::replay(&bytes) {
                Ok(_) => bytes.len(),
                Err(bad) => bad.at,
            };
            assert_eq!(again(&bytes), bytes[..good], "recording {index}");
        }
    }

    #[test]
    fn the_offset_is_the_records() {
        let mut all = records(&[2, 0xE8, 0x07, 0, 0x45, 10, 0x80, 0x00]);
        assert_eq!(all.next(), Some(Ok(Record::Tick(1_000))));
        assert_eq!(all.next(), Some(bad(Fault::Number, 3)));
    }

    /// The records of a recording that comes in these pieces, and how it ends.
    fn in_pieces<'a>(
        mut reading: Pieces,
        pieces: impl IntoIterator<Item = &'a [u8]>,
    ) -> (Vec<Record>, Result<(), Bad>) {
        let mut all = Vec::new();
        for piece in pieces {
            reading.piece(piece, |record| all.push(record));
        }
        (all, reading.ended())
    }

    /// A reading after so many bytes of whole records.
    fn after(at: usize) -> Pieces {
        Pieces { at, ..Pieces::fresh() }
    }

    #[test]
    fn however_it_is_cut_it_reads_the_same() {
        let longest = [0, 0xC5, 0x80, 0x80, 0x80, 0x01, 0xFF, 0xFF, 0xFF, 0xFF, 0x0F, 0xFF, 0xFF, 0xFF, 0xFF, 0x0F];
        assert_eq!(longest.len(), RECORD);
        let made = (0..100).map(|index| crate::generate::recording(5, index).1).filter(|bytes| bytes.len() < 200);
        for bytes in made.chain([longest.to_vec(), longest[..15].to_vec()]) {
            let whole = in_pieces(Pieces::fresh(), [&bytes[..]]);
            for cut in 0..=bytes.len() {
                let (one, other) = bytes.split_at(cut);
                assert_eq!(in_pieces(Pieces::fresh(), [one, &[], other]), whole, "{bytes:02X?} cut at {cut}");
            }
            for size in [1, 2, 3, 17] {
                assert_eq!(in_pieces(Pieces::fresh(), bytes.chunks(size)), whole, "{bytes:02X?} by {size}");
            }
        }
    }

    #[test]
    fn no_pieces_and_empty_ones_are_an_empty_recording() {
        assert_eq!(in_pieces(Pieces::fresh(), []), (vec![], Ok(())));
        assert_eq!(in_pieces(Pieces::fresh(), [&[][..], &[]]), (vec![], Ok(())));
    }

    #[test]
    fn cut_short_is_judged_at_the_end_alone() {
        let mut reading = Pieces::fresh();
        reading.piece(&[2, 1, 0, 0x45, 10], |_| {});
        assert_eq!(reading.ended(), Err(Bad { fault: Fault::Cut, at: 2 }));
        reading.piece(&[], |_| {});
        assert!(!reading.is_bad());
        reading.piece(&[0], |_| {});
        assert_eq!(reading.ended(), Ok(()));
    }

    #[test]
    fn after_a_fault_nothing_changes() {
        for (bytes, fault) in [(&[2, 1, 6][..], Fault::Unknown), (&[2, 1, 2, 0x80, 0], Fault::Number)] {
            let wanted = (vec![Record::Tick(1)], Err(Bad { fault, at: 2 }));
            assert_eq!(in_pieces(Pieces::fresh(), [bytes]), wanted);
            assert_eq!(in_pieces(Pieces::fresh(), [bytes, &[2, 1, 0xFF, 2], &[]]), wanted);
        }
        let too_long = Err(Bad { fault: Fault::TooLong, at: LONGEST });
        assert_eq!(in_pieces(after(LONGEST), [&[2][..], &[1, 0xFF], &[2, 0x80, 0]]), (vec![], too_long));
    }

    #[test]
    fn the_byte_past_the_longest_recording_is_24_at_its_offset() {
        let too_long = Err(Bad { fault: Fault::TooLong, at: LONGEST });
        let two = vec![Record::Tick(1), Record::Clear];
        for last in [&[2, 1, 5][..], &[2, 1, 5, 5], &[2, 1, 5, 6], &[2, 1, 5, 6, 2, 0x80, 0]] {
            let ends = if last.len() == 3 { Ok(()) } else { too_long };
            for size in 1..=last.len() {
                let read = in_pieces(after(LONGEST - 3), last.chunks(size).chain([&[][..]]));
                assert_eq!(read, (two.clone(), ends), "{last:02X?} by {size}");
            }
        }
        // the record that is begun does not matter, whatever the byte past the longest makes of it
        for byte in [0x00, 0x01, 0x80] {
            let begun = [2, 1, 0x02, 0x80, byte];
            assert_eq!(in_pieces(after(LONGEST - 4), [&begun[..]]), (vec![Record::Tick(1)], too_long));
            assert_eq!(in_pieces(after(LONGEST - 4), begun.chunks(1)), (vec![Record::Tick(1)], too_long));
        }
        // and where nothing comes past it, it is cut short
        let cut = Err(Bad { fault: Fault::Cut, at: LONGEST - 2 });
        assert_eq!(in_pieces(after(LONGEST - 4), [&[2, 1, 2, 0x80][..]]), (vec![Record::Tick(1)], cut));
    }

    #[test]
    fn an_earlier_21_or_23_wins() {
        for (bytes, fault) in [(&[2, 0x80, 0, 5][..], Fault::Number), (&[4, 0x34, 2, 1, 5], Fault::Unknown)] {
            let wanted = (vec![], Err(Bad { fault, at: LONGEST - 3 }));
            assert_eq!(in_pieces(after(LONGEST - 3), [bytes]), wanted);
            assert_eq!(in_pieces(after(LONGEST - 3), bytes.chunks(1)), wanted);
        }
        assert_eq!(
            in_pieces(Pieces::fresh(), [&[0xFF; 65_537][..]]),
            (vec![], Err(Bad { fault: Fault::Unknown, at: 0 }))
        );
    }

    /// Some seconds in an optimised build: `cargo test --release -- --ignored`.
    #[test]
    #[ignore]
    fn the_longest_recording_from_its_first_byte() {
        let (mut reading, mut records) = (Pieces::fresh(), 0_u32);
        let piece = [CLEAR; 65_536];
        for _ in 0..65_535 {
            reading.piece(&piece, |_| records += 1);
        }
        reading.piece(&piece[1..], |_| records += 1);
        assert_eq!((reading.ended(), records), (Ok(()), u32::MAX));
        reading.piece(&[CLEAR], |_| records += 1);
        assert_eq!((reading.ended(), records), (Err(Bad { fault: Fault::TooLong, at: LONGEST }), u32::MAX));
    }
}
