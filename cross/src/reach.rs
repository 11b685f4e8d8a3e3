//! How many recordings reached each closing of both sessions and whatever else the comparison must not miss.

use std::marker::PhantomData;

/// A row of a table: the name of a place, how many recordings of a whole run must reach it, and what each part of it is, where
/// it has parts: so many must reach each.
pub type Row = (&'static str, u32, &'static [&'static str]);

/// The places of a table: what a recording can reach.
pub trait Places: Copy {
    const ROWS: &'static [Row];

    /// Which row is this place's.
    fn row(self) -> usize;
}

/// Declares the places of a table and their rows.
macro_rules! places {
    ($($place:ident = $least:literal, $name:literal $(: $($part:literal)+)?;)*) => {
        /// What a recording can reach.
        #[derive(Clone, Copy)]
        pub enum Place {
            $($place,)*
        }

        impl $crate::reach::Places for Place {
            const ROWS: &'static [$crate::reach::Row] = &[$(($name, $least, &[$($($part,)+)?]),)*];

            fn row(self) -> usize {
                self as usize
            }
        }
    };
}
pub(crate) use places;

places! {
    Answered = 100, "dispenser: answered";
    Refused = 100, "dispenser: refused";
    OtherByte = 100, "dispenser: unknown, another first byte";
    NoFirstByte = 100, "dispenser: unknown, no first byte";
    NoAnswer = 100, "dispenser: unknown, no answer after 06h";
    NoAnswerAgain = 100, "dispenser: unknown, no answer after our 15h";
    ThirdBad = 100, "dispenser: unknown, third 15h, bad frame";
    ThirdLate = 100, "dispenser: unknown, third 15h, late frame";
    LeftOpen = 100, "dispenser: left open";
    HandedOverAgain = 100, "dispenser: answered after a hand-over again": "the second" "the third" "the fourth";
    AskedAgain = 100, "dispenser: answered after a 15h of ours";
    FirstByteAgain = 100, "dispenser: the 5,050 ms after a hand-over again":
        "06h at 5,049" "06h too late" "06h in time by the last hand-over alone" "silence after the second" "silence after the third"
        "silence after the fourth";
    SkippedBefore01 = 100, "dispenser: ms between skipped bytes and 01h":
        "in time" "unknown, but not by the skipped byte, and more came";
    SlowAnswer = 100, "dispenser: ms between the bytes of an answer":
        "whole at 199" "late, but not by its last byte, and more came";
    OneFault = 100, "dispenser: bad frame, one fault": "12" "another code" "14" "15" "16";
    TwoFaults = 100, "dispenser: bad frame, two faults at once":
        "12 and another code" "12 and 14" "12 and 15" "12 and 16" "another code and 14" "another code and 15" "14 and 15" "14 and 16" "15 and 16";
    FixedByte = 100, "dispenser: bad frame, only a fixed 30h is wrong": "46h" "76h, first" "76h, second" "77h, first" "77h, second";
    SensorTopBit = 100, "dispenser: bad frame, only sensor 0 has its top bit clear";
    Sensor = 100, "dispenser: answered, sensor 1 of a status": "01h" "03h" "04h" "06h" "15h";
    Unlisted = 100, "dispenser: answered, an unlisted error": "44h" "45h" "46h" "55h" "56h" "76h" "77h";
    Over = 100, "account: over";
    Short = 100, "account: short";
    BothCassettes = 100, "account: both cassettes in one command";
    PushedOut = 100, "account: another sum, if only the last 32 payouts counted":
        "asked" "paid" "short" "over" "refused" "unknown";
    TestRejects = 100, "account: rejects of a test";
    LastError = 100, "report: a last error of each class":
        "fine" "out of notes" "not seated" "jam" "count in doubt" "other listed" "unlisted";
    LastErrorNone = 100, "report: no last error, beside one": "upper" "lower";
    LastErrorListed = 100, "report: a last error of each listed code":
        "30h" "31h" "32h" "33h" "34h" "35h" "36h" "37h" "38h" "3Ah" "3Bh" "3Ch" "3Dh" "3Fh" "40h" "41h" "42h" "43h"
        "44h" "45h" "46h" "47h" "48h" "49h" "4Ah" "4Ch" "4Eh";
    LastErrorBeside = 100, "report: a last error beside the listed codes": "39h" "3Eh" "4Bh" "4Dh" "4Fh" "7Fh";
    LastErrorLeft = 100, "last error: left as it was by":
        "a status answer of another class" "a purge answer of another class" "a bad frame of another class" "a refused closing"
        "an unknown closing";
    LastErrorSet = 100, "last error: set by": "pay both on the lower" "pay both on the upper" "76h" "77h";
    StopMade = 100, "stop: made by two unknown payouts":
        "not by one" "before a third" "45h" "55h" "56h" "another first byte" "no first byte" "no answer after 06h"
        "no answer after our 15h" "third 15h, bad frame" "third 15h, late frame";
    StopNotMade = 100, "stop: not made with the help of": "an unknown status, purge or test" "a declined payout";
    StopBroken = 100, "stop: not made, since between two unknowns there was": "an answered payout" "a refused payout" "a clear";
    StopNotBroken = 100, "stop: made all the same, between two unknowns there was":
        "an answered status, purge or test" "a refused one" "an unknown one" "a declined payout" "a refused clear";
    StopLifted = 100, "stop: lifted by a clear": "and a payout taken" "and two more unknowns needed";
    StopNotLifted = 100, "stop: not lifted by":
        "an answered status, purge or test" "a refused one" "an unknown one" "a declined payout" "a refused clear";
    TakenWhileStopped = 100, "stop: taken all the same": "44h" "46h" "76h" "77h";
    ClearTaken = 100, "clear: taken": "with nothing to clear" "before the line is quiet" "while a validator command is open";
    ClearLeaves = 100, "clear: leaves": "the quiet time" "the 95,200 ms";
    ClearRefused = 100, "clear: refused while there is open": "a payout" "another command" "another command, while stopped";
    Acknowledged = 100, "validator: acknowledged";
    RefusedByNak = 100, "validator: refused by NAK";
    Illegal = 100, "validator: illegal";
    AnsweredByBody = 100, "validator: answered";
    DamagedAddress = 100, "validator: damaged, address";
    DamagedLength = 100, "validator: damaged, length";
    DamagedCheck = 100, "validator: damaged, check";
    DamagedLate = 100, "validator: damaged, late";
    Silent = 100, "validator: silent";
    SkippedBefore02 = 100, "validator: ms between skipped bytes and 02h":
        "in time" "silent, but not by the skipped byte, and more came";
    SlowBody = 100, "validator: ms between the bytes of an answer":
        "whole at 399" "late, but not by its last byte, and more came";
    BillCredited = 100, "validator: bill credited, type":
        "0" "1" "2" "3" "4" "5" "6" "7" "8" "9" "10" "11" "12" "13" "14" "15" "16" "17" "18" "19" "20" "21" "22" "23";
    BillRepeated = 100, "validator: bill repeated";
    Type24 = 100, "validator: unknown body, bill type 24": "80h" "81h" "82h";
    UnknownBody = 100, "validator: unknown body";
    TableHeld = 100, "bill table: held at the end, of so many bytes": "1" "2 to 4" "5" "6 to 118" "119" "120";
    TableOver = 100, "bill table: over 120 bytes": "121" "122 to 250";
    TableSecond = 100, "bill table: a second one";
    TableWord = 100, "bill table: the word of a type seen":
        "no such bill" "zeros 10" "places 10" "zeros or places above 10" "letter 40h" "letter 5Bh" "a small letter" "another byte as letter"
        "first byte 0" "zeros 0" "zeros 1 to 8" "zeros 9" "places 0" "places 1 to 8" "places 9";
    TableHolds = 100, "bill table: which one holds, told from":
        "a short one keeps the rest of the old one" "00h is one" "FFh is one" "30h is one" "over 120 bytes are one" "over 120 bytes clear it"
        "an answer to a POLL is one" "an answer to another command is one" "a listed body is none" "81h in it is a bill" "damage clears it"
        "silence clears it" "RESET clears it" "the first one holds" "only later bills are valued";
    TableSays = 100, "bill table: value, told from":
        "places are zeros too" "zeros are places and places zeros" "ten zeros are usable" "ten places are usable" "nine zeros are not"
        "nine places are not" "small letters are usable" "what is before A is usable" "what is behind Z is usable"
        "a first byte 0 is no bill" "a first byte above 9 is unusable" "the value of one bill" "the word of the next type";
    Declined2 = 100, "declined: 2";
    Declined3Dispenser = 100, "declined: 3, dispenser";
    Declined3Validator = 100, "declined: 3, validator";
    Declined4Dispenser = 100, "declined: 4, dispenser";
    Declined4Validator = 100, "declined: 4, validator";
    Declined6 = 100, "declined: 6";
    Declined7 = 100, "declined: 7": "45h" "55h" "56h";
    Hidden7 = 100, "declined: 7 hidden by": "2" "3" "4";
    Good = 100, "recording: good";
    GoodNumber = 100, "recording: good, a number of so many groups": "one" "two" "three" "four" "five";
    GoodClear = 100, "recording: good, kind 5": "at the end" "before another record";
    Bad21 = 100, "recording: bad 21, the wrong number": "code" "upper" "lower" "of kind 1" "of kind 2" "of kind 3" "of kind 4";
    Bad22 = 100, "recording: bad 22";
    WrongNumber = 100, "recording: bad 21 or 22, form of the wrong number":
        "top bit set on the fifth" "two, not shortest" "three, not shortest" "four, not shortest" "five, not shortest" "over 32 bits"
        "cut before the first" "cut after one" "cut after two" "cut after three" "cut after four";
    WrongBehindCode = 100, "recording: bad 21 or 22 behind a code outside the list": "21" "22";
    UnknownKind = 100, "recording: bad 23, unknown kind": "6 to 15" "16 to 254" "255";
    UnknownCode = 100, "recording: bad 23, code outside the list": "kind 0" "kind 4";
    Above255 = 100, "recording: bad 23, above 255 and else good": "kind 0" "kind 1" "kind 3" "kind 4";
    Long = 100, "recording: over 65,536 bytes": "good" "bad 21" "bad 22" "bad 23";
    Across = 100, "recording: a record across the end of 65,536 bytes":
        "kind 0" "kind 1" "kind 2" "kind 3" "kind 4" "a bad one";
}

/// What one recording reached: of each place, which parts; a place without parts is its part 0.
pub struct Reached<P> {
    parts: Vec<u32>,
    of: PhantomData<P>,
}

impl<P: Places> Reached<P> {
    pub fn nothing() -> Reached<P> {
        Reached { parts: vec![0; P::ROWS.len()], of: PhantomData }
    }

    pub fn mark(&mut self, place: P) {
        self.part(place, 0);
    }

    pub fn part(&mut self, place: P, part: usize) {
        self.parts[place.row()] |= 1 << part;
    }

    /// The parts that were reached, of places with this in their names.
    #[cfg(test)]
    pub fn named(&self, name: &str) -> Vec<&'static str> {
        let rows = P::ROWS.iter().zip(&self.parts).filter(|((place, ..), _)| place.contains(name));
        rows.flat_map(|((_, _, parts), reached)| {
            parts.iter().enumerate().filter(move |(part, _)| reached >> part & 1 == 1).map(|(_, &part)| part)
        })
        .collect()
    }
}

/// Counts over a run, for each part of each place.
#[derive(Clone, Debug)]
pub struct Reach<P> {
    counts: Vec<Vec<u32>>,
    of: PhantomData<P>,
}

impl<P: Places> Default for Reach<P> {
    fn default() -> Reach<P> {
        Reach { counts: P::ROWS.iter().map(|(_, _, parts)| vec![0; parts.len().max(1)]).collect(), of: PhantomData }
    }
}

impl<P: Places> Reach<P> {
    /// Counts what a recording reached. What a bad recording did before it went bad is not reached, since no report shows it.
    pub fn count(&mut self, reached: &Reached<P>) {
        for (counts, reached) in self.counts.iter_mut().zip(&reached.parts) {
            for (part, count) in counts.iter_mut().enumerate() {
                *count += reached >> part & 1;
            }
        }
    }

    /// The table, a line for each place: of one with parts, how many reached the part that the fewest reached.
    pub fn table(&self) -> String {
        let mut table = String::new();
        for ((name, _, parts), counts) in P::ROWS.iter().zip(&self.counts) {
            let (part, count) = counts.iter().enumerate().min_by_key(|&(_, count)| count).unwrap_or((0, &0));
            let rarest = parts.get(part).map(|part| format!(", rarest of {}: {part}", parts.len())).unwrap_or_default();
            table += &format!("{count:>8}  {name}{rarest}\n");
        }
        table
    }

    /// What too few recordings reached, for a run of so many: the table's numbers hold for 20,000 or more.
    pub fn missing(&self, run: u64) -> Vec<String> {
        let least = |least: u32| (u64::from(least) * run.min(20_000) / 20_000).max(u64::from(run >= 2_000));
        let mut missing = Vec::new();
        for ((name, wanted, parts), counts) in P::ROWS.iter().zip(&self.counts) {
            for (part, _) in counts.iter().enumerate().filter(|(_, &count)| u64::from(count) < least(*wanted)) {
                missing.push(parts.get(part).map_or(name.to_string(), |part| format!("{name}: {part}")));
            }
        }
        missing
    }
}

#[cfg(test)]
mod tests {
    use super::*;
    use crate::watch::reached;

    #[test]
    fn a_row_shows_its_rarest_part() {
        let mut reach = Reach::default();
        reach.count(&reached(&[0xFF]));
        reach.count(&reached(&[0xFF]));
        reach.count(&reached(&[0x06]));
        assert!(reach.table().contains("       0  recording: bad 23, unknown kind, rarest of 3: 16 to 254\n"));
        reach.count(&reached(&[0x20]));
        assert!(reach.table().contains("       1  recording: bad 23, unknown kind, rarest of 3: 6 to 15\n"));
        assert!(reach.missing(20_000).contains(&"recording: bad 23, unknown kind: 255".to_string()));
        assert!(reach.missing(200).contains(&"recording: good".to_string()));
        assert!(!reach.missing(200).contains(&"recording: bad 23, unknown kind: 255".to_string()));
    }

    #[test]
    fn the_sums_of_a_payout_that_was_pushed_out() {
        let of = |said: &str| {
            let reached = reached(&crate::text::recording(said).unwrap());
            reached.named("if only the last 32 payouts counted")
        };
        let refused = "tick 1000 x6\npay upper 1\ndispenser 15 15 15 15\n";
        let over = "tick 1000 x6\npay lower 1\ndispenser 06 01 50 02 55 30 32 30 32 30 30 30 30 03 05\n";
        assert!(of(&refused.repeat(32)).is_empty());
        assert_eq!(of(&refused.repeat(33)), ["asked", "refused"]);
        assert_eq!(of(&(over.to_string() + &refused.repeat(32))), ["asked", "paid", "over"]);
    }

    #[test]
    fn a_last_error_is_reached_where_the_report_shows_it() {
        let mut text = String::from(
            "tick 1000 x6\n\
             pay both 10 10\n\
             dispenser 06 01 50 02 56 31 30 31 30 31 30 31 30 4C 30 30 30 30 30 30 03 4A\n",
        );
        let reached = |text: &str| reached(&crate::text::recording(text).unwrap()).named("last error");
        let both = ["jam", "4Ch", "pay both on the lower", "pay both on the upper"];
        assert_eq!(reached(&text), both);
        // a status that set both would show on both, and then still on the lower
        text += "tick 1000 x6\nstatus\ndispenser 06 01 50 02 46 30 40 80 00 03 E6\n";
        assert_eq!(reached(&text), ["jam", "4Ch", "a status answer of another class", both[2], both[3]]);
        text += "tick 1000 x6\ntest upper\ndispenser 06 01 50 02 76 30 30 30 30 39 30 30 30 03 2F\n";
        let lower = ["jam", "unlisted", "4Ch", "39h", "a status answer of another class", both[2], "76h"];
        assert_eq!(reached(&text), lower);
        assert!(reached(&(text + "raw FF\n")).is_empty());
    }
}
