//! Wrong readings of "Stop after two unknowns" (Q-9 of document 02), each replayed beside the right one. A recording whose report
//! would be another by a wrong reading tells it from the right one: that is what it reaches.

use crate::dispenser::{Closing, Session, Unknown};
use crate::dispenser_frame::Code;
use crate::reach::Place;
use crate::recording::{self, Record};
use crate::replay::{Bench, Played, Rooms};
use crate::report;

/// How somebody might read the request.
#[derive(Clone, Copy, Debug, PartialEq, Eq)]
enum Reading {
    #[cfg(test)]
    Right,
    /// Payouts stop after so many unknowns.
    After(u32),
    /// An unknown payout with this code does not count, or one that was closed in this way.
    NotOf(Code),
    NotBy(Unknown),
    /// An unknown status, purge or test counts too; so does a payout that is declined.
    OthersCount,
    DeclinedCount,
    /// A status, purge or test that closed like this breaks a succession of one, or ends the stop.
    OtherBreaks(How),
    OtherLifts(How),
    /// A declined payout breaks a succession of one, or ends the stop.
    DeclinedBreaks,
    DeclinedLifts,
    /// A payout that closed like this does not break the succession.
    PayoutLeaves(How),
    /// A command with this code gets 7 too.
    Stops(Code),
    /// A clear that is refused breaks a succession of one all the same, or ends the stop.
    RefusedClearBreaks,
    RefusedClearLifts,
    /// Clear does nothing to a stop, or to a single unknown; it leaves one of two unknowns.
    ClearLeavesStop,
    ClearLeavesSingle,
    ClearLeavesOneOfTwo,
    /// Clear sets the quiet time to 0, or makes 5,200 ms of the 95,200.
    ClearStartsQuiet,
    ClearShortensQuiet,
    /// Clear is refused where there is nothing to clear, before the line has been quiet for long enough, or while a validator
    /// command is open.
    ClearNeedsUnknown,
    ClearNeedsQuiet,
    ClearNeedsValidator,
}

/// How a command was closed.
#[derive(Clone, Copy, Debug, PartialEq, Eq)]
enum How {
    Answered,
    Refused,
    Unknown,
}

/// The wrong readings, and what a recording reaches that tells one from the right reading: a place, and a part of it.
const WRONG: [(Reading, Place, usize); 37] = [
    (Reading::After(1), Place::StopMade, 0),
    (Reading::After(3), Place::StopMade, 1),
    (Reading::NotOf(Code::PayUpper), Place::StopMade, 2),
    (Reading::NotOf(Code::PayLower), Place::StopMade, 3),
    (Reading::NotOf(Code::PayBoth), Place::StopMade, 4),
    (Reading::NotBy(Unknown::OtherByte), Place::StopMade, 5),
    (Reading::NotBy(Unknown::Silence), Place::StopMade, 6),
    (Reading::NotBy(Unknown::NoStart), Place::StopMade, 7),
    (Reading::NotBy(Unknown::NoStartAgain), Place::StopMade, 8),
    (Reading::NotBy(Unknown::ThirdBad), Place::StopMade, 9),
    (Reading::NotBy(Unknown::ThirdLate), Place::StopMade, 10),
    (Reading::OthersCount, Place::StopNotMade, 0),
    (Reading::DeclinedCount, Place::StopNotMade, 1),
    (Reading::OtherBreaks(How::Answered), Place::StopNotBroken, 0),
    (Reading::OtherBreaks(How::Refused), Place::StopNotBroken, 1),
    (Reading::OtherBreaks(How::Unknown), Place::StopNotBroken, 2),
    (Reading::DeclinedBreaks, Place::StopNotBroken, 3),
    (Reading::RefusedClearBreaks, Place::StopNotBroken, 4),
    (Reading::PayoutLeaves(How::Answered), Place::StopBroken, 0),
    (Reading::PayoutLeaves(How::Refused), Place::StopBroken, 1),
    (Reading::ClearLeavesSingle, Place::StopBroken, 2),
    (Reading::OtherLifts(How::Answered), Place::StopNotLifted, 0),
    (Reading::OtherLifts(How::Refused), Place::StopNotLifted, 1),
    (Reading::OtherLifts(How::Unknown), Place::StopNotLifted, 2),
    (Reading::DeclinedLifts, Place::StopNotLifted, 3),
    (Reading::RefusedClearLifts, Place::StopNotLifted, 4),
    (Reading::ClearLeavesStop, Place::StopLifted, 0),
    (Reading::ClearLeavesOneOfTwo, Place::StopLifted, 1),
    (Reading::Stops(Code::Purge), Place::TakenWhileStopped, 0),
    (Reading::Stops(Code::Status), Place::TakenWhileStopped, 1),
    (Reading::Stops(Code::TestUpper), Place::TakenWhileStopped, 2),
    (Reading::Stops(Code::TestLower), Place::TakenWhileStopped, 3),
    (Reading::ClearNeedsUnknown, Place::ClearTaken, 0),
    (Reading::ClearNeedsQuiet, Place::ClearTaken, 1),
    (Reading::ClearNeedsValidator, Place::ClearTaken, 2),
    (Reading::ClearStartsQuiet, Place::ClearLeaves, 0),
    (Reading::ClearShortensQuiet, Place::ClearLeaves, 1),
];

/// What a good recording tells apart, as places and parts of them; `right` is the bench after it.
pub fn told_apart(recording: &[u8], right: &Bench) -> impl Iterator<Item = (Place, usize)> {
    let right = report::lines(right);
    let wrong = |reading| report::lines(&Replay::of(recording, reading).bench);
    let told: Vec<_> = WRONG.iter().filter(|(reading, ..)| wrong(*reading) != right).collect();
    told.into_iter().map(|&(_, place, part)| (place, part))
}

/// How much longer the quiet time after an unknown closing is: whole ticks.
const LONGER: u32 = Session::QUIET_AFTER_UNKNOWN - Session::QUIET;
const _: () = assert!(LONGER % 1_000 == 0);

/// A replay by a reading. The succession is kept here; the session's own never gets to a stop.
struct Replay {
    reading: Reading,
    bench: Bench,
    rooms: Rooms,
    /// How many unknowns there are in succession.
    unknowns: u32,
    /// The code of the last command.
    code: Code,
    /// Whether 5,200 ms of quiet are enough, though the last command closed unknown.
    short: bool,
}

impl Replay {
    /// The replay of a good recording.
    fn of(recording: &[u8], reading: Reading) -> Replay {
        let (bench, rooms) = (Bench::fresh(), Rooms::new());
        let mut replay = Replay { reading, bench, rooms, unknowns: 0, code: Code::Status, short: false };
        for record in recording::records(recording).flatten() {
            replay.play(record);
        }
        replay
    }

    fn play(&mut self, record: Record) {
        match record {
            Record::Clear => self.clear(),
            Record::Request(command) if self.stops(command.code) => {
                // whatever number it gets: 2, 3 and 4 decline it too
                self.bench.records += 1;
                self.bench.declined += 1;
                self.declined(command.code);
            }
            _ => {
                let played = self.bench.play(record, &mut self.rooms);
                self.played(record, played);
            }
        }
    }

    fn played(&mut self, record: Record, played: Played) {
        match (record, played) {
            (Record::Request(command), Played::Declined(_)) => self.declined(command.code),
            (Record::Request(command), _) => (self.code, self.short) = (command.code, false),
            // it has set the quiet time to 0
            (Record::DispenserByte(_), _) if self.short => self.shorten(),
            _ => {}
        }
        if let Played::Dispenser(step) | Played::Both(step, _) = played {
            if let Some(closing) = step.closing {
                self.closed(closing);
            }
        }
    }

    fn stops(&self, code: Code) -> bool {
        let enough = if let Reading::After(unknowns) = self.reading { unknowns } else { 2 };
        self.unknowns >= enough && (code.pays() || self.reading == Reading::Stops(code))
    }

    fn declined(&mut self, code: Code) {
        if !code.pays() {
            return;
        }
        match self.reading {
            Reading::DeclinedCount => self.unknowns += 1,
            Reading::DeclinedBreaks if self.unknowns == 1 => self.unknowns = 0,
            Reading::DeclinedLifts if self.unknowns >= 2 => self.unknowns = 0,
            _ => {}
        }
    }

    fn closed(&mut self, closing: Closing) {
        self.bench.dispenser.clear().expect("nothing is open");
        let how = match closing {
            Closing::Answered(..) => How::Answered,
            Closing::Refused => How::Refused,
            Closing::Unknown(_) => How::Unknown,
        };
        if !self.code.pays() {
            return match self.reading {
                Reading::OthersCount if how == How::Unknown => self.unknowns += 1,
                Reading::OtherBreaks(these) if these == how && self.unknowns == 1 => self.unknowns = 0,
                Reading::OtherLifts(these) if these == how && self.unknowns >= 2 => self.unknowns = 0,
                _ => {}
            };
        }
        match (closing, self.reading) {
            (Closing::Unknown(_), Reading::NotOf(code)) if code == self.code => {}
            (Closing::Unknown(way), Reading::NotBy(these)) if these == way => {}
            (Closing::Unknown(_), _) => self.unknowns += 1,
            (_, Reading::PayoutLeaves(these)) if these == how => {}
            _ => self.unknowns = 0,
        }
    }

    fn clear(&mut self) {
        self.bench.records += 1;
        let quiet = self.bench.dispenser.quiet();
        let refused = match self.reading {
            Reading::ClearNeedsUnknown => self.unknowns == 0,
            Reading::ClearNeedsQuiet => quiet.is_some_and(|(quiet, needed)| quiet < needed),
            Reading::ClearNeedsValidator => self.bench.validator.is_open(),
            _ => false,
        };
        if quiet.is_none() || refused {
            self.bench.declined += 1;
            match self.reading {
                Reading::RefusedClearBreaks if self.unknowns == 1 => self.unknowns = 0,
                Reading::RefusedClearLifts if self.unknowns >= 2 => self.unknowns = 0,
                _ => {}
            }
            return;
        }
        self.unknowns = match self.reading {
            Reading::ClearLeavesStop if self.unknowns >= 2 => self.unknowns,
            Reading::ClearLeavesSingle if self.unknowns == 1 => 1,
            Reading::ClearLeavesOneOfTwo if self.unknowns >= 2 => 1,
            _ => 0,
        };
        match self.reading {
            Reading::ClearStartsQuiet => {
                self.bench.dispenser.byte(0x00, &mut [0; Session::ROOM]).expect("a large room");
            }
            Reading::ClearShortensQuiet if !self.short => {
                self.short = true;
                self.shorten();
            }
            _ => {}
        }
    }

    /// Lets the time pass that 95,200 ms are longer than 5,200, where so many are needed.
    fn shorten(&mut self) {
        if self.bench.dispenser.quiet().is_some_and(|(_, needed)| needed == Session::QUIET_AFTER_UNKNOWN) {
            for _ in 0..LONGER / 1_000 {
                self.bench.dispenser.tick(1_000, &mut [0; Session::ROOM]).expect("a tick");
            }
        }
    }
}

#[cfg(test)]
mod tests {
    use super::*;
    use crate::text;

    /// A recording in words. Each command is asked for on a line that has been quiet for long enough.
    fn recording(words: &str) -> Vec<u8> {
        let mut all = String::new();
        for word in words.split_whitespace() {
            let said = match word {
                "lost" => "pay upper 1\ndispenser 00\n",
                "lost-lower" => "pay lower 1\ndispenser 00\n",
                "lost-both" => "pay both 1 1\ndispenser 00\n",
                "silence" => "pay upper 1\ntick 1000 x6\n",
                "no-start" => "pay upper 1\ndispenser 06\ntick 1000 x90\n",
                "no-start-again" => "pay upper 1\ndispenser 06 01\ntick 200\ntick 1000 x6\n",
                "third-bad" => "pay upper 1\ndispenser 06 01\ntick 200\ndispenser 01\ntick 200\ndispenser 01 01 01 01 01 01 01 01 01 01 01 01 01 01\n",
                "third-late" => "pay upper 1\ndispenser 06 01\ntick 200\ndispenser 01\ntick 200\ndispenser 01\ntick 200\n",
                "paid" => "pay upper 1\ndispenser 06 01 50 02 45 30 31 30 31 30 30 30 30 03 15\n",
                "refused" => "pay lower 1\ndispenser 15 15 15 15\n",
                "payout" => "pay upper 1\n",
                "purge" => "purge\ndispenser 15 15 15 15\n",
                "status" => "status\ndispenser 15 15 15 15\n",
                "test-upper" => "test upper\ndispenser 15 15 15 15\n",
                "test-lower" => "test lower\ndispenser 15 15 15 15\n",
                "answered-status" => "status\ndispenser 06 01 50 02 46 30 30 80 00 03 96\n",
                "lost-status" => "status\ndispenser 00\n",
                "open-status" => "status\n",
                "no" => "dispenser 15 15 15 15\n",
                "early" => "pay upper 1\n",
                "quiet" => "",
                "clear" => "clear\n",
                "poll" => "poll\n",
                "some" => "tick 1000 x50\n",
                _ => panic!("{word}"),
            };
            let at_once = matches!(word, "no" | "early" | "clear" | "poll" | "some");
            all += if at_once { "" } else { "tick 1000 x96\n" };
            all += said;
        }
        text::recording(&all).unwrap()
    }

    /// The wrong readings that a recording tells from the right one.
    fn told(recording: &[u8]) -> Vec<Reading> {
        let right = report::report(recording);
        assert_eq!(report::lines(&Replay::of(recording, Reading::Right).bench), right);
        let wrong = |reading| report::lines(&Replay::of(recording, reading).bench);
        WRONG.iter().map(|&(reading, ..)| reading).filter(|&reading| wrong(reading) != right).collect()
    }

    #[test]
    fn the_right_reading_gives_the_report() {
        for index in 0..1_000 {
            let (_, bytes) = crate::generate::recording(5, index);
            if let Ok(bench) = crate::replay::replay(&bytes) {
                let replay = Replay::of(&bytes, Reading::Right);
                assert_eq!(report::lines(&replay.bench), report::lines(&bench), "recording {index}");
            }
        }
    }

    #[test]
    fn what_tells_a_wrong_reading_from_the_right_one() {
        let shown: [(Reading, &str); WRONG.len()] = [
            (Reading::After(1), "lost payout"),
            (Reading::After(3), "lost lost payout"),
            (Reading::NotOf(Code::PayUpper), "lost lost-lower payout"),
            (Reading::NotOf(Code::PayLower), "lost lost-lower payout"),
            (Reading::NotOf(Code::PayBoth), "lost lost-both payout"),
            (Reading::NotBy(Unknown::OtherByte), "lost silence payout"),
            (Reading::NotBy(Unknown::Silence), "lost silence payout"),
            (Reading::NotBy(Unknown::NoStart), "lost no-start payout"),
            (Reading::NotBy(Unknown::NoStartAgain), "lost no-start-again payout"),
            (Reading::NotBy(Unknown::ThirdBad), "lost third-bad payout"),
            (Reading::NotBy(Unknown::ThirdLate), "lost third-late payout"),
            (Reading::OthersCount, "lost lost-status payout"),
            (Reading::DeclinedCount, "lost early payout"),
            (Reading::OtherBreaks(How::Answered), "lost answered-status lost payout"),
            (Reading::OtherBreaks(How::Refused), "lost status lost payout"),
            (Reading::OtherBreaks(How::Unknown), "lost lost-status lost payout"),
            (Reading::DeclinedBreaks, "lost early lost payout"),
            (Reading::RefusedClearBreaks, "lost open-status clear no lost payout"),
            (Reading::PayoutLeaves(How::Answered), "lost paid lost payout"),
            (Reading::PayoutLeaves(How::Refused), "lost refused lost payout"),
            (Reading::ClearLeavesSingle, "lost clear lost payout"),
            (Reading::OtherLifts(How::Answered), "lost lost answered-status payout"),
            (Reading::OtherLifts(How::Refused), "lost lost status payout"),
            (Reading::OtherLifts(How::Unknown), "lost lost lost-status payout"),
            (Reading::DeclinedLifts, "lost lost payout payout"),
            (Reading::RefusedClearLifts, "lost lost open-status clear no payout"),
            (Reading::ClearLeavesStop, "lost lost clear payout"),
            (Reading::ClearLeavesOneOfTwo, "lost lost clear lost payout"),
            (Reading::Stops(Code::Purge), "lost lost purge"),
            (Reading::Stops(Code::Status), "lost lost status"),
            (Reading::Stops(Code::TestUpper), "lost lost test-upper"),
            (Reading::Stops(Code::TestLower), "lost lost test-lower"),
            (Reading::ClearNeedsUnknown, "clear"),
            (Reading::ClearNeedsQuiet, "clear"),
            (Reading::ClearNeedsValidator, "quiet poll clear"),
            (Reading::ClearStartsQuiet, "quiet clear early"),
            (Reading::ClearShortensQuiet, "lost clear some early"),
        ];
        for ((reading, words), (wrong, ..)) in shown.into_iter().zip(WRONG) {
            assert_eq!(reading, wrong);
            let told = told(&recording(words));
            assert!(told.contains(&reading), "{reading:?}: {words} tells {told:?}");
        }
    }

    #[test]
    fn what_tells_nothing_apart() {
        // what the succession is does not show unless a payout is asked for
        assert_eq!(told(&recording("lost")), []);
        assert_eq!(told(&recording("lost answered-status lost")), [Reading::After(1)]);
        assert_eq!(told(&recording("paid refused answered-status payout")), []);
    }
}
