//! What a recording reaches of "The last 32 requests" (Q-6 of document 02): what is kept at its end and what was pushed out, and
//! which wrong readings it tells from the right one. A wrong reading is told where it would write other lines.

use crate::dispenser::{Closing, Declined, Unknown, NAK};
use crate::dispenser_frame::{Answer, Code, Command, OPENING};
use crate::kept::{Entry, Fate, Kept};
use crate::reach::{places, Reached};
use crate::recording::{self, Record};
use crate::replay::{Bench, Played, Rooms};
use crate::requests;

places! {
    Bad = 100, "recording: bad";
    Payouts = 100, "payouts in a recording":
        "none" "1 to 30" "31" "32" "33" "34 to 63" "64" "65" "66 or more";
    Answered = 100, "kept, answered, handed over": "once" "twice" "three times" "four times";
    Refused = 100, "kept, refused": "45h" "55h" "56h";
    Unknown = 100, "kept, unknown, handed over": "once" "twice" "three times" "four times";
    Open = 100, "kept, open, handed over": "once" "twice" "three times" "four times";
    AnsweredCode = 100, "kept, answered": "45h" "55h" "56h";
    UnknownCode = 100, "kept, unknown": "45h" "55h" "56h";
    OpenCode = 100, "kept, open": "45h" "55h" "56h";
    UnknownBy = 100, "kept, unknown by":
        "another first byte" "no first byte" "no answer after 06h" "no answer after our 15h" "third 15h, bad frame" "third 15h, late frame";
    Paid = 100, "kept, answered with": "all that was asked" "less" "more" "nothing" "less from one cassette and more from the other";
    OpenOf = 100, "kept, open, of so many payouts": "1" "31" "32" "33" "64" "65";
    PushedOut = 100, "pushed out": "answered" "refused" "unknown" "handed over again";
    Newest = 100, "told from: keeps the newest":
        "31" "33" "32, but drops the 33rd" "32, but drops all at the 33rd" "32, but writes the newest first"
        "32, but writes a ring from its start" "16, and the first 16";
    Handed = 100, "told from: hand-overs":
        "are always one" "of an open one are not counted yet" "count on from the payout before" "count our 15h too"
        "of a status, purge or test count too" "are one fewer for a refused one" "are the 15h that came";
    Closed = 100, "told from: how it closed":
        "an open one is not kept" "an answered status, purge or test sets it" "a refused one sets it" "an unknown one sets it"
        "a declined payout sets it";
    PaidAs = 100, "told from: paid": "by CHK" "as asked" "no more than asked" "with the rejects" "with the cassettes exchanged";
    NotKept = 100, "told from: keeps too":
        "44h" "46h" "76h" "77h" "a payout declined with 2" "with 3" "with 4" "with 7" "a clear";
    Emptied = 100, "told from: is emptied by":
        "a clear" "a refused clear" "a clear that lifts the stop" "the stop" "an unknown payout" "a payout declined with 7";
}

/// What happened on the dispenser's line.
#[derive(Clone, Copy)]
enum Event {
    Accepted(Command),
    /// A frame of ours.
    HandedOver,
    /// A 15h of theirs, to a hand-over.
    No,
    /// A 15h of ours.
    AskedAgain,
    Closed(Ended),
    Declined(Command, Declined),
    /// A clear that was taken, and whether it lifted the stop.
    Cleared {
        lifted: bool,
    },
    ClearRefused,
    /// The second unknown payout in succession has closed.
    Stopped,
}

/// How a command closed.
#[derive(Clone, Copy)]
enum Ended {
    Refused,
    Unknown(Unknown),
    /// The EXIT counts, the CHK counts and the rejects of a payout from each cassette.
    Paid {
        exit: [u32; 2],
        chk: [u32; 2],
        rejects: [u32; 2],
    },
    /// An answered status, purge or test.
    Other,
}

impl Ended {
    /// By the right reading.
    fn fate(self) -> Fate {
        match self {
            Ended::Refused => Fate::Refused,
            Ended::Unknown(_) => Fate::Unknown,
            Ended::Paid { exit: [upper, lower], .. } => Fate::Answered { upper, lower },
            Ended::Other => Fate::Answered { upper: 0, lower: 0 },
        }
    }
}

/// The events of a good recording.
fn events(recording: &[u8]) -> Vec<Event> {
    let (mut host, mut rooms, mut events) = (Bench::fresh(), Rooms::new(), Vec::new());
    // what came since the command was accepted
    let mut came = Vec::new();
    for record in recording::records(recording).flatten() {
        let was_stopped = host.dispenser.is_stopped();
        let first = host.dispenser.phase() == crate::dispenser::Phase::First;
        let played = host.play(record, &mut rooms);
        match (record, played) {
            (Record::Request(command), Played::Declined(why)) => events.push(Event::Declined(command, why)),
            (Record::Request(command), _) => {
                events.push(Event::Accepted(command));
                came.clear();
            }
            (Record::Clear, Played::Declined(_)) => events.push(Event::ClearRefused),
            (Record::Clear, _) => events.push(Event::Cleared { lifted: was_stopped }),
            (Record::DispenserByte(byte), _) => {
                came.push(byte);
                if first && byte == NAK {
                    events.push(Event::No);
                }
            }
            _ => {}
        }
        match rooms.to_dispenser(played) {
            [OPENING, ..] => events.push(Event::HandedOver),
            [NAK] => events.push(Event::AskedAgain),
            _ => {}
        }
        if let Played::Dispenser(step) | Played::Both(step, _) = played {
            events.extend(step.closing.map(|closing| Event::Closed(ended(closing, &came))));
        }
        if host.dispenser.is_stopped() && !was_stopped {
            events.push(Event::Stopped);
        }
    }
    events
}

/// How a command closed, of which these bytes came.
fn ended(closing: Closing, came: &[u8]) -> Ended {
    let answer = match closing {
        Closing::Refused => return Ended::Refused,
        Closing::Unknown(how) => return Ended::Unknown(how),
        Closing::Answered(answer, _) => answer,
    };
    // the first CHK count, and where there are two the second, of a frame of that length
    let chk = |length: usize, place: usize| {
        let digits = &came[came.len() - length + place..][..2];
        u32::from(digits[0] - b'0') * 10 + u32::from(digits[1] - b'0')
    };
    let one = |payment: crate::dispenser_frame::Payment| (payment.exit, chk(14, 4), payment.rejects);
    match answer {
        Answer::PaidUpper(payment) => {
            let (exit, chk, rejects) = one(payment);
            Ended::Paid { exit: [exit, 0], chk: [chk, 0], rejects: [rejects, 0] }
        }
        Answer::PaidLower(payment) => {
            let (exit, chk, rejects) = one(payment);
            Ended::Paid { exit: [0, exit], chk: [0, chk], rejects: [0, rejects] }
        }
        Answer::PaidBoth(upper, lower) => Ended::Paid {
            exit: [upper.exit, lower.exit],
            chk: [chk(21, 4), chk(21, 8)],
            rejects: [upper.rejects, lower.rejects],
        },
        Answer::Purged | Answer::Status | Answer::TestedUpper { .. } | Answer::TestedLower { .. } => Ended::Other,
    }
}

/// How somebody might read the request. What is wrong stands in the table, in the same order.
#[derive(Clone, Copy, Debug, PartialEq, Eq)]
enum Reading {
    Right,
    // the newest
    Most(usize),
    DropsNewest,
    DropsAll,
    NewestFirst,
    Ring,
    FirstAndNewest,
    // hand-overs
    HandedOnce,
    OpenHandedOnce,
    HandedOn,
    CountsOurs,
    CountsOthers,
    RefusedOneFewer,
    CountsNo,
    // how it closed
    OpenNotKept,
    OtherSets(How),
    DeclinedSets,
    // paid
    Chk,
    AsAsked,
    NoMore,
    WithRejects,
    Exchanged,
    // what is kept
    KeepsOther(Code),
    KeepsDeclined(Declined),
    KeepsClear,
    // what empties it
    EmptiedByClear,
    EmptiedByRefusedClear,
    EmptiedByLifting,
    EmptiedByStop,
    EmptiedByUnknown,
    EmptiedByStopped,
}

/// How another command closed.
#[derive(Clone, Copy, Debug, PartialEq, Eq)]
enum How {
    Answered,
    Refused,
    Unknown,
}

/// The wrong readings, and what a recording reaches that tells one from the right reading: a place, and a part of it.
const WRONG: [(Reading, Place, usize); 39] = [
    (Reading::Most(31), Place::Newest, 0),
    (Reading::Most(33), Place::Newest, 1),
    (Reading::DropsNewest, Place::Newest, 2),
    (Reading::DropsAll, Place::Newest, 3),
    (Reading::NewestFirst, Place::Newest, 4),
    (Reading::Ring, Place::Newest, 5),
    (Reading::FirstAndNewest, Place::Newest, 6),
    (Reading::HandedOnce, Place::Handed, 0),
    (Reading::OpenHandedOnce, Place::Handed, 1),
    (Reading::HandedOn, Place::Handed, 2),
    (Reading::CountsOurs, Place::Handed, 3),
    (Reading::CountsOthers, Place::Handed, 4),
    (Reading::RefusedOneFewer, Place::Handed, 5),
    (Reading::CountsNo, Place::Handed, 6),
    (Reading::OpenNotKept, Place::Closed, 0),
    (Reading::OtherSets(How::Answered), Place::Closed, 1),
    (Reading::OtherSets(How::Refused), Place::Closed, 2),
    (Reading::OtherSets(How::Unknown), Place::Closed, 3),
    (Reading::DeclinedSets, Place::Closed, 4),
    (Reading::Chk, Place::PaidAs, 0),
    (Reading::AsAsked, Place::PaidAs, 1),
    (Reading::NoMore, Place::PaidAs, 2),
    (Reading::WithRejects, Place::PaidAs, 3),
    (Reading::Exchanged, Place::PaidAs, 4),
    (Reading::KeepsOther(Code::Purge), Place::NotKept, 0),
    (Reading::KeepsOther(Code::Status), Place::NotKept, 1),
    (Reading::KeepsOther(Code::TestUpper), Place::NotKept, 2),
    (Reading::KeepsOther(Code::TestLower), Place::NotKept, 3),
    (Reading::KeepsDeclined(Declined::Range), Place::NotKept, 4),
    (Reading::KeepsDeclined(Declined::Open), Place::NotKept, 5),
    (Reading::KeepsDeclined(Declined::Quiet), Place::NotKept, 6),
    (Reading::KeepsDeclined(Declined::Stopped), Place::NotKept, 7),
    (Reading::KeepsClear, Place::NotKept, 8),
    (Reading::EmptiedByClear, Place::Emptied, 0),
    (Reading::EmptiedByRefusedClear, Place::Emptied, 1),
    (Reading::EmptiedByLifting, Place::Emptied, 2),
    (Reading::EmptiedByStop, Place::Emptied, 3),
    (Reading::EmptiedByUnknown, Place::Emptied, 4),
    (Reading::EmptiedByStopped, Place::Emptied, 5),
];

/// All requests of a history, oldest first, by a reading: which of them are kept is told apart.
fn entries(events: &[Event], reading: Reading) -> Vec<Entry> {
    let mut all: Vec<Entry> = Vec::new();
    // the last command, and where its entry stands while it is open
    let mut command = Command { code: Code::Status, upper: 0, lower: 0 };
    let mut open = None;
    for &event in events {
        match event {
            Event::Accepted(accepted) => {
                command = accepted;
                open = (command.code.pays() || reading == Reading::KeepsOther(command.code)).then_some(all.len());
                if open.is_some() {
                    let before = all.last().filter(|_| reading == Reading::HandedOn).map_or(0, |last| last.handed);
                    all.push(Entry { command, handed: before, fate: Fate::Open });
                }
            }
            Event::HandedOver | Event::AskedAgain | Event::No => {
                let counts = match event {
                    Event::HandedOver => reading != Reading::CountsNo,
                    Event::No => reading == Reading::CountsNo,
                    _ => reading == Reading::CountsOurs,
                };
                let others = reading == Reading::CountsOthers && open.is_none() && !command.code.pays();
                let entry = if others { all.last_mut() } else { open.and_then(|place| all.get_mut(place)) };
                if let (true, Some(entry)) = (counts, entry) {
                    entry.handed += 1;
                }
            }
            Event::Closed(ended) => {
                closed(&mut all, open.take(), command, ended, reading);
                if reading == Reading::EmptiedByUnknown && command.code.pays() && matches!(ended, Ended::Unknown(_)) {
                    all.clear();
                }
            }
            Event::Declined(declined, why) => {
                if reading == Reading::KeepsDeclined(why) && declined.code.pays() {
                    // behind the newest, so that an open one keeps its place
                    all.push(Entry { command: declined, handed: 1, fate: Fate::Refused });
                }
                if let (Reading::DeclinedSets, None, Some(last)) = (reading, open, all.last_mut()) {
                    last.fate = Fate::Refused;
                }
                if reading == Reading::EmptiedByStopped && why == Declined::Stopped {
                    all.clear();
                }
            }
            Event::Cleared { lifted } => match reading {
                Reading::KeepsClear => all.push(Entry { command, handed: 0, fate: Fate::Unknown }),
                Reading::EmptiedByClear => all.clear(),
                Reading::EmptiedByLifting if lifted => all.clear(),
                _ => {}
            },
            Event::ClearRefused if reading == Reading::EmptiedByRefusedClear => {
                all.clear();
                open = None;
            }
            Event::Stopped if reading == Reading::EmptiedByStop => all.clear(),
            Event::ClearRefused | Event::Stopped => {}
        }
    }
    if let Some(entry) = open.and_then(|place| all.get_mut(place)) {
        if reading == Reading::OpenHandedOnce {
            entry.handed = 1;
        }
    }
    if reading == Reading::HandedOnce {
        all.iter_mut().for_each(|entry| entry.handed = 1);
    }
    if reading == Reading::OpenNotKept {
        all.retain(|entry| entry.fate != Fate::Open);
    }
    all
}

/// Closes the command, whose entry stands there if it has one.
fn closed(all: &mut [Entry], open: Option<usize>, command: Command, ended: Ended, reading: Reading) {
    let how = match ended {
        Ended::Refused => How::Refused,
        Ended::Unknown(_) => How::Unknown,
        Ended::Paid { .. } | Ended::Other => How::Answered,
    };
    let entry = match open {
        Some(place) => all.get_mut(place),
        None if reading == Reading::OtherSets(how) && !command.code.pays() => all.last_mut(),
        None => None,
    };
    let Some(entry) = entry else { return };
    entry.fate = ended.fate();
    if how == How::Refused && reading == Reading::RefusedOneFewer {
        entry.handed -= 1;
    }
    if let Ended::Paid { exit, chk, rejects } = ended {
        let asked = [command.upper, command.lower];
        let each = |one: fn([u32; 3]) -> u32| {
            let [upper, lower] = [0, 1].map(|cassette| one([exit[cassette], asked[cassette], rejects[cassette]]));
            Fate::Answered { upper, lower }
        };
        entry.fate = match reading {
            Reading::Chk => Fate::Answered { upper: chk[0], lower: chk[1] },
            Reading::AsAsked => each(|[_, asked, _]| asked),
            Reading::NoMore => each(|[exit, asked, _]| exit.min(asked)),
            Reading::WithRejects => each(|[exit, _, rejects]| exit + rejects),
            Reading::Exchanged => Fate::Answered { upper: exit[1], lower: exit[0] },
            _ => entry.fate,
        };
    }
}

/// Those that are written, in their order.
fn written(all: &[Entry], reading: Reading) -> Vec<Entry> {
    const MOST: usize = Kept::MOST;
    let newest = |most: usize| all[all.len().saturating_sub(most)..].to_vec();
    match reading {
        Reading::Most(most) => newest(most),
        Reading::DropsNewest => all[..all.len().min(MOST)].to_vec(),
        Reading::DropsAll => newest(if all.is_empty() { 0 } else { (all.len() - 1) % MOST + 1 }),
        Reading::NewestFirst => newest(MOST).into_iter().rev().collect(),
        Reading::Ring => {
            let mut kept = newest(MOST);
            if all.len() > MOST {
                kept.rotate_right(all.len() % MOST);
            }
            kept
        }
        Reading::FirstAndNewest if all.len() > MOST => [&all[..MOST / 2], &newest(MOST / 2)].concat(),
        _ => newest(MOST),
    }
}

/// What a recording reached.
pub fn reached(recording: &[u8]) -> Reached<Place> {
    let mut reached = Reached::nothing();
    if crate::replay::replay(recording).is_err() {
        reached.mark(Place::Bad);
        return reached;
    }
    let events = events(recording);
    let all = entries(&events, Reading::Right);
    shown(&events, &all, &mut reached);
    let lines = |reading| requests::lines(&written(&entries(&events, reading), reading));
    let right = lines(Reading::Right);
    for (reading, place, part) in WRONG {
        if lines(reading) != right {
            reached.part(place, part);
        }
    }
    reached
}

/// What is kept and what was pushed out, of all requests, oldest first.
fn shown(events: &[Event], all: &[Entry], reached: &mut Reached<Place>) {
    reached.part(
        Place::Payouts,
        match all.len() {
            0 => 0,
            1..=30 => 1,
            31 => 2,
            32 => 3,
            33 => 4,
            34..=63 => 5,
            64 => 6,
            65 => 7,
            _ => 8,
        },
    );
    let (pushed_out, kept) = all.split_at(all.len().saturating_sub(Kept::MOST));
    for entry in pushed_out {
        let part = match entry.fate {
            Fate::Answered { .. } => 0,
            Fate::Refused => 1,
            Fate::Unknown => 2,
            Fate::Open => unreachable!("only the newest is open"),
        };
        reached.part(Place::PushedOut, part);
        if entry.handed > 1 {
            reached.part(Place::PushedOut, 3);
        }
    }
    for Entry { command, handed, fate } in kept {
        let (times, code) = (*handed as usize - 1, code(command.code));
        match *fate {
            Fate::Answered { upper, lower } => {
                reached.part(Place::Answered, times);
                reached.part(Place::AnsweredCode, code);
                paid([command.upper, command.lower], [upper, lower], reached);
            }
            Fate::Refused => reached.part(Place::Refused, code),
            Fate::Unknown => {
                reached.part(Place::Unknown, times);
                reached.part(Place::UnknownCode, code);
            }
            Fate::Open => {
                reached.part(Place::Open, times);
                reached.part(Place::OpenCode, code);
                if let Some(part) = [1, 31, 32, 33, 64, 65].iter().position(|&payouts| payouts == all.len()) {
                    reached.part(Place::OpenOf, part);
                }
            }
        }
    }
    unknown_by(events, pushed_out.len(), reached);
}

fn code(code: Code) -> usize {
    match code {
        Code::PayUpper => 0,
        Code::PayLower => 1,
        _ => 2,
    }
}

fn paid(asked: [u32; 2], paid: [u32; 2], reached: &mut Reached<Place>) {
    let less = paid[0] < asked[0] || paid[1] < asked[1];
    let more = paid[0] > asked[0] || paid[1] > asked[1];
    match (less, more) {
        (false, false) => reached.part(Place::Paid, 0),
        (true, false) => reached.part(Place::Paid, 1),
        (false, true) => reached.part(Place::Paid, 2),
        (true, true) => reached.part(Place::Paid, 4),
    }
    if paid == [0, 0] {
        reached.part(Place::Paid, 3);
    }
}

/// The ways to an unknown closing, of the payouts that are kept.
fn unknown_by(events: &[Event], pushed_out: usize, reached: &mut Reached<Place>) {
    let (mut payouts, mut pays) = (0, false);
    for event in events {
        match event {
            Event::Accepted(command) => {
                pays = command.code.pays();
                payouts += usize::from(pays);
            }
            Event::Closed(Ended::Unknown(how)) if pays && payouts > pushed_out => {
                let part = match how {
                    Unknown::OtherByte => 0,
                    Unknown::Silence => 1,
                    Unknown::NoStart => 2,
                    Unknown::NoStartAgain => 3,
                    Unknown::ThirdBad => 4,
                    Unknown::ThirdLate => 5,
                };
                reached.part(Place::UnknownBy, part);
            }
            _ => {}
        }
    }
}

#[cfg(test)]
mod tests {
    use super::*;
    use crate::text;

    /// A recording in words. Each command is asked for on a line that has been quiet for long enough.
    fn recording(words: &str) -> Vec<u8> {
        let mut all = String::new();
        for word in words.split_whitespace() {
            let (word, times) = word.split_once('*').map_or((word, 1), |(word, times)| (word, times.parse().unwrap()));
            let said = match word {
                "paid" => "pay upper 1\ndispenser 06 01 50 02 45 30 31 30 31 30 30 30 30 03 15\n",
                "paid-two" => "pay upper 2\ndispenser 06 01 50 02 45 30 32 30 32 30 30 30 30 03 15\n",
                "paid-second" => "pay upper 1\ndispenser 15 06 01 50 02 45 30 31 30 31 30 30 30 30 03 15\n",
                "paid-again" => {
                    "pay upper 1\ndispenser 06 01\ntick 200\ndispenser 01 50 02 45 30 31 30 31 30 30 30 30 03 15\n"
                }
                "paid-short" => "pay upper 2\ndispenser 06 01 50 02 45 30 31 30 31 30 30 30 30 03 15\n",
                "paid-over" => "pay upper 1\ndispenser 06 01 50 02 45 30 32 30 32 30 30 30 30 03 15\n",
                "paid-chk" => "pay upper 1\ndispenser 06 01 50 02 45 30 33 30 31 30 30 30 30 03 17\n",
                "paid-rejects" => "pay upper 1\ndispenser 06 01 50 02 45 30 31 30 31 30 30 30 31 03 14\n",
                "refused" => "pay lower 1\ndispenser 15 15 15 15\n",
                "lost" => "pay both 1 1\ndispenser 00\n",
                "open" => "pay upper 1\n",
                "open-second" => "pay upper 1\ndispenser 15\n",
                "purge" => "purge\ndispenser 06 01 50 02 44 30 03 24\n",
                "status" => "status\ndispenser 06 01 50 02 46 30 30 80 00 03 96\n",
                "status-refused" => "status\ndispenser 15 15 15 15\n",
                "status-lost" => "status\ndispenser 00\n",
                "test-upper" => "test upper\ndispenser 15 15 15 15\n",
                "test-lower" => "test lower\ndispenser 15 15 15 15\n",
                "wrong" => "pay upper 61\n",
                "early" => "pay upper 1\n",
                "stopped" => "pay upper 1\n",
                "clear" => "clear\n",
                _ => panic!("{word}"),
            };
            let at_once = matches!(word, "wrong" | "early" | "clear");
            let one = format!("{}{said}", if at_once { "" } else { "tick 1000 x96\n" });
            all += &one.repeat(times);
        }
        text::recording(&all).unwrap()
    }

    /// The wrong readings that a recording tells from the right one.
    fn told(words: &str) -> Vec<Reading> {
        let events = events(&recording(words));
        let lines = |reading| requests::lines(&written(&entries(&events, reading), reading));
        let right = lines(Reading::Right);
        assert_eq!(right, requests::requests(&recording(words)), "{words}");
        WRONG.iter().map(|&(reading, ..)| reading).filter(|&reading| lines(reading) != right).collect()
    }

    #[test]
    fn the_right_reading_gives_the_lines() {
        for index in 0..1_000 {
            let (_, bytes) = crate::generate::recording(5, index);
            if crate::replay::replay(&bytes).is_ok() {
                let all = entries(&events(&bytes), Reading::Right);
                let lines = requests::lines(&written(&all, Reading::Right));
                assert_eq!(lines, requests::requests(&bytes), "recording {index}");
            }
        }
    }

    #[test]
    fn what_tells_a_wrong_reading_from_the_right_one() {
        let shown: [(Reading, &str); WRONG.len()] = [
            (Reading::Most(31), "paid*32"),
            (Reading::Most(33), "paid*33"),
            (Reading::DropsNewest, "paid*32 refused"),
            (Reading::DropsAll, "paid*33"),
            (Reading::NewestFirst, "paid refused"),
            (Reading::Ring, "paid*32 refused"),
            (Reading::FirstAndNewest, "paid*16 refused*17"),
            (Reading::HandedOnce, "paid-second"),
            (Reading::OpenHandedOnce, "open-second"),
            (Reading::HandedOn, "paid paid"),
            (Reading::CountsOurs, "paid-again"),
            (Reading::CountsOthers, "paid status"),
            (Reading::RefusedOneFewer, "refused"),
            (Reading::CountsNo, "paid"),
            (Reading::OpenNotKept, "open"),
            (Reading::OtherSets(How::Answered), "refused status"),
            (Reading::OtherSets(How::Refused), "paid status-refused"),
            (Reading::OtherSets(How::Unknown), "paid status-lost"),
            (Reading::DeclinedSets, "paid early"),
            (Reading::Chk, "paid-chk"),
            (Reading::AsAsked, "paid-short"),
            (Reading::NoMore, "paid-over"),
            (Reading::WithRejects, "paid-rejects"),
            (Reading::Exchanged, "paid"),
            (Reading::KeepsOther(Code::Purge), "purge"),
            (Reading::KeepsOther(Code::Status), "status"),
            (Reading::KeepsOther(Code::TestUpper), "test-upper"),
            (Reading::KeepsOther(Code::TestLower), "test-lower"),
            (Reading::KeepsDeclined(Declined::Range), "wrong"),
            (Reading::KeepsDeclined(Declined::Open), "open early"),
            (Reading::KeepsDeclined(Declined::Quiet), "early"),
            (Reading::KeepsDeclined(Declined::Stopped), "lost lost stopped"),
            (Reading::KeepsClear, "clear"),
            (Reading::EmptiedByClear, "paid clear"),
            (Reading::EmptiedByRefusedClear, "paid open clear"),
            (Reading::EmptiedByLifting, "lost lost clear"),
            (Reading::EmptiedByStop, "lost lost"),
            (Reading::EmptiedByUnknown, "lost"),
            (Reading::EmptiedByStopped, "lost lost stopped"),
        ];
        for ((reading, words), (wrong, ..)) in shown.into_iter().zip(WRONG) {
            assert_eq!(reading, wrong);
            let told = told(words);
            assert!(told.contains(&reading), "{reading:?}: {words} tells {told:?}");
        }
    }

    #[test]
    fn what_tells_nothing_apart() {
        assert!(told("").is_empty());
        // a ring that has come round twice is written from its start
        assert!(!told("paid-two paid*31 paid-two paid*31").contains(&Reading::Ring));
        assert!(told("paid-two paid*31 paid-two paid*30").contains(&Reading::Ring));
        // 32 alike: which one was dropped does not show
        assert!(!told("paid*33").contains(&Reading::DropsNewest));
        assert!(!told("paid clear").contains(&Reading::EmptiedByLifting));
        assert!(!told("lost early").contains(&Reading::EmptiedByStopped));
    }

    #[test]
    fn what_is_kept_and_what_was_pushed_out() {
        let reached = |words: &str, name: &str| reached(&recording(words)).named(name);
        assert_eq!(reached("", "payouts in"), ["none"]);
        assert_eq!(reached("paid*32", "payouts in"), ["32"]);
        assert!(reached("paid*32", "pushed out").is_empty());
        assert_eq!(reached("refused paid*32", "pushed out"), ["refused", "handed over again"]);
        assert_eq!(reached("lost paid refused*32", "pushed out"), ["answered", "unknown"]);
        assert_eq!(reached("lost status-lost", "unknown by"), ["another first byte"]);
        assert!(reached("status-lost", "unknown by").is_empty());
        assert_eq!(reached("paid*32 open-second", "kept, open"), ["twice", "45h", "33"]);
        assert_eq!(reached("paid-short paid", "answered with"), ["all that was asked", "less"]);
        let bad = [recording("paid"), vec![0xFF]].concat();
        assert!(super::reached(&bad).named("").is_empty());
    }
}
