//! What one recording reaches, watched record by record: what each call did, and the bytes and milliseconds that led to it.

use crate::account::{Account, Sums};
use crate::ccnet_frame::{self, Class, SYNC};
use crate::dispenser::{self, Declined};
use crate::dispenser_frame::{check, faults, read_answer, Answer, Code, Fault, Payment, OPENING};
use crate::error_class::{ErrorClass, BESIDE, LISTED};
use crate::generate::PIECE;
use crate::kept::{Entry, Fate};
use crate::misread::Errors;
use crate::number;
use crate::reach::{Place, Reached};
use crate::recording::{self, Bad, Pieces, Record};
use crate::replay::{Bench, Played, Rooms};
use crate::validator::{self, Bill, Damage};
use crate::wrong_stops;
use crate::wrong_tables::Tables;

/// What a recording reached, or why it is bad.
pub fn reached(bytes: &[u8]) -> Reached<Place> {
    let mut watch = Watch::new();
    for record in recording::records(bytes) {
        match record {
            Ok(record) => watch.play(record),
            Err(bad) => return faulty(bytes, bad),
        }
    }
    if watch.may_stop {
        for (place, part) in wrong_stops::told_apart(bytes, &watch.bench) {
            watch.all.part(place, part);
        }
    }
    long(&mut watch.all, bytes, None);
    watch.ended()
}

/// A recording that a program cannot hold in one piece.
fn long(all: &mut Reached<Place>, bytes: &[u8], bad: Option<Bad>) {
    if bytes.len() <= PIECE {
        return;
    }
    all.part(Place::Long, bad.map_or(0, |bad| usize::from(bad.fault.number() - 20)));
    let mut reading = Pieces::fresh();
    // behind each piece but the last: the record that is begun
    for piece in bytes[..bytes.len() - 1].chunks_exact(PIECE) {
        reading.piece(piece, |_| {});
        match reading.ended() {
            Err(Bad { fault: recording::Fault::Cut, at }) if bad.is_some_and(|bad| bad.at == at) => {
                all.part(Place::Across, 5)
            }
            Err(Bad { fault: recording::Fault::Cut, at }) => all.part(Place::Across, usize::from(bytes[at])),
            _ => {}
        }
    }
}

// Bad recordings

fn faulty(bytes: &[u8], bad: Bad) -> Reached<Place> {
    let mut all = Reached::nothing();
    match bad.fault {
        recording::Fault::TooLong => unreachable!("no recording that is tried has 4,294,967,296 bytes"),
        recording::Fault::Unknown => unknown(&mut all, bytes, bad.at),
        recording::Fault::Number | recording::Fault::Cut => wrong_number(&mut all, bytes, bad),
    }
    long(&mut all, bytes, Some(bad));
    all
}

/// The numbers of the record at `at` before one that cannot be read, three at most, and where the next one stands.
fn numbers(bytes: &[u8], at: usize) -> (Vec<u32>, usize) {
    let (mut numbers, mut at) = (Vec::new(), at + 1);
    while let (true, Ok((value, next))) = (numbers.len() < 3, number::read(bytes, at)) {
        numbers.push(value);
        at = next;
    }
    (numbers, at)
}

fn unknown(all: &mut Reached<Place>, bytes: &[u8], at: usize) {
    let kind = bytes[at];
    let code = numbers(bytes, at).0.first().copied().unwrap_or_default();
    match kind {
        recording::REQUEST if code <= 255 => all.part(Place::UnknownCode, 0),
        recording::ASK if code <= 255 => all.part(Place::UnknownCode, 1),
        recording::REQUEST if Code::of(code % 256).is_some() => all.part(Place::Above255, 0),
        recording::DISPENSER_BYTE => all.part(Place::Above255, 1),
        recording::VALIDATOR_BYTE => all.part(Place::Above255, 2),
        recording::ASK if validator::Command::of(code % 256).is_some() => all.part(Place::Above255, 3),
        6..=15 => all.part(Place::UnknownKind, 0),
        16..=254 => all.part(Place::UnknownKind, 1),
        255 => all.part(Place::UnknownKind, 2),
        _ => {}
    }
}

fn wrong_number(all: &mut Reached<Place>, bytes: &[u8], bad: Bad) {
    let kind = bytes[bad.at];
    let (before, at) = numbers(bytes, bad.at);
    let cut = bad.fault == recording::Fault::Cut;
    if cut {
        all.mark(Place::Bad22);
    } else {
        let part = if kind == recording::REQUEST { before.len() } else { 2 + usize::from(kind) };
        all.part(Place::Bad21, part);
    }
    if kind == recording::REQUEST && before.first().is_some_and(|&code| Code::of(code).is_none()) {
        all.part(Place::WrongBehindCode, usize::from(cut));
    }
    let more = bytes[at..].iter().take(5).take_while(|&&byte| byte >= 0x80).count();
    all.part(
        Place::WrongNumber,
        match more {
            5 => 0,
            _ if cut => 6 + more,
            _ if bytes[at + more] == 0 => more,
            _ => 5,
        },
    );
}

// Good recordings

/// What has been seen on one line.
#[derive(Default)]
struct Line {
    /// Milliseconds since the request, since our last frame, since the answer's first byte and since the last byte.
    since_request: u32,
    since_sent: u32,
    since_start: u32,
    since_byte: u32,
    /// The answer's bytes so far.
    frame: Vec<u8>,
    /// Whether a byte was skipped in the wait for the answer's start.
    skipped: bool,
    /// A wait that has ended, and might go on if it were counted from the last byte: its length, and the place of that.
    lenient: Option<(u32, Place)>,
}

impl Line {
    /// We sent something: what was seen before is over.
    fn sent(&mut self) {
        self.since_sent = 0;
        self.skipped = false;
    }

    fn pass(&mut self, ms: u32) {
        for since in [&mut self.since_request, &mut self.since_sent, &mut self.since_start, &mut self.since_byte] {
            *since = since.saturating_add(ms);
        }
    }

    /// A byte comes: the place, if a wait counted from the last byte would have gone on up to it.
    fn more_came(&mut self) -> Option<Place> {
        let (limit, place) = self.lenient.take()?;
        (self.since_byte < limit).then_some(place)
    }

    /// A byte in the wait for an answer's start: says whether it is that start, some milliseconds after a skipped byte.
    fn awaited(&mut self, byte: u8, start: u8) -> bool {
        if byte != start {
            self.skipped = true;
            return false;
        }
        self.frame = vec![byte];
        self.since_start = 0;
        self.skipped && self.since_byte > 0
    }
}

struct Watch {
    all: Reached<Place>,
    bench: Bench,
    rooms: Rooms,
    dispenser: Line,
    validator: Line,
    /// The last dispenser command, how often it was handed over and how often 15h was sent for it.
    code: Code,
    hand_overs: u32,
    naks: u32,
    /// Whether it was closed by silence after a hand-over again.
    silent: bool,
    errors: Errors,
    tables: Tables,
    /// How many bill tables were read.
    described: u32,
    /// Whether something happened that the stop after two unknowns is about: a command closed unknown, or a clear.
    may_stop: bool,
    /// Whether the last record was a clear.
    cleared: bool,
}

impl Watch {
    fn new() -> Watch {
        Watch {
            all: Reached::nothing(),
            bench: Bench::fresh(),
            rooms: Rooms::new(),
            dispenser: Line::default(),
            validator: Line::default(),
            code: Code::Status,
            hand_overs: 0,
            naks: 0,
            silent: false,
            errors: Errors::default(),
            tables: Tables::default(),
            described: 0,
            may_stop: false,
            cleared: false,
        }
    }

    fn ended(mut self) -> Reached<Place> {
        self.all.mark(Place::Good);
        if self.cleared {
            self.all.part(Place::GoodClear, 0);
        }
        let account = self.bench.dispenser.account();
        let either = |sum: fn(&Sums) -> u32| sum(&account.upper) > 0 || sum(&account.lower) > 0;
        if either(|sums| sums.over) {
            self.all.mark(Place::Over);
        }
        if either(|sums| sums.short) {
            self.all.mark(Place::Short);
        }
        if either(|sums| sums.open) {
            self.all.mark(Place::LeftOpen);
        }
        self.pushed_out();
        self.last_errors();
        self.tables.ended(&mut self.all);
        self.all
    }

    /// The sums that would be others if only the payouts that are kept counted.
    fn pushed_out(&mut self) {
        let account = self.bench.dispenser.account();
        let mut kept = Account::default();
        for Entry { command, fate, .. } in account.kept.all() {
            kept.opened(*command);
            match *fate {
                Fate::Open => {}
                Fate::Answered { upper, lower } => {
                    let [upper, lower] = [upper, lower].map(|exit| Payment { exit, rejects: 0 });
                    kept.answered(match command.code {
                        Code::PayUpper => Answer::PaidUpper(upper),
                        Code::PayLower => Answer::PaidLower(lower),
                        _ => Answer::PaidBoth(upper, lower),
                    });
                }
                Fate::Refused => kept.refused(),
                Fate::Unknown => kept.lost(),
            }
        }
        let sums: [fn(&Sums) -> u32; 6] =
            [|s| s.asked, |s| s.paid, |s| s.short, |s| s.over, |s| s.refused, |s| s.unknown];
        for (part, sum) in sums.into_iter().enumerate() {
            if sum(&kept.upper) != sum(&account.upper) || sum(&kept.lower) != sum(&account.lower) {
                self.all.part(Place::PushedOut, part);
            }
        }
    }

    /// The lines "last error".
    fn last_errors(&mut self) {
        let last = self.bench.last_errors;
        for class in [last.upper, last.lower].into_iter().flatten() {
            self.all.part(Place::LastError, class as usize);
        }
        match (last.upper, last.lower) {
            (None, Some(_)) => self.all.part(Place::LastErrorNone, 0),
            (Some(_), None) => self.all.part(Place::LastErrorNone, 1),
            _ => {}
        }
        for error in self.errors.named() {
            if let Some(part) = LISTED.iter().position(|&one| one == error) {
                self.all.part(Place::LastErrorListed, part);
            }
            if let Some(part) = BESIDE.iter().position(|&one| one == error) {
                self.all.part(Place::LastErrorBeside, part);
            }
        }
        for wrong in self.errors.told_apart() {
            match wrong.checked_sub(Errors::LEFT) {
                None => self.all.part(Place::LastErrorLeft, wrong),
                Some(part) => self.all.part(Place::LastErrorSet, part),
            }
        }
    }

    fn play(&mut self, record: Record) {
        if std::mem::replace(&mut self.cleared, record == Record::Clear) {
            self.all.part(Place::GoodClear, 1);
        }
        self.may_stop |= self.cleared;
        let (dispenser, validator) = (self.bench.dispenser.phase(), self.bench.validator.phase());
        let played = self.bench.play(record, &mut self.rooms);
        let heard = self.rooms.to_dispenser(played).first().copied();
        match played {
            Played::Declined(why) => self.declined(record, why),
            Played::Dispenser(step) => self.dispenser(record, dispenser, step, heard),
            Played::Validator(step) => self.validator(record, validator, step),
            Played::Both(one, other) => {
                self.dispenser(record, dispenser, one, heard);
                self.validator(record, validator, other);
            }
            Played::Cleared => {}
        }
        let numbers: &[u32] = match record {
            Record::Request(command) => &[command.upper, command.lower],
            Record::Tick(ms) => &[ms],
            _ => &[],
        };
        for &number in numbers {
            self.all.part(Place::GoodNumber, number::groups(number) - 1);
        }
    }

    fn declined(&mut self, record: Record, why: Declined) {
        if let Record::Request(command) = record {
            self.payout_declined(command.code, why);
        }
        self.all.mark(match (why, record) {
            (Declined::Range, _) => Place::Declined2,
            (Declined::Open, Record::Ask(_)) => Place::Declined3Validator,
            (Declined::Open, Record::Clear) => return self.clear_refused(),
            (Declined::Open, _) => Place::Declined3Dispenser,
            (Declined::Quiet, Record::Ask(_)) => Place::Declined4Validator,
            (Declined::Quiet, _) => Place::Declined4Dispenser,
            (Declined::Tick, _) => Place::Declined6,
            (Declined::Stopped, _) => return,
            (Declined::Spent | Declined::Room, _) => {
                unreachable!("no recording that is tried holds 1,000,000 commands, and the rooms are large enough")
            }
        });
    }

    /// A clear while a command is open.
    fn clear_refused(&mut self) {
        let part = match (self.code.pays(), self.bench.dispenser.is_stopped()) {
            (true, _) => 0,
            (false, false) => 1,
            (false, true) => 2,
        };
        self.all.part(Place::ClearRefused, part);
    }

    /// A payout that is asked for while payouts are stopped: 7, or another number that comes first.
    fn payout_declined(&mut self, code: Code, why: Declined) {
        if !self.bench.dispenser.is_stopped() {
            return;
        }
        let part = match code {
            Code::PayUpper => 0,
            Code::PayLower => 1,
            Code::PayBoth => 2,
            _ => return,
        };
        match why {
            Declined::Stopped => self.all.part(Place::Declined7, part),
            Declined::Range => self.all.part(Place::Hidden7, 0),
            Declined::Open => self.all.part(Place::Hidden7, 1),
            Declined::Quiet => self.all.part(Place::Hidden7, 2),
            _ => {}
        }
    }

    // The dispenser

    /// What a record did on the dispenser's line; `heard` is the first byte that was sent.
    fn dispenser(&mut self, record: Record, phase: dispenser::Phase, step: dispenser::Step, heard: Option<u8>) {
        match record {
            Record::Request(command) => {
                self.dispenser = Line::default();
                self.code = command.code;
                (self.hand_overs, self.naks, self.silent) = (0, 0, false);
            }
            Record::Tick(ms) => {
                self.dispenser.pass(ms);
                self.dispenser_waited(phase, step);
            }
            Record::DispenserByte(byte) => self.dispenser_byte(byte, phase, heard),
            _ => {}
        }
        match heard {
            Some(OPENING) => self.hand_overs += 1,
            Some(dispenser::NAK) => self.naks += 1,
            _ => {}
        }
        if heard.is_some() {
            self.dispenser.sent();
        }
        if let Some(closing) = step.closing {
            self.dispenser_closed(closing);
        }
    }

    /// A tick, and perhaps the end of a wait.
    fn dispenser_waited(&mut self, phase: dispenser::Phase, step: dispenser::Step) {
        use dispenser::{Phase, Session};
        let line = &mut self.dispenser;
        match phase {
            Phase::First if step.closing.is_some() && self.hand_overs > 1 => {
                self.silent = true;
                self.all.part(Place::FirstByteAgain, self.hand_overs as usize + 1);
            }
            Phase::Start if step.closing.is_some() && line.skipped => {
                let limit = if self.naks == 0 { Session::ANSWER } else { Session::AFTER_NAK };
                line.lenient = Some((limit, Place::SkippedBefore01));
            }
            Phase::Inside if step.put > 0 => line.lenient = Some((Session::FRAME, Place::SlowAnswer)),
            _ => {}
        }
    }

    fn dispenser_byte(&mut self, byte: u8, phase: dispenser::Phase, heard: Option<u8>) {
        use dispenser::{Phase, Session, ACK, NAK, START};
        let line = &mut self.dispenser;
        if let Some(place) = line.more_came() {
            self.all.part(place, 1);
        }
        match phase {
            Phase::Idle if byte == ACK && self.silent => self.all.part(Place::FirstByteAgain, 1),
            Phase::First if byte == ACK && self.hand_overs > 1 => {
                if line.since_sent == Session::FIRST_BYTE - 1 {
                    self.all.part(Place::FirstByteAgain, 0);
                }
                if line.since_request >= Session::FIRST_BYTE {
                    self.all.part(Place::FirstByteAgain, 2);
                }
            }
            Phase::Start if line.awaited(byte, START) => self.all.part(Place::SkippedBefore01, 0),
            Phase::Inside => {
                line.frame.push(byte);
                match heard {
                    Some(ACK) => self.answered(),
                    Some(NAK) => self.bad(),
                    _ => {}
                }
            }
            _ => {}
        }
        self.silent = false;
        self.dispenser.since_byte = 0;
    }

    /// A good answer.
    fn answered(&mut self) {
        let Line { frame, since_start, .. } = &self.dispenser;
        if *since_start == dispenser::Session::FRAME - 1 {
            self.all.part(Place::SlowAnswer, 0);
        }
        let error = frame[self.code.error_at()];
        self.errors.answered(self.code, error);
        if ErrorClass::of(error) == ErrorClass::Unlisted {
            self.all.part(Place::Unlisted, self.code as usize);
        }
        let sensors = [0x01, 0x03, 0x04, 0x06, 0x15];
        let sensor = (self.code == Code::Status).then(|| frame[7]);
        if let Some(part) = sensors.iter().position(|&one| Some(one) == sensor) {
            self.all.part(Place::Sensor, part);
        }
    }

    /// A bad answer: what is wrong with it.
    fn bad(&mut self) {
        const FAULTS: [Fault; 5] = [Fault::Opening, Fault::Code, Fault::Closing, Fault::Check, Fault::Field];
        /// By their places in the list above; fields are not judged by another code's layout.
        const PAIRS: [(usize, usize); 9] = [(0, 1), (0, 2), (0, 3), (0, 4), (1, 2), (1, 3), (2, 3), (2, 4), (3, 4)];
        let frame = &self.dispenser.frame;
        self.errors.bad_frame(self.code, frame[self.code.error_at()]);
        let faults = faults(self.code, frame);
        if let [fault] = faults[..] {
            if let Some(part) = FAULTS.iter().position(|&one| one == fault) {
                self.all.part(Place::OneFault, part);
            }
        }
        if let Some(part) = PAIRS.iter().position(|&(one, other)| faults == [FAULTS[one], FAULTS[other]]) {
            self.all.part(Place::TwoFaults, part);
        }
        if faults != [Fault::Field] {
            return;
        }
        let good_with = |place: usize, byte: u8| {
            let mut frame = frame.clone();
            frame[place] = byte;
            let last = frame.len() - 1;
            frame[last] = check(&frame[..last]);
            read_answer(&frame).is_ok()
        };
        let fixed: &[(usize, usize)] = match self.code {
            Code::Status => &[(4, 0)],
            Code::TestUpper => &[(6, 1), (7, 2)],
            Code::TestLower => &[(6, 3), (7, 4)],
            _ => &[],
        };
        for &(place, part) in fixed {
            if good_with(place, 0x30) {
                self.all.part(Place::FixedByte, part);
            }
        }
        if self.code == Code::Status && good_with(6, 0x80) {
            self.all.mark(Place::SensorTopBit);
        }
    }

    fn dispenser_closed(&mut self, closing: dispenser::Closing) {
        use dispenser::{Closing, Unknown};
        self.all.mark(match closing {
            Closing::Answered(..) => Place::Answered,
            Closing::Refused => Place::Refused,
            Closing::Unknown(Unknown::OtherByte) => Place::OtherByte,
            Closing::Unknown(Unknown::Silence) => Place::NoFirstByte,
            Closing::Unknown(Unknown::NoStart) => Place::NoAnswer,
            Closing::Unknown(Unknown::NoStartAgain) => Place::NoAnswerAgain,
            Closing::Unknown(Unknown::ThirdBad) => Place::ThirdBad,
            Closing::Unknown(Unknown::ThirdLate) => Place::ThirdLate,
        });
        let answer = match closing {
            Closing::Answered(answer, _) => answer,
            Closing::Refused => return self.errors.refused(self.code),
            Closing::Unknown(_) => {
                self.may_stop = true;
                return self.errors.unknown(self.code);
            }
        };
        if self.hand_overs > 1 {
            self.all.part(Place::HandedOverAgain, self.hand_overs as usize - 2);
        }
        if self.naks > 0 {
            self.all.mark(Place::AskedAgain);
        }
        match answer {
            Answer::PaidBoth(..) => self.all.mark(Place::BothCassettes),
            Answer::TestedUpper { rejects } | Answer::TestedLower { rejects } if rejects > 0 => {
                self.all.mark(Place::TestRejects)
            }
            _ => {}
        }
    }

    // The validator

    fn validator(&mut self, record: Record, phase: validator::Phase, step: validator::Step) {
        match record {
            Record::Ask(command) => {
                self.validator = Line::default();
                self.tables.asked(command);
            }
            Record::Tick(ms) => {
                self.validator.pass(ms);
                self.validator_waited(phase, step);
            }
            Record::ValidatorByte(byte) => self.validator_byte(byte, phase, step),
            _ => {}
        }
        if let Some(closing) = step.closing {
            self.validator_closed(closing);
            self.described(closing);
        }
        match (step.bill, step.closing) {
            (Some(Bill::Credited), Some(validator::Closing::Answered(Class::Bill(_, kind)))) => {
                self.all.part(Place::BillCredited, usize::from(kind));
                self.tables.credited(kind);
            }
            (Some(Bill::Repeated), _) => self.all.mark(Place::BillRepeated),
            _ => {}
        }
    }

    /// A tick, and perhaps the end of a wait.
    fn validator_waited(&mut self, phase: validator::Phase, step: validator::Step) {
        use validator::{Phase, Session};
        let line = &mut self.validator;
        if step.closing.is_none() {
            return;
        }
        match phase {
            Phase::Start if line.skipped => line.lenient = Some((Session::START, Place::SkippedBefore02)),
            Phase::Inside => line.lenient = Some((Session::FRAME, Place::SlowBody)),
            _ => {}
        }
    }

    fn validator_byte(&mut self, byte: u8, phase: validator::Phase, step: validator::Step) {
        use validator::{Closing, Phase, Session};
        let line = &mut self.validator;
        if let Some(place) = line.more_came() {
            self.all.part(place, 1);
        }
        match phase {
            Phase::Start if line.awaited(byte, SYNC) => self.all.part(Place::SkippedBefore02, 0),
            Phase::Inside => {
                line.frame.push(byte);
                let whole = step.closing.is_some_and(|closing| !matches!(closing, Closing::Damaged(_)));
                if whole && line.since_start == Session::FRAME - 1 {
                    self.all.part(Place::SlowBody, 0);
                }
                if let Ok(&[about @ 0x80..=0x82, 24]) = ccnet_frame::body(&line.frame) {
                    self.all.part(Place::Type24, usize::from(about - 0x80));
                }
            }
            _ => {}
        }
        line.since_byte = 0;
    }

    /// What a closing says of the bill table.
    fn described(&mut self, closing: validator::Closing) {
        use validator::Closing;
        match closing {
            Closing::Damaged(_) => return self.tables.damaged(),
            Closing::Silent => return self.tables.silent(),
            _ => {}
        }
        let Ok(body) = ccnet_frame::body(&self.validator.frame) else { return };
        self.tables.answered(body);
        if closing == Closing::Answered(Class::Table) {
            self.described += 1;
        }
        if self.described == 2 {
            self.all.mark(Place::TableSecond);
        }
        match body.len() {
            _ if self.tables.command() != validator::Command::Table => {}
            121 => self.all.part(Place::TableOver, 0),
            122.. => self.all.part(Place::TableOver, 1),
            _ => {}
        }
    }

    fn validator_closed(&mut self, closing: validator::Closing) {
        use validator::Closing;
        self.all.mark(match closing {
            Closing::Acknowledged => Place::Acknowledged,
            Closing::RefusedByNak => Place::RefusedByNak,
            Closing::Illegal => Place::Illegal,
            Closing::Answered(_) => Place::AnsweredByBody,
            Closing::Damaged(Damage::Address) => Place::DamagedAddress,
            Closing::Damaged(Damage::Length) => Place::DamagedLength,
            Closing::Damaged(Damage::Check) => Place::DamagedCheck,
            Closing::Damaged(Damage::Late) => Place::DamagedLate,
            Closing::Silent => Place::Silent,
        });
        if closing == Closing::Answered(Class::Unknown) {
            self.all.mark(Place::UnknownBody);
        }
    }
}
