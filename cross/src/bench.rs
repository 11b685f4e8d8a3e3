//! A bench at work: somebody who asks, a dispenser and a validator which answer, err, are late and repeat themselves. What
//! happens is recorded event by event. The host on this bench is the replay itself, so that the devices know what was sent.

use crate::ccnet_frame::{self, Class};
use crate::dispenser::{Closing, Session, NAK};
use crate::dispenser_frame::{answer, check, read_answer, status, Code, Command, Counted, Fault, OPENING};
use crate::error_class::{BESIDE, LISTED};
use crate::random::Random;
use crate::recording::Record;
use crate::replay::{Bench, Played, Rooms};
use crate::tables;
use crate::validator;
use std::collections::VecDeque;

/// What a device has still to say: when, and which byte.
type Saying = VecDeque<(u64, u8)>;

/// How a device behaves through a recording.
#[derive(Clone, Copy, PartialEq, Eq)]
enum Temper {
    /// Does what it is asked.
    Smooth,
    /// Now and then something goes wrong.
    Usual,
    /// More goes wrong than right.
    Rough,
    /// Says no, or garbles what it says, time after time.
    Stubborn,
    /// Its cable is loose: most payouts are lost, and of other commands some.
    Loose,
}

/// Whom the one who asks is busy with.
#[derive(Clone, Copy, PartialEq, Eq)]
enum Busy {
    Dispenser,
    Validator,
    Both,
}

pub struct Simulation {
    random: Random,
    host: Bench,
    rooms: Rooms,
    recorded: Vec<u8>,
    now: u64,
    temper: Temper,
    busy: Busy,
    /// The command that the dispenser was last handed.
    command: Command,
    dispenser: Saying,
    validator: Saying,
    /// The listed answer that the validator last gave to a POLL.
    said: Vec<u8>,
    /// How often more the dispenser will say 15h to what it is handed.
    refusals: u32,
    /// The answers that a loose cable has still to spoil.
    spoilt: VecDeque<Spoilt>,
    /// Whether the operator has just called clear.
    cleared: bool,
}

/// What a loose cable makes of an answer.
#[derive(Clone, Copy)]
enum Spoilt {
    Garbled,
    CutOff,
}

impl Simulation {
    pub fn new(seed: u64) -> Simulation {
        let mut random = Random::new(seed);
        let temper = random.pick(&[Temper::Smooth, Temper::Usual, Temper::Usual, Temper::Rough, Temper::Stubborn]);
        let busy = random.pick(&[Busy::Dispenser, Busy::Dispenser, Busy::Validator, Busy::Both]);
        Simulation {
            random,
            host: Bench::fresh(),
            rooms: Rooms::new(),
            recorded: Vec::new(),
            now: 0,
            temper,
            busy,
            command: Command { code: Code::Status, upper: 0, lower: 0 },
            dispenser: Saying::new(),
            validator: Saying::new(),
            said: vec![0x14],
            refusals: 0,
            spoilt: VecDeque::new(),
            cleared: false,
        }
    }

    /// A bench on which the dispenser's cable is loose. It needs some time: 95,200 ms are 288 bytes.
    pub fn loose(seed: u64) -> Simulation {
        let simulation = Simulation::new(seed);
        Simulation { temper: Temper::Loose, busy: Busy::Dispenser, ..simulation }
    }

    /// Runs until so many bytes are recorded, or a few more: the last record is whole.
    pub fn run(mut self, length: usize) -> Vec<u8> {
        while self.recorded.len() < length {
            if self.random.once_in(if self.temper == Temper::Loose { 1_000 } else { 60 }) {
                self.busy = self.random.pick(&[Busy::Dispenser, Busy::Validator, Busy::Both]);
            }
            self.step();
        }
        self.recorded
    }

    fn step(&mut self) {
        if self.clears() {
            return self.record(Record::Clear);
        }
        let now = self.now;
        if let Some(&(due, byte)) = self.dispenser.front() {
            if due <= now {
                self.dispenser.pop_front();
                return self.record(Record::DispenserByte(byte));
            }
        }
        if let Some(&(due, byte)) = self.validator.front() {
            if due <= now {
                self.validator.pop_front();
                return self.record(Record::ValidatorByte(byte));
            }
        }
        if self.busy != Busy::Dispenser && self.ask() {
            return;
        }
        if self.busy != Busy::Validator && self.request() {
            return;
        }
        if self.random.once_in(if self.temper == Temper::Loose { 1_000 } else { 150 }) {
            return self.stray();
        }
        let ms = self.pause();
        self.record(Record::Tick(ms));
    }

    /// Whether the operator calls clear: mostly once payouts have stopped and the line is quiet, and now and then at any time,
    /// or again at once.
    fn clears(&mut self) -> bool {
        let session = &self.host.dispenser;
        let quiet = session.quiet().is_some_and(|(quiet, needed)| quiet >= needed);
        let one_in = match session.unknowns() {
            _ if self.cleared => 4,
            Session::UNKNOWNS.. if quiet => 8,
            _ if session.quiet().is_none() => 50,
            _ if self.temper == Temper::Loose => 600,
            _ => 250,
        };
        self.random.once_in(one_in)
    }

    /// A dispenser request, where one is due or somebody cannot wait.
    fn request(&mut self) -> bool {
        let due = match self.host.dispenser.quiet() {
            Some((quiet, needed)) if quiet >= needed => self.random.once_in(2),
            None if self.temper == Temper::Loose => self.random.once_in(12),
            _ => self.random.once_in(60),
        };
        if due {
            let command = self.command();
            self.record(Record::Request(command));
        }
        due
    }

    fn command(&mut self) -> Command {
        let random = &mut self.random;
        let code = match random.below(11) {
            _ if self.temper == Temper::Loose => loose_code(random, self.host.dispenser.unknowns()),
            0..=1 => Code::PayUpper,
            2 => Code::PayLower,
            3..=4 => Code::PayBoth,
            5 => Code::TestUpper,
            6 => Code::TestLower,
            7..=8 => Code::Status,
            _ => random.pick(&Code::ALL),
        };
        let mut count = || match random.below(8) {
            0 => random.pick(&[1, 60, 59, 2]),
            1 if random.once_in(3) => random.pick(&[0, 61, 99, 266, u32::MAX]),
            _ => random.within(1, 30),
        };
        let (mut upper, mut lower) = (count(), count());
        let slip = random.once_in(40);
        if !slip && !matches!(code, Code::PayUpper | Code::PayBoth) {
            upper = 0;
        }
        if !slip && !matches!(code, Code::PayLower | Code::PayBoth) {
            lower = 0;
        }
        Command { code, upper, lower }
    }

    /// A validator request.
    fn ask(&mut self) -> bool {
        let due = if self.host.validator.is_open() { self.random.once_in(60) } else { self.random.once_in(3) };
        if due {
            let poll = !self.random.once_in(5);
            let command = if poll { validator::Command::Poll } else { self.random.pick(&validator::Command::ALL) };
            self.record(Record::Ask(command));
        }
        due
    }

    /// A byte that nobody asked for.
    fn stray(&mut self) {
        let byte = self.random.pick(&[0x00, 0x01, 0x02, 0x03, 0x04, 0x06, 0x15, 0x50, 0xFF]);
        let record = if self.random.once_in(2) { Record::DispenserByte(byte) } else { Record::ValidatorByte(byte) };
        self.record(record);
    }

    /// How long to wait: to the next byte that is due, to the end of the quiet time, or as it comes.
    fn pause(&mut self) -> u32 {
        if self.random.once_in(200) {
            return self.random.pick(&[0, 1_001, 16_384, 2_097_152, u32::MAX]);
        }
        let due = [self.dispenser.front(), self.validator.front()].into_iter().flatten().map(|&(due, _)| due).min();
        let exact = match due {
            Some(due) => due - self.now,
            None if self.host.validator.is_open() => self.random.pick(&[1, 5, 9, 10, 100, 400]),
            None if self.busy == Busy::Validator => self.random.pick(&[20, 20, 19, 21, 50, 1_000]),
            None => match self.host.dispenser.quiet() {
                Some((quiet, needed)) if quiet < needed => u64::from(needed - quiet),
                _ => 1_000,
            },
        };
        let ms = match self.random.below(20) {
            0 => exact + 1,
            1 if exact > 1 => exact - 1,
            2 => u64::from(self.random.within(1, 1_000)),
            _ => exact,
        };
        ms.clamp(1, 1_000) as u32
    }

    /// Records what happens, lets the host have it, and lets the devices hear what the host sends.
    fn record(&mut self, record: Record) {
        record.write(&mut self.recorded);
        self.cleared = record == Record::Clear;
        let played = self.host.play(record, &mut self.rooms);
        if matches!(played, Played::Declined(_)) {
            return;
        }
        match record {
            Record::Tick(ms) => self.now += u64::from(ms),
            Record::Request(command) => self.command = command,
            Record::Ask(command) => self.validator_hears(command),
            _ => {}
        }
        if let Played::Dispenser(step) | Played::Both(step, _) = played {
            match self.rooms.to_dispenser(played) {
                [OPENING, ..] => self.dispenser_is_handed(),
                [NAK] if step.closing.is_none() => self.dispenser_says(),
                _ => {}
            }
            if matches!(step.closing, Some(Closing::Unknown(_))) && self.random.once_in(3) {
                self.busy = Busy::Dispenser;
            }
        }
    }

    /// Whether something goes wrong this time.
    fn errs(&mut self) -> bool {
        match self.temper {
            Temper::Smooth => self.random.once_in(50),
            Temper::Usual => self.random.once_in(6),
            Temper::Rough => !self.random.once_in(3),
            Temper::Stubborn => !self.random.once_in(8),
            // what a loose cable does is told apart
            Temper::Loose => false,
        }
    }

    // The dispenser

    /// The dispenser has a command's frame: its first byte, and perhaps its answer.
    fn dispenser_is_handed(&mut self) {
        self.dispenser.clear();
        let soon = self.now + self.random.pick(&[0, 1, 3, 20, 100, 1_000]);
        if self.refusals > 0 {
            self.refusals -= 1;
            return self.dispenser.push_back((soon, 0x15));
        }
        if self.temper == Temper::Loose {
            return self.handed_on_a_loose_cable(soon);
        }
        if !self.errs() {
            self.dispenser.push_back((soon, 0x06));
            return self.dispenser_answers(soon);
        }
        match self.random.below(12) {
            0..=4 => {
                self.refusals = self.random.below(Session::HAND_OVERS);
                self.dispenser.push_back((soon, 0x15));
            }
            5 => {
                let byte = self.random.pick(&[0x00, 0x01, 0x04, 0x05, 0x07, 0x14, 0x86, 0x95, 0xFF]);
                self.dispenser.push_back((soon, byte));
            }
            6 => {}
            7..=8 => {
                // the first byte at the very end of its wait, or one too late
                let late = self.now + u64::from(Session::FIRST_BYTE) - u64::from(self.random.below(2));
                self.dispenser.push_back((late, 0x06));
                self.dispenser_answers(late);
            }
            9 => self.dispenser.push_back((soon, 0x06)),
            _ => {
                self.dispenser.push_back((soon, 0x06));
                self.dispenser_answers(soon);
            }
        }
    }

    /// The dispenser has a command's frame, if the cable let it through: lost in one of the ways to an unknown closing, refused
    /// or answered.
    fn handed_on_a_loose_cable(&mut self, soon: u64) {
        self.spoilt.clear();
        let (lost, refused) = if self.command.code.pays() { (5, 7) } else { (3, 6) };
        let fate = self.random.below(9);
        if fate >= refused {
            self.dispenser.push_back((soon, 0x06));
            let answer = self.answer();
            return self.dispenser.extend(answer.into_iter().map(|byte| (soon, byte)));
        }
        if fate >= lost {
            self.refusals = self.random.pick(&[0, 1, 2, 3, 3, 3]);
            return self.dispenser.push_back((soon, 0x15));
        }
        let some = self.random.pick(&[Spoilt::Garbled, Spoilt::CutOff]);
        match self.random.below(if self.command.code.pays() { 7 } else { 6 }) {
            0 => {
                let byte = self.random.pick(&[0x00, 0x01, 0x04, 0x05, 0x86, 0xFF]);
                return self.dispenser.push_back((soon, byte));
            }
            1..=2 => return,
            3 => self.spoilt.extend(&[some, some][..self.random.within(1, 2) as usize]),
            4 => self.spoilt.extend([some, some, Spoilt::Garbled]),
            5 => self.spoilt.extend([some, some, Spoilt::CutOff]),
            _ => {}
        }
        self.dispenser.push_back((soon, 0x06));
        self.spoilt_answer(soon);
    }

    /// The next answer that a loose cable spoils, if there is one.
    fn spoilt_answer(&mut self, at: u64) {
        let Some(spoilt) = self.spoilt.pop_front() else { return };
        let mut frame = self.answer();
        let last = frame.len() - 1;
        match spoilt {
            Spoilt::Garbled => {
                self.spoil(&mut frame);
                if read_answer(&frame).is_ok() {
                    frame[last] ^= 1 << self.random.below(8);
                }
            }
            Spoilt::CutOff => frame.truncate(self.random.within(1, last as u32) as usize),
        }
        self.dispenser.extend(frame.into_iter().map(|byte| (at, byte)));
    }

    /// The answer that follows a 06h given at `from`.
    fn dispenser_answers(&mut self, from: u64) {
        let work = match self.random.below(12) {
            0 => Session::ANSWER - self.random.below(3),
            1 => self.random.within(1, 60_000),
            _ => self.random.pick(&[0, 10, 300, 800, 2_000]),
        };
        self.dispenser_sends(from, work);
    }

    /// The dispenser heard our 15h: its answer again.
    fn dispenser_says(&mut self) {
        if self.temper == Temper::Loose {
            return self.spoilt_answer(self.now);
        }
        if !self.dispenser.is_empty() && self.random.once_in(3) {
            // or it did not, and goes on with what it was saying
            return;
        }
        self.dispenser.clear();
        let work = match self.random.below(8) {
            0 => Session::AFTER_NAK - self.random.below(3),
            1 => return,
            _ => self.random.pick(&[0, 5, 100, 900]),
        };
        self.dispenser_sends(self.now, work);
    }

    /// The dispenser sends its answer when it has worked so long since `from`.
    fn dispenser_sends(&mut self, from: u64, work: u32) {
        let mut frame = self.answer();
        if self.random.once_in(6) {
            // noise at some time before the frame
            let at = from + u64::from(self.random.below(work + 1));
            for _ in 0..self.random.within(1, 3) {
                let byte = self.random.pick(&[0x06, 0x15, 0x50, 0x03, 0x04, 0x00]);
                self.dispenser.push_back((at, byte));
            }
        }
        let mut slow = 0;
        if self.errs() {
            let last = frame.len() - 1;
            match self.random.below(16) {
                0 => frame[last] ^= 1 << self.random.below(8),
                1 => {
                    let place = self.random.below(last as u32 + 1) as usize;
                    frame[place] = self.random.byte();
                }
                2 => frame.truncate(self.random.within(1, last as u32) as usize),
                3 => {
                    let place = self.random.below(last as u32) as usize;
                    let byte = self.random.pick(&[0x01, 0x03, 0x04, 0x06, 0x15, 0x30]);
                    frame.insert(place, byte);
                }
                4..=5 => slow = self.random.pick(&[198, 199, 199, 200, 201, 500]),
                6 => {
                    // one byte wrong under a check that is right
                    let place = self.random.within(1, last as u32 - 1) as usize;
                    let turned = 1 << self.random.below(8);
                    frame[place] ^= turned;
                    frame[last] ^= turned;
                }
                7..=14 => self.spoil(&mut frame),
                _ => frame = self.another_answer(),
            }
        }
        let gap = self.random.pick(&[0, 0, 0, 1, 5]);
        let spoken = self.spoken(frame, from + u64::from(work), gap, slow);
        self.dispenser.extend(spoken);
    }

    /// When each byte of a frame is said that begins at `at`: `gap` between each and the next or, if it is not 0, `slow` in
    /// all, spread over some of the places between them.
    fn spoken(&mut self, frame: Vec<u8>, mut at: u64, gap: u64, slow: u32) -> Saying {
        let mut stops = vec![if slow == 0 { gap } else { 0 }; frame.len()];
        stops[0] = 0;
        if frame.len() > 1 {
            let mut left = slow;
            for more in [self.random.once_in(2), self.random.once_in(2), false] {
                let some = if more { self.random.below(left + 1) } else { left };
                stops[self.random.within(1, frame.len() as u32 - 1) as usize] += u64::from(some);
                left -= some;
            }
        }
        let each = |(byte, stop)| {
            at += stop;
            (at, byte)
        };
        frame.into_iter().zip(stops).map(each).collect()
    }

    /// Makes one or two things wrong in a full answer, under a check that is right unless it is one of them.
    fn spoil(&mut self, frame: &mut [u8]) {
        let faults = [Fault::Opening, Fault::Code, Fault::Closing, Fault::Check, Fault::Field];
        let two = [self.random.pick(&faults), self.random.pick(&faults)];
        let wrong = if self.random.once_in(2) { &two[..] } else { &[Fault::Field] };
        let last = frame.len() - 1;
        for fault in wrong {
            match fault {
                Fault::Opening => frame[self.random.within(1, 2) as usize] ^= 1 << self.random.below(8),
                Fault::Code if self.random.once_in(2) => frame[3] = self.random.byte(),
                Fault::Code => frame[3] = self.random.pick(&Code::ALL).byte(),
                Fault::Closing => frame[last - 1] = self.random.byte(),
                Fault::Field => self.spoil_field(frame),
                Fault::Check | Fault::Length => {}
            }
        }
        frame[last] = check(&frame[..last]);
        if wrong.contains(&Fault::Check) {
            frame[last] ^= 1 << self.random.below(8);
        }
    }

    /// Makes a field wrong, most of the time: a fixed byte, a sensor, or any.
    fn spoil_field(&mut self, frame: &mut [u8]) {
        let byte = self.random.pick(&[0x00, 0x01, 0x03, 0x04, 0x06, 0x15, 0x2F, 0x31, 0x32, 0x3A, 0x80, 0xFF]);
        let any = self.random.within(4, frame.len() as u32 - 3) as usize;
        let place = match self.command.code {
            Code::Status => self.random.pick(&[4, 4, 6, 6, any]),
            Code::TestUpper | Code::TestLower => self.random.pick(&[6, 7, 6, 7, any]),
            _ => any,
        };
        frame[place] = byte;
    }

    /// What the dispenser says of the command it was handed.
    fn answer(&mut self) -> Vec<u8> {
        let Command { code, upper, lower } = self.command;
        let error = self.error();
        if code == Code::Status {
            let bytes = [0x01, 0x03, 0x04, 0x06, 0x15, self.random.byte()];
            return status(error, [0x80 | self.random.pick(&bytes), self.random.pick(&bytes)]);
        }
        let (upper, lower) = (counted(&mut self.random, upper), counted(&mut self.random, lower));
        answer(code, upper, lower, error)
    }

    /// An error byte: as it depends on nothing and alters no sum, mostly any of those that are listed.
    fn error(&mut self) -> u8 {
        match self.random.below(20) {
            0 => 0x30,
            1 => self.random.within(0x30, 0x7F) as u8,
            2..=4 => self.random.pick(&BESIDE),
            _ => self.random.pick(&LISTED),
        }
    }

    /// A well-made answer to another command, or one with a field out of its range.
    fn another_answer(&mut self) -> Vec<u8> {
        let counted = Counted {
            chk: self.random.pick(&[0, 29, 30, 69, 70, 99]),
            exit: self.random.pick(&[0, 10, 69, 70, 99]),
            state: self.random.pick(&[0x2F, 0x30, 0x31, 0x32]),
            rejects: self.random.below(100) as u8,
        };
        let error = self.random.pick(&[0x2F, 0x30, 0x39, 0x7F, 0x80]);
        let code = if self.random.once_in(2) { self.command.code } else { self.random.pick(&Code::ALL) };
        answer(code, counted, counted, error)
    }

    // The validator

    fn validator_hears(&mut self, command: validator::Command) {
        self.validator.clear();
        let body = match command {
            validator::Command::Poll => self.polled(),
            validator::Command::Table if !self.random.once_in(4) => tables::body(&mut self.random),
            _ => self.obeyed(),
        };
        let Some(mut frame) = ccnet_frame::write(0x03, &body) else { return };
        let mut at = self.now + self.random.pick(&[0, 0, 0, 1, 5, 8]);
        if self.random.once_in(8) {
            // noise, and milliseconds between it and the frame
            let noise = self.now + u64::from(self.random.below(10));
            for _ in 0..self.random.within(1, 3) {
                let byte = self.random.pick(&[0x00, 0x03, 0x06, 0xFF]);
                self.validator.push_back((noise, byte));
            }
            at = noise + u64::from(self.random.below(11));
        }
        let mut slow = 0;
        let errs = match self.temper {
            Temper::Stubborn => self.random.once_in(3),
            _ => self.errs(),
        };
        if errs {
            let last = frame.len() - 1;
            match self.random.below(10) {
                0 => return,
                1 => at = at.max(self.now + self.random.pick(&[9, 10, 11])),
                2 => frame[1] = self.random.pick(&[0x00, 0x01, 0x02, 0x04, 0x0F, 0x10]),
                // a good frame of another address
                3 => frame = ccnet_frame::write(self.random.pick(&[0x01, 0x02, 0x04, 0x0F]), &body).unwrap_or(frame),
                4 => {
                    frame[2] = self.random.pick(&[0x00, 0x04, 0x05, 0x05, 0x06, 0x07, 0x08, 0xFF]);
                    if self.random.once_in(2) {
                        frame.truncate(3);
                    }
                }
                5 => frame[last - 1] ^= 1 << self.random.below(8),
                6 => frame[last] ^= 1 << self.random.below(8),
                7 => frame.truncate(self.random.within(1, last as u32) as usize),
                _ => slow = self.random.pick(&[398, 399, 399, 400, 401, 900]),
            }
        }
        let gap = self.random.pick(&[0, 0, 0, 0, 0, 0, 1, 40]);
        let spoken = self.spoken(frame, at, gap, slow);
        self.validator.extend(spoken);
    }

    /// What the validator says to a POLL; often what it said before.
    fn polled(&mut self) -> Vec<u8> {
        if self.random.once_in(3) {
            return self.said.clone();
        }
        let bill = if self.random.once_in(10) { 24 } else { self.random.below(24) as u8 };
        let body = match self.random.below(16) {
            0..=4 => vec![0x81, bill],
            5 => vec![0x80, bill],
            6 => vec![0x82, bill],
            7 => vec![self.random.within(0x0F, 0x1D) as u8],
            8 => vec![self.random.within(0x40, 0x48) as u8],
            9 => vec![0x1B, self.random.byte()],
            10 => vec![0x1C, self.random.within(0x5F, 0x6D) as u8],
            11 => vec![0x47, self.random.within(0x4F, 0x60) as u8],
            12 => return vec![self.random.pick(&[0x00, 0xFF, 0x30])],
            13 => {
                // any body: hardly ever listed
                let length =
                    if self.random.once_in(10) { self.random.within(1, 250) } else { self.random.within(1, 4) };
                return (0..length).map(|_| self.random.byte()).collect();
            }
            14 => return vec![0x81, bill, 0x00],
            _ => vec![0x14],
        };
        if ccnet_frame::classify(&body) != Class::Unknown {
            // what the host remembers
            self.said = body.clone();
        }
        body
    }

    /// What the validator says to any other command.
    fn obeyed(&mut self) -> Vec<u8> {
        match self.random.below(8) {
            0..=3 => vec![0x00],
            4 => vec![0xFF],
            5 => vec![0x30],
            6 => vec![0x81, self.random.below(25) as u8],
            _ => vec![self.random.byte(), self.random.byte()],
        }
    }
}

/// What is asked of a dispenser with a loose cable: mostly payouts, and other commands between two of them.
fn loose_code(random: &mut Random, unknowns: u32) -> Code {
    if random.once_in(if unknowns == 1 { 2 } else { 3 }) {
        random.pick(&[Code::Purge, Code::Status, Code::TestUpper, Code::TestLower])
    } else {
        random.pick(&[Code::PayUpper, Code::PayLower, Code::PayBoth])
    }
}

/// What a dispenser says that was asked for so many notes: mostly all of them, sometimes fewer or more.
pub fn counted(random: &mut Random, asked: u32) -> Counted {
    let asked = asked.min(60) as u8;
    let exit = match random.below(8) {
        0 => random.below(u32::from(asked) + 1) as u8,
        1 => (asked + random.within(1, 9) as u8).min(69),
        _ => asked,
    };
    let rejects = if random.once_in(3) { random.below(100) as u8 } else { 0 };
    let more = if random.once_in(3) { 2 } else { 0 };
    Counted {
        chk: if asked == 0 { random.below(30) as u8 } else { (exit + more).min(69) },
        exit,
        state: random.pick(&[0x30, 0x31]),
        rejects,
    }
}
