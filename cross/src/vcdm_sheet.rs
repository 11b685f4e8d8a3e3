//! The lines of the bench program `bench_vcdm` (Q-3 of document 02): what a line asks, what must be written for it, and lines made from a
//! seed.
//!
//! ```text
//! session starts:                                              a fresh session; the lines below go on with it
//! session request, room 16: 52h counts 1 2 3 4
//! session bytes, room 16: 15 06                                each byte a call
//! session ticks, room 16: 1000 times 5                         each tick a call
//! session dispenses refused: 94                                so many serials are taken
//! session account:
//! write command, room 40: 52h counts 1 2 3 4 serial 21h        frames, both ways
//! write answer, room 40: 44h error 30h
//! read command, some words: 04 30 02 44 03 71
//! read answer, some words: 01 30 02 44 30 03 44
//! ```

use crate::dispenser::{Declined, Unknown, ACK, NAK, START};
use crate::random::Random;
use crate::reach::{places, Reach, Reached};
use crate::sheet::Sheet;
use crate::vcdm::{Closing, Phase, Session, Step};
use crate::vcdm_frame::{check, is_payable, layout, Answer, Code, Command, Fault, Field, Item, CASSETTES, NAMES};

/// The most bytes of a room.
const ROOM: usize = 40;
/// What a room's bytes are before a call.
const BEFORE: u8 = 0xA5;

// What is said

fn hex(bytes: &[u8]) -> String {
    bytes.iter().map(|byte| format!(" {byte:02X}")).collect()
}

fn command_said(command: &Command) -> String {
    let [one, two, three, four] = command.counts;
    format!("{:02X}h counts {one} {two} {three} {four} serial {:02X}h", command.code, command.serial)
}

fn answer_said(answer: &Answer) -> String {
    let mut text = format!("{:02X}h", answer.code.byte());
    let mut fields = answer.fields.iter();
    for item in layout(answer.code) {
        match item {
            Item::Word(word) => text += &format!(" {word}"),
            Item::Field(Field::Count) => text += &format!(" {}", fields.next().expect("a field")),
            Item::Field(_) => text += &format!(" {:02X}h", fields.next().expect("a field")),
        }
    }
    text
}

// What is read

fn a_byte(word: &str) -> Option<u8> {
    u8::from_str_radix(word.strip_suffix('h')?, 16).ok()
}

fn bytes(words: &str) -> Option<Vec<u8>> {
    words.split_whitespace().map(|word| u8::from_str_radix(word, 16).ok()).collect()
}

fn counts(words: &[&str]) -> Option<[u32; CASSETTES]> {
    let all: Vec<u32> = words.iter().map(|word| word.parse().ok()).collect::<Option<_>>()?;
    all.try_into().ok()
}

fn an_answer(words: &[&str]) -> Option<Answer> {
    let (first, mut rest) = words.split_first()?;
    let code = Code::of(a_byte(first)?)?;
    let mut fields = Vec::new();
    for item in layout(code) {
        let (word, more) = rest.split_first()?;
        rest = more;
        match item {
            Item::Word(wanted) if *word != wanted => return None,
            Item::Word(_) => {}
            Item::Field(Field::Count) => fields.push(word.parse().ok()?),
            Item::Field(_) => fields.push(u32::from(a_byte(word)?)),
        }
    }
    rest.is_empty().then_some(Answer { code, fields })
}

/// One call of a session.
enum Call {
    Request(u8, [u32; CASSETTES]),
    Byte(u8),
    Tick(u32),
}

/// What goes through the lines: one session.
#[derive(Default)]
pub struct Runner {
    session: Session,
}

impl Runner {
    /// What must be written for a line; a line that is not tried stands as it is.
    pub fn line(&mut self, text: &str) -> String {
        self.tried(text, &mut |_, _, _| {}).unwrap_or_else(|| format!("{text}\n"))
    }

    /// The same; `seen` is told of each call, with the session before it.
    fn tried(&mut self, text: &str, seen: &mut dyn FnMut(&Session, &Call, &Result<Step, Declined>)) -> Option<String> {
        let (what, said) = text.split_once(':')?;
        let words: Vec<&str> = said.split_whitespace().collect();
        if let Some(room) = what.strip_prefix("write command, room ") {
            let [code, "counts", counted @ .., "serial", serial] = &words[..] else { return None };
            let command = Command { code: a_byte(code)?, counts: counts(counted)?, serial: a_byte(serial)? };
            let again = |frame: &[u8]| command_said(&Command::read(frame).expect("what was written"));
            return Some(written(text, room.parse().ok()?, |room| command.write(room), again));
        }
        if let Some(room) = what.strip_prefix("write answer, room ") {
            let answer = an_answer(&words)?;
            let again = |frame: &[u8]| answer_said(&Answer::read(frame).expect("what was written"));
            return Some(written(text, room.parse().ok()?, |room| answer.write(room), again));
        }
        if what.starts_with("read command,") {
            let read = Command::read(&bytes(said)?).map(|command| command_said(&command));
            return Some(format!("  {text} -> {}\n", read_said(read)));
        }
        if what.starts_with("read answer,") {
            let read = Answer::read(&bytes(said)?).map(|answer| answer_said(&answer));
            return Some(format!("  {text} -> {}\n", read_said(read)));
        }
        let mut written = format!("  {text}\n");
        match what.strip_prefix("session ")? {
            "starts" => self.session = Session::fresh(),
            "account" => {
                for (name, sums) in NAMES.iter().zip(self.session.account()) {
                    let crate::account::Sums { asked, paid, short, over, refused, unknown, open, rejected } = sums;
                    written += &format!(
                        "    {name} asked {asked} paid {paid} short {short} over {over} refused {refused} unknown {unknown} open {open} rejected {rejected}\n"
                    );
                }
            }
            "dispenses refused" => {
                let [number] = words[..] else { return None };
                self.dispenses_refused(number.parse().ok()?);
            }
            call => {
                let (kind, room) = call.split_once(", room ")?;
                let room = room.parse().ok()?;
                let calls: Vec<Call> = match (kind, &words[..]) {
                    ("request", [code, "counts", counted @ ..]) => vec![Call::Request(a_byte(code)?, counts(counted)?)],
                    ("bytes", _) => bytes(said)?.into_iter().map(Call::Byte).collect(),
                    ("ticks", [ms, "times", number]) => {
                        let ms = ms.parse().ok()?;
                        (0..number.parse::<u32>().ok()?).map(|_| Call::Tick(ms)).collect()
                    }
                    _ => return None,
                };
                for call in calls {
                    let before = self.session.clone();
                    let mut lent = [BEFORE; ROOM];
                    let step = self.call(&call, &mut lent[..room]);
                    seen(&before, &call, &step);
                    written += &step_said(&step, &lent);
                }
            }
        }
        Some(written)
    }

    fn call(&mut self, call: &Call, room: &mut [u8]) -> Result<Step, Declined> {
        match *call {
            Call::Request(code, counts) => self.session.request(code, counts, room),
            Call::Byte(byte) => self.session.byte(byte, room),
            Call::Tick(ms) => self.session.tick(ms, room),
        }
    }

    /// "six ticks of 1000; request 52h counts 0 0 0 1; four bytes 15h", so often
    fn dispenses_refused(&mut self, number: u32) {
        let room = &mut [BEFORE; ROOM];
        for _ in 0..number {
            // whatever they answer
            (0..6).for_each(|_| drop(self.session.tick(1_000, room)));
            let _ = self.session.request(Code::Dispense.byte(), [0, 0, 0, 1], room);
            (0..4).for_each(|_| drop(self.session.byte(NAK, room)));
        }
    }
}

fn read_said(read: Result<String, Fault>) -> String {
    read.map_or_else(|fault| format!("refused {}", fault.number()), |said| format!("reads as {said}"))
}

fn written(
    text: &str,
    room: usize,
    write: impl Fn(&mut [u8]) -> Result<usize, Fault>,
    again: impl Fn(&[u8]) -> String,
) -> String {
    let mut lent = [BEFORE; ROOM];
    match write(&mut lent[..room]) {
        Ok(length) => {
            let frame = &lent[..length];
            format!("  {text} -> length {length}:{}, rest kept\n    reads as {}\n", hex(frame), again(frame))
        }
        Err(fault) => format!("  {text} -> refused {}, room kept\n", fault.number()),
    }
}

fn step_said(step: &Result<Step, Declined>, room: &[u8]) -> String {
    let step = match step {
        Ok(step) => step,
        Err(why) => return format!("    -> refused {}, room kept\n", why.number()),
    };
    let mut text = String::new();
    if step.put > 0 {
        text += &format!("    -> length {}:{}, rest kept\n", step.put, hex(&room[..step.put]));
    }
    match &step.closing {
        Some(Closing::Answered(answer)) => text += &format!("    closed, answered {}\n", answer_said(answer)),
        Some(Closing::Refused) => text += "    closed, refused\n",
        Some(Closing::Unknown(_)) => text += "    closed, unknown\n",
        None => {}
    }
    text
}

/// What must be written for a whole sheet.
pub fn told(sheet: &str) -> String {
    let mut runner = Runner::default();
    sheet.lines().map(|line| runner.line(line)).collect()
}

// What is reached: of calls and of frames, 150 of 20,000 lines or sequences of lines; that is 105 of 14,000.
places! {
    Answered = 150, "closed, answered": "44h" "50h" "51h" "52h" "55h";
    Refused = 150, "closed, refused by a fourth 15h": "44h" "50h" "51h" "52h" "55h";
    Repeated = 150, "closed, refused by error 3Dh": "with EXIT and REJECT" "at once" "after a 15h of ours";
    Unknown = 150, "closed, unknown":
        "another first byte" "no first byte" "no answer after 06h" "no answer after our 15h" "third 15h, bad frame" "third 15h, late frame";
    HandedOver = 150, "dispense handed over": "once" "twice" "three times" "four times";
    Serial = 150, "serial": "21h, the first" "22h to 7Eh" "7Fh" "21h after 7Fh";
    OtherSerial = 150, "bad, only its serial is another": "error 3Dh" "another error" "the third 15h";
    Bad = 150, "bad frame, first fault": "12" "13" "11" "another code" "14" "15" "16" "serial out of range";
    Late = 150, "late frame";
    OrdinaryError = 150, "answered all the same": "3Dh to 44h" "3Dh to 50h" "3Dh to 51h" "3Dh to 55h" "1Dh to 52h";
    Skipped = 150, "skipped before 01h": "06h" "15h" "another";
    LastStatus = 150, "last status, answered": "with the last serial" "with another serial" "20h" "with EXIT and REJECT";
    Purge = 150, "purge, answered": "with EXIT" "with REJECT";
    Paid = 150, "dispense, answered": "as asked" "short" "over" "over from a cassette that was not asked" "with REJECT" "EXIT 223";
    Quiet = 150, "quiet": "5,199 refused" "5,200 taken" "95,199 refused" "95,200 taken" "7,199 refused" "7,200 taken" "97,199 refused" "97,200 taken";
    Stray = 150, "a byte while nothing is open": "after a reset" "after an unknown reset" "after another command";
    First = 150, "first byte at 5,049 ms";
    Number1 = 150, "refused with 1": "request" "byte" "tick";
    Number2 = 150, "refused with 2":
        "a code that is not in the table" "a code of the other line" "a count over 20" "a sum of 0" "a sum over 20" "a sum that would wrap"
        "a count where none belongs" "while a command is open" "before the line is quiet";
    Number3 = 150, "refused with 3";
    Number4 = 150, "refused with 4";
    Number5 = 150, "refused with 5": "44h" "50h" "51h" "52h" "55h";
    Number6 = 150, "refused with 6": "0" "1,001" "4,294,967,295";
    WriteCommand = 150, "write command": "44h" "50h" "51h" "52h" "55h" "refused 1" "refused 2, code" "refused 2, counts" "refused 2, serial" "1 hides 2";
    WriteAnswer = 150, "write answer":
        "44h" "50h" "51h" "52h" "55h" "refused 1" "refused 2" "1 hides 2";
    ReadCommand = 150, "read command": "44h" "50h" "51h" "52h" "55h" "refused 11" "12" "13" "14" "15" "16";
    ReadAnswer = 150, "read answer": "44h" "50h" "51h" "52h" "55h" "refused 11" "12" "13" "14" "15" "16";
}

/// Lines made from a seed, and what they reached.
#[derive(Default)]
pub struct Lines {
    reach: Reach<Place>,
    lines: u64,
}

impl Sheet for Lines {
    const COUNT: u64 = 14_000;
    const BYTES: usize = 65_536;

    /// Of seven, five are a sequence of calls and two some lines about frames. One sequence has a million commands.
    fn made(&mut self, seed: u64, index: u64) -> (String, String) {
        let random = Random::new(seed.wrapping_mul(0x2545_F491_4F6C_DD1D) ^ index);
        let reach = std::mem::take(&mut self.reach);
        let (runner, seen) = (Runner::default(), Seen::default());
        let mut bench = Bench { random, runner, reach, seen, lines: String::new(), wanted: String::new() };
        match index % 7 {
            5..=6 => (0..6).for_each(|_| bench.frame()),
            _ if index == SPENT => bench.spent(),
            _ => bench.sequence(),
        }
        self.reach = bench.reach;
        self.lines += 1;
        (bench.lines, bench.wanted)
    }

    fn table(&self) -> (String, Vec<String>) {
        (self.reach.table(), self.reach.missing(self.lines))
    }
}

/// The sequence with a million commands: not among the first few hundred.
const SPENT: u64 = 3_500;

/// What a sequence of calls has shown so far.
#[derive(Default)]
struct Seen {
    /// The serial of the last dispense that was accepted.
    serial: Option<u8>,
    /// How the last command closed, and which it was.
    unknown: bool,
    code: u8,
    /// Milliseconds since the hand-over.
    since: u32,
}

struct Bench {
    random: Random,
    runner: Runner,
    reach: Reach<Place>,
    seen: Seen,
    lines: String,
    wanted: String,
}

impl Bench {
    /// Adds a line, and what must be written for it.
    fn say(&mut self, line: String) {
        let (reach, seen) = (&mut self.reach, &mut self.seen);
        let mut each = |before: &Session, call: &Call, step: &Result<Step, Declined>| {
            reach.count(&reached(before, call, step, seen));
        };
        let written = self.runner.tried(&line, &mut each);
        self.wanted += &written.unwrap_or_else(|| panic!("no line of the sheet: {line}"));
        self.lines += &line;
        self.lines.push('\n');
    }

    fn room(&mut self) -> usize {
        if self.random.once_in(40) {
            self.random.pick(&[0, 1, 12, 13, 15, 15])
        } else {
            self.random.pick(&[16, 16, 16, 17, 40])
        }
    }

    fn hear(&mut self, bytes: &[u8]) {
        for some in bytes.chunks(64) {
            let room = self.room();
            self.say(format!("session bytes, room {room}:{}", hex(some)));
        }
    }

    /// Ticks that are heard in a large room.
    fn ticks(&mut self, ms: u32, times: u32) {
        if times > 0 {
            self.say(format!("session ticks, room 16: {ms} times {times}"));
        }
    }

    fn pass(&mut self, ms: u32) {
        self.ticks(1_000, ms / 1_000);
        self.ticks(ms % 1_000, u32::from(ms % 1_000 > 0));
    }

    fn request(&mut self, room: usize, code: u8, [one, two, three, four]: [u32; CASSETTES]) {
        self.say(format!("session request, room {room}: {code:02X}h counts {one} {two} {three} {four}"));
    }

    fn is_open(&self) -> bool {
        self.runner.session.phase() != Phase::Idle
    }

    /// A fresh session, some commands from their request to their closing, and the account.
    fn sequence(&mut self) {
        self.say("session starts:".to_string());
        match self.random.below(12) {
            0 => self.say("session dispenses refused: 94".to_string()),
            1 => self.say("session dispenses refused: 95".to_string()),
            2 => {
                let some = self.random.within(1, 93);
                self.say(format!("session dispenses refused: {some}"));
            }
            _ => {}
        }
        for _ in 0..self.random.within(1, 3) {
            self.declined();
            self.quiet();
            let (code, counts) = self.command();
            self.request(16, code, counts);
            self.declined();
            if self.is_open() {
                self.through();
            }
        }
        self.say("session account:".to_string());
    }

    /// A million commands, and requests that are refused for it.
    fn spent(&mut self) {
        self.say("session starts:".to_string());
        self.say("session dispenses refused: 999999".to_string());
        self.pass(6_000);
        self.request(16, 0x52, [0, 0, 0, 1]);
        self.hear(&[NAK; 4]);
        self.pass(6_000);
        for _ in 0..120 {
            for code in Code::ALL {
                self.request(16, code.byte(), if code == Code::Dispense { [1, 2, 3, 4] } else { [0; CASSETTES] });
            }
        }
        self.say("session account:".to_string());
    }

    /// Waits for as long as the line must be quiet; perhaps a request one millisecond before.
    fn quiet(&mut self) {
        let Some((quiet, needed)) = self.runner.session.quiet() else { return };
        if quiet >= needed {
            return;
        }
        if self.random.once_in(3) {
            if self.random.once_in(3) {
                let byte = self.random.byte();
                self.hear(&[byte]);
            }
            let left = self.runner.session.quiet().map_or(0, |(quiet, needed)| needed - quiet);
            self.pass(left - 1);
            self.request(16, 0x50, [0; CASSETTES]);
            self.ticks(1, 1);
        } else {
            let more = self.random.pick(&[0, 0, 1, 700]);
            self.pass(needed - quiet + more);
        }
    }

    /// A command that can be sent.
    fn command(&mut self) -> (u8, [u32; CASSETTES]) {
        let code = self.random.pick(&[
            Code::Dispense,
            Code::Dispense,
            Code::Dispense,
            Code::Reset,
            Code::Reset,
            Code::Status,
            Code::Purge,
            Code::LastStatus,
        ]);
        let counts = if code == Code::Dispense { self.payable() } else { [0; CASSETTES] };
        (code.byte(), counts)
    }

    fn payable(&mut self) -> [u32; CASSETTES] {
        let mut counts = [0; CASSETTES];
        let all = self.random.pick(&[1, 1, 2, 3, 5, 10, 19, 20, 20]);
        for _ in 0..all {
            let most = if self.random.once_in(2) { CASSETTES as u32 } else { 2 };
            counts[self.random.below(most) as usize] += 1;
        }
        if self.random.once_in(4) {
            counts.reverse();
        }
        counts
    }

    /// A call that is declined, now and then: whatever is open.
    fn declined(&mut self) {
        match self.random.below(9) {
            0 => {
                let (code, counts) = self.command();
                let room = self.random.pick(&[0, 13, 15]);
                self.request(room, code, counts);
            }
            1..=2 => {
                let (code, counts) = self.out_of_range();
                self.request(16, code, counts);
            }
            3 => {
                let ms = self.random.pick(&[0, 1_001, u32::MAX]);
                self.say(format!("session ticks, room 16: {ms} times 1"));
            }
            4 => {
                let room = self.random.pick(&[0, 15]);
                if self.random.once_in(2) {
                    self.say(format!("session bytes, room {room}: 15 06"));
                } else {
                    let ms = self.random.pick(&[0, 1, 1_000]);
                    self.say(format!("session ticks, room {room}: {ms} times 2"));
                }
            }
            5 if self.is_open() => {
                let (code, counts) = self.command();
                self.request(16, code, counts);
            }
            _ => {}
        }
    }

    fn out_of_range(&mut self) -> (u8, [u32; CASSETTES]) {
        let mut counts = self.payable();
        let place = self.random.below(CASSETTES as u32) as usize;
        match self.random.below(8) {
            0 => (self.random.pick(&[0x53, 0x58, 0x5A, 0x5B, 0x5E, 0x5F, 0x71, 0x74, 0x00, 0xFF]), [0; CASSETTES]),
            1 => (self.random.pick(&[0x45, 0x46, 0x56, 0x76]), [0; CASSETTES]),
            2 => {
                counts[place] = self.random.pick(&[21, 21, 256, 257, 276, u32::MAX]);
                (0x52, counts)
            }
            3 => (0x52, [0; CASSETTES]),
            4 => {
                let over =
                    self.random.pick(&[[20, 1, 0, 0], [10, 11, 0, 0], [5, 5, 5, 6], [20, 20, 20, 20], [0, 0, 1, 20]]);
                (0x52, over)
            }
            5 => {
                let wraps =
                    [[u32::MAX, 2, 0, 0], [0x8000_0000, 0x8000_0000, 1, 0], [0x4000_0000; CASSETTES], [u32::MAX; 4]];
                (0x52, self.random.pick(&wraps))
            }
            _ => {
                let mut counts = [0; CASSETTES];
                counts[place] = self.random.pick(&[1, 20, 21, u32::MAX]);
                (self.random.pick(&[0x44, 0x50, 0x51, 0x55]), counts)
            }
        }
    }

    /// The open command from its first hand-over to its closing, or nearly.
    fn through(&mut self) {
        let again = self.random.pick(&[0, 0, 0, 0, 1, 2, 3]);
        for _ in 0..again {
            self.hear(&[NAK]);
        }
        match self.random.below(16) {
            0 => {
                while self.is_open() && self.runner.session.phase() == Phase::First {
                    self.hear(&[NAK]);
                }
            }
            1 => {
                let byte = self.random.pick(&[0x00, 0x01, 0x04, 0x05, 0x07, 0x95, 0xFF]);
                self.hear(&[byte]);
            }
            2 => self.pass(5_050),
            3 => {
                self.pass(5_049);
                self.hear(&[ACK]);
                self.answers();
            }
            4 => {
                self.hear(&[ACK]);
                self.pass(90_000);
            }
            5 => {
                // left open
                let some = self.random.pick(&[&[][..], &[ACK], &[ACK, START], &[ACK, START, 0x30]]);
                self.hear(some);
            }
            _ => {
                self.hear(&[ACK]);
                self.answers();
            }
        }
    }

    /// Some answers that are bad or late, and then a good one, none, or a third that is bad.
    fn answers(&mut self) {
        if self.random.once_in(5) {
            let some = self.random.pick(&[&[ACK][..], &[NAK], &[0x00], &[0x04, 0x30], &[NAK, ACK, 0x50]]);
            self.hear(some);
        }
        for _ in 0..self.random.pick(&[0, 0, 0, 1, 1, 2, 3, 3]) {
            match self.random.below(4) {
                0 => {
                    let answer = self.answer(None);
                    let some = self.random.within(1, answer.len() as u32 - 1) as usize;
                    self.hear(&answer[..some]);
                    self.pass(200);
                }
                1 if self.runner.session.command().serial != 0 => {
                    let serial = self.runner.session.command().serial;
                    let next = if serial == 0x7F { 0x21 } else { serial + 1 };
                    let before = if serial == 0x21 { 0x7F } else { serial - 1 };
                    let other = self.random.pick(&[next, before, 0x20, 0x80]);
                    let answer = self.answer(Some(other));
                    self.hear(&answer);
                }
                2 if matches!(self.runner.session.command().code, 0x51 | 0x52) && self.random.once_in(3) => {
                    // a good answer of the same length to another command
                    let other = if self.runner.session.command().code == 0x51 { Code::Dispense } else { Code::Purge };
                    let fields = self.fields(other, 0x21);
                    self.hear(&frame_of(other.byte(), &fields));
                }
                _ => {
                    let answer = self.bad();
                    self.hear(&answer);
                }
            }
            if self.runner.session.phase() == Phase::Start && self.random.once_in(12) {
                self.pass(5_050);
            }
        }
        match self.runner.session.phase() {
            Phase::Start if self.random.once_in(8) => self.pass(90_000),
            Phase::Start => {
                let answer = self.answer(None);
                if self.random.once_in(6) {
                    let some = self.random.within(1, answer.len() as u32 - 1) as usize;
                    self.hear(&answer[..some]);
                    self.ticks(199, 1);
                    self.hear(&answer[some..]);
                } else {
                    self.hear(&answer);
                }
            }
            _ => {}
        }
    }

    /// A good answer to the open command, but for its serial where another is given.
    fn answer(&mut self, serial: Option<u8>) -> Vec<u8> {
        let command = *self.runner.session.command();
        let fields = self.fields(Code::of(command.code).expect("an accepted code"), serial.unwrap_or(command.serial));
        frame_of(command.code, &fields)
    }

    /// Good fields of an answer, as bytes.
    fn fields(&mut self, code: Code, serial: u8) -> Vec<u8> {
        let random = &mut self.random;
        let any = random.byte();
        let error = random.pick(&[0x20, 0x20, 0x20, 0x3D, 0x3D, 0x1D, 0x2D, any]);
        let mut fields = Vec::new();
        match code {
            Code::Reset => fields.push(error),
            Code::Status => {
                fields.extend([error, random.byte(), random.byte()]);
                for _ in 0..CASSETTES {
                    let (one, two) = (random.within(0x20, 0xFF) as u8, random.pick(&[0x20, 0xFF, 0x85]));
                    fields.extend([random.byte(), random.within(0x31, 0x34) as u8, one, two]);
                }
            }
            Code::Purge => fields.extend([error, any]),
            Code::Dispense => fields.extend([error, serial]),
            Code::LastStatus => {
                let old = self.seen.serial.unwrap_or(0x21);
                let serial = random.pick(&[old, old, 0x20, 0x7F, 0x21]);
                fields.extend([random.pick(&[0x52, 0x50, any]), error, serial]);
            }
        }
        if matches!(code, Code::Purge | Code::Dispense | Code::LastStatus) {
            let asked = self.runner.session.command().counts;
            for (cassette, asked) in asked.into_iter().enumerate() {
                let (exit, reject) = counted(random, asked as u8, code);
                let name = if code == Code::Purge { 0x31 + cassette as u8 } else { random.byte() };
                fields.extend([exit + 0x20, reject + 0x20, name]);
            }
            fields.extend((0..9).map(|_| random.byte()));
        }
        fields
    }

    /// A full answer with one fault or two.
    fn bad(&mut self) -> Vec<u8> {
        let mut frame = self.answer(None);
        let last = frame.len() - 1;
        let faults = if self.random.once_in(5) { 2 } else { 1 };
        let mut wrong_check = false;
        for _ in 0..faults {
            match self.random.below(6) {
                0 => frame[self.random.within(1, 2) as usize] ^= 1 << self.random.below(8),
                1 => frame[3] = self.random.pick(&[0x44, 0x50, 0x51, 0x52, 0x55, 0x45, 0x53, 0x00]),
                2 => frame[last - 1] ^= 1 << self.random.below(8),
                3 => wrong_check = true,
                _ => spoil(&mut self.random, &mut frame),
            }
        }
        frame[last] = check(&frame[..last]);
        if wrong_check {
            frame[last] ^= 1 << self.random.below(8);
        }
        frame
    }

    // Frames

    fn frame(&mut self) {
        let random = &mut self.random;
        let mut all = Reached::nothing();
        let line = match random.below(4) {
            0 => {
                let (command, room) = a_command(random);
                write_command_reached(&command, room, &mut all);
                format!("write command, room {room}: {}", command_said(&command))
            }
            1 => {
                let code = random.pick(&Code::ALL);
                let bytes = self.fields(code, 0x21);
                let frame = frame_of(code.byte(), &bytes);
                let (answer, room) = an_answer_to_write(&mut self.random, code, &frame);
                write_answer_reached(&answer, room, &mut all);
                format!("write answer, room {room}: {}", answer_said(&answer))
            }
            2 => {
                let frame = command_bytes(random);
                read_reached(Place::ReadCommand, Command::read(&frame).map(|command| command.code), &mut all);
                format!("read command, made:{}", hex(&frame))
            }
            _ => {
                let code = random.pick(&Code::ALL);
                let bytes = self.fields(code, 0x21);
                let mut frame = frame_of(code.byte(), &bytes);
                damaged(&mut self.random, &mut frame);
                read_reached(Place::ReadAnswer, Answer::read(&frame).map(|answer| answer.code.byte()), &mut all);
                format!("read answer, made:{}", hex(&frame))
            }
        };
        self.reach.count(&all);
        self.say(line);
    }
}

/// A frame with a right check.
fn frame_of(code: u8, fields: &[u8]) -> Vec<u8> {
    let mut frame = [&[START, 0x30, 0x02, code], fields, &[0x03]].concat();
    frame.push(check(&frame));
    frame
}

/// EXIT and REJECT of a cassette of which so many were asked.
fn counted(random: &mut Random, asked: u8, code: Code) -> (u8, u8) {
    let any = random.below(224) as u8;
    let exit = match random.below(12) {
        0 => asked.saturating_sub(1),
        1 => asked + 1,
        2 => random.pick(&[any, 223, 0]),
        _ if code == Code::Dispense => asked,
        _ => random.pick(&[0, 0, 3]),
    };
    (exit, random.pick(&[0, 0, 0, 0, 1, 5, any]))
}

/// Makes a field wrong, most of the time.
fn spoil(random: &mut Random, frame: &mut [u8]) {
    let fields = frame.len() as u32 - 6;
    if fields > 0 {
        let early = random.below(fields.min(6));
        let any = random.below(fields);
        let place = 4 + random.pick(&[early, any]) as usize;
        frame[place] = random.pick(&[0x00, 0x1F, 0x20, 0x30, 0x35, 0x80, 0x7F]);
    }
}

/// Damages bytes that are read, often.
fn damaged(random: &mut Random, frame: &mut Vec<u8>) {
    let last = frame.len() - 1;
    match random.below(12) {
        0 => frame.truncate(random.within(0, last as u32) as usize),
        1 => frame.push(random.byte()),
        2 => frame[random.below(3) as usize] ^= 1 << random.below(8),
        3 => frame[3] = random.pick(&[0x44, 0x50, 0x53, 0x45, 0x00]),
        4 => frame[last - 1] ^= 1 << random.below(8),
        5 => frame[last] ^= 1 << random.below(8),
        6..=7 => spoil(random, frame),
        _ => return,
    }
    if let (true, [front @ .., end]) = (random.below(4) > 0, &mut frame[..]) {
        if front.len() > 4 {
            *end = check(front);
        }
    }
}

fn a_command(random: &mut Random) -> (Command, usize) {
    let code = random.pick(&Code::ALL).byte();
    let mut command = Command { code, counts: [0; CASSETTES], serial: 0 };
    if code == 0x52 {
        command.counts[random.below(4) as usize] = random.within(1, 10);
        command.counts[random.below(4) as usize] += random.within(0, 10);
        command.serial = random.pick(&[0x21, 0x62, 0x66, 0x7F, 0x40]);
    }
    match random.below(8) {
        0 => command.code = random.pick(&[0x45, 0x53, 0x58, 0x71, 0x00, 0xFF]),
        1 => command.counts = random.pick(&[[21, 0, 0, 0], [20, 1, 0, 0], [0; 4], [u32::MAX, 2, 0, 0], [0, 0, 0, 1]]),
        2 => command.serial = random.pick(&[0x00, 0x20, 0x80, 0x21, 0xFF]),
        _ => {}
    }
    let length = Code::of(command.code).map_or(6, Code::command_length);
    (command, random.pick(&[ROOM, ROOM, length, length, length - 1, 0]))
}

fn an_answer_to_write(random: &mut Random, code: Code, frame: &[u8]) -> (Answer, usize) {
    let mut answer = Answer::read(frame).expect("a good answer");
    if random.once_in(3) {
        let early = random.below(answer.fields.len().min(6) as u32) as usize;
        let any = random.below(answer.fields.len() as u32) as usize;
        let place = random.pick(&[early, any]);
        let field = layout(code).into_iter().filter(|item| matches!(item, Item::Field(_))).nth(place);
        answer.fields[place] = match field {
            Some(Item::Field(Field::Count)) => random.pick(&[0, 223, 224, 255, 256, u32::MAX]),
            _ => random.pick(&[0x00, 0x1F, 0x20, 0x30, 0x35, 0x80, 0x7F]),
        };
    }
    let length = code.answer_length();
    (answer, random.pick(&[ROOM, ROOM, ROOM, length, length, length - 1, 0]))
}

/// Bytes that are read as a command, often damaged.
fn command_bytes(random: &mut Random) -> Vec<u8> {
    let code = random.pick(&Code::ALL).byte();
    let mut frame = vec![0x04, 0x30, 0x02, code];
    if code == 0x52 {
        let mut fields = [0x21, 0x20, 0x20, 0x20, 0x20, 0x20, random.within(0x21, 0x7F) as u8];
        fields[random.below(4) as usize] += random.within(0, 19) as u8;
        if random.once_in(3) {
            let place = random.below(7) as usize;
            fields[place] = random.pick(&[0x1F, 0x20, 0x21, 0x34, 0x35, 0x80, 0xFF]);
        }
        frame.extend(fields);
    }
    frame.push(0x03);
    frame.push(check(&frame));
    damaged(random, &mut frame);
    frame
}

fn code_part(code: u8) -> usize {
    Code::ALL.iter().position(|one| one.byte() == code).expect("a code of the table")
}

fn write_command_reached(command: &Command, room: usize, all: &mut Reached<Place>) {
    let part = match command.write(&mut [0; ROOM][..room]) {
        Ok(_) => code_part(command.code),
        Err(Fault::Room) => {
            if !command.is_in_range(Code::of(command.code).expect("a code that has a length")) {
                all.part(Place::WriteCommand, 9);
            }
            5
        }
        Err(_) if Code::of(command.code).is_none() => 6,
        Err(_) if command.code == 0x52 && is_payable(command.counts) => 8,
        Err(_) if command.code != 0x52 && command.counts == [0; 4] => 8,
        Err(_) => 7,
    };
    all.part(Place::WriteCommand, part);
}

fn write_answer_reached(answer: &Answer, room: usize, all: &mut Reached<Place>) {
    let part = match answer.write(&mut [0; ROOM][..room]) {
        Ok(_) => code_part(answer.code.byte()),
        Err(Fault::Room) => {
            if answer.write(&mut [0; ROOM]).is_err() {
                all.part(Place::WriteAnswer, 7);
            }
            5
        }
        Err(_) => 6,
    };
    all.part(Place::WriteAnswer, part);
}

fn read_reached(place: Place, read: Result<u8, Fault>, all: &mut Reached<Place>) {
    let part = match read {
        Ok(code) => code_part(code),
        Err(fault) => usize::from(fault.number()) - 6,
    };
    all.part(place, part);
}

/// What one call of a session reached.
fn reached(before: &Session, call: &Call, step: &Result<Step, Declined>, seen: &mut Seen) -> Reached<Place> {
    let mut all = Reached::nothing();
    match (call, step) {
        (_, Err(why)) => declined_reached(before, call, *why, &mut all),
        (&Call::Request(code, _), Ok(_)) => {
            taken_reached(before, &mut all);
            (seen.code, seen.since) = (code, 0);
        }
        (&Call::Tick(ms), Ok(step)) => {
            seen.since += ms;
            if before.phase() == Phase::Inside && step.put > 0 {
                all.mark(Place::Late);
            }
        }
        (&Call::Byte(byte), Ok(step)) => byte_reached(before, byte, step, &mut all, seen),
    }
    if let Ok(Step { closing: Some(closing), .. }) = step {
        closed_reached(before, call, closing, &mut all, seen);
        seen.unknown = matches!(closing, Closing::Unknown(_));
    }
    all
}

fn quiet_part(needed: u32) -> usize {
    match needed {
        5_200 => 0,
        95_200 => 2,
        7_200 => 4,
        _ => 6,
    }
}

fn taken_reached(before: &Session, all: &mut Reached<Place>) {
    if let Some((quiet, needed)) = before.quiet() {
        if quiet == needed {
            all.part(Place::Quiet, quiet_part(needed) + 1);
        }
    }
}

fn declined_reached(before: &Session, call: &Call, why: Declined, all: &mut Reached<Place>) {
    match (why, call) {
        (Declined::Room, Call::Request(..)) => all.part(Place::Number1, 0),
        (Declined::Room, Call::Byte(_)) => all.part(Place::Number1, 1),
        (Declined::Room, Call::Tick(_)) => all.part(Place::Number1, 2),
        (Declined::Range, Call::Request(code, counts)) => {
            let sum: u64 = counts.iter().map(|&count| u64::from(count)).sum();
            let wrapped = counts.iter().fold(0_u32, |sum, &count| sum.wrapping_add(count));
            all.part(
                Place::Number2,
                match code {
                    0x45 | 0x46 | 0x56 | 0x76 => 1,
                    _ if Code::of(*code).is_none() => 0,
                    0x52 if sum == 0 => 3,
                    0x52 if sum > 20 && (1..=20).contains(&wrapped) => 5,
                    0x52 if counts.iter().any(|&count| count > 20) => 2,
                    0x52 => 4,
                    _ => 6,
                },
            );
            match before.quiet() {
                None => all.part(Place::Number2, 7),
                Some((quiet, needed)) if quiet < needed => all.part(Place::Number2, 8),
                _ => {}
            }
        }
        (Declined::Open, _) => all.mark(Place::Number3),
        (Declined::Quiet, _) => {
            all.mark(Place::Number4);
            match before.quiet() {
                Some((quiet, needed)) if quiet + 1 == needed => all.part(Place::Quiet, quiet_part(needed)),
                _ => {}
            }
        }
        (Declined::Spent, Call::Request(code, _)) => all.part(Place::Number5, code_part(*code)),
        (Declined::Tick, Call::Tick(ms)) => match ms {
            0 => all.part(Place::Number6, 0),
            1_001 => all.part(Place::Number6, 1),
            _ => all.part(Place::Number6, 2),
        },
        _ => {}
    }
}

fn byte_reached(before: &Session, byte: u8, step: &Step, all: &mut Reached<Place>, seen: &mut Seen) {
    match before.phase() {
        Phase::Idle if seen.code != 0 => {
            let part = match (seen.code, seen.unknown) {
                (0x44, false) => 0,
                (0x44, true) => 1,
                _ => 2,
            };
            all.part(Place::Stray, part);
        }
        Phase::First if byte == ACK && seen.since == Session::FIRST_BYTE - 1 => all.mark(Place::First),
        Phase::First if step.put > 0 => seen.since = 0,
        Phase::Start if byte != START => all.part(
            Place::Skipped,
            match byte {
                ACK => 0,
                NAK => 1,
                _ => 2,
            },
        ),
        Phase::Inside if step.put > 0 && !matches!(step.closing, Some(Closing::Answered(_) | Closing::Refused)) => {
            bad_reached(before, byte, all)
        }
        _ => {}
    }
}

/// A full frame that is bad.
fn bad_reached(before: &Session, byte: u8, all: &mut Reached<Place>) {
    let frame = [before.gathered(), &[byte]].concat();
    let ours = before.command();
    let part = match Answer::read(&frame) {
        Err(Fault::Opening) => 0,
        Err(Fault::Code) => 1,
        Err(Fault::Length) => 2,
        Err(Fault::Closing) => 4,
        Err(Fault::Check) => 5,
        Err(Fault::Field) if ours.code == 0x52 && frame[3] == 0x52 && !(0x21..=0x7F).contains(&frame[5]) => 7,
        Err(_) => 6,
        Ok(answer) if answer.code.byte() != ours.code => 3,
        Ok(answer) => {
            all.part(Place::OtherSerial, if answer.error() == Session::REPEATED { 0 } else { 1 });
            if before.naks() + 1 == Session::NAKS {
                all.part(Place::OtherSerial, 2);
            }
            return;
        }
    };
    all.part(Place::Bad, part);
}

fn closed_reached(before: &Session, call: &Call, closing: &Closing, all: &mut Reached<Place>, seen: &mut Seen) {
    let command = before.command();
    let code = code_part(command.code);
    if command.code == 0x52 {
        all.part(Place::HandedOver, before.hand_overs() as usize - 1);
        let part = match (command.serial, seen.serial) {
            (0x21, None)
                if before.account().iter().map(|sums| sums.asked).sum::<u32>() == command.counts.iter().sum() =>
            {
                0
            }
            (0x21, _) => 3,
            (0x7F, _) => 2,
            _ => 1,
        };
        all.part(Place::Serial, part);
        seen.serial = Some(command.serial);
    }
    match closing {
        Closing::Refused if before.phase() == Phase::First => all.part(Place::Refused, code),
        Closing::Refused => {
            let Call::Byte(byte) = call else { return };
            let answer = Answer::read(&[before.gathered(), &[*byte]].concat()).expect("a good answer");
            let counts = answer.counts().expect("a dispense has counts");
            if counts.iter().any(|count| count.0 > 0) && counts.iter().any(|count| count.1 > 0) {
                all.part(Place::Repeated, 0);
            }
            all.part(Place::Repeated, if before.naks() == 0 { 1 } else { 2 });
        }
        Closing::Unknown(how) => all.part(
            Place::Unknown,
            match how {
                Unknown::OtherByte => 0,
                Unknown::Silence => 1,
                Unknown::NoStart => 2,
                Unknown::NoStartAgain => 3,
                Unknown::ThirdBad => 4,
                Unknown::ThirdLate => 5,
            },
        ),
        Closing::Answered(answer) => {
            all.part(Place::Answered, code);
            answered_reached(command, answer, all, seen);
        }
    }
}

fn answered_reached(command: &Command, answer: &Answer, all: &mut Reached<Place>, seen: &Seen) {
    match (answer.error(), answer.code) {
        (0x3D, Code::Reset) => all.part(Place::OrdinaryError, 0),
        (0x3D, Code::Status) => all.part(Place::OrdinaryError, 1),
        (0x3D, Code::Purge) => all.part(Place::OrdinaryError, 2),
        (0x3D, Code::LastStatus) => all.part(Place::OrdinaryError, 3),
        (0x1D, Code::Dispense) => all.part(Place::OrdinaryError, 4),
        _ => {}
    }
    let Some(counts) = answer.counts() else { return };
    let exit = counts.iter().any(|count| count.0 > 0);
    let reject = counts.iter().any(|count| count.1 > 0);
    match answer.code {
        Code::Purge => {
            if exit {
                all.part(Place::Purge, 0);
            }
            if reject {
                all.part(Place::Purge, 1);
            }
        }
        Code::LastStatus => {
            let serial = answer.fields[2] as u8;
            match seen.serial {
                _ if serial == 0x20 => all.part(Place::LastStatus, 2),
                Some(last) if last == serial => all.part(Place::LastStatus, 0),
                _ => all.part(Place::LastStatus, 1),
            }
            if exit && reject {
                all.part(Place::LastStatus, 3);
            }
        }
        _ => {
            let each = || command.counts.into_iter().zip(counts);
            let any = |of: fn(u32, u32, u32) -> bool| each().any(|(asked, (exit, reject))| of(asked, exit, reject));
            if each().all(|(asked, (exit, _))| asked == exit) {
                all.part(Place::Paid, 0);
            }
            let parts: [fn(u32, u32, u32) -> bool; 5] = [
                |asked, exit, _| exit < asked,
                |asked, exit, _| exit > asked,
                |asked, exit, _| asked == 0 && exit > 0,
                |_, _, reject| reject > 0,
                |_, exit, _| exit == 223,
            ];
            for (part, of) in parts.into_iter().enumerate() {
                if any(of) {
                    all.part(Place::Paid, part + 1);
                }
            }
        }
    }
}

#[cfg(test)]
mod tests {
    use super::*;

    #[test]
    fn the_lines_of_the_format() {
        let sheet = "02, Q-3\n\
                     session starts:\n\
                     session ticks, room 16: 1000 times 6\n\
                     session request, room 16: 52h counts 1 2 3 4\n\
                     session bytes, room 15: 06\n\
                     session bytes, room 16: 15 06\n\
                     session bytes, room 16: 01 30 02 52 3D 21 20 20 31 20 20 32 20 20 33 20 20 34 20 20 20 20 20 20 20 20 20 03 5A\n\
                     session request, room 16: 44h counts 0 0 0 0\n\
                     session account:\n\
                     write command, room 40: 52h counts 1 2 3 4 serial 21h\n\
                     write command, room 12: 52h counts 1 2 3 4 serial 21h\n\
                     write answer, room 40: 44h error 30h\n\
                     read command, count 21: 04 30 02 52 35 20 20 20 20 20 21 03 53\n\
                     read answer, reset: 01 30 02 44 30 03 44\n";
        let wanted = "02, Q-3
  session starts:
  session ticks, room 16: 1000 times 6
  session request, room 16: 52h counts 1 2 3 4
    -> length 13: 04 30 02 52 21 22 23 24 20 20 21 03 42, rest kept
  session bytes, room 15: 06
    -> refused 1, room kept
  session bytes, room 16: 15 06
    -> length 13: 04 30 02 52 21 22 23 24 20 20 21 03 42, rest kept
  session bytes, room 16: 01 30 02 52 3D 21 20 20 31 20 20 32 20 20 33 20 20 34 20 20 20 20 20 20 20 20 20 03 5A
    -> length 1: 06, rest kept
    closed, refused
  session request, room 16: 44h counts 0 0 0 0
    -> refused 4, room kept
  session account:
    top asked 1 paid 0 short 0 over 0 refused 1 unknown 0 open 0 rejected 0
    second asked 2 paid 0 short 0 over 0 refused 2 unknown 0 open 0 rejected 0
    third asked 3 paid 0 short 0 over 0 refused 3 unknown 0 open 0 rejected 0
    bottom asked 4 paid 0 short 0 over 0 refused 4 unknown 0 open 0 rejected 0
  write command, room 40: 52h counts 1 2 3 4 serial 21h -> length 13: 04 30 02 52 21 22 23 24 20 20 21 03 42, rest kept
    reads as 52h counts 1 2 3 4 serial 21h
  write command, room 12: 52h counts 1 2 3 4 serial 21h -> refused 1, room kept
  write answer, room 40: 44h error 30h -> length 7: 01 30 02 44 30 03 44, rest kept
    reads as 44h error 30h
  read command, count 21: 04 30 02 52 35 20 20 20 20 20 21 03 53 -> refused 16
  read answer, reset: 01 30 02 44 30 03 44 -> reads as 44h error 30h
";
        assert_eq!(told(sheet), wanted);
    }

    #[test]
    fn the_answer_of_each_code_is_its_text() {
        for text in [
            "44h error 30h",
            "50h error 20h DISP 50h 40h top STAT 44h TYPE 31h OPAC 60h LENG 85h second STAT 44h TYPE 32h OPAC 60h LENG 85h \
             third STAT 44h TYPE 33h OPAC 60h LENG 85h bottom STAT 44h TYPE 34h OPAC 60h LENG 85h",
            "51h error 20h MISS 30h top EXIT 0 REJECT 0 CASSETTE 31h second EXIT 0 REJECT 0 CASSETTE 32h third EXIT 0 REJECT 0 \
             CASSETTE 33h bottom EXIT 0 REJECT 0 CASSETTE 34h RSV 20h 20h 20h 20h 20h 20h 20h 20h 20h",
            "55h last 52h error 20h serial 21h top EXIT 1 REJECT 0 CASSETTE 31h second EXIT 2 REJECT 0 CASSETTE 32h third EXIT 3 \
             REJECT 0 CASSETTE 33h bottom EXIT 4 REJECT 0 CASSETTE 34h RSV 20h 20h 20h 20h 20h 20h 20h 20h 20h",
        ] {
            let words: Vec<&str> = text.split_whitespace().collect();
            let answer = an_answer(&words).expect("an answer");
            assert_eq!(answer_said(&answer), text);
            let mut room = [0; ROOM];
            let length = answer.write(&mut room).unwrap();
            assert_eq!(Answer::read(&room[..length]), Ok(answer));
        }
    }

    #[test]
    fn what_is_made_is_told_again() {
        let mut lines = Lines::default();
        let (mut sheet, mut wanted) = (String::new(), String::new());
        for index in 0..300 {
            let (some, written) = lines.made(1, index);
            sheet += &some;
            wanted += &written;
        }
        assert_eq!(told(&sheet), wanted);
    }
}
