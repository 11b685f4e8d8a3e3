//! The lines of the bench program `bench_pretend` (Q-14 of document 02): both ends run against each other, move by move; what must be
//! written for a run, and runs made from a seed.
//!
//! ```text
//! run hw1000x5 hw200 ha45h,10,0 dh8 hh dt45h,10,10,30h,30h,0 hh14 dh
//! ```
//!
//! A move's first letter is the end, `h` host or `d` device; its second what happens: `a` the host is asked, `c` cleared, `t` the device is
//! told, `w` milliseconds pass, `h` bytes on their way arrive, `l` are lost, `x` a byte that nobody sent arrives, `r` so much room is lent from
//! now on, `m` so many exchanges with the device alone.

use crate::account::Sums;
use crate::dispenser::{self, Closing, Phase as Host, Session, Unknown, ACK, NAK};
use crate::dispenser_frame::{check, Code, Command, OPENING};
use crate::pretend::{command, command_length, layout, Came, Declined, Device, Field, Fields, Notes, Phase};
use crate::random::Random;
use crate::reach::{places, Reach, Reached};
use crate::sheet::Sheet;
use std::collections::VecDeque;

/// One move.
#[derive(Clone, Debug, PartialEq, Eq)]
enum Move {
    Ask(u8, u32, u32),
    Clear,
    Tell(Fields),
    Wait(End, u32, u32),
    Arrive(End, u32),
    Lose(End, u32),
    Stray(End, u8),
    Room(End, usize),
    Alone(u32),
}

#[derive(Clone, Copy, Debug, PartialEq, Eq)]
enum End {
    Host,
    Device,
}

impl std::fmt::Display for Move {
    fn fmt(&self, f: &mut std::fmt::Formatter) -> std::fmt::Result {
        let letter = |end: &End| if *end == End::Host { 'h' } else { 'd' };
        let many = |f: &mut std::fmt::Formatter, end: &End, what: char, number: u32| match number {
            1 => write!(f, "{}{what}", letter(end)),
            _ => write!(f, "{}{what}{number}", letter(end)),
        };
        match self {
            Move::Ask(code, upper, lower) => write!(f, "ha{code:02X}h,{upper},{lower}"),
            Move::Clear => write!(f, "hc"),
            Move::Tell(fields) => {
                write!(f, "dt{:02X}h", fields.code.byte())?;
                for (field, value) in layout(fields.code).iter().zip(&fields.values) {
                    match field {
                        Field::Count(_) => write!(f, ",{value}")?,
                        _ => write!(f, ",{value:02X}h")?,
                    }
                }
                Ok(())
            }
            Move::Wait(end, ms, 1) => write!(f, "{}w{ms}", letter(end)),
            Move::Wait(end, ms, times) => write!(f, "{}w{ms}x{times}", letter(end)),
            Move::Arrive(end, number) => many(f, end, 'h', *number),
            Move::Lose(end, number) => many(f, end, 'l', *number),
            Move::Stray(end, byte) => write!(f, "{}x{byte:02X}h", letter(end)),
            Move::Room(end, room) => write!(f, "{}r{room}", letter(end)),
            Move::Alone(number) => write!(f, "dm{number}"),
        }
    }
}

impl Move {
    fn parse(word: &str) -> Option<Move> {
        let byte = |word: &str| u8::from_str_radix(word.strip_suffix('h')?, 16).ok();
        let end = match word.get(..1)? {
            "h" => End::Host,
            "d" => End::Device,
            _ => return None,
        };
        let (what, said) = (word.get(1..2)?, word.get(2..)?);
        let number = || if said.is_empty() { Some(1) } else { said.parse().ok() };
        Some(match (end, what) {
            (End::Host, "a") => {
                let mut words = said.split(',');
                Move::Ask(byte(words.next()?)?, words.next()?.parse().ok()?, words.next()?.parse().ok()?)
            }
            (End::Host, "c") => Move::Clear,
            (End::Device, "t") => {
                let mut words = said.split(',');
                let code = Code::of(u32::from(byte(words.next()?)?))?;
                let values = layout(code).iter().map(|field| match field {
                    Field::Count(_) => words.next()?.parse().ok(),
                    _ => byte(words.next()?).map(u32::from),
                });
                Move::Tell(Fields { code, values: values.collect::<Option<_>>()? })
            }
            (End::Device, "m") => Move::Alone(number()?),
            (_, "w") => match said.split_once('x') {
                Some((ms, times)) => Move::Wait(end, ms.parse().ok()?, times.parse().ok()?),
                None => Move::Wait(end, said.parse().ok()?, 1),
            },
            (_, "h") => Move::Arrive(end, number()?),
            (_, "l") => Move::Lose(end, number()?),
            (_, "x") => Move::Stray(end, byte(said)?),
            (_, "r") => Move::Room(end, said.parse().ok()?),
            _ => return None,
        })
    }
}

/// The most bytes of a room that a run lends.
const ROOM: usize = 24;

/// Both ends, and what is on its way.
struct Run {
    host: Session,
    device: Device,
    to_host: VecDeque<u8>,
    to_device: VecDeque<u8>,
    host_room: usize,
    device_room: usize,
    written: String,
    reach: Vec<Reached<Place>>,
    seen: Seen,
}

/// What the reach table needs besides.
#[derive(Default)]
struct Seen {
    /// Of the answer that was sent: whether it was sent again by 15h, and by silence.
    by_nak: bool,
    by_silence: bool,
    /// Milliseconds at the device since its last sending, or since the command's 04h.
    since: u32,
    /// What was asked by the command that the device took.
    asked: Option<Command>,
}

/// A call of an end.
enum Call<'a> {
    Ask(u8),
    Clear,
    Byte(u8),
    Tick(u32),
    Tell(&'a Fields),
}

fn hex(bytes: &[u8]) -> String {
    bytes.iter().map(|byte| format!(" {byte:02X}")).collect()
}

impl Run {
    fn fresh() -> Run {
        Run {
            host: Session::fresh(),
            device: Device::fresh(),
            to_host: VecDeque::new(),
            to_device: VecDeque::new(),
            host_room: Session::ROOM,
            device_room: Device::ROOM,
            written: String::new(),
            reach: Vec::new(),
            seen: Seen::default(),
        }
    }

    fn play(&mut self, one: &Move) {
        match *one {
            Move::Ask(code, upper, lower) => {
                self.at_host(Call::Ask(code), |host, room| match Code::of(u32::from(code)) {
                    Some(code) => host.request(Command { code, upper, lower }, room),
                    None => {
                        dispenser::large_enough(room, Session::ROOM)?;
                        Err(dispenser::Declined::Range)
                    }
                })
            }
            Move::Clear => self.at_host(Call::Clear, |host, _| {
                host.clear()?;
                Ok(dispenser::Step { put: 0, closing: None })
            }),
            Move::Tell(ref fields) => self.at_device(Call::Tell(fields), |device, room| device.tell(fields, room)),
            Move::Wait(end, ms, times) => (0..times).for_each(|_| self.tick(end, ms)),
            Move::Arrive(end, number) => {
                for _ in 0..number {
                    let way = if end == End::Host { &mut self.to_host } else { &mut self.to_device };
                    let Some(byte) = way.pop_front() else { return };
                    self.byte(end, byte);
                }
            }
            Move::Lose(end, number) => {
                let way = if end == End::Host { &mut self.to_host } else { &mut self.to_device };
                way.drain(..way.len().min(number as usize));
            }
            Move::Stray(end, byte) => self.byte(end, byte),
            Move::Room(End::Host, room) => self.host_room = room,
            Move::Room(End::Device, room) => self.device_room = room,
            Move::Alone(number) => self.alone(number),
        }
    }

    fn byte(&mut self, end: End, byte: u8) {
        match end {
            End::Host => self.at_host(Call::Byte(byte), |host, room| host.byte(byte, room)),
            End::Device => self.at_device(Call::Byte(byte), |device, room| device.byte(byte, room)),
        }
    }

    fn tick(&mut self, end: End, ms: u32) {
        match end {
            End::Host => self.at_host(Call::Tick(ms), |host, room| host.tick(ms, room)),
            End::Device => self.at_device(Call::Tick(ms), |device, room| device.tick(ms, room)),
        }
    }

    fn at_host(
        &mut self,
        call: Call,
        go: impl FnOnce(&mut Session, &mut [u8]) -> Result<dispenser::Step, dispenser::Declined>,
    ) {
        let mut room = [0; ROOM];
        let step = go(&mut self.host, &mut room[..self.host_room]);
        self.reach.push(host_reached(&call, &step));
        let step = match step {
            Ok(step) => step,
            Err(why) => {
                self.written += &format!("host refused {}\n", why.number());
                return;
            }
        };
        if step.put > 0 {
            self.written += &format!("host puts{}\n", hex(&room[..step.put]));
            self.to_device.extend(&room[..step.put]);
        }
        match step.closing {
            Some(Closing::Answered(..)) => self.written += "host closes answered\n",
            Some(Closing::Refused) => self.written += "host closes refused\n",
            Some(Closing::Unknown(_)) => self.written += "host closes unknown\n",
            None => {}
        }
    }

    fn at_device(
        &mut self,
        call: Call,
        go: impl FnOnce(&mut Device, &mut [u8]) -> Result<crate::pretend::Step, Declined>,
    ) {
        let mut room = [0; ROOM];
        let before = self.device.clone();
        let step = go(&mut self.device, &mut room[..self.device_room]);
        self.reach.push(device_reached(&before, &call, &step, &mut self.seen));
        let step = match step {
            Ok(step) => step,
            Err(why) => {
                self.written += &format!("device refused {}\n", why.number());
                return;
            }
        };
        if step.put > 0 {
            self.written += &format!("device puts{}\n", hex(&room[..step.put]));
            self.to_host.extend(&room[..step.put]);
        }
        match step.came {
            Came::Taken(Command { code, upper, lower }) => {
                self.written += &format!("device takes {:02X}h {upper} {lower}\n", code.byte());
            }
            Came::Ended => self.written += "device ends\n",
            Came::Nothing => {}
        }
    }

    /// "the six bytes 04 50 02 44 03 11 arrive, it is told 44h with error 30h, 06h arrives", so often
    fn alone(&mut self, number: u32) {
        let room = &mut [0; Device::ROOM];
        let fields = Fields { code: Code::Purge, values: vec![0x30] };
        for _ in 0..number {
            // whatever they answer
            for byte in [0x04, 0x50, 0x02, 0x44, 0x03, 0x11] {
                let _ = self.device.byte(byte, room);
            }
            let _ = self.device.tell(&fields, room);
            let _ = self.device.byte(ACK, room);
        }
    }

    /// The five lines at the end.
    fn ended(&mut self) {
        let account = self.host.account();
        for (name, sums) in [("upper", &account.upper), ("lower", &account.lower)] {
            let Sums { asked, paid, short, over, refused, unknown, open, rejected } = sums;
            self.written += &format!(
                "host {name} asked {asked} paid {paid} short {short} over {over} refused {refused} unknown {unknown} open {open} rejected {rejected}\n"
            );
        }
        for (name, Notes { paid, rejected }) in ["upper", "lower"].into_iter().zip(self.device.account()) {
            self.written += &format!("device {name} paid {paid} rejected {rejected}\n");
        }
        let host = if self.host.phase() == Host::Idle { "idle" } else { "open" };
        let device = if self.device.phase() == &Phase::Nothing { "idle" } else { "busy" };
        let agree = if self.agree() { "agree" } else { "differ" };
        self.written += &format!("host {host}, device {device}: {agree}\n");
    }

    fn agree(&self) -> bool {
        let account = self.host.account();
        let of = |sums: &Sums| Notes { paid: sums.paid, rejected: sums.rejected };
        [of(&account.upper), of(&account.lower)] == *self.device.account()
    }
}

/// What must be written for a whole sheet: a line that is no run stands as it is.
pub fn told(sheet: &str) -> String {
    let mut all = String::new();
    for line in sheet.lines() {
        let moves: Option<Vec<Move>> =
            line.strip_prefix("run").map(|words| words.split_whitespace().map(Move::parse).collect()).unwrap_or(None);
        match moves {
            Some(moves) => {
                let mut run = Run::fresh();
                moves.iter().for_each(|one| run.play(one));
                run.ended();
                all += &run.written;
            }
            None => all += &format!("{line}\n"),
        }
    }
    all
}

// What is reached, counted call by call: 200 of 20,000 runs, that is 100 of 10,000.
places! {
    HostAnswered = 200, "host closes answered": "44h" "45h" "46h" "55h" "56h" "76h" "77h";
    HostRefused = 200, "host closes refused";
    HostUnknown = 200, "host closes unknown":
        "another first byte" "no first byte" "no answer after 06h" "no answer after our 15h" "third 15h, bad frame" "third 15h, late frame";
    HostNumber = 200, "host refused": "1, request" "1, byte" "1, tick" "2" "2, unknown code" "3" "3, clear" "4" "6" "7";
    Taken = 200, "device takes": "44h" "45h" "46h" "55h" "56h" "76h" "77h";
    TakenAt = 200, "device takes, at 199 ms";
    Check04 = 200, "device takes, a check of 04h";
    No = 200, "device puts 15h":
        "late" "an unknown code" "12" "14" "15" "16" "late, though a byte came since";
    Million = 200, "device puts 15h, after 1,000,000";
    Told = 200, "device is told": "44h" "45h" "46h" "55h" "56h" "76h" "77h" "more than was asked" "an unlisted error";
    Again = 200, "device sends again": "second, by 15h" "second, by silence" "third, by 15h" "third, by silence";
    Ended = 200, "device ends by": "06h" "06h at 5,049 ms" "06h after the third sending" "15h" "silence" "either, after one of each";
    Ignored = 200, "device ignores": "06h while fields are awaited" "15h" "04h" "a tick" "04h after a sending" "another byte";
    Skipped = 200, "device skips before 04h": "06h" "15h" "another byte";
    DeviceNumber = 200, "device refused":
        "1, byte" "1, tick" "1, telling" "2, another code" "2, another kind" "2, a count" "2, error" "2, state" "2, sensor 0" "6, 0" "6, 1,001"
        "9, nothing begun" "9, inside a command" "9, answer sent" "9, and 2 besides";
    Ends = 200, "at the end":
        "both idle, agree, something paid" "both idle, agree, something rejected" "both idle, differ" "host open" "device busy" "host idle, device busy, agree"
        "differ, the host gave up" "no byte was lost";
}

/// Runs made from a seed, and what they reached.
#[derive(Default)]
pub struct Runs {
    reach: Reach<Place>,
    runs: u64,
}

/// The run with a million commands: not among the first few hundred.
const MILLION: u64 = 5_000;

impl Sheet for Runs {
    const COUNT: u64 = 10_000;
    const BYTES: usize = 262_144;

    fn made(&mut self, seed: u64, index: u64) -> (String, String) {
        let mut random = Random::new(seed.wrapping_mul(0x2545_F491_4F6C_DD1D) ^ index);
        let temper = match random.below(20) {
            0 => Temper::GarblesCommands,
            1 => Temper::GarblesAnswers,
            2 => Temper::DelaysAnswers,
            3 => Temper::LosesAnswers,
            _ => Temper::Usual,
        };
        let mut bench = Bench { random, temper, run: Run::fresh(), line: "run".to_string(), fair: true };
        if index == MILLION {
            bench.million();
        } else {
            bench.many();
        }
        bench.run.ended();
        let at_the_end = bench.ended();
        bench.run.reach.iter().chain([&at_the_end]).for_each(|all| self.reach.count(all));
        self.runs += 1;
        (bench.line + "\n", bench.run.written)
    }

    fn table(&self) -> (String, Vec<String>) {
        (self.reach.table(), self.reach.missing(self.runs))
    }
}

/// What a line does to frames on their way, time after time.
#[derive(Clone, Copy, PartialEq, Eq)]
enum Temper {
    Usual,
    GarblesCommands,
    GarblesAnswers,
    DelaysAnswers,
    LosesAnswers,
}

struct Bench {
    random: Random,
    temper: Temper,
    run: Run,
    line: String,
    /// Whether every byte has crossed so far, and no other has come.
    fair: bool,
}

impl Bench {
    fn say(&mut self, one: Move) {
        self.fair &= !matches!(one, Move::Lose(..) | Move::Stray(..));
        self.line += &format!(" {one}");
        self.run.play(&one);
    }

    fn wait(&mut self, end: End, ms: u32) {
        match ms / 1_000 {
            0 => {}
            times => self.say(Move::Wait(end, 1_000, times)),
        }
        if ms % 1_000 > 0 {
            self.say(Move::Wait(end, ms % 1_000, 1));
        }
    }

    fn on_the_way(&self, end: End) -> u32 {
        (if end == End::Host { self.run.to_host.len() } else { self.run.to_device.len() }) as u32
    }

    /// A run: what comes next by itself, and now and then something else. One in four is left alone.
    fn many(&mut self) {
        let odd = self.random.pick(&[4, 6, 10, u32::MAX]);
        for _ in 0..self.random.pick(&[8, 16, 24, 40]) {
            if odd < u32::MAX && self.random.once_in(odd) {
                self.disturb();
            } else {
                self.next();
            }
        }
        // mostly to the end of what was begun
        if !self.random.once_in(5) {
            for _ in 0..12 {
                if self.run.host.phase() == Host::Idle && self.run.device.phase() == &Phase::Nothing {
                    break;
                }
                self.next();
            }
        }
    }

    /// What comes next.
    fn next(&mut self) {
        let (to_host, to_device) = (self.on_the_way(End::Host), self.on_the_way(End::Device));
        if to_device > 0 {
            return self.arrives(End::Device, to_device);
        }
        if to_host > 0 {
            return self.arrives(End::Host, to_host);
        }
        if let Phase::Awaiting(command) = *self.run.device.phase() {
            if self.random.once_in(6) {
                return self.tells();
            }
            let fields = self.fields(command);
            return self.say(Move::Tell(fields));
        }
        match (self.run.host.phase(), self.run.device.phase()) {
            (Host::Idle, Phase::Nothing) => self.ask(),
            (Host::Idle, Phase::Sent { .. }) if self.random.once_in(3) => self.ask(),
            (_, Phase::Sent { waited, .. }) => {
                let left = Device::SILENCE - waited;
                self.wait(End::Device, left);
            }
            (_, Phase::Reading { waited, .. }) if self.random.once_in(2) => {
                let left = Device::FRAME - waited;
                self.wait(End::Device, left);
            }
            (Host::Idle, _) => self.ask(),
            (Host::First, _) => self.wait(End::Host, Session::FIRST_BYTE),
            (Host::Start, _) => {
                let ms = self.random.pick(&[Session::ANSWER, Session::AFTER_NAK]);
                self.wait(End::Host, ms);
            }
            (Host::Inside, _) => self.wait(End::Host, Session::FRAME),
        }
    }

    /// So many bytes arrive; perhaps with milliseconds between them.
    fn arrives(&mut self, end: End, number: u32) {
        match (self.temper, end) {
            _ if number < 6 || self.random.once_in(10) => {}
            (Temper::GarblesCommands, End::Device) | (Temper::GarblesAnswers, End::Host) => return self.garbled(end),
            (Temper::DelaysAnswers, End::Host) => {
                let some = self.random.within(1, number - 1);
                self.say(Move::Arrive(end, some));
                self.wait(end, Session::FRAME);
                return self.say(Move::Lose(end, number));
            }
            (Temper::LosesAnswers, End::Host) => return self.say(Move::Lose(end, number)),
            _ => {}
        }
        if number < 2 || !self.random.once_in(8) {
            if number == 1
                && self.random.once_in(12)
                && matches!(self.run.device.phase(), Phase::Sent { waited: 0, .. })
                && end == End::Device
            {
                self.wait(End::Device, Device::SILENCE - 1);
            }
            return self.say(Move::Arrive(end, number));
        }
        let some = self.random.within(1, number - 1);
        self.say(Move::Arrive(end, some));
        let ms = self.random.pick(&[199, 199, 200, 50]);
        self.wait(end, ms);
        if self.random.once_in(2) {
            self.say(Move::Arrive(end, number - some));
        }
    }

    fn ask(&mut self) {
        if let Some((quiet, needed)) = self.run.host.quiet() {
            if quiet < needed {
                self.wait(End::Host, needed - quiet);
            }
        }
        if self.run.host.is_stopped() && self.random.once_in(2) {
            self.say(Move::Clear);
        }
        let command = self.command();
        self.say(Move::Ask(command.code.byte(), command.upper, command.lower));
    }

    fn command(&mut self) -> Command {
        let any = self.random.pick(&Code::ALL);
        let pays = self.random.pick(&[Code::PayUpper, Code::PayLower, Code::PayBoth]);
        let code = if self.temper == Temper::Usual { any } else { self.random.pick(&[any, pays, pays]) };
        let mut count = |given: bool| if given { self.random.pick(&[1, 10, 15, 15, 20, 60]) } else { 0 };
        let upper = count(matches!(code, Code::PayUpper | Code::PayBoth));
        let lower = count(matches!(code, Code::PayLower | Code::PayBoth));
        Command { code, upper, lower }
    }

    /// Good fields for a command.
    fn fields(&mut self, command: Command) -> Fields {
        let asked = [command.upper.max(command.lower), command.lower];
        let mut counts = 0;
        let random = &mut self.random;
        let mut value = |field: &Field| match field {
            Field::Count(99) => random.pick(&[0, 0, 0, 1, 7, 99]),
            Field::Count(most) => {
                counts += 1;
                let asked = asked[usize::from(counts > 2)];
                let fewer = asked.saturating_sub(1);
                random.pick(&[asked, asked, asked, asked, fewer, asked + 1, *most, 0]).min(*most)
            }
            Field::Error => random.pick(&[0x30, 0x30, 0x31, 0x38, 0x39, 0x7F]),
            Field::State => random.pick(&[0x30, 0x31]),
            Field::Sensor0 => random.pick(&[0x80, 0xFF, 0x95]),
            Field::Sensor1 => u32::from(random.byte()),
        };
        Fields { code: command.code, values: layout(command.code).iter().map(&mut value).collect() }
    }

    /// A telling that may be refused: out of range, of another code, or while none is awaited.
    fn tells(&mut self) {
        let command = match *self.run.device.phase() {
            Phase::Awaiting(command) => command,
            _ => self.command(),
        };
        let mut fields = self.fields(command);
        match self.random.below(6) {
            0 => {
                let other = self.command();
                fields = self.fields(other);
            }
            1 => {
                let other = match command.code {
                    Code::PayUpper => Code::PayLower,
                    Code::PayLower => Code::PayUpper,
                    Code::TestUpper => Code::TestLower,
                    Code::TestLower => Code::TestUpper,
                    _ => Code::Purge,
                };
                fields = self.fields(Command { code: other, ..command });
            }
            _ => {
                let place = self.random.below(fields.values.len() as u32) as usize;
                let place = if fields.code == Code::Status { place.min(1) } else { place };
                fields.values[place] = match layout(fields.code)[place] {
                    Field::Count(most) => self.random.pick(&[most + 1, 100, 256 + most, u32::MAX]),
                    Field::Error => self.random.pick(&[0x2F, 0x80, 0x00, 0xFF]),
                    Field::State => self.random.pick(&[0x2F, 0x32]),
                    Field::Sensor0 => self.random.pick(&[0x7F, 0x00]),
                    Field::Sensor1 => u32::from(self.random.byte()),
                };
            }
        }
        self.say(Move::Tell(fields));
    }

    /// One byte of those on their way is another, mostly not the first.
    fn garbled(&mut self, end: End) {
        let number = self.on_the_way(end);
        let before = if self.random.once_in(6) { 0 } else { self.random.within(1, number - 1) };
        if before > 0 {
            self.say(Move::Arrive(end, before));
        }
        let way = if end == End::Host { &self.run.to_host } else { &self.run.to_device };
        let Some(&byte) = way.front() else { return };
        self.say(Move::Lose(end, 1));
        let turned = byte ^ 1 << self.random.below(8);
        self.say(Move::Stray(end, turned));
        let left = self.on_the_way(end);
        if left > 0 {
            self.say(Move::Arrive(end, left));
        }
    }

    /// Something that does not come by itself.
    fn disturb(&mut self) {
        let end = self.random.pick(&[End::Host, End::Device]);
        if matches!(self.run.device.phase(), Phase::Awaiting(_)) && self.random.once_in(3) {
            let byte = self.random.pick(&[ACK, NAK, OPENING]);
            return self.say(Move::Stray(End::Device, byte));
        }
        match self.random.below(20) {
            0..=2 => {
                let number = self.on_the_way(end).max(1);
                let number = self.random.pick(&[1, 1, 2, number, number]);
                self.say(Move::Lose(end, number));
            }
            3..=4 => {
                let byte = self.random.pick(&[0x00, 0x01, 0x04, ACK, ACK, NAK, NAK, 0x50, 0xFF]);
                self.say(Move::Stray(end, byte));
            }
            5..=6 if self.on_the_way(end) > 1 => self.garbled(end),
            7 => {
                let ms = self.random.pick(&[0, 1_001, u32::MAX]);
                self.say(Move::Wait(end, ms, 1));
            }
            8..=9 => {
                let large = if end == End::Host { Session::ROOM } else { Device::ROOM };
                let small = self.random.pick(&[0, 10, large - 1]);
                self.say(Move::Room(end, small));
                let command = self.command();
                match (self.random.below(3), end) {
                    (0, End::Device) => {
                        let fields = self.fields(command);
                        self.say(Move::Tell(fields));
                    }
                    (0, End::Host) => self.say(Move::Ask(command.code.byte(), command.upper, command.lower)),
                    (1, _) if self.on_the_way(end) > 0 => self.say(Move::Arrive(end, 1)),
                    (1, _) => {
                        let byte = self.random.pick(&[0x01, OPENING, ACK, NAK]);
                        self.say(Move::Stray(end, byte));
                    }
                    _ => self.say(Move::Wait(end, 1, 1)),
                }
                let large = self.random.pick(&[large, large, ROOM]);
                self.say(Move::Room(end, large));
            }
            10 => {
                // asked at any time
                let command = self.command();
                self.say(Move::Ask(command.code.byte(), command.upper, command.lower));
            }
            11 => {
                let code = self.random.pick(&[0x45, 0x55, 0x56, 0x44, 0x47, 0x00]);
                let (upper, lower) = (self.random.pick(&[0, 61, 266, u32::MAX]), self.random.pick(&[0, 61]));
                self.say(Move::Ask(code, upper, lower));
            }
            12 => self.say(Move::Clear),
            13..=15 => self.tells(),
            16 => {
                let ms = self.random.pick(&[1, 49, 150, 1_000, 5_049, 5_050, 6_000]);
                self.wait(end, ms);
            }
            _ => self.made_up(),
        }
    }

    /// A command that nobody sent, good or bad, byte by byte.
    fn made_up(&mut self) {
        let command = self.command();
        let mut room = [0; Session::ROOM];
        let length = command.write_to(&mut room);
        let mut frame = room[..length].to_vec();
        let last = length - 1;
        match self.random.below(8) {
            0 => frame[3] = self.random.pick(&[0x47, 0x00, 0x04, 0x50]),
            1 => frame[self.random.within(1, 2) as usize] ^= 1 << self.random.below(8),
            2 => frame[last - 1] ^= 1 << self.random.below(8),
            3 => frame[last] ^= 1 << self.random.below(8),
            4..=5 if length > 6 => {
                let wrong = self.random.pick(&[[0x30, 0x30], [0x36, 0x31], [0x39, 0x39], [0x31, 0x3A], [0x2F, 0x35]]);
                frame[4..6].copy_from_slice(&wrong);
            }
            _ => {}
        }
        if command.code != Code::Purge && frame[last] == room[last] {
            frame[last] = check(&frame[..last]);
        }
        let stop = if self.random.once_in(4) { self.random.within(1, last as u32) as usize } else { length };
        for &byte in &frame[..stop] {
            self.say(Move::Stray(End::Device, byte));
            if self.run.device.phase() == &Phase::Nothing {
                break;
            }
        }
        if stop < length {
            if self.random.once_in(2) {
                self.tells();
            }
            let ms = self.random.pick(&[199, 200]);
            self.wait(End::Device, ms);
        }
    }

    /// A million commands, and then some more.
    fn million(&mut self) {
        self.say(Move::Alone(Device::COMMANDS - 1));
        for number in 0..121 {
            for byte in [0x04, 0x50, 0x02, 0x44, 0x03, 0x11] {
                self.say(Move::Stray(End::Device, byte));
            }
            if number == 0 {
                self.say(Move::Tell(Fields { code: Code::Purge, values: vec![0x30] }));
                self.say(Move::Stray(End::Device, ACK));
            }
        }
    }

    /// What the end of the run shows.
    fn ended(&self) -> Reached<Place> {
        let mut all = Reached::nothing();
        let run = &self.run;
        let (host, device) = (run.host.phase() == Host::Idle, run.device.phase() == &Phase::Nothing);
        let account = run.host.account();
        let sums = [&account.upper, &account.lower];
        let any = |of: fn(&Sums) -> u32| sums.iter().any(|&sums| of(sums) > 0);
        match (host, device, run.agree()) {
            (true, true, true) => {
                if any(|sums| sums.paid) {
                    all.part(Place::Ends, 0);
                }
                if any(|sums| sums.rejected) {
                    all.part(Place::Ends, 1);
                }
                if self.fair && any(|sums| sums.paid) {
                    all.part(Place::Ends, 7);
                }
            }
            (true, true, false) => {
                all.part(Place::Ends, 2);
                if any(|sums| sums.unknown) {
                    all.part(Place::Ends, 6);
                }
            }
            (false, ..) => all.part(Place::Ends, 3),
            (true, false, true) if any(|sums| sums.paid) => all.part(Place::Ends, 5),
            _ => {}
        }
        if !device {
            all.part(Place::Ends, 4);
        }
        all
    }
}

fn code_part(code: Code) -> usize {
    Code::ALL.iter().position(|&one| one == code).expect("a code of the table")
}

/// What a call of the host reached.
fn host_reached(call: &Call, step: &Result<dispenser::Step, dispenser::Declined>) -> Reached<Place> {
    use dispenser::Declined as No;
    let mut all = Reached::nothing();
    match (step, call) {
        (Err(No::Room), Call::Ask(_)) => all.part(Place::HostNumber, 0),
        (Err(No::Room), Call::Byte(_)) => all.part(Place::HostNumber, 1),
        (Err(No::Room), _) => all.part(Place::HostNumber, 2),
        (Err(No::Range), Call::Ask(code)) if Code::of(u32::from(*code)).is_none() => all.part(Place::HostNumber, 4),
        (Err(No::Range), _) => all.part(Place::HostNumber, 3),
        (Err(No::Open), Call::Clear) => all.part(Place::HostNumber, 6),
        (Err(No::Open), _) => all.part(Place::HostNumber, 5),
        (Err(No::Quiet), _) => all.part(Place::HostNumber, 7),
        (Err(No::Tick), _) => all.part(Place::HostNumber, 8),
        (Err(No::Stopped), _) => all.part(Place::HostNumber, 9),
        (Err(No::Spent), _) => {}
        (Ok(step), _) => match step.closing {
            Some(Closing::Answered(answer, _)) => {
                use crate::dispenser_frame::Answer;
                let code = match answer {
                    Answer::Purged => Code::Purge,
                    Answer::Status => Code::Status,
                    Answer::PaidUpper(_) => Code::PayUpper,
                    Answer::PaidLower(_) => Code::PayLower,
                    Answer::PaidBoth(..) => Code::PayBoth,
                    Answer::TestedUpper { .. } => Code::TestUpper,
                    Answer::TestedLower { .. } => Code::TestLower,
                };
                all.part(Place::HostAnswered, code_part(code));
            }
            Some(Closing::Refused) => all.mark(Place::HostRefused),
            Some(Closing::Unknown(how)) => all.part(
                Place::HostUnknown,
                match how {
                    Unknown::OtherByte => 0,
                    Unknown::Silence => 1,
                    Unknown::NoStart => 2,
                    Unknown::NoStartAgain => 3,
                    Unknown::ThirdBad => 4,
                    Unknown::ThirdLate => 5,
                },
            ),
            None => {}
        },
    }
    all
}

/// What a call of the device reached.
fn device_reached(
    before: &Device,
    call: &Call,
    step: &Result<crate::pretend::Step, Declined>,
    seen: &mut Seen,
) -> Reached<Place> {
    let mut all = Reached::nothing();
    let step = match step {
        Ok(step) => step,
        Err(why) => {
            declined_reached(before, call, *why, &mut all);
            return all;
        }
    };
    if let Call::Tick(ms) = call {
        seen.since = seen.since.saturating_add(*ms);
    }
    match (before.phase(), call) {
        (Phase::Nothing, Call::Byte(OPENING)) => seen.since = 0,
        (Phase::Nothing, Call::Byte(byte)) => all.part(Place::Skipped, which(*byte)),
        (Phase::Reading { bytes, .. }, Call::Byte(byte)) => read_reached(before, bytes, *byte, step, seen, &mut all),
        (Phase::Reading { bytes, .. }, Call::Tick(_)) if step.put > 0 => {
            all.part(Place::No, 0);
            if bytes.len() > 1 {
                all.part(Place::No, 6);
            }
        }
        (Phase::Awaiting(_), Call::Byte(byte)) => match *byte {
            ACK => all.part(Place::Ignored, 0),
            NAK => all.part(Place::Ignored, 1),
            OPENING => all.part(Place::Ignored, 2),
            _ => {}
        },
        (Phase::Awaiting(_), Call::Tick(_)) => all.part(Place::Ignored, 3),
        (Phase::Awaiting(_), Call::Tell(fields)) => told_reached(fields, seen, &mut all),
        (Phase::Sent { sendings, .. }, call) => sent_reached(*sendings, call, step, seen, &mut all),
        _ => {}
    }
    all
}

fn which(byte: u8) -> usize {
    match byte {
        ACK => 0,
        NAK => 1,
        _ => 2,
    }
}

fn read_reached(
    before: &Device,
    bytes: &[u8],
    byte: u8,
    step: &crate::pretend::Step,
    seen: &mut Seen,
    all: &mut Reached<Place>,
) {
    if let Came::Taken(command) = step.came {
        all.part(Place::Taken, code_part(command.code));
        if seen.since == Device::FRAME - 1 {
            all.mark(Place::TakenAt);
        }
        if byte == OPENING {
            all.mark(Place::Check04);
        }
        seen.asked = Some(command);
        return;
    }
    if step.put == 0 {
        return;
    }
    let frame = [bytes, &[byte]].concat();
    let Some(code) = Code::of(u32::from(frame[3])) else { return all.part(Place::No, 1) };
    if command(&frame).is_some() && before.answered() == Device::COMMANDS {
        return all.mark(Place::Million);
    }
    let last = command_length(code) - 1;
    let part = if frame[..3] != [0x04, 0x50, 0x02] {
        2
    } else if frame[last - 1] != 0x03 {
        3
    } else if frame[last] != check(&frame[..last]) {
        4
    } else {
        5
    };
    all.part(Place::No, part);
}

fn told_reached(fields: &Fields, seen: &mut Seen, all: &mut Reached<Place>) {
    all.part(Place::Told, code_part(fields.code));
    let asked = seen.asked.map_or(0, |command| command.upper.max(command.lower));
    if fields.code.pays() && fields.values[1] > asked {
        all.part(Place::Told, 7);
    }
    let error = layout(fields.code).iter().position(|&field| field == Field::Error).map(|place| fields.values[place]);
    if error.is_some_and(|error| matches!(error, 0x39 | 0x7F)) {
        all.part(Place::Told, 8);
    }
    (seen.by_nak, seen.by_silence, seen.since) = (false, false, 0);
}

fn sent_reached(sendings: u32, call: &Call, step: &crate::pretend::Step, seen: &mut Seen, all: &mut Reached<Place>) {
    let by_nak = matches!(call, Call::Byte(_));
    if step.put > 0 {
        let part = 2 * (sendings as usize - 1) + usize::from(!by_nak);
        all.part(Place::Again, part);
        if by_nak {
            seen.by_nak = true;
        } else {
            seen.by_silence = true;
        }
        seen.since = 0;
        return;
    }
    match (call, step.came) {
        (Call::Byte(ACK), Came::Ended) => {
            all.part(Place::Ended, 0);
            if seen.since == Device::SILENCE - 1 {
                all.part(Place::Ended, 1);
            }
            if sendings == Device::SENDINGS {
                all.part(Place::Ended, 2);
            }
        }
        (_, Came::Ended) => {
            all.part(Place::Ended, if by_nak { 3 } else { 4 });
            if seen.by_nak && seen.by_silence {
                all.part(Place::Ended, 5);
            }
        }
        (Call::Byte(OPENING), _) => all.part(Place::Ignored, 4),
        (Call::Byte(_), _) => all.part(Place::Ignored, 5),
        _ => {}
    }
}

fn declined_reached(before: &Device, call: &Call, why: Declined, all: &mut Reached<Place>) {
    let part = match (why, call) {
        (Declined::Room, Call::Byte(_)) => 0,
        (Declined::Room, Call::Tick(_)) => 1,
        (Declined::Room, _) => 2,
        (Declined::Tick, Call::Tick(0)) => 9,
        (Declined::Tick, _) => 10,
        (Declined::Fields, Call::Tell(fields)) => {
            let Phase::Awaiting(command) = before.phase() else { unreachable!("2 where fields are awaited") };
            let wrong = layout(fields.code).iter().zip(&fields.values).find(|(field, &value)| !field.takes(value));
            match wrong {
                None if layout(fields.code) == layout(command.code) => 3,
                None => 4,
                Some((Field::Count(_), _)) => 5,
                Some((Field::Error, _)) => 6,
                Some((Field::State, _)) => 7,
                Some(_) => 8,
            }
        }
        (Declined::NotAwaited, Call::Tell(fields)) => {
            if !fields.are_in_range() {
                all.part(Place::DeviceNumber, 14);
            }
            match before.phase() {
                Phase::Nothing => 11,
                Phase::Reading { .. } => 12,
                _ => 13,
            }
        }
        _ => return,
    };
    all.part(Place::DeviceNumber, part);
}

#[cfg(test)]
mod tests {
    use super::*;

    #[test]
    fn the_example_of_the_format() {
        let line = "run hw1000x5 hw200 ha45h,10,0 dh8 hh dt45h,10,10,30h,30h,0 hh14 dh\nany other line\n";
        let wanted = "host puts 04 50 02 45 31 30 03 11
device puts 06
device takes 45h 10 0
device puts 01 50 02 45 31 30 31 30 30 30 30 30 03 15
host puts 06
host closes answered
device ends
host upper asked 10 paid 10 short 0 over 0 refused 0 unknown 0 open 0 rejected 0
host lower asked 0 paid 0 short 0 over 0 refused 0 unknown 0 open 0 rejected 0
device upper paid 10 rejected 0
device lower paid 0 rejected 0
host idle, device idle: agree
any other line
";
        assert_eq!(told(line), wanted);
    }

    #[test]
    fn a_host_that_gave_up_a_command_on_its_way() {
        // the device takes the first command late, and its 06h is heard as that of the second
        let line = "run hw1000x6 ha45h,10,0 hw1000x6 hw1000x96 ha44h,0,0 dh8 dh6 hh dt45h,10,10,30h,30h,0 hh7 hh7 dh dh hh hw1000x90\n";
        let told = told(line);
        assert!(told.contains("host closes unknown\n"), "{told}");
        assert!(told.contains("device upper paid 10 rejected 0\n"), "{told}");
        assert!(
            told.contains("host upper asked 10 paid 0 short 0 over 0 refused 0 unknown 10 open 0 rejected 0\n"),
            "{told}"
        );
    }

    #[test]
    fn refusals_and_losses() {
        let line = "run dt44h,30h dx04h dr20 dw1 dr21 dw0 dw200 hr15 hw1 hr16 hc ha47h,0,0 ha45h,1,0 hl dl9\n";
        let wanted = "device refused 9\ndevice refused 1\ndevice refused 6\ndevice puts 15\nhost refused 1\nhost refused 2\nhost refused 4\n";
        assert!(told(line).starts_with(&format!("{wanted}host upper")), "{}", told(line));
    }

    #[test]
    fn what_is_made_is_told_again() {
        let mut runs = Runs::default();
        for index in 0..300 {
            let (line, wanted) = runs.made(1, index);
            assert_eq!(told(&line), wanted, "{line}");
        }
    }

    #[test]
    fn both_ends_agree_where_nothing_is_lost_and_no_wait_ends() {
        // document 02's theorem, on made runs: what arrives arrives in time, and each end is asked and told at will
        for seed in 0..300 {
            let random = Random::new(seed);
            let temper = Temper::Usual;
            let mut bench = Bench { random, temper, run: Run::fresh(), line: "run".to_string(), fair: true };
            for _ in 0..6 {
                bench.ask();
                while bench.run.host.phase() != Host::Idle || bench.run.device.phase() != &Phase::Nothing {
                    let (to_host, to_device) = (bench.on_the_way(End::Host), bench.on_the_way(End::Device));
                    match (to_host, to_device, bench.run.device.phase()) {
                        (1.., ..) => bench.say(Move::Arrive(End::Host, 1)),
                        (_, 1.., _) => bench.say(Move::Arrive(End::Device, 1)),
                        (.., &Phase::Awaiting(command)) => {
                            bench.tells();
                            if matches!(bench.run.device.phase(), Phase::Awaiting(_)) {
                                let fields = bench.fields(command);
                                bench.say(Move::Tell(fields));
                            }
                        }
                        _ => unreachable!("something is on its way, or the fields are awaited"),
                    }
                }
                assert!(bench.run.agree(), "{}", bench.line);
            }
        }
    }
}
