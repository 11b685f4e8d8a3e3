//! The desk: events go to `host`, one at a time and in the order in which they happened; what `host` says goes to the lines and to the operator.

use crate::clock::{Clock, Time};
use crate::filter::Filter;
use crate::line::Line;
use crate::news::News;
use crate::options::Options;
use crate::order::{order, Order, HELP};
use crate::queue::{Event, Queue, What};
use crate::record;
use crate::said::{said, Said};
use crate::side::Side;
use crate::typed;
use std::collections::VecDeque;
use std::ffi::OsString;
use std::io::{self, BufRead, Write};
use std::sync::Arc;
use std::thread;
use std::time::Duration;

/// The loop turns at least so often, in milliseconds: where it turned later than that by `HELD_UP`, the machine held it up, and
/// bytes that were read since had come before.
const TURN: u64 = 20;
const HELD_UP: u64 = 20;
/// Enabling bills is given up so many milliseconds after it began.
const ENABLING: u64 = 5_000;

/// Runs the desk until somebody quits; or says why it ended before.
pub fn run(options: &Options, orders: impl BufRead + Send + 'static, out: &mut dyn Write) -> Result<(), String> {
    let time = Arc::new(if options.ordered { Time::orders() } else { Time::machine() });
    let queue = Arc::new(Queue::new(Arc::clone(&time)));
    let mut lines = [None, None];
    for side in Side::BOTH {
        if let Some(device) = &options.devices[side.index()] {
            let line = Line::open(side, device, options.settings[side.index()], &queue);
            lines[side.index()] = Some(line.map_err(|why| format!("{}: {device}: {why}", side.name()))?);
        }
    }
    let ordering = Arc::clone(&queue);
    let sleeps = !time.is_ordered();
    thread::spawn(move || listen_for_orders(orders, &ordering, sleeps));
    let carrier = Carrier { lines, time, clock: Clock::default(), slack: options.slack };
    let mut desk = Desk { options, queue, carrier, out, news: News::default(), poll: None, heard: [0; 2] };
    let early = match &options.bills {
        Some(bills) => desk.enable(bills)?,
        None => VecDeque::new(),
    };
    desk.work(early)
}

/// The order `wait` holds up the orders behind it, and nothing else.
fn listen_for_orders(orders: impl BufRead, queue: &Queue, sleeps: bool) {
    for line in typed::lines(orders) {
        let line = match line {
            Ok(line) => line,
            Err(why) => return queue.put([What::OrdersEnded(Some(why.to_string()))]),
        };
        match order(&line) {
            Some(Order::Wait(ms)) if sleeps => thread::sleep(Duration::from_millis(ms.into())),
            _ => queue.put([What::Order(line)]),
        }
    }
    queue.put([What::OrdersEnded(None)]);
}

/// A time, and the record of what happened then, where something did.
type Stamped = (u64, Option<Vec<u8>>);

/// What carries events to a program, and bytes from it to the lines.
struct Carrier {
    lines: [Option<Line>; 2],
    time: Arc<Time>,
    clock: Clock,
    slack: u64,
}

impl Carrier {
    /// Gives an event, sends what is to be sent, and hands everything else that is said to `hear`. The last that is said is the answer.
    fn give(&mut self, program: &mut Filter, event: &[u8], hear: &mut dyn FnMut(&str)) -> Result<Said, String> {
        program.give(event).map_err(|_| gone(program))?;
        let mut sent = None;
        let last = loop {
            let line = program.line().map_err(|why| why.to_string())?.ok_or_else(|| gone(program))?;
            match said(&line) {
                Some(Said::Send(side, bytes)) => sent = self.send(side, &bytes, hear).or(sent),
                Some(Said::Said(text)) => hear(&text),
                Some(Said::Refused(text)) => hear(&format!("not taken: {text}")),
                Some(Said::Renew) => hear("this recording has taken its 1,000,000 commands: quit, and begin a new one"),
                Some(Said::Failed) => return Err(FAILED.into()),
                Some(last @ (Said::Done | Said::Enabled | Said::NotEnabled(_))) => break last,
                _ => return Err(format!("the program said what is not understood here: {line}")),
            }
        };
        // from the event to the end of our frame nothing is counted: a wait begins when all of it has left
        if let Some(left) = sent {
            self.clock.hold(left + self.slack);
            self.clock.stir(left);
        }
        Ok(last)
    }

    /// When all of it has left. A line that cannot be written is told of, and nothing else: what was to be sent is written down, and closes as it may.
    fn send(&mut self, side: Side, bytes: &[u8], hear: &mut dyn FnMut(&str)) -> Option<u64> {
        let now = self.time.now();
        let line = self.lines[side.index()].as_mut()?;
        match line.send(bytes, now) {
            // by the test clock writing takes no time
            Ok(_) if self.time.is_ordered() => None,
            Ok(left) => Some(left.max(self.time.now())),
            Err(why) => {
                hear(&format!("the {}'s line cannot be written: {why}", side.name()));
                None
            }
        }
    }
}

/// How a program ended whose input had not.
fn gone(program: &mut Filter) -> String {
    program.end().map_or_else(|why| why.to_string(), |()| "the program has ended".into())
}

/// The host cannot go on: why, and what to do.
fn stopped(why: String) -> String {
    format!("{why}. What was written down is whole: go on with --resume")
}

const FAILED: &str = "the program could not go on, as said above; nothing of the last event was sent";

struct Desk<'a> {
    options: &'a Options,
    queue: Arc<Queue>,
    carrier: Carrier,
    out: &'a mut dyn Write,
    news: News,
    /// How often is polled, and when next.
    poll: Option<(u64, u64)>,
    /// How many bytes of each line were given.
    heard: [u64; 2],
}

impl Desk<'_> {
    fn say(&mut self, text: &str) -> Result<(), String> {
        let put = |out: &mut dyn Write| writeln!(out, "{text}").and_then(|()| out.flush());
        put(self.out).map_err(|why| format!("standard output: {why}"))
    }

    /// What only a test reads.
    fn note(&mut self, text: &str) -> Result<(), String> {
        if self.carrier.time.is_ordered() {
            self.say(&format!("# {text}"))?;
        }
        Ok(())
    }

    // ---- before the recording

    /// Bills are enabled by a session of its own, of which no recording tells. Orders that come meanwhile are kept, and returned.
    fn enable(&mut self, bills: &[u8]) -> Result<VecDeque<Event>, String> {
        if self.carrier.lines[Side::Validator.index()].is_none() {
            return Err("--bills needs a validator".into());
        }
        // this session's time begins here: opening the lines may have taken some
        let start = self.carrier.time.now();
        self.carrier.clock.hold(start);
        let words: Vec<OsString> = bills.iter().map(|byte| format!("{byte:02X}").into()).collect();
        let mut program =
            Filter::start(&self.options.enable_bills, &words).map_err(|why| format!("enable_bills: {why}"))?;
        let mut later = VecDeque::new();
        let mut said = Said::Done;
        while said == Said::Done {
            let (events, waits) = self.before_recording(&mut later);
            for (at, record) in events {
                let ticks = self.carrier.clock.due(at).into_iter().map(record::tick);
                for event in ticks.chain(record) {
                    if said == Said::Done {
                        said = self.carrier.give(&mut program, &event, &mut |_| {}).unwrap_or_else(Said::NotEnabled);
                    }
                }
            }
            (0..waits).try_for_each(|_| self.note("at"))?;
            if said == Said::Done && self.carrier.time.now() > start + ENABLING {
                said = Said::NotEnabled("nothing became of it".into());
            }
        }
        let ended = program.end();
        match said {
            Said::NotEnabled(why) => self.say(&format!("bills are not enabled: {why}"))?,
            _ => self.say("bills are enabled")?,
        }
        if let Err(why) = ended {
            self.say(&format!("enable_bills: {why}"))?;
        }
        Ok(later)
    }

    /// What happened since: the validator's bytes, each with its time, and the time now; beside that how often the test clock was moved. Orders are kept for later. What
    /// the dispenser sends is nothing to this session, and no recording has begun.
    fn before_recording(&mut self, later: &mut VecDeque<Event>) -> (Vec<Stamped>, usize) {
        let (mut events, mut waits) = (Vec::new(), 0);
        for event in self.queue.take(self.turn()) {
            match &event.what {
                What::Byte(Side::Validator, byte) => {
                    self.heard[Side::Validator.index()] += 1;
                    events.push((event.at, Some(record::byte(Side::Validator, *byte))));
                }
                What::Byte(Side::Dispenser, _) => self.heard[Side::Dispenser.index()] += 1,
                What::Order(line) => match order(line) {
                    Some(Order::Wait(ms)) => {
                        self.carrier.time.pass(ms.into());
                        events.push((self.carrier.time.now(), None));
                        waits += 1;
                    }
                    _ => later.push_back(event),
                },
                What::Ended(..) | What::OrdersEnded(_) => later.push_back(event),
            }
        }
        events.push((self.carrier.time.now(), None));
        (events, waits)
    }

    // ---- the recording

    fn work(&mut self, early: VecDeque<Event>) -> Result<(), String> {
        let mut host = self.start()?;
        self.note(&format!("host {}", host.id()))?;
        self.note(&format!("heard {} {}", self.heard[0], self.heard[1]))?;
        // the recording's time begins here
        self.carrier.clock.hold(self.carrier.time.now());
        let mut events = early;
        loop {
            let mut heard = false;
            for event in std::mem::take(&mut events) {
                heard |= matches!(event.what, What::Byte(..));
                if self.handle(&mut host, event)? {
                    return host.end().map_err(|why| format!("host: {why}"));
                }
            }
            if heard {
                self.note(&format!("heard {} {}", self.heard[0], self.heard[1]))?;
            }
            self.idle(&mut host)?;
            events = self.next();
        }
    }

    fn start(&mut self) -> Result<Filter, String> {
        let mut words = vec![self.options.file.clone().into_os_string()];
        if self.options.resume {
            words.push("--resume".into());
        } else if self.options.switched_on {
            words.push("--switched-on".into());
        }
        let mut host = Filter::start(&self.options.host, &words).map_err(|why| format!("host: {why}"))?;
        loop {
            let line = host.line().map_err(|why| why.to_string())?.ok_or_else(|| stopped(gone(&mut host)))?;
            match said(&line) {
                Some(Said::Began) => {
                    self.say("the recording begins")?;
                    return Ok(host);
                }
                Some(Said::Cut(bytes)) => {
                    self.say(&format!("an unfinished record was cut off: {bytes} bytes are left"))?
                }
                Some(Said::Resumed(how)) => {
                    self.say(&format!("the recording goes on: {}", resumed(&how)))?;
                    return Ok(host);
                }
                Some(Said::Failed) => return Err("the recording could not be begun, as said above".into()),
                _ => return Err(format!("host said what is not understood here: {line}")),
            }
        }
    }

    fn turn(&self) -> Option<Duration> {
        let ms = self.carrier.clock.next().saturating_sub(self.carrier.time.now()).clamp(1, TURN);
        (!self.carrier.time.is_ordered()).then(|| Duration::from_millis(ms))
    }

    /// What happened since. Where the machine held this program up, bytes came no later than when it should have looked.
    fn next(&mut self) -> VecDeque<Event> {
        let planned = self.turn().map(|turn| self.carrier.time.now() + turn.as_millis() as u64);
        let mut events = self.queue.take(self.turn());
        if let Some(planned) = planned.filter(|planned| self.carrier.time.now() > planned + HELD_UP) {
            for event in &mut events {
                if matches!(event.what, What::Byte(..)) {
                    event.at = event.at.min(planned);
                }
            }
        }
        events
    }

    /// True where the desk is to end.
    fn handle(&mut self, host: &mut Filter, event: Event) -> Result<bool, String> {
        match event.what {
            What::Byte(side, byte) => {
                self.pass(host, event.at)?;
                self.carrier.clock.stir(event.at);
                self.heard[side.index()] += 1;
                self.give(host, &record::byte(side, byte))?;
            }
            What::Ended(side, why) => self.say(&format!("nothing more comes from the {}: {why}", side.name()))?,
            What::Order(line) => {
                let quits = self.obey(host, event.at, &line)?;
                self.note(&format!("at {}", self.carrier.time.now()))?;
                return Ok(quits);
            }
            What::OrdersEnded(None) => return Ok(true),
            What::OrdersEnded(Some(why)) => return Err(format!("standard input: {why}")),
        }
        Ok(false)
    }

    fn obey(&mut self, host: &mut Filter, at: u64, line: &str) -> Result<bool, String> {
        let Some(order) = order(line) else {
            self.say(&format!("not understood: {}; help lists the orders", line.trim()))?;
            return Ok(false);
        };
        match order {
            Order::Record(side, record) => {
                if self.carrier.lines[side.index()].is_none() {
                    self.say(&format!("there is no {} at this desk", side.name()))?;
                    return Ok(false);
                }
                self.pass(host, at)?;
                self.news.typed();
                self.give(host, &record)?;
            }
            Order::PollEvery(_) if self.carrier.lines[Side::Validator.index()].is_none() => {
                self.say("there is no validator at this desk")?;
            }
            Order::PollEvery(ms) => self.poll = Some((ms.into(), at)),
            Order::PollOff => self.poll = None,
            Order::Account => self.show(|options| options.replay.of(options.file.as_os_str()))?,
            Order::Requests => self.show(|options| options.requests.of(options.file.as_os_str()))?,
            Order::Help => self.say(HELP.trim_end())?,
            Order::Wait(ms) => {
                self.carrier.time.pass(ms.into());
                self.pass(host, self.carrier.time.now())?;
            }
            Order::Quit => return Ok(true),
            Order::Nothing => {}
        }
        Ok(false)
    }

    fn show(&mut self, of: impl Fn(&Options) -> io::Result<String>) -> Result<(), String> {
        match of(self.options) {
            Ok(text) => text.lines().try_for_each(|line| self.say(line)),
            Err(why) => self.say(&format!("that cannot be shown: {why}")),
        }
    }

    /// A poll that is due, or a tick.
    fn idle(&mut self, host: &mut Filter) -> Result<(), String> {
        let now = self.carrier.time.now();
        if let Some((every, _)) = self.poll.filter(|&(_, next)| next <= now) {
            self.poll = Some((every, now + every));
            self.pass(host, now)?;
            self.news.poll();
            return self.give(host, &record::ask(record::POLL));
        }
        if self.carrier.clock.next() <= now {
            self.pass(host, now)?;
        }
        Ok(())
    }

    /// The ticks that are due at a time.
    fn pass(&mut self, host: &mut Filter, at: u64) -> Result<(), String> {
        self.carrier.clock.due(at).into_iter().try_for_each(|ms| self.give(host, &record::tick(ms)))
    }

    fn give(&mut self, host: &mut Filter, record: &[u8]) -> Result<(), String> {
        let mut lines = Vec::new();
        let given = self.carrier.give(host, record, &mut |line| lines.push(line.to_string()));
        for line in lines {
            if self.news.is_new(&line) {
                self.say(&line)?;
            }
        }
        match given.map_err(stopped)? {
            Said::Done => Ok(()),
            other => Err(format!("host said what is not understood here: {other:?}")),
        }
    }
}

/// `56 1234 open` in words.
fn resumed(how: &str) -> String {
    match how.split_whitespace().collect::<Vec<_>>()[..] {
        [records, bytes, "open"] => {
            format!("{records} records, {bytes} bytes; a command is open on the dispenser's line")
        }
        [records, bytes, _] => format!("{records} records, {bytes} bytes; nothing is open on the dispenser's line"),
        _ => how.into(),
    }
}
