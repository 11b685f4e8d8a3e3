//! A bench that stands: a desk, the pretend units at the other ends of its lines, and the script that moves them.

use super::account;
use super::running::Running;
use super::script::{Script, Step, Who};
use crate::filter::{Filter, Program};
use crate::hex;
use crate::pretend::unit::Unit;
use crate::pretend::units::Units;
use crate::record;
use crate::side::Side;
use std::ffi::OsString;
use std::fs::File;
use std::os::unix::fs::PermissionsExt;
use std::os::unix::net::UnixListener;
use std::path::{Path, PathBuf};
use std::process::Command;
use std::thread;
use std::time::{Duration, Instant};

/// How much later a program is killed while an order is being carried out: so much in the second round, four times in the third, nine times in the fourth, and so on.
const LATER: Duration = Duration::from_micros(25);

/// What a bench is made of.
#[derive(Clone, Debug, Default)]
pub struct Programs {
    pub runner: Option<PathBuf>,
    pub desk: PathBuf,
    pub host: PathBuf,
    pub replay: PathBuf,
    pub requests: PathBuf,
    pub enable_bills: PathBuf,
    pub unit: PathBuf,
}

impl Programs {
    fn program(&self, file: &Path) -> Program {
        Program { runner: self.runner.clone(), file: file.into() }
    }
}

/// Runs a round of a script in an empty folder. What is wrong, and what the desk said last, where something is.
pub fn run(script: &Script, round: u32, programs: &Programs, folder: &Path) -> Result<(), String> {
    let mut stand = Stand::new(script, round, programs, folder)?;
    let done = stand.run();
    done.map_err(|why| {
        let mut said = stand.said();
        said.drain(..said.len().saturating_sub(12));
        said.extend(std::fs::read_to_string(&stand.errors).unwrap_or_default().lines().map(String::from));
        format!("{why}\n  what was said last, and on standard error:\n    {}", said.join("\n    "))
    })
}

struct Stand<'a> {
    script: &'a Script,
    round: u32,
    programs: &'a Programs,
    recording: PathBuf,
    /// What desks and their programs wrote on standard error.
    errors: PathBuf,
    sockets: [PathBuf; 2],
    listeners: [UnixListener; 2],
    units: Units,
    desk: Option<Running>,
    /// What desks said that have ended.
    before: Vec<String>,
    /// How many lines had been said when the last order was given, and what was sent to each unit since.
    ordered: usize,
    sent: [Vec<u8>; 2],
}

impl<'a> Stand<'a> {
    fn new(script: &'a Script, round: u32, programs: &'a Programs, folder: &Path) -> Result<Stand<'a>, String> {
        let sockets = [folder.join("dispenser"), folder.join("validator")];
        let listen = |path: &PathBuf| {
            let listener = UnixListener::bind(path).map_err(|why| format!("{}: {why}", path.display()))?;
            listener.set_nonblocking(true).map_err(|why| why.to_string())?;
            Ok::<_, String>(listener)
        };
        let listeners = [listen(&sockets[0])?, listen(&sockets[1])?];
        let unit =
            Filter::start(&programs.program(&programs.unit), &[]).map_err(|why| format!("pretend_unit: {why}"))?;
        Ok(Stand {
            script,
            round,
            programs,
            recording: folder.join("recording"),
            errors: folder.join("errors"),
            sockets,
            listeners,
            units: Units::new(Unit::new(unit)),
            desk: None,
            before: Vec::new(),
            ordered: 0,
            sent: Default::default(),
        })
    }

    fn said(&self) -> Vec<String> {
        let now = self.desk.iter().flat_map(|desk| &desk.said);
        self.before.iter().chain(now).cloned().collect()
    }

    fn run(&mut self) -> Result<(), String> {
        if self.script.polled > 0 {
            std::fs::write(&self.recording, polled(self.script.polled)).map_err(|why| why.to_string())?;
        }
        self.start(self.script.polled > 0)?;
        for step in &self.script.steps {
            self.step(step).map_err(|why| format!("{step:?}: {why}"))?;
        }
        self.finish()
    }

    fn start(&mut self, resume: bool) -> Result<(), String> {
        let mut command = Command::new(&self.programs.desk);
        let mut pair = |name: &str, value: OsString| {
            command.arg(name).arg(value);
        };
        pair(if resume { "--resume" } else { "--record" }, self.recording.clone().into());
        for side in Side::BOTH {
            let mut device = OsString::from("unix:");
            device.push(&self.sockets[side.index()]);
            pair(&format!("--{}", side.name()), device);
        }
        let small = self.script.small_disk && !resume;
        if let Some(runner) = if small { Some(self.small_disk()?) } else { self.programs.runner.clone() } {
            pair("--runner", runner.into());
        }
        pair("--host", self.programs.host.clone().into());
        pair("--replay", self.programs.replay.clone().into());
        pair("--requests", self.programs.requests.clone().into());
        pair("--enable-bills", self.programs.enable_bills.clone().into());
        if let Some(bills) = self.script.bills.as_ref().filter(|_| !resume) {
            pair("--bills", bills.into());
        }
        if self.script.machine {
            // a machine that proves meanwhile is slow to carry bytes
            pair("--slack", "50".into());
        } else {
            pair("--clock", "orders".into());
        }
        if !self.script.not_switched_on && !resume {
            command.arg("--switched-on");
        }
        let errors = File::options().create(true).append(true).open(&self.errors).map_err(|why| why.to_string())?;
        command.stderr(errors);
        self.desk = Some(Running::start(command, &self.listeners)?);
        if self.script.machine {
            return self.desk()?.await_said(if resume { "the recording goes on" } else { "the recording begins" });
        }
        if self.script.bills.is_some() && !resume {
            self.await_bills()?;
        }
        self.desk()?.await_host()
    }

    /// Time has to pass for bills to be enabled.
    fn await_bills(&mut self) -> Result<(), String> {
        for _ in 0..1_000 {
            self.desk()?.order("wait 5")?;
            self.desk()?.await_order()?;
            self.carry()?;
            self.desk()?.listen();
            if self.desk()?.has_begun() {
                break;
            }
        }
        Ok(())
    }

    fn desk(&mut self) -> Result<&mut Running, String> {
        self.desk.as_mut().ok_or_else(|| "no desk runs".into())
    }

    fn step(&mut self, step: &Step) -> Result<(), String> {
        match step {
            Step::Wait(ms) if self.script.machine => self.wait(*ms),
            Step::Wait(ms) => self.pass(*ms),
            Step::Order(line) => {
                self.ordered = self.said().len();
                self.sent = Default::default();
                self.order(line)
            }
            Step::Units(line) => {
                let bytes = self.units.direct(line).unwrap_or_else(|| Err("not understood".into()))?;
                for side in Side::BOTH {
                    self.put(side, &bytes[side.index()])?;
                }
                self.settle()
            }
            Step::Expect(text) => {
                if self.script.machine {
                    self.desk()?.listen();
                }
                let said = self.said();
                match said[self.ordered.min(said.len())..].iter().any(|line| line.contains(text.as_str())) {
                    true => Ok(()),
                    false => Err("was not said".into()),
                }
            }
            Step::Sent(side, bytes) => {
                let sent = &self.sent[side.index()];
                match sent.windows(bytes.len()).any(|some| some == bytes) {
                    true => Ok(()),
                    false => Err(format!("sent was {}", hex::text(sent))),
                }
            }
            Step::Kill(who, during) => self.kill(*who, during.as_deref()),
            Step::Resume => self.start(true),
            Step::UntilFull => self.until_full(),
        }
    }

    // ---- what moves

    fn order(&mut self, line: &str) -> Result<(), String> {
        self.desk()?.order(line)?;
        if !self.script.machine {
            self.desk()?.await_order()?;
        }
        self.settle()
    }

    fn put(&mut self, side: Side, bytes: &[u8]) -> Result<(), String> {
        match &mut self.desk {
            Some(desk) if !bytes.is_empty() => desk.put(side, bytes),
            // where no desk runs, they reach nobody
            _ => Ok(()),
        }
    }

    /// Carries what the desk has sent to the units, and what they answer back. True where there was something.
    fn carry(&mut self) -> Result<bool, String> {
        let mut moved = false;
        for side in Side::BOTH {
            for byte in self.desk()?.sent(side)? {
                moved = true;
                self.sent[side.index()].push(byte);
                let answer = self.units.byte(side, byte)?;
                self.put(side, &answer)?;
            }
        }
        Ok(moved)
    }

    /// Carries until nothing is on its way.
    fn settle(&mut self) -> Result<(), String> {
        if self.desk.is_none() {
            return Ok(());
        }
        if self.script.machine {
            return self.carry().map(|_| ());
        }
        loop {
            self.desk()?.await_heard()?;
            if !self.carry()? {
                return Ok(());
            }
        }
    }

    /// Time passes, at both ends of the lines.
    fn pass(&mut self, ms: u64) -> Result<(), String> {
        let mut rest = ms;
        while rest > 0 {
            let some = rest.min(1_000);
            if self.desk.is_some() {
                self.order(&format!("wait {some}"))?;
            }
            self.pass_units(some)?;
            self.settle()?;
            rest -= some;
        }
        Ok(())
    }

    fn pass_units(&mut self, ms: u64) -> Result<(), String> {
        let bytes = self.units.pass(ms)?;
        Side::BOTH.into_iter().try_for_each(|side| self.put(side, &bytes[side.index()]))
    }

    /// Real time passes.
    fn wait(&mut self, ms: u64) -> Result<(), String> {
        let start = Instant::now();
        let mut passed = 0;
        while passed < ms {
            self.carry()?;
            let now = start.elapsed().as_millis() as u64;
            if now > passed {
                self.pass_units(now - passed)?;
                passed = now;
            }
            thread::sleep(Duration::from_micros(300));
        }
        Ok(())
    }

    // ---- how it ends

    /// SIGKILL, in the middle of an order or between two.
    fn kill(&mut self, who: Who, during: Option<&str>) -> Result<(), String> {
        if let Some(order) = during {
            self.desk()?.order(order)?;
            let end = Instant::now() + LATER * self.round * self.round;
            while Instant::now() < end {
                self.carry()?;
            }
        }
        match who {
            Who::Desk => self.desk()?.kill()?,
            Who::Host => {
                self.desk()?.kill_host()?;
                // where time stands still, the desk has nothing to give, and cannot notice; where it has noticed already, it takes no order
                let _ = self.desk()?.order("wait 1");
            }
        }
        self.must_fail()
    }

    fn must_fail(&mut self) -> Result<(), String> {
        self.last_words()?;
        match self.ended()? {
            true => Err("it ended as if nothing had happened".into()),
            false => Ok(()),
        }
    }

    /// The desk ends; whether it did so without a failure.
    fn ended(&mut self) -> Result<bool, String> {
        let desk = self.desk.take().ok_or("no desk runs")?;
        let (status, said) = desk.ended()?;
        self.before.extend(said);
        Ok(status.success())
    }

    /// A runner for programs whose files cannot grow beyond half a kilobyte: a write that would is refused, as on a full disk.
    fn small_disk(&self) -> Result<PathBuf, String> {
        let runner = self.programs.runner.as_ref().map(|runner| format!("'{}' ", runner.display())).unwrap_or_default();
        let path = self.recording.with_file_name("small_disk");
        let text = format!("#!/bin/sh\ntrap '' XFSZ\nulimit -f 1\nexec {runner}\"$@\"\n");
        std::fs::write(&path, text)
            .and_then(|()| std::fs::set_permissions(&path, PermissionsExt::from_mode(0o755)))
            .map_err(|why| format!("{}: {why}", path.display()))?;
        Ok(path)
    }

    /// Time passes in small steps, each a record, until nothing more can be written.
    fn until_full(&mut self) -> Result<(), String> {
        for _ in 0..1_000 {
            if self.order("wait 1").is_err() {
                return self.must_fail();
            }
        }
        Err("it never was".into())
    }

    /// What was sent before it was killed has reached the units. Their answers reach nobody.
    fn last_words(&mut self) -> Result<(), String> {
        for side in Side::BOTH {
            for byte in self.desk()?.sent(side).unwrap_or_default() {
                self.units.byte(side, byte)?;
            }
        }
        Ok(())
    }

    fn finish(&mut self) -> Result<(), String> {
        let before = self.said().len();
        self.desk()?.order("account")?;
        self.desk()?.await_said("records ")?;
        let told: String =
            self.said()[before..].iter().filter(|line| is_of_report(line)).map(|line| format!("{line}\n")).collect();
        self.desk()?.order("quit")?;
        if !self.ended()? {
            return Err("the desk ended with a failure".into());
        }
        let replay = self.programs.program(&self.programs.replay);
        let report = replay.of(self.recording.as_os_str()).map_err(|why| format!("replay: {why}"))?;
        if !self.script.machine && told != report {
            return Err(format!("the desk's account is\n{told}  and the replay's\n{report}"));
        }
        if let Some(line) = self.script.report.iter().find(|line| !report.lines().any(|other| other == line.as_str())) {
            return Err(format!("the report has no line '{line}':\n{report}"));
        }
        account::fault(&report, self.units.unit.paid).map_or(Ok(()), Err)
    }
}

/// A recording of so many polls, each closed silent: quiet enough for the next, the poll, and the time in which its answer should have started.
fn polled(times: u32) -> Vec<u8> {
    [record::tick(20), record::ask(record::POLL), record::tick(10)].concat().repeat(times as usize)
}

/// The words with which the lines of a report begin.
fn is_of_report(line: &str) -> bool {
    let first = line.split_whitespace().next().unwrap_or_default();
    ["upper", "lower", "declined", "type", "value", "records"].contains(&first)
}
