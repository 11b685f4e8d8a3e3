//! A desk that runs: its orders, what it says, and the other ends of its lines.

use crate::side::Side;
use crate::typed;
use std::io::{self, BufReader, Read, Write};
use std::os::unix::net::{UnixListener, UnixStream};
use std::process::{Child, ChildStdin, Command, ExitStatus, Stdio};
use std::sync::mpsc::{self, Receiver, RecvTimeoutError};
use std::thread;
use std::time::{Duration, Instant};

/// Nothing takes longer than this, except on a machine that is very busy.
const PATIENCE: Duration = Duration::from_secs(30);

pub struct Running {
    child: Child,
    to: ChildStdin,
    from: Receiver<String>,
    streams: [UnixStream; 2],
    /// The process of `host`.
    host: u32,
    /// How many bytes of each line were written here, and how many the desk has given to `host`.
    written: [u64; 2],
    heard: [u64; 2],
    /// How often the desk has said that it is through with an order.
    through: u64,
    /// What it said to the operator.
    pub said: Vec<String>,
}

impl Running {
    pub fn start(mut command: Command, listeners: &[UnixListener; 2]) -> Result<Running, String> {
        let mut child =
            command.stdin(Stdio::piped()).stdout(Stdio::piped()).spawn().map_err(|why| format!("desk: {why}"))?;
        let (Some(to), Some(from)) = (child.stdin.take(), child.stdout.take()) else {
            return Err("desk: no pipes".into());
        };
        let streams = [accept(&listeners[0], &mut child)?, accept(&listeners[1], &mut child)?];
        let (say, hear) = mpsc::channel();
        thread::spawn(move || {
            for line in typed::lines(BufReader::new(from)).map_while(Result::ok) {
                if say.send(line).is_err() {
                    break;
                }
            }
        });
        Ok(Running {
            child,
            to,
            from: hear,
            streams,
            host: 0,
            written: [0; 2],
            heard: [0; 2],
            through: 0,
            said: Vec::new(),
        })
    }

    /// Waits until `done` holds of what the desk has said so far.
    fn until(&mut self, what: &str, done: impl Fn(&Running) -> bool) -> Result<(), String> {
        while !done(self) {
            match self.from.recv_timeout(PATIENCE) {
                Ok(line) => self.take(line),
                Err(RecvTimeoutError::Timeout) => return Err(format!("waited in vain for {what}")),
                Err(RecvTimeoutError::Disconnected) => return Err(format!("the desk ended, and {what} was awaited")),
            }
        }
        Ok(())
    }

    /// Takes what it has said meanwhile.
    pub fn listen(&mut self) {
        while let Ok(line) = self.from.try_recv() {
            self.take(line);
        }
    }

    fn take(&mut self, line: String) {
        let words: Vec<&str> = line.split_whitespace().collect();
        match words[..] {
            ["#", "host", id] => self.host = id.parse().unwrap_or(0),
            ["#", "heard", dispenser, validator] => {
                self.heard = [dispenser.parse().unwrap_or(0), validator.parse().unwrap_or(0)];
            }
            ["#", "at", ..] => self.through += 1,
            _ => self.said.push(line),
        }
    }

    pub fn await_host(&mut self) -> Result<(), String> {
        self.until("host to begin", |desk| desk.host != 0)
    }

    pub fn has_begun(&self) -> bool {
        self.host != 0
    }

    /// Gives an order, and does not wait.
    pub fn order(&mut self, line: &str) -> Result<(), String> {
        writeln!(self.to, "{line}")
            .and_then(|()| self.to.flush())
            .map_err(|why| format!("the desk takes no order: {why}"))
    }

    /// Waits until it is through with one order more.
    pub fn await_order(&mut self) -> Result<(), String> {
        let through = self.through;
        self.until("the end of an order", |desk| desk.through > through)
    }

    pub fn await_said(&mut self, start: &str) -> Result<(), String> {
        self.until(start, |desk| desk.said.iter().any(|line| line.starts_with(start)))
    }

    /// What the desk has sent since.
    pub fn sent(&mut self, side: Side) -> Result<Vec<u8>, String> {
        let mut all = Vec::new();
        let mut some = [0; 256];
        loop {
            match self.streams[side.index()].read(&mut some) {
                Ok(0) => return Ok(all),
                Ok(n) => all.extend(&some[..n]),
                Err(why) if why.kind() == io::ErrorKind::WouldBlock => return Ok(all),
                Err(why) if why.kind() == io::ErrorKind::Interrupted => {}
                Err(why) => return Err(format!("{}: {why}", side.name())),
            }
        }
    }

    /// Bytes of a unit.
    pub fn put(&mut self, side: Side, bytes: &[u8]) -> Result<(), String> {
        self.written[side.index()] += bytes.len() as u64;
        self.streams[side.index()].write_all(bytes).map_err(|why| format!("{}: {why}", side.name()))
    }

    /// Waits until the desk has given all of them to `host`.
    pub fn await_heard(&mut self) -> Result<(), String> {
        self.until("bytes to be heard", |desk| desk.heard == desk.written)
    }

    /// SIGKILL for `host`; the desk notices when it next has something to give.
    pub fn kill_host(&mut self) -> Result<(), String> {
        kill(self.host)
    }

    pub fn kill(&mut self) -> Result<(), String> {
        self.child.kill().map_err(|why| why.to_string())
    }

    /// Waits until the desk has ended, and its `host` too.
    pub fn ended(mut self) -> Result<(ExitStatus, Vec<String>), String> {
        drop(self.to);
        let end = Instant::now() + PATIENCE;
        let status = loop {
            match self.child.try_wait().map_err(|why| why.to_string())? {
                Some(status) if !runs(self.host) => break status,
                _ if Instant::now() > end => return Err("the desk does not end".into()),
                _ => thread::sleep(Duration::from_millis(2)),
            }
        };
        while let Ok(line) = self.from.recv_timeout(PATIENCE) {
            if !line.starts_with("# ") {
                self.said.push(line);
            }
        }
        Ok((status, self.said))
    }
}

/// The desk connects both lines first of all.
fn accept(listener: &UnixListener, child: &mut Child) -> Result<UnixStream, String> {
    let end = Instant::now() + PATIENCE;
    loop {
        match listener.accept() {
            Ok((stream, _)) => {
                stream.set_nonblocking(true).map_err(|why| why.to_string())?;
                return Ok(stream);
            }
            Err(_) if child.try_wait().is_ok_and(|ended| ended.is_some()) => {
                return Err("the desk ended at once".into())
            }
            Err(_) if Instant::now() > end => return Err("the desk does not open its lines".into()),
            Err(_) => thread::sleep(Duration::from_millis(2)),
        }
    }
}

fn kill(process: u32) -> Result<(), String> {
    let status = Command::new("sh").args(["-c", "kill -9 \"$1\"", "sh"]).arg(process.to_string()).status();
    match status {
        Ok(status) if status.success() => Ok(()),
        _ => Err(format!("process {process} could not be killed")),
    }
}

/// Whether a process runs: one that has ended and that nobody waited for does not.
fn runs(process: u32) -> bool {
    let Ok(stat) = std::fs::read_to_string(format!("/proc/{process}/stat")) else { return false };
    !stat.rsplit(')').next().unwrap_or_default().trim_start().starts_with('Z')
}
