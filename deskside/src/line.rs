//! A device: the serial line of a unit, or a Unix socket where a pretend unit is.

use crate::queue::{Queue, What};
use crate::side::Side;
use std::fs::{File, OpenOptions};
use std::io::{self, Read, Write};
use std::os::unix::net::UnixStream;
use std::process::{Command, Stdio};
use std::sync::Arc;
use std::thread;

/// How a serial line is set.
#[derive(Clone, Copy, Debug, PartialEq, Eq)]
pub struct Settings {
    pub speed: u32,
    pub parity: Parity,
}

#[derive(Clone, Copy, Debug, PartialEq, Eq)]
pub enum Parity {
    None,
    Even,
    Odd,
}

impl Settings {
    /// `9600,even`
    pub fn read(text: &str) -> Option<Settings> {
        let (speed, parity) = text.split_once(',')?;
        let parity = match parity {
            "none" => Parity::None,
            "even" => Parity::Even,
            "odd" => Parity::Odd,
            _ => return None,
        };
        let speed = speed.parse().ok().filter(|&speed: &u32| speed > 0)?;
        Some(Settings { speed, parity })
    }

    /// The words for stty: eight bits, one stop bit, every byte as it comes.
    fn words(self) -> Vec<String> {
        let parity: &[&str] = match self.parity {
            Parity::None => &["-parenb"],
            Parity::Even => &["parenb", "-parodd"],
            Parity::Odd => &["parenb", "parodd"],
        };
        let mut words = vec![self.speed.to_string()];
        let raw = ["raw", "-echo", "cs8", "-cstopb", "clocal", "cread", "-crtscts", "min", "1", "time", "0"];
        words.extend(raw.iter().chain(parity).map(|&word| word.into()));
        words
    }

    /// The milliseconds in which so many bytes leave, eleven bits each, rounded up.
    pub fn leaving(self, bytes: usize) -> u64 {
        (bytes as u64 * 11 * 1_000).div_ceil(u64::from(self.speed))
    }
}

pub struct Line {
    to: Box<dyn Write + Send>,
    /// None of a socket: there bytes have left when they are written.
    settings: Option<Settings>,
    /// When what was sent so far has left.
    left: u64,
}

impl Line {
    /// Opens the device, and has a thread read it: `unix:PATH` is a socket, anything else a serial line.
    pub fn open(side: Side, device: &str, settings: Settings, queue: &Arc<Queue>) -> io::Result<Line> {
        let queue = Arc::clone(queue);
        if let Some(path) = device.strip_prefix("unix:") {
            let stream = UnixStream::connect(path)?;
            let from = stream.try_clone()?;
            thread::spawn(move || listen(side, from, &queue));
            return Ok(Line { to: Box::new(stream), settings: None, left: 0 });
        }
        set(device, settings)?;
        let file: File = OpenOptions::new().read(true).write(true).open(device)?;
        let from = file.try_clone()?;
        thread::spawn(move || listen(side, from, &queue));
        Ok(Line { to: Box::new(file), settings: Some(settings), left: 0 })
    }

    /// Sends, and says when all of it will have left.
    pub fn send(&mut self, bytes: &[u8], now: u64) -> io::Result<u64> {
        self.to.write_all(bytes)?;
        self.to.flush()?;
        let leaving = self.settings.map_or(0, |settings| settings.leaving(bytes.len()));
        self.left = self.left.max(now) + leaving;
        Ok(self.left)
    }
}

/// stty is run before the device is opened: it does not wait for a carrier, and with clocal nobody does.
fn set(device: &str, settings: Settings) -> io::Result<()> {
    let status = Command::new("stty").arg("-F").arg(device).args(settings.words()).stdin(Stdio::null()).status()?;
    if status.success() {
        Ok(())
    } else {
        Err(io::Error::other(format!("stty could not set {device}")))
    }
}

/// Every byte is stamped when it is read.
fn listen(side: Side, mut from: impl Read, queue: &Queue) {
    let mut bytes = [0; 256];
    let why = loop {
        match from.read(&mut bytes) {
            Ok(0) => break "it was closed".into(),
            Ok(n) => queue.put(bytes[..n].iter().map(|&byte| What::Byte(side, byte))),
            Err(why) if why.kind() == io::ErrorKind::Interrupted => {}
            Err(why) => break why.to_string(),
        }
    };
    queue.put([What::Ended(side, why)]);
}

#[cfg(test)]
mod tests {
    use super::*;
    use crate::clock::Time;

    #[test]
    fn settings() {
        let even = Settings { speed: 9_600, parity: Parity::Even };
        assert_eq!(Settings::read("9600,even"), Some(even));
        assert_eq!(Settings::read("19200,none"), Some(Settings { speed: 19_200, parity: Parity::None }));
        for wrong in ["9600", "x,even", "0,even", "9600,both"] {
            assert_eq!(Settings::read(wrong), None, "{wrong}");
        }
        assert!(even.words().join(" ").starts_with("9600 raw -echo cs8"));
        assert!(even.words().join(" ").ends_with("parenb -parodd"));
    }

    #[test]
    fn six_bytes_take_seven_milliseconds_to_leave() {
        let line = Settings { speed: 9_600, parity: Parity::Even };
        assert_eq!(line.leaving(6), 7);
        assert_eq!(line.leaving(0), 0);
        assert_eq!(line.leaving(1), 2);
        let mut line = Line { to: Box::new(io::sink()), settings: Some(line), left: 0 };
        assert_eq!(line.send(&[0; 6], 100).unwrap(), 107);
        assert_eq!(line.send(&[0; 6], 101).unwrap(), 114);
    }

    #[test]
    fn what_is_read_is_queued() {
        let queue = Queue::new(Arc::new(Time::orders()));
        listen(Side::Validator, &b"\x02\x03"[..], &queue);
        let taken: Vec<_> = queue.take(None).into_iter().map(|event| event.what).collect();
        let byte = |byte| What::Byte(Side::Validator, byte);
        assert_eq!(taken, [byte(2), byte(3), What::Ended(Side::Validator, "it was closed".into())]);
    }
}
