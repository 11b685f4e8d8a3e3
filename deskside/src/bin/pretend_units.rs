//! Both units without hardware, in real time: `pretend_units --unit FILE DISPENSER VALIDATOR`, where the last two are the sockets that the desk is given. Lines on standard input say
//! what the units do next, as in a bench script: `unit pays 9 rejects 2`, `validator stacked 3`.

use deskside::filter::{Filter, Program};
use deskside::pretend::unit::Unit;
use deskside::pretend::units::Units;
use deskside::side::Side;
use deskside::typed;
use std::ffi::OsString;
use std::io::{self, Read, Write};
use std::os::unix::net::{UnixListener, UnixStream};
use std::path::PathBuf;
use std::process::ExitCode;
use std::sync::mpsc::{self, Receiver};
use std::thread;
use std::time::{Duration, Instant};

const USAGE: &str = "usage: pretend_units [--runner FILE] --unit FILE DISPENSER VALIDATOR";

fn main() -> ExitCode {
    let Some((program, sockets)) = words(std::env::args_os().skip(1)) else {
        eprintln!("{USAGE}");
        return ExitCode::from(2);
    };
    match run(&program, &sockets) {
        Ok(()) => ExitCode::SUCCESS,
        Err(why) => {
            eprintln!("pretend_units: {why}");
            ExitCode::FAILURE
        }
    }
}

fn words(mut words: impl Iterator<Item = OsString>) -> Option<(Program, [PathBuf; 2])> {
    let mut program = Program::default();
    let mut sockets: Vec<PathBuf> = Vec::new();
    while let Some(word) = words.next() {
        match word.to_str() {
            Some("--runner") => program.runner = Some(words.next()?.into()),
            Some("--unit") => program.file = words.next()?.into(),
            Some(option) if option.starts_with("--") => return None,
            _ => sockets.push(word.into()),
        }
    }
    Some((program, sockets.try_into().ok()?))
}

/// A socket, and the desk at its other end where there is one.
struct End {
    listener: UnixListener,
    stream: Option<UnixStream>,
}

impl End {
    /// A socket that was left behind goes; any other file stays, and is in the way.
    fn new(path: &PathBuf) -> io::Result<End> {
        if UnixStream::connect(path).is_err() && std::fs::metadata(path).is_ok_and(|file| is_socket(&file)) {
            std::fs::remove_file(path)?;
        }
        let listener = UnixListener::bind(path)?;
        listener.set_nonblocking(true)?;
        Ok(End { listener, stream: None })
    }

    /// What the desk has sent. A new desk takes the place of the last.
    fn sent(&mut self) -> io::Result<Vec<u8>> {
        if let Ok((stream, _)) = self.listener.accept() {
            stream.set_nonblocking(true)?;
            self.stream = Some(stream);
        }
        let mut bytes = [0; 256];
        match self.stream.as_mut().map(|stream| stream.read(&mut bytes)) {
            Some(Ok(n)) if n > 0 => Ok(bytes[..n].to_vec()),
            Some(Err(why)) if why.kind() == io::ErrorKind::WouldBlock => Ok(Vec::new()),
            _ => {
                self.stream = None;
                Ok(Vec::new())
            }
        }
    }

    /// Where no desk is there, bytes reach nobody.
    fn put(&mut self, bytes: &[u8]) {
        if let Some(stream) = &mut self.stream {
            let _ = stream.write_all(bytes);
        }
    }
}

fn is_socket(file: &std::fs::Metadata) -> bool {
    std::os::unix::fs::FileTypeExt::is_socket(&file.file_type())
}

fn run(program: &Program, sockets: &[PathBuf; 2]) -> Result<(), String> {
    let end = |path: &PathBuf| End::new(path).map_err(|why| format!("{}: {why}", path.display()));
    let mut ends = [end(&sockets[0])?, end(&sockets[1])?];
    let unit = Filter::start(program, &[]).map_err(|why| format!("pretend_unit: {why}"))?;
    let mut units = Units::new(Unit::new(unit));
    let lines = lines();
    let start = Instant::now();
    let mut passed = 0;
    loop {
        for side in Side::BOTH {
            for byte in ends[side.index()].sent().map_err(|why| why.to_string())? {
                let answer = units.byte(side, byte)?;
                ends[side.index()].put(&answer);
            }
        }
        let now = start.elapsed().as_millis() as u64;
        let mut bytes = units.pass(now - passed)?;
        passed = now;
        match lines.try_recv() {
            Ok(Err(why)) => return Err(format!("standard input: {why}")),
            Ok(Ok(line)) if line.trim().is_empty() => {}
            Ok(Ok(line)) => match units.direct(line.trim()).unwrap_or_else(|| Err(format!("not understood: {line}"))) {
                Ok(more) => Side::BOTH.into_iter().for_each(|side| bytes[side.index()].extend(&more[side.index()])),
                Err(why) => println!("{why}"),
            },
            Err(mpsc::TryRecvError::Disconnected) => return Ok(()),
            Err(mpsc::TryRecvError::Empty) => {}
        }
        Side::BOTH.into_iter().for_each(|side| ends[side.index()].put(&bytes[side.index()]));
        thread::sleep(Duration::from_micros(500));
    }
}

/// The lines of standard input. With their end the units end.
fn lines() -> Receiver<io::Result<String>> {
    let (say, hear) = mpsc::channel();
    thread::spawn(move || {
        for line in typed::lines(io::stdin().lock()) {
            if say.send(line).is_err() {
                break;
            }
        }
    });
    hear
}
