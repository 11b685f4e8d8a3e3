//! `time_replay [--rounds N] [-- COMMAND..]`: how long a replay takes, on four kinds of recordings of 1 KiB and 64 KiB.
//!
//! Without a command it times this implementation alone: many replays in one run, by the clock, the quickest of the rounds.
//!
//! With one it times two programs, this crate's `replay` and `COMMAND..`, in turns: each is started with the same thousands of
//! files as arguments, so that its start hardly counts, and its processor time is taken. The same number of files of the same
//! length that are bad at their first byte costs opening, reading and writing, and no replay: that is taken off.

use cross::loads::{load, LOADS};
use cross::report::report;
use std::ffi::OsString;
use std::fs;
use std::hint::black_box;
use std::io;
use std::path::Path;
use std::process::{Command, ExitCode, Stdio};
use std::time::{Duration, Instant};

/// The lengths, with how often a recording is replayed in a round: here, and by a program.
const LENGTHS: [(usize, u32, u32); 2] = [(1_024, 20_000, 60_000), (65_536, 500, 4_000)];
/// How many different recordings of a kind take turns.
const DIFFERENT: u64 = 8;
/// The file that is bad at its first byte.
const BAD: &str = "bad";

const USAGE: &str = "usage: time_replay [--rounds N] [-- COMMAND..]";

fn main() -> ExitCode {
    let mut words: Vec<OsString> = std::env::args_os().skip(1).collect();
    let mut rounds = 5;
    if words.first().is_some_and(|word| word == "--rounds") {
        let Some(number) = words.get(1).and_then(|word| word.to_str()?.parse().ok()) else {
            eprintln!("{USAGE}");
            return ExitCode::from(2);
        };
        rounds = number;
        words.drain(..2);
    }
    match &words[..] {
        [] => {
            alone(rounds);
            ExitCode::SUCCESS
        }
        [dashes, other @ ..] if dashes == "--" && !other.is_empty() => match against(other, rounds) {
            Ok(()) => ExitCode::SUCCESS,
            Err(why) => {
                eprintln!("time_replay: {why}");
                ExitCode::FAILURE
            }
        },
        _ => {
            eprintln!("{USAGE}");
            ExitCode::from(2)
        }
    }
}

fn alone(rounds: u32) {
    println!("{:<10} {:>7} {:>12} {:>10}", "recordings", "bytes", "ns each", "ns a byte");
    for (name, piece) in LOADS {
        for (length, replays, _) in LENGTHS {
            let recordings: Vec<Vec<u8>> = (0..DIFFERENT).map(|seed| load(piece, seed, length)).collect();
            let mut quickest = Duration::MAX;
            for _ in 0..rounds.max(1) {
                let began = Instant::now();
                for recording in recordings.iter().cycle().take(replays as usize) {
                    black_box(report(black_box(recording)));
                }
                quickest = quickest.min(began.elapsed());
            }
            let each = nanoseconds(quickest, replays);
            println!("{name:<10} {length:>7} {each:>12.0} {:>10.2}", each / length as f64);
        }
    }
}

fn nanoseconds(time: Duration, replays: u32) -> f64 {
    time.as_nanos() as f64 / f64::from(replays)
}

/// Times this crate's `replay` and another program.
fn against(other: &[OsString], rounds: u32) -> io::Result<()> {
    let own = [std::env::current_exe()?.with_file_name("replay").into_os_string()];
    let folder = std::env::temp_dir().join(format!("time-replay-{}", std::process::id()));
    fs::create_dir_all(&folder)?;
    println!("{:<10} {:>7} {:>14} {:>14} {:>6}", "recordings", "bytes", "Rust, ns each", "other, ns each", "ratio");
    for (length, _, files) in LENGTHS {
        fs::write(folder.join(BAD), vec![0xFF; length])?;
        let bad = vec![BAD.to_string(); files as usize];
        let (our_rest, their_rest) = quickest(&own, other, &bad, &folder, rounds)?;
        for (name, piece) in LOADS {
            for seed in 0..DIFFERENT {
                fs::write(folder.join(seed.to_string()), load(piece, seed, length))?;
            }
            let named: Vec<String> = (0..DIFFERENT).cycle().take(files as usize).map(|seed| seed.to_string()).collect();
            let (ours, theirs) = quickest(&own, other, &named, &folder, rounds)?;
            let ours = nanoseconds(ours.saturating_sub(our_rest), files);
            let theirs = nanoseconds(theirs.saturating_sub(their_rest), files);
            println!("{name:<10} {length:>7} {ours:>14.0} {theirs:>14.0} {:>6.2}", theirs / ours);
        }
    }
    fs::remove_dir_all(&folder)
}

/// The processor time of each program on the files, in turns, the quickest of the rounds.
fn quickest(
    own: &[OsString],
    other: &[OsString],
    files: &[String],
    folder: &Path,
    rounds: u32,
) -> io::Result<(Duration, Duration)> {
    let (mut ours, mut theirs) = (Duration::MAX, Duration::MAX);
    for _ in 0..rounds.max(1) {
        ours = ours.min(timed(own, files, folder)?);
        theirs = theirs.min(timed(other, files, folder)?);
    }
    Ok((ours, theirs))
}

fn timed(words: &[OsString], files: &[String], folder: &Path) -> io::Result<Duration> {
    let before = children()?;
    let status = Command::new(&words[0])
        .args(&words[1..])
        .args(files)
        .current_dir(folder)
        .stdin(Stdio::null())
        .stdout(Stdio::null())
        .status()?;
    if !status.success() {
        return Err(io::Error::other(format!("{} ended with {status}", words[0].to_string_lossy())));
    }
    Ok(children()? - before)
}

/// The processor time of all programs that were started here and have ended: Linux counts it in hundredths of a second.
fn children() -> io::Result<Duration> {
    let line = fs::read_to_string("/proc/self/stat")?;
    // behind the name in parentheses stand the third field and those after it; children's times are the 16th and 17th
    let fields: Vec<&str> = line.rsplit(')').next().unwrap_or_default().split_whitespace().collect();
    let hundredths = |field: usize| fields.get(field - 3).and_then(|word| word.parse::<u64>().ok());
    match (hundredths(16), hundredths(17)) {
        (Some(user), Some(system)) => Ok(Duration::from_millis(10 * (user + system))),
        _ => Err(io::Error::other("no times in /proc/self/stat")),
    }
}
