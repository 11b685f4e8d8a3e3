//! `time_night [--rounds N] FIGURES PICTURE COMMAND..`: how long a replay takes by this crate's `replay` and by `COMMAND..`, in turns on
//! the same files (Q-12 of document 02). Writes tables to the file FIGURES and bars to the file PICTURE.
//!
//! A program is started with so many files that it runs for about a second. Its user time, its system time and the time on the clock
//! are taken. The same number of files that are bad at their first byte costs the start, opening, a first read and the report, and no
//! replay: their user time is taken off. Of the rounds the median counts; the spread is the quickest and the slowest.

use cross::loads::{load, Piece, LOADS};
use std::ffi::OsString;
use std::fmt::Write;
use std::fs;
use std::io;
use std::path::Path;
use std::process::{Command, ExitCode, Stdio};
use std::time::{Duration, Instant};

const KIB: usize = 1_024;
const MIB: usize = 1_024 * KIB;
/// The lengths that are compared: the length, how many files a program is started with, how many of them are different.
const LENGTHS: [Length; 3] = [
    Length { bytes: KIB, files: 60_000, different: 8 },
    Length { bytes: 64 * KIB, files: 4_000, different: 8 },
    Length { bytes: 16 * MIB, files: 16, different: 1 },
];
/// The lengths beside these by which the growth is told.
const GROWTH: [Length; 3] = [
    Length { bytes: MIB, files: 256, different: 1 },
    Length { bytes: 4 * MIB, files: 64, different: 1 },
    Length { bytes: 64 * MIB, files: 4, different: 1 },
];
/// The file that is bad at its first byte.
const BAD: &str = "bad";

const USAGE: &str = "usage: time_night [--rounds N] FIGURES PICTURE COMMAND..";

struct Length {
    bytes: usize,
    files: usize,
    different: u64,
}

impl Length {
    fn name(&self) -> String {
        if self.bytes < MIB {
            format!("{} KiB", self.bytes / KIB)
        } else {
            format!("{} MiB", self.bytes / MIB)
        }
    }
}

fn main() -> ExitCode {
    let mut words: Vec<OsString> = std::env::args_os().skip(1).collect();
    let mut rounds = 9;
    if words.first().is_some_and(|word| word == "--rounds") {
        let Some(number) = words.get(1).and_then(|word| word.to_str()?.parse().ok()) else {
            eprintln!("{USAGE}");
            return ExitCode::from(2);
        };
        rounds = number;
        words.drain(..2);
    }
    let [figures, picture, command @ ..] = &words[..] else {
        eprintln!("{USAGE}");
        return ExitCode::from(2);
    };
    if command.is_empty() || rounds == 0 {
        eprintln!("{USAGE}");
        return ExitCode::from(2);
    }
    match measured(command, rounds).and_then(|night| {
        fs::write(figures, tables(&night))?;
        fs::write(picture, bars(&night))
    }) {
        Ok(()) => ExitCode::SUCCESS,
        Err(why) => {
            eprintln!("time_night: {why}");
            ExitCode::FAILURE
        }
    }
}

// ---- what is measured

/// What a run cost.
#[derive(Clone, Copy, Default)]
struct Cost {
    user: Duration,
    system: Duration,
    wall: Duration,
}

/// The rounds of one program on the same files, and how many files those were.
struct Rounds {
    costs: Vec<Cost>,
    files: usize,
}

impl Rounds {
    /// The median, the quickest and the slowest of a part of the cost, in nanoseconds for one file.
    fn each(&self, part: impl Fn(&Cost) -> Duration) -> Spread {
        let mut times: Vec<Duration> = self.costs.iter().map(part).collect();
        times.sort();
        let each = |time: Duration| time.as_nanos() as f64 / self.files as f64;
        Spread { median: each(times[times.len() / 2]), least: each(times[0]), most: each(times[times.len() - 1]) }
    }
}

#[derive(Clone, Copy)]
struct Spread {
    median: f64,
    least: f64,
    most: f64,
}

impl Spread {
    /// Less what is no replay.
    fn less(self, rest: f64) -> Spread {
        Spread { median: self.median - rest, least: self.least - rest, most: self.most - rest }
    }
}

/// Both programs on the same files.
struct Pair {
    rust: Rounds,
    rattle: Rounds,
}

/// One kind of recordings of one length.
struct Timed {
    load: &'static str,
    length: String,
    bytes: usize,
    pair: Pair,
    /// The user time that is no replay, for one file, of each program.
    rest: (f64, f64),
}

impl Timed {
    fn rust(&self) -> Spread {
        self.pair.rust.each(|cost| cost.user).less(self.rest.0)
    }

    fn rattle(&self) -> Spread {
        self.pair.rattle.each(|cost| cost.user).less(self.rest.1)
    }

    fn ratio(&self) -> f64 {
        self.rattle().median / self.rust().median
    }
}

struct Night {
    rounds: usize,
    compared: Vec<Timed>,
    growth: Vec<Timed>,
    /// The start with an empty file, and the files that are bad at their first byte.
    start: Pair,
    bad: Vec<(String, Pair)>,
}

fn measured(other: &[OsString], rounds: usize) -> io::Result<Night> {
    let own = [std::env::current_exe()?.with_file_name("replay").into_os_string()];
    let folder = std::env::temp_dir().join(format!("time-night-{}", std::process::id()));
    fs::create_dir_all(&folder)?;
    let both = |names: &[String]| in_turns(&own, other, names, &folder, rounds);
    fs::write(folder.join("empty"), [])?;
    let start = both(&["empty".to_string()])?;
    let (mut compared, mut growth, mut bad) = (Vec::new(), Vec::new(), Vec::new());
    for length in &LENGTHS {
        compared.extend(of_length(length, &folder, &both, &mut bad)?);
    }
    for length in &GROWTH {
        growth.extend(of_length(length, &folder, &both, &mut bad)?);
    }
    fs::remove_dir_all(&folder)?;
    Ok(Night { rounds, compared, growth, start, bad })
}

/// All kinds of recordings of one length.
fn of_length(
    length: &Length,
    folder: &Path,
    both: &impl Fn(&[String]) -> io::Result<Pair>,
    bad: &mut Vec<(String, Pair)>,
) -> io::Result<Vec<Timed>> {
    fs::write(folder.join(BAD), vec![0xFF; length.bytes])?;
    let rest = both(&vec![BAD.to_string(); length.files])?;
    let user = |rounds: &Rounds| rounds.each(|cost| cost.user).median;
    let rests = (user(&rest.rust), user(&rest.rattle));
    bad.push((length.name(), rest));
    let timed = |(load, piece): (&'static str, Piece)| {
        for seed in 0..length.different {
            fs::write(folder.join(seed.to_string()), self::load(piece, seed, length.bytes))?;
        }
        let names: Vec<String> =
            (0..length.different).cycle().take(length.files).map(|seed| seed.to_string()).collect();
        let pair = both(&names)?;
        eprintln!("{load}, {}", length.name());
        Ok(Timed { load, length: length.name(), bytes: length.bytes, pair, rest: rests })
    };
    LOADS.into_iter().map(timed).collect()
}

/// Both programs on the same files, in turns; the one that begins changes from round to round.
fn in_turns(own: &[OsString], other: &[OsString], names: &[String], folder: &Path, rounds: usize) -> io::Result<Pair> {
    let (mut ours, mut theirs) = (Vec::new(), Vec::new());
    for round in 0..rounds {
        if round % 2 == 0 {
            ours.push(run(own, names, folder)?);
            theirs.push(run(other, names, folder)?);
        } else {
            theirs.push(run(other, names, folder)?);
            ours.push(run(own, names, folder)?);
        }
    }
    let files = names.len();
    Ok(Pair { rust: Rounds { costs: ours, files }, rattle: Rounds { costs: theirs, files } })
}

fn run(words: &[OsString], names: &[String], folder: &Path) -> io::Result<Cost> {
    let before = children()?;
    let began = Instant::now();
    let status = Command::new(&words[0])
        .args(&words[1..])
        .args(names)
        .current_dir(folder)
        .stdin(Stdio::null())
        .stdout(Stdio::null())
        .status()?;
    let wall = began.elapsed();
    if !status.success() {
        return Err(io::Error::other(format!("{} ended with {status}", words[0].to_string_lossy())));
    }
    let after = children()?;
    Ok(Cost { user: after.user - before.user, system: after.system - before.system, wall })
}

/// The processor time of all programs that were started here and have ended, in microseconds, as the C library tells it: `struct
/// rusage` begins with two times of two words each, and is 18 words long.
fn children() -> io::Result<Cost> {
    extern "C" {
        fn getrusage(who: i32, usage: *mut [i64; 18]) -> i32;
    }
    const CHILDREN: i32 = -1;
    let mut usage = [0; 18];
    // SAFETY: the call writes one `struct rusage`, which is 18 words on 64-bit Linux, and keeps no reference to it
    if unsafe { getrusage(CHILDREN, &mut usage) } != 0 {
        return Err(io::Error::last_os_error());
    }
    let time = |at: usize| Duration::from_micros(usage[at] as u64 * 1_000_000 + usage[at + 1] as u64);
    Ok(Cost { user: time(0), system: time(2), wall: Duration::ZERO })
}

// ---- what is written

fn tables(night: &Night) -> String {
    let mut text = String::new();
    let rounds = night.rounds;
    let _ = writeln!(
        text,
        "# Figures\n\nMade by `cross/night`: nothing here is written by hand. docs/SPEED.md says how they come about. {rounds} rounds; the median, and in brackets the quickest and the slowest.\n"
    );
    let _ = writeln!(text, "## One recording, user time in microseconds\n");
    let _ = writeln!(text, "| Recordings | Length | Rust | Rattle | Ratio |\n|---|---|---|---|---|");
    for timed in &night.compared {
        let _ = writeln!(
            text,
            "| {} | {} | {} | {} | {:.2} |",
            timed.load,
            timed.length,
            microseconds(timed.rust()),
            microseconds(timed.rattle()),
            timed.ratio()
        );
    }
    let _ = writeln!(text, "\n## The same on the clock, with opening, reading and the report\n");
    let _ = writeln!(text, "| Recordings | Length | Rust | Rattle | Ratio |\n|---|---|---|---|---|");
    for timed in &night.compared {
        let (rust, rattle) = (timed.pair.rust.each(|cost| cost.wall), timed.pair.rattle.each(|cost| cost.wall));
        let _ = writeln!(
            text,
            "| {} | {} | {} | {} | {:.2} |",
            timed.load,
            timed.length,
            microseconds(rust),
            microseconds(rattle),
            rattle.median / rust.median
        );
    }
    let _ = writeln!(text, "\n## What is no replay\n\nThe start, with an empty file, and a file that is bad at its first byte: it is opened, a first piece of it is read, and its line is written. Microseconds for one file.\n");
    let _ = writeln!(
        text,
        "| | Rust, user | system | clock | Rattle, user | system | clock |\n|---|---|---|---|---|---|---|"
    );
    let _ = writeln!(text, "{}", rest_row("the start", &night.start));
    for (length, pair) in &night.bad {
        let _ = writeln!(text, "{}", rest_row(&format!("bad at its first byte, {length}"), pair));
    }
    let _ = writeln!(text, "\n## How the time grows with the length\n\nUser time in nanoseconds for a byte.\n");
    let _ = writeln!(text, "| Recordings | Length | Rust | Rattle | Ratio |\n|---|---|---|---|---|");
    for (load, _) in LOADS {
        for timed in grown(night, load) {
            let byte = |time: Spread| time.median / timed.bytes as f64;
            let (rust, rattle) = (byte(timed.rust()), byte(timed.rattle()));
            let _ = writeln!(text, "| {load} | {} | {rust:.2} | {rattle:.2} | {:.2} |", timed.length, timed.ratio());
        }
    }
    text
}

fn microseconds(time: Spread) -> String {
    let Spread { median, least, most } = time;
    let whole = |ns: f64| format!("{:.1}", ns / 1_000.0);
    format!("{} ({} to {})", whole(median), whole(least), whole(most))
}

fn rest_row(name: &str, pair: &Pair) -> String {
    let mut row = format!("| {name} |");
    for rounds in [&pair.rust, &pair.rattle] {
        for part in [|cost: &Cost| cost.user, |cost: &Cost| cost.system, |cost: &Cost| cost.wall] {
            let _ = write!(row, " {:.1} |", rounds.each(part).median / 1_000.0);
        }
    }
    row
}

/// The lengths by which the growth is told, rising.
fn grown<'a>(night: &'a Night, load: &str) -> Vec<&'a Timed> {
    let mut all: Vec<&Timed> = night.growth.iter().chain(&night.compared).collect();
    all.retain(|timed| timed.load == load && timed.bytes >= MIB);
    all.sort_by_key(|timed| timed.bytes);
    all
}

/// Rattle's time as a part of Rust's: a bar for each kind of recordings and each length.
fn bars(night: &Night) -> String {
    const LEFT: f64 = 190.0;
    const ONE: f64 = 220.0;
    const ROW: f64 = 26.0;
    let height = 70.0 + ROW * night.compared.len() as f64 + 10.0 * LENGTHS.len() as f64;
    let width = LEFT + 2.0 * ONE + 90.0;
    let mut text = format!(
        "<svg xmlns=\"http://www.w3.org/2000/svg\" viewBox=\"0 0 {width} {height}\" font-family=\"sans-serif\" font-size=\"13\">\n"
    );
    let _ = writeln!(text, "<title>Rattle's time as a part of Rust's</title>");
    let _ = writeln!(text, "<rect width=\"{width}\" height=\"{height}\" fill=\"white\"/>");
    let _ = writeln!(text, "<text x=\"10\" y=\"22\" font-size=\"15\">Replay: Rattle's user time as a part of Rust's (shorter is quicker)</text>");
    for (at, name) in [(0.0, "0"), (1.0, "1.0, Rust"), (2.0, "2.0, asked for")] {
        let x = LEFT + at * ONE;
        let _ = writeln!(text, "<line x1=\"{x}\" y1=\"52\" x2=\"{x}\" y2=\"{}\" stroke=\"#999\"/>", height - 6.0);
        let _ = writeln!(text, "<text x=\"{x}\" y=\"46\" text-anchor=\"middle\" fill=\"#555\">{name}</text>");
    }
    let mut y = 58.0;
    let mut before = 0;
    for timed in &night.compared {
        if before != 0 && before != timed.bytes {
            y += 10.0;
        }
        before = timed.bytes;
        let ratio = timed.ratio();
        let length = (ratio * ONE).clamp(0.0, 2.3 * ONE);
        let colour = if ratio <= 1.0 { "#0072B2" } else { "#E69F00" };
        let _ = writeln!(
            text,
            "<text x=\"{}\" y=\"{}\" text-anchor=\"end\">{}, {}</text>",
            LEFT - 8.0,
            y + 15.0,
            timed.load,
            timed.length
        );
        let _ = writeln!(text, "<rect x=\"{LEFT}\" y=\"{y}\" width=\"{length:.1}\" height=\"20\" fill=\"{colour}\"/>");
        let _ = writeln!(text, "<text x=\"{:.1}\" y=\"{}\">{ratio:.2}</text>", LEFT + length + 5.0, y + 15.0);
        y += ROW;
    }
    text + "</svg>\n"
}
