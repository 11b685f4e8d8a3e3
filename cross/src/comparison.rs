//! The comparison with a program `COMMAND.. FILE..` that writes something for each recording: recordings made from a seed are
//! given to it, and what it writes is held against what must be written.

use crate::generate::{recording, Family};
use crate::other::{Ends, Other};
use crate::reach::{Places, Reach, Reached};
use crate::shrink::shrink;
use std::ffi::OsString;
use std::fs;
use std::io;
use std::path::{Path, PathBuf};
use std::process::ExitCode;

/// What is compared: what a program writes for a recording.
pub trait Subject {
    /// What a recording can reach.
    type Place: Places;
    /// The program that compares.
    const NAME: &'static str;
    /// How what is written for one recording is told from what is written for the next.
    const ENDS: Ends;

    /// What must be written for a recording.
    fn written(recording: &[u8]) -> String;

    fn reached(recording: &[u8]) -> Reached<Self::Place>;
}

struct Asked {
    count: u64,
    seed: u64,
    batch: usize,
    whom: Whom,
}

/// Who is to have the recordings.
enum Whom {
    Command(Vec<OsString>),
    Folder(PathBuf),
}

/// How many lines of a recording are shown.
const SHOWN: usize = 32;
/// Where the recording that shows a difference is kept.
const KEPT: &str = "difference.rec";

fn asked() -> Option<Asked> {
    let (mut count, mut seed, mut batch) = (20_000, 1, 200);
    let mut words = std::env::args_os().skip(1);
    loop {
        let word = words.next()?;
        let whom = match word.to_str()? {
            "--" => Whom::Command(words.by_ref().collect()),
            "--write" => Whom::Folder(words.next()?.into()),
            option => {
                let number: u64 = words.next()?.to_str()?.parse().ok()?;
                match option {
                    "--count" => count = number,
                    "--seed" => seed = number,
                    "--batch" => batch = usize::try_from(number).ok()?,
                    _ => return None,
                }
                continue;
            }
        };
        let empty = matches!(&whom, Whom::Command(command) if command.is_empty());
        return (words.next().is_none() && !empty && batch > 0).then_some(Asked { count, seed, batch, whom });
    }
}

/// The program `NAME [--count N] [--seed N] [--batch N] (-- COMMAND.. | --write FOLDER)`.
pub fn main<S: Subject>() -> ExitCode {
    let Some(asked) = asked() else {
        eprintln!("usage: {} [--count N] [--seed N] [--batch N] (-- COMMAND.. | --write FOLDER)", S::NAME);
        return ExitCode::from(2);
    };
    let done = match &asked.whom {
        Whom::Command(command) => compare::<S>(&asked, command),
        Whom::Folder(folder) => write::<S>(&asked, folder),
    };
    match done {
        Ok(true) => ExitCode::SUCCESS,
        Ok(false) => ExitCode::FAILURE,
        Err(why) => {
            eprintln!("{}: {why}", S::NAME);
            ExitCode::from(2)
        }
    }
}

/// What a run was made of and what it reached.
struct Run<S: Subject> {
    reach: Reach<S::Place>,
    families: [u64; Family::ALL.len()],
    recordings: u64,
    bytes: usize,
}

impl<S: Subject> Run<S> {
    fn new() -> Run<S> {
        Run { reach: Reach::default(), families: [0; Family::ALL.len()], recordings: 0, bytes: 0 }
    }

    fn count(&mut self, family: Family, recording: &[u8]) {
        self.reach.count(&S::reached(recording));
        self.families[family as usize] += 1;
        self.recordings += 1;
        self.bytes += recording.len();
    }

    /// Prints the tables, and says whether nothing was missed.
    fn told(&self) -> bool {
        for family in Family::ALL {
            println!("{:>8}  {}", self.families[family as usize], family.name());
        }
        println!("recordings that reached");
        print!("{}", self.reach.table());
        let missing = self.reach.missing(self.recordings);
        for name in &missing {
            println!("too few reached '{name}'");
        }
        missing.is_empty()
    }
}

/// Whether both sides agree on every recording and nothing was missed.
fn compare<S: Subject>(asked: &Asked, command: &[OsString]) -> io::Result<bool> {
    let other = Other::new(command.to_vec(), asked.batch, S::ENDS)?;
    let mut run = Run::<S>::new();
    let mut index = 0;
    while index < asked.count {
        let upto = (index + asked.batch as u64).min(asked.count);
        let (families, recordings): (Vec<Family>, Vec<Vec<u8>>) =
            (index..upto).map(|i| recording(asked.seed, i)).unzip();
        let theirs = other.written(&recordings, S::written)?;
        let differ: Vec<usize> =
            (0..recordings.len()).filter(|&i| S::written(&recordings[i]) != theirs.each[i]).collect();
        if let Some(&shortest) = differ.iter().min_by_key(|&&i| recordings[i].len()) {
            println!("the first difference is at recording {} of seed {}", index + differ[0] as u64, asked.seed);
            show::<S>(&other, &recordings[shortest])?;
            return Ok(false);
        }
        if !theirs.together {
            println!(
                "a difference in a run over the recordings {index} to {} of seed {}, and none over each by itself",
                upto - 1,
                asked.seed
            );
            return Ok(false);
        }
        for (&family, recording) in families.iter().zip(&recordings) {
            run.count(family, recording);
        }
        index = upto;
    }
    println!("{} recordings, {} bytes, seed {}: no difference", run.recordings, run.bytes, asked.seed);
    Ok(run.told())
}

/// The shortest recording that shows a difference, with what both write for it.
fn show<S: Subject>(other: &Other, recording: &[u8]) -> io::Result<()> {
    let shortest = shrink(recording.to_vec(), |some: &[Vec<u8>]| {
        let theirs = other.written(some, S::written)?.each;
        Ok::<_, io::Error>(some.iter().zip(theirs).map(|(one, theirs)| S::written(one) != theirs).collect())
    })?;
    println!("a recording of {} bytes shows it; the shortest found has {}:", recording.len(), shortest.len());
    for line in shortest.chunks(32).take(SHOWN) {
        let hex: Vec<String> = line.iter().map(|byte| format!("{byte:02X}")).collect();
        println!("  {}", hex.join(" "));
    }
    if shortest.len() > 32 * SHOWN {
        println!("  ..");
    }
    fs::write(KEPT, &shortest)?;
    println!("it is kept in {KEPT}");
    println!("here:\n{}", S::written(&shortest));
    for theirs in other.written(std::slice::from_ref(&shortest), S::written)?.each {
        println!("the other side:\n{theirs}");
    }
    Ok(())
}

/// Writes the recordings and what must be written for them, as what a program is run on by rt, a folder for each batch: the files
/// `data/..`, their names in `args`, and in `stdout` what must be written. Says whether nothing was missed.
fn write<S: Subject>(asked: &Asked, folder: &Path) -> io::Result<bool> {
    let mut run = Run::<S>::new();
    for (batch, from) in (0..asked.count).step_by(asked.batch).enumerate() {
        let folder = folder.join(batch.to_string());
        fs::create_dir_all(folder.join("data"))?;
        let (mut names, mut wanted) = (String::new(), String::new());
        for index in from..(from + asked.batch as u64).min(asked.count) {
            let (family, recording) = recording(asked.seed, index);
            fs::write(folder.join("data").join(index.to_string()), &recording)?;
            names += &format!("{index}\n");
            wanted += &S::written(&recording);
            run.count(family, &recording);
        }
        fs::write(folder.join("args"), names)?;
        fs::write(folder.join("stdout"), wanted)?;
    }
    println!("{} recordings, {} bytes, seed {}", run.recordings, run.bytes, asked.seed);
    Ok(run.told())
}
