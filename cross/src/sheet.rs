//! The comparison with a bench program: lines made from a seed are given to it on standard input, and what it writes is held
//! against what must be written.

use std::ffi::OsString;
use std::fs;
use std::io::{self, Write};
use std::path::{Path, PathBuf};
use std::process::{Command, ExitCode, Stdio};

/// The lines of one bench program, and what was reached by those that were made.
pub trait Sheet: Default {
    /// How many lines are made, if nobody says how many.
    const COUNT: u64 = 12_000;

    /// The most bytes that the program reads in one run.
    const BYTES: usize = usize::MAX;

    /// The line at that place of the run, or some lines that belong together, and what must be written for them.
    fn made(&mut self, seed: u64, index: u64) -> (String, String);

    /// The table of what was reached, and what was reached too seldom.
    fn table(&self) -> (String, Vec<String>);
}

/// What a comparison is asked for: `[--count N] [--seed N] [--batch N] (-- COMMAND.. | --write FOLDER)`.
pub struct Asked {
    pub count: u64,
    pub seed: u64,
    pub batch: u64,
    pub command: Vec<OsString>,
    /// Where the lines are written, instead of being given to a command.
    pub folder: Option<PathBuf>,
}

/// What the words ask for, if they can be understood; so many, if they do not say how many.
pub fn asked(mut words: impl Iterator<Item = OsString>, count: u64) -> Option<Asked> {
    let mut asked = Asked { count, seed: 1, batch: 500, command: Vec::new(), folder: None };
    loop {
        let word = words.next()?;
        let option = word.to_str()?;
        if option == "--" {
            asked.command = words.collect();
            return (!asked.command.is_empty() && asked.batch > 0).then_some(asked);
        }
        if option == "--write" {
            asked.folder = Some(words.next()?.into());
            return words.next().is_none().then_some(asked);
        }
        let number = words.next()?.to_str()?.parse().ok()?;
        match option {
            "--count" => asked.count = number,
            "--seed" => asked.seed = number,
            "--batch" => asked.batch = number,
            _ => return None,
        }
    }
}

/// The program `NAME [--count N] [--seed N] [--batch N] (-- COMMAND.. | --write FOLDER)`.
pub fn main<S: Sheet>(name: &str) -> ExitCode {
    let Some(asked) = asked(std::env::args_os().skip(1), S::COUNT) else {
        eprintln!("usage: {name} [--count N] [--seed N] [--batch N] (-- COMMAND.. | --write FOLDER)");
        return ExitCode::from(2);
    };
    let done = match &asked.folder {
        Some(folder) => write::<S>(&asked, folder),
        None => compare::<S>(&asked),
    };
    match done {
        Ok(true) => ExitCode::SUCCESS,
        Ok(false) => ExitCode::FAILURE,
        Err(why) => {
            eprintln!("{name}: {why}");
            ExitCode::from(2)
        }
    }
}

/// Whether both sides agree on every line and nothing was missed.
fn compare<S: Sheet>(asked: &Asked) -> io::Result<bool> {
    let mut sheet = S::default();
    let made: Vec<(String, String)> = (0..asked.count).map(|index| sheet.made(asked.seed, index)).collect();
    let mut upto = 0;
    while upto < made.len() {
        let from = upto;
        let mut bytes = 0;
        let fits = |&(line, _): &&(String, String)| {
            bytes += line.len();
            bytes <= S::BYTES
        };
        upto += made[from..].iter().take(asked.batch as usize).take_while(fits).count().max(1);
        let wrote = run(&asked.command, made[from..upto].iter().map(|(line, _)| line.as_str()).collect())?;
        let mut rest = wrote.as_str();
        for (index, (line, wanted)) in (from..).zip(&made[from..upto]) {
            let Some(more) = rest.strip_prefix(wanted.as_str()) else {
                println!(
                    "the first difference is at line {index} of seed {}:\n{line}wanted:\n{wanted}wrote:",
                    asked.seed
                );
                rest.lines().take(wanted.lines().count()).for_each(|line| println!("{line}"));
                return Ok(false);
            };
            rest = more;
        }
        if !rest.is_empty() {
            println!("behind line {} of seed {} it wrote more:\n{rest}", upto - 1, asked.seed);
            return Ok(false);
        }
    }
    println!("{} lines, seed {}: no difference", asked.count, asked.seed);
    Ok(told(&sheet))
}

/// Writes the lines and what must be written for them, as the files `stdin` and `stdout` of a program. Says whether nothing was missed.
fn write<S: Sheet>(asked: &Asked, folder: &Path) -> io::Result<bool> {
    let mut sheet = S::default();
    let (lines, wanted): (Vec<String>, Vec<String>) =
        (0..asked.count).map(|index| sheet.made(asked.seed, index)).unzip();
    fs::create_dir_all(folder)?;
    fs::write(folder.join("stdin"), lines.concat())?;
    fs::write(folder.join("stdout"), wanted.concat())?;
    Ok(told(&sheet))
}

/// Prints what was reached, and says whether nothing was missed.
fn told<S: Sheet>(sheet: &S) -> bool {
    let (table, few) = sheet.table();
    print!("{table}");
    for place in &few {
        println!("too few reached '{place}'");
    }
    few.is_empty()
}

/// What the program writes for the lines.
fn run(command: &[OsString], lines: String) -> io::Result<String> {
    let mut child =
        Command::new(&command[0]).args(&command[1..]).stdin(Stdio::piped()).stdout(Stdio::piped()).spawn()?;
    let mut input = child.stdin.take().expect("it is piped");
    let given = std::thread::spawn(move || input.write_all(lines.as_bytes()));
    let output = child.wait_with_output()?;
    given.join().expect("a thread that ends")?;
    let mut wrote = String::from_utf8_lossy(&output.stdout).into_owned();
    if !output.status.success() {
        wrote += &format!("(ended with {})\n", output.status);
    }
    Ok(wrote)
}
