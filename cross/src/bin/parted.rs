//! `parted STUDENT REFERENCE`: where two recordings part. Status 0: they are equal; 1: they are not; 2: one is malformed or could not
//! be read.
//!
//! `parted` alone reads lines `pair STUDENT REFERENCE` from standard input, each with two recordings in hex, and writes what must be
//! written for them.

use cross::{parted, parted_sheet};
use std::io::{self, Read, Write};
use std::process::ExitCode;

fn main() -> ExitCode {
    let words: Vec<_> = std::env::args_os().skip(1).collect();
    let (text, status) = match &words[..] {
        [] => {
            let mut lines = String::new();
            if let Err(why) = io::stdin().lock().read_to_string(&mut lines) {
                eprintln!("parted: standard input: {why}");
                return ExitCode::from(2);
            }
            (parted_sheet::told(&lines), 0)
        }
        [student, reference] => {
            let read = |file| {
                let told = |why| eprintln!("parted: {}: {why}", std::path::Path::new(file).display());
                std::fs::read(file).map_err(told).ok()
            };
            let (Some(student), Some(reference)) = (read(student), read(reference)) else { return ExitCode::from(2) };
            let parted = parted::parted(&student, &reference);
            (parted.to_string(), parted.status())
        }
        _ => {
            eprintln!("usage: parted [STUDENT REFERENCE]");
            return ExitCode::from(2);
        }
    };
    match io::stdout().lock().write_all(text.as_bytes()) {
        Ok(()) => ExitCode::from(status),
        Err(_) => ExitCode::from(2),
    }
}
