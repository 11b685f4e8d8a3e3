//! `compare_parted [--count N] [--seed N] [--batch N] (-- COMMAND.. | --write FOLDER)`: gives lines with pairs of recordings made from the
//! seed to `COMMAND..` on standard input, and says where what it writes is not what must be written, or what was reached; or writes them.
//!
//! `compare_parted --files [--count N] [--seed N] -- COMMAND..`: the same with pairs of files, of any length, for
//! `COMMAND.. STUDENT REFERENCE`.

use cross::{parted_files, parted_sheet, sheet};
use std::process::ExitCode;

/// How many pairs of files, if nobody says how many.
const FILES: u64 = 1_000;

fn main() -> ExitCode {
    if std::env::args_os().nth(1).map_or(true, |word| word != "--files") {
        return sheet::main::<parted_sheet::Lines>("compare_parted");
    }
    let Some(asked) = sheet::asked(std::env::args_os().skip(2), FILES).filter(|asked| asked.folder.is_none()) else {
        eprintln!("usage: compare_parted --files [--count N] [--seed N] -- COMMAND..");
        return ExitCode::from(2);
    };
    match parted_files::compare(&asked) {
        Ok(true) => ExitCode::SUCCESS,
        Ok(false) => ExitCode::FAILURE,
        Err(why) => {
            eprintln!("compare_parted: {why}");
            ExitCode::from(2)
        }
    }
}
