//! `replay FILE..`: the report of each file, one after another, or of standard input where none is named.

use cross::{files, report};
use std::process::ExitCode;

fn main() -> ExitCode {
    files::main("replay", report::told)
}
