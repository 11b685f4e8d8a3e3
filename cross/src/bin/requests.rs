//! `requests FILE..`: a line for each of the last 32 payouts of each file, or of standard input where none is named.

use cross::{files, requests};
use std::process::ExitCode;

fn main() -> ExitCode {
    files::main("requests", requests::told)
}
