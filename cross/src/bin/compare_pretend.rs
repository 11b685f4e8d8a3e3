//! `compare_pretend [--count N] [--seed N] [--batch N] (-- COMMAND.. | --write FOLDER)`: gives runs made from the seed to `COMMAND..` on standard
//! input, and says where what it writes is not what must be written, or what was reached; or writes them.

use cross::{pretend_sheet, sheet};
use std::process::ExitCode;

fn main() -> ExitCode {
    sheet::main::<pretend_sheet::Runs>("compare_pretend")
}
