//! `compare_bill_table [--count N] [--seed N] [--batch N] (-- COMMAND.. | --write FOLDER)`: gives lines made from the seed to `COMMAND..` on
//! standard input, and says where what it writes is not what must be written, or what was reached; or writes them.

use cross::{bill_table_sheet, sheet};
use std::process::ExitCode;

fn main() -> ExitCode {
    sheet::main::<bill_table_sheet::Lines>("compare_bill_table")
}
