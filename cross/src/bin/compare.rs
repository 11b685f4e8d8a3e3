//! `compare [--count N] [--seed N] [--batch N] -- COMMAND..`: replays recordings made from the seed here and by
//! `COMMAND.. FILE..`, and says where the two reports differ, with the shortest recording that shows it, or what was reached.
//!
//! `compare [--count N] [--seed N] [--batch N] --write FOLDER`: writes the recordings instead, as what a program is run on by
//! rt, a folder for each batch: the files `data/..`, their names in `args`, and in `stdout` the reports that they must give.

use cross::comparison::{self, Subject};
use cross::other::Ends;
use cross::reach::{Place, Reached};
use cross::{report, watch};
use std::process::ExitCode;

struct Reports;

impl Subject for Reports {
    type Place = Place;
    const NAME: &'static str = "compare";
    const ENDS: Ends = Ends::Line;

    fn written(recording: &[u8]) -> String {
        report::report(recording)
    }

    fn reached(recording: &[u8]) -> Reached<Place> {
        watch::reached(recording)
    }
}

fn main() -> ExitCode {
    comparison::main::<Reports>()
}
