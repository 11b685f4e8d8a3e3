//! `compare_requests [--count N] [--seed N] [--batch N] -- COMMAND..`: holds the kept requests of recordings made from the seed
//! against what `COMMAND.. FILE..` writes of them, and says where the two differ, with the shortest recording that shows it, or what
//! was reached. `--write FOLDER` instead of a command writes the recordings, as `compare` does.

use cross::comparison::{self, Subject};
use cross::other::Ends;
use cross::reach::Reached;
use cross::requests::requests;
use cross::wrong_requests::{reached, Place};
use std::process::ExitCode;

struct Requests;

impl Subject for Requests {
    type Place = Place;
    const NAME: &'static str = "compare_requests";
    const ENDS: Ends = Ends::Mark;

    fn written(recording: &[u8]) -> String {
        requests(recording)
    }

    fn reached(recording: &[u8]) -> Reached<Place> {
        reached(recording)
    }
}

fn main() -> ExitCode {
    comparison::main::<Requests>()
}
