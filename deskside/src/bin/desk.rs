//! The desk as a program: see `deskside::options`.

use deskside::{desk, options};
use std::io::{self, BufReader};
use std::process::ExitCode;

fn main() -> ExitCode {
    let words: Vec<_> = std::env::args_os().skip(1).collect();
    if words.iter().any(|word| word == "--help" || word == "-h") {
        print!("{}", options::USAGE);
        return ExitCode::SUCCESS;
    }
    let options = match options::options(words) {
        Ok(options) => options,
        Err(why) => {
            eprintln!("desk: {why}\ndesk --help says how it is used");
            return ExitCode::from(2);
        }
    };
    match desk::run(&options, BufReader::new(io::stdin()), &mut io::stdout()) {
        Ok(()) => ExitCode::SUCCESS,
        Err(why) => {
            eprintln!("desk: {why}");
            ExitCode::FAILURE
        }
    }
}
