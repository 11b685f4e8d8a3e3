//! `page [TITLE]`: reads what `explain` writes on standard input, and writes the page on standard output.

use std::io::{self, Write};
use std::process::ExitCode;

const USAGE: &str = "usage: page [TITLE] <TEXT >PAGE.html";
const TITLE: &str = "What the recording shows";

fn main() -> ExitCode {
    let mut words = std::env::args_os().skip(1).map(|word| word.to_string_lossy().into_owned());
    let title = words.next().unwrap_or_else(|| TITLE.into());
    if words.next().is_some() {
        eprintln!("{USAGE}");
        return ExitCode::from(2);
    }
    match draw(&title) {
        Ok(()) => ExitCode::SUCCESS,
        Err(why) => {
            eprintln!("page: {why}");
            ExitCode::from(2)
        }
    }
}

fn draw(title: &str) -> io::Result<()> {
    let page = page::draw(title, io::stdin().lock())?;
    io::stdout().lock().write_all(page.as_bytes())
}
