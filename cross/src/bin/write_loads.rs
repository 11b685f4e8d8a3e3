//! `write_loads COUNT BYTES FOLDER`: writes so many recordings of so many bytes to a new folder, the four kinds that a replay is timed on in turns.

use cross::loads::{load, LOADS};
use std::fs;
use std::path::Path;
use std::process::ExitCode;

fn main() -> ExitCode {
    let words: Vec<String> = std::env::args().skip(1).collect();
    let [count, bytes, folder] = &words[..] else { return wrong() };
    let (Ok(count), Ok(bytes)) = (count.parse::<u64>(), bytes.parse::<usize>()) else { return wrong() };
    match written(count, bytes, Path::new(folder)) {
        Ok(()) => ExitCode::SUCCESS,
        Err(why) => {
            eprintln!("write_loads: {folder}: {why}");
            ExitCode::FAILURE
        }
    }
}

fn wrong() -> ExitCode {
    eprintln!("usage: write_loads COUNT BYTES FOLDER");
    ExitCode::from(2)
}

fn written(count: u64, bytes: usize, folder: &Path) -> std::io::Result<()> {
    fs::create_dir(folder)?;
    for (seed, (name, piece)) in (0..count).zip(LOADS.into_iter().cycle()) {
        fs::write(folder.join(format!("{seed:05}-{name}.rec")), load(piece, seed, bytes))?;
    }
    Ok(())
}
