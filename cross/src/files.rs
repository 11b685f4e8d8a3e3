//! A program `NAME FILE..`: what it writes for each recording, one after another, or for standard input where none is named. "with
//! buffers in the program at 64 KiB or less" (Q-7 of document 02).

use crate::recording::Bad;
use crate::replay::{Bench, Replay};
use std::fs::File;
use std::io::{self, ErrorKind, Read, Write};
use std::process::ExitCode;

/// How many bytes are read at a time.
const PIECE: usize = 65_536;

/// Writes what `told` makes of each recording.
pub fn main(name: &str, told: fn(Result<Bench, Bad>) -> String) -> ExitCode {
    let mut text = String::new();
    let mut all_read = true;
    let mut room = vec![0; PIECE];
    let mut add = |what: &str, replayed: io::Result<Replay>| match replayed {
        Ok(replay) => text += &told(replay.ended()),
        Err(why) => {
            eprintln!("{name}: {what}: {why}");
            all_read = false;
        }
    };
    let files: Vec<_> = std::env::args_os().skip(1).collect();
    if files.is_empty() {
        add("standard input", replayed(io::stdin().lock(), &mut room));
    }
    for file in files {
        let opened = File::open(&file);
        add(&file.to_string_lossy(), opened.and_then(|opened| replayed(opened, &mut room)));
    }
    match io::stdout().lock().write_all(text.as_bytes()) {
        Ok(()) if all_read => ExitCode::SUCCESS,
        _ => ExitCode::FAILURE,
    }
}

/// The replay of what can be read, as far as its end or its first fault.
fn replayed(mut from: impl Read, room: &mut [u8]) -> io::Result<Replay> {
    let mut replay = Replay::fresh();
    while !replay.is_bad() {
        match from.read(room) {
            Ok(0) => break,
            Ok(length) => replay.piece(&room[..length]),
            Err(why) if why.kind() == ErrorKind::Interrupted => {}
            Err(why) => return Err(why),
        }
    }
    Ok(replay)
}
