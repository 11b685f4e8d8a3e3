//! Runs bench scripts: `bench --desk FILE --host FILE .. SCRIPT..`. The command `./bench` of the repository knows where everything is.

use deskside::bench::script::{script, Script};
use deskside::bench::stand::{run, Programs};
use std::ffi::OsString;
use std::path::{Path, PathBuf};
use std::process::ExitCode;
use std::time::Instant;

const USAGE: &str = "usage: bench [--runner FILE] --desk FILE --host FILE --replay FILE --requests FILE --enable-bills FILE --unit FILE SCRIPT..";

fn main() -> ExitCode {
    let Some((programs, scripts)) = words(std::env::args_os().skip(1)) else {
        eprintln!("{USAGE}");
        return ExitCode::from(2);
    };
    let mut failed = 0;
    for path in &scripts {
        let start = Instant::now();
        match one(path, &programs) {
            Ok(()) => println!("ok {} {} ms", path.display(), start.elapsed().as_millis()),
            Err(why) => {
                failed += 1;
                println!("FAILED {}: {why}", path.display());
            }
        }
    }
    println!("{} passed, {failed} failed", scripts.len() - failed);
    ExitCode::from(u8::from(failed > 0))
}

fn words(mut words: impl Iterator<Item = OsString>) -> Option<(Programs, Vec<PathBuf>)> {
    let mut programs = Programs::default();
    let mut scripts = Vec::new();
    while let Some(word) = words.next() {
        let slot = match word.to_str() {
            Some("--runner") => {
                programs.runner = Some(words.next()?.into());
                continue;
            }
            Some("--desk") => &mut programs.desk,
            Some("--host") => &mut programs.host,
            Some("--replay") => &mut programs.replay,
            Some("--requests") => &mut programs.requests,
            Some("--enable-bills") => &mut programs.enable_bills,
            Some("--unit") => &mut programs.unit,
            Some(option) if option.starts_with("--") => return None,
            _ => {
                scripts.push(word.into());
                continue;
            }
        };
        *slot = words.next()?.into();
    }
    (!scripts.is_empty()).then_some((programs, scripts))
}

fn one(path: &Path, programs: &Programs) -> Result<(), String> {
    let text = std::fs::read_to_string(path).map_err(|why| why.to_string())?;
    let script = script(&text)?;
    let name = path.file_stem().unwrap_or_default().to_string_lossy();
    (0..script.times).try_for_each(|round| {
        let folder = std::env::temp_dir().join(format!("bench-{}-{name}-{round}", std::process::id()));
        round_in(&folder, &script, round, programs)
    })
}

/// A round in a folder of its own, which goes when it has run; where it failed, its recording is kept and named.
fn round_in(folder: &Path, script: &Script, round: u32, programs: &Programs) -> Result<(), String> {
    std::fs::create_dir(folder).map_err(|why| format!("{}: {why}", folder.display()))?;
    let kept = |why| format!("round {}: {why}\n  its recording is {}", round + 1, folder.join("recording").display());
    run(script, round, programs, folder).map_err(kept)?;
    let _ = std::fs::remove_dir_all(folder);
    Ok(())
}
