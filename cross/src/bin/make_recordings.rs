//! `make_recordings FOLDER`: for each NAME.txt of the folder writes the recording NAME.rec that it describes.
//! `make_recordings --check FOLDER`: writes nothing; says whether each NAME.rec is what NAME.txt describes, whether its report is
//! NAME.report and, where there is a file NAME.requests, whether the requests kept of it are those.

use cross::{report::report, requests::requests, text};
use std::fs;
use std::io::ErrorKind;
use std::path::{Path, PathBuf};
use std::process::ExitCode;

fn main() -> ExitCode {
    let words: Vec<String> = std::env::args().skip(1).collect();
    let words: Vec<&str> = words.iter().map(String::as_str).collect();
    let (check, folder) = match words[..] {
        ["--check", folder] => (true, folder),
        [folder] if folder != "--check" => (false, folder),
        _ => {
            eprintln!("usage: make_recordings [--check] FOLDER");
            return ExitCode::from(2);
        }
    };
    let texts = match texts(Path::new(folder)) {
        Ok(texts) => texts,
        Err(why) => {
            eprintln!("{folder}: {why}");
            return ExitCode::from(2);
        }
    };
    let mut good = 0;
    for text in &texts {
        match if check { checked(text) } else { made(text) } {
            Ok(()) => good += 1,
            Err(why) => eprintln!("{}: {why}", text.display()),
        }
    }
    println!(
        "{good} of {} recordings {}",
        texts.len(),
        if check { "are as their texts, reports and requests say" } else { "made" }
    );
    if good == texts.len() {
        ExitCode::SUCCESS
    } else {
        ExitCode::FAILURE
    }
}

fn texts(folder: &Path) -> std::io::Result<Vec<PathBuf>> {
    let mut texts = Vec::new();
    for entry in fs::read_dir(folder)? {
        let path = entry?.path();
        if path.extension().is_some_and(|end| end == "txt") {
            texts.push(path);
        }
    }
    texts.sort();
    Ok(texts)
}

fn described(text: &Path) -> Result<Vec<u8>, String> {
    text::recording(&fs::read_to_string(text).map_err(|why| why.to_string())?)
}

fn made(text: &Path) -> Result<(), String> {
    fs::write(text.with_extension("rec"), described(text)?).map_err(|why| why.to_string())
}

fn checked(text: &Path) -> Result<(), String> {
    let recording = fs::read(text.with_extension("rec")).map_err(|why| format!("its recording: {why}"))?;
    if recording != described(text)? {
        return Err("its recording is not what it describes".into());
    }
    let wanted = fs::read_to_string(text.with_extension("report")).map_err(|why| format!("its report: {why}"))?;
    let given = report(&recording);
    if given != wanted {
        return Err(format!("its report should be\n{given}"));
    }
    match fs::read_to_string(text.with_extension("requests")) {
        Ok(wanted) if requests(&recording) != wanted => {
            Err(format!("its requests should be\n{}", requests(&recording)))
        }
        Ok(_) => Ok(()),
        Err(why) if why.kind() == ErrorKind::NotFound => Ok(()),
        Err(why) => Err(format!("its requests: {why}")),
    }
}
