//! The other side of the comparison: a program `COMMAND FILE..` which writes something for each of the files named, one after
//! another.

use std::ffi::OsString;
use std::fs;
use std::io;
use std::path::PathBuf;
use std::process::{Command, Stdio};

/// How what is written for one recording is told from what is written for the next.
#[derive(Clone, Copy, PartialEq, Eq)]
pub enum Ends {
    /// It ends with its line "records ..", or is one line "bad ..".
    Line,
    /// Nothing tells: any number of lines may be written, or none. So a bad recording is named behind each, whose line none of them
    /// must give.
    Mark,
}

pub struct Other {
    words: Vec<OsString>,
    folder: PathBuf,
    /// How many recordings are tried in one run.
    batch: usize,
    ends: Ends,
}

/// What the program writes for some recordings.
pub struct Written {
    pub each: Vec<String>,
    /// False where several in one run were not told apart, though the program writes what it must for each by itself.
    pub together: bool,
}

impl Other {
    /// A program by the words that start it. Recordings are written to a folder of its own, which goes with it.
    pub fn new(words: Vec<OsString>, batch: usize, ends: Ends) -> io::Result<Other> {
        let folder = std::env::temp_dir().join(format!("cross-{}", std::process::id()));
        fs::create_dir_all(&folder)?;
        Ok(Other { words, folder, batch, ends })
    }

    /// What the program writes for each recording, in their order; `wanted` is what it must write.
    pub fn written(&self, recordings: &[Vec<u8>], wanted: fn(&[u8]) -> String) -> io::Result<Written> {
        let mut all = Written { each: Vec::new(), together: true };
        for batch in recordings.chunks(self.batch) {
            let wanted: Vec<String> = batch.iter().map(|recording| wanted(recording)).collect();
            let some = match self.ends {
                Ends::Line => Some(split(&self.run(batch, None)?, ends_a_report)),
                Ends::Mark => {
                    let (mark, its_line) = mark(&wanted);
                    unmarked(&self.run(batch, Some(&mark))?, &its_line)
                }
            };
            match some.filter(|some| some.len() == batch.len()) {
                Some(some) => all.each.extend(some),
                // it lost count: each recording by itself shows where
                None => {
                    let run = |one| self.run(std::slice::from_ref(one), None);
                    let some: Vec<String> = batch.iter().map(run).collect::<io::Result<_>>()?;
                    all.together &= some != wanted;
                    all.each.extend(some);
                }
            }
        }
        Ok(all)
    }

    /// What the program writes for the recordings of one run, with the mark behind each if there is one.
    fn run(&self, recordings: &[Vec<u8>], mark: Option<&[u8]>) -> io::Result<String> {
        let names: Vec<String> = (0..recordings.len()).map(|i| i.to_string()).collect();
        for (name, recording) in names.iter().zip(recordings) {
            fs::write(self.folder.join(name), recording)?;
        }
        if let Some(mark) = mark {
            fs::write(self.folder.join(MARK), mark)?;
        }
        let marks = &[MARK][..usize::from(mark.is_some())];
        let run = Command::new(&self.words[0])
            .args(&self.words[1..])
            .args(names.iter().flat_map(|name| [name.as_str()].into_iter().chain(marks.iter().copied())))
            .current_dir(&self.folder)
            .stdin(Stdio::null())
            .output()?;
        for name in names.iter().map(String::as_str).chain(marks.iter().copied()) {
            fs::remove_file(self.folder.join(name))?;
        }
        let mut wrote = String::from_utf8_lossy(&run.stdout).into_owned();
        if !run.status.success() {
            wrote += &format!("(ended with {})\n", run.status);
        }
        if !run.stderr.is_empty() {
            wrote += &format!("(said: {})\n", String::from_utf8_lossy(&run.stderr).trim_end());
        }
        Ok(wrote)
    }
}

impl Drop for Other {
    fn drop(&mut self) {
        // a folder that stays behind does no harm
        let _ = fs::remove_dir_all(&self.folder);
    }
}

fn ends_a_report(line: &str) -> bool {
    line.starts_with("records ") || line.starts_with("bad ")
}

/// Cuts a text behind each line that ends something, and behind the last one.
fn split(text: &str, ends: impl Fn(&str) -> bool) -> Vec<String> {
    let mut all = Vec::new();
    let mut one = String::new();
    for line in text.split_inclusive('\n') {
        one += line;
        if ends(line) {
            all.push(std::mem::take(&mut one));
        }
    }
    if !one.is_empty() {
        all.push(one);
    }
    all
}

/// What stands before each line of the mark, if the last one ends the text.
fn unmarked(text: &str, line: &str) -> Option<Vec<String>> {
    let marked = split(text, |one| one == line);
    marked.iter().map(|one| one.strip_suffix(line).map(str::to_string)).collect()
}

/// The mark's file.
const MARK: &str = "mark";

/// A bad recording, and its line, which is not among those that are wanted: ticks, and then an unknown kind.
fn mark(wanted: &[String]) -> (Vec<u8>, String) {
    let line = |ticks: usize| format!("bad 23 at {}\n", 2 * ticks);
    let ticks = (0..).find(|&ticks| !wanted.contains(&line(ticks))).expect("there are more numbers than recordings");
    let mut mark = [0x02, 0x01].repeat(ticks);
    mark.push(0xFF);
    (mark, line(ticks))
}

#[cfg(test)]
mod tests {
    use super::*;
    use crate::report::report;

    #[test]
    fn reports_are_told_apart() {
        let (good, bad) = (report(&[2, 1]), report(&[0xFF]));
        assert_eq!(split(&format!("{good}{bad}{bad}{good}"), ends_a_report), [good.clone(), bad.clone(), bad, good]);
        assert_eq!(split("upper\n", ends_a_report), ["upper\n"]);
    }

    #[test]
    fn a_mark_is_told_from_what_is_wanted() {
        for wanted in [vec![], vec![report(&[0xFF]), String::new(), report(&[2, 1, 2, 1, 6])]] {
            let (bytes, line) = mark(&wanted);
            assert_eq!(report(&bytes), line);
            assert!(!wanted.contains(&line));
            let three = ["".to_string(), "a\nb\n".to_string(), "".to_string()];
            assert_eq!(unmarked(&format!("{line}a\nb\n{line}{line}"), &line), Some(three.to_vec()));
            assert_eq!(unmarked(&format!("{line}a\n"), &line), None);
        }
    }
}
