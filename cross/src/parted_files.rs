//! The comparison with a program `COMMAND.. STUDENT REFERENCE`, which says where two files part: pairs made from a seed, short ones and
//! long ones. A program that holds a part of each file at a time can go wrong where one part ends and the next begins.

use crate::pairs::{self, Pair, WINDOW};
use crate::parted::{lines, parted, Parted, Whose};
use crate::reach::{places, Reach, Reached};
use crate::sheet::Asked;
use std::ffi::OsString;
use std::fs;
use std::io;
use std::path::{Path, PathBuf};
use std::process::{Command, Stdio};

// 200 of 20,000 pairs is one of a hundred.
places! {
    Equal = 200, "equal": "both empty" "over 65,536 bytes" "over 131,072 bytes";
    Part = 200, "part behind 65,536 bytes":
        "both go on" "the reference has ended" "the student has ended";
    Bad = 200, "bad behind 65,536 bytes":
        "student 21" "student 22" "student 23" "reference 21" "reference 22" "reference 23";
    Near = 200, "within 16 bytes of a multiple of 65,536":
        "they part" "the student is bad" "the reference is bad" "the student ends" "the reference ends";
    Across = 200, "across a multiple of 65,536":
        "the next record of one, where they part" "the bytes that are equal behind the last equal record";
    OnlyOne = 200, "over 65,536 bytes": "only the student" "only the reference" "both, and they part before";
}

/// What a pair reaches.
fn reached(Pair { student, reference }: &Pair) -> Reached<Place> {
    let mut all = Reached::nothing();
    // a multiple of the window lies behind the first byte and before the last one
    let across = |from: usize, length: usize| length > 1 && from / WINDOW != (from + length - 1) / WINDOW;
    let is_near = |at: usize| at > WINDOW / 2 && (at + 16) % WINDOW <= 32;
    let at = match parted(student, reference) {
        Parted::Equal { at, .. } => {
            match at {
                0 => all.part(Place::Equal, 0),
                1..=WINDOW => {}
                _ => all.part(Place::Equal, 1),
            }
            if at > 2 * WINDOW {
                all.part(Place::Equal, 2);
            }
            at
        }
        Parted::Part { at, student: one, reference: other, .. } => {
            if at > WINDOW {
                let part = match (one, other) {
                    (_, []) => 1,
                    ([], _) => 2,
                    _ => 0,
                };
                all.part(Place::Part, part);
            }
            if is_near(at) {
                all.part(Place::Near, 0);
            }
            if across(at, one.len()) || across(at, other.len()) {
                all.part(Place::Across, 0);
            }
            at
        }
        Parted::Bad { whose, bad, .. } => {
            let side = usize::from(whose == Whose::Reference);
            if bad.at > WINDOW {
                all.part(Place::Bad, 3 * side + usize::from(bad.fault.number()) - 21);
            }
            if is_near(bad.at) {
                all.part(Place::Near, 1 + side);
            }
            bad.at
        }
    };
    let equal = student[at..].iter().zip(&reference[at..]).take_while(|(one, other)| one == other).count();
    if across(at, equal + 1) {
        all.part(Place::Across, 1);
    }
    for (part, recording) in [(3, student), (4, reference)] {
        if is_near(recording.len()) {
            all.part(Place::Near, part);
        }
    }
    match (student.len() > WINDOW, reference.len() > WINDOW) {
        (true, false) => all.part(Place::OnlyOne, 0),
        (false, true) => all.part(Place::OnlyOne, 1),
        (true, true) if at < WINDOW / 2 => all.part(Place::OnlyOne, 2),
        _ => {}
    }
    all
}

/// Where the pair that shows a difference is kept.
const KEPT: [&str; 2] = ["difference_student.rec", "difference_reference.rec"];

/// Whether both sides agree on every pair and nothing was missed.
pub fn compare(asked: &Asked) -> io::Result<bool> {
    let folder = Folder::new()?;
    let mut reach = Reach::default();
    let mut bytes = 0;
    for index in 0..asked.count {
        let pair = pairs::long(asked.seed, index);
        let wanted = lines(&pair.student, &pair.reference);
        let wrote = folder.run(&asked.command, &pair)?;
        if wrote != wanted {
            fs::write(KEPT[0], &pair.student)?;
            fs::write(KEPT[1], &pair.reference)?;
            println!(
                "the first difference is at pair {index} of seed {}, of {} and {} bytes",
                asked.seed,
                pair.student.len(),
                pair.reference.len()
            );
            println!("it is kept in {} and {}", KEPT[0], KEPT[1]);
            println!("wanted:\n{wanted}wrote:\n{wrote}");
            return Ok(false);
        }
        bytes += pair.student.len() + pair.reference.len();
        reach.count(&reached(&pair));
    }
    println!("{} pairs of files, {bytes} bytes, seed {}: no difference", asked.count, asked.seed);
    print!("{}", reach.table());
    let few = reach.missing(asked.count);
    for place in &few {
        println!("too few reached '{place}'");
    }
    Ok(few.is_empty())
}

/// A folder for the two files, which goes with it.
struct Folder(PathBuf);

impl Folder {
    fn new() -> io::Result<Folder> {
        let folder = std::env::temp_dir().join(format!("cross-parted-{}", std::process::id()));
        fs::create_dir_all(&folder)?;
        Ok(Folder(folder))
    }

    /// What the program writes for a pair. Its status is not looked at: it may tell whether the two are equal.
    fn run(&self, command: &[OsString], pair: &Pair) -> io::Result<String> {
        fs::write(self.file("student"), &pair.student)?;
        fs::write(self.file("reference"), &pair.reference)?;
        let run = Command::new(&command[0])
            .args(&command[1..])
            .args(["student", "reference"])
            .current_dir(&self.0)
            .stdin(Stdio::null())
            .output()?;
        let mut wrote = String::from_utf8_lossy(&run.stdout).into_owned();
        if run.status.code().is_none() {
            wrote += &format!("(ended with {})\n", run.status);
        }
        if !run.stderr.is_empty() {
            wrote += &format!("(said: {})\n", String::from_utf8_lossy(&run.stderr).trim_end());
        }
        Ok(wrote)
    }

    fn file(&self, name: &str) -> PathBuf {
        Path::new(&self.0).join(name)
    }
}

impl Drop for Folder {
    fn drop(&mut self) {
        // a folder that stays behind does no harm
        let _ = fs::remove_dir_all(&self.0);
    }
}

#[cfg(test)]
mod tests {
    use super::*;

    #[test]
    fn what_a_pair_of_files_reaches() {
        let named = |student: &[u8], reference: &[u8]| {
            reached(&Pair { student: student.to_vec(), reference: reference.to_vec() }).named("")
        };
        assert_eq!(named(&[], &[]), ["both empty"]);
        let long = [2, 1].repeat(32_767);
        // 65,534 bytes, and then a tick that goes up to 65,537
        let over = [&long[..], &[2, 0xE8, 0x07]].concat();
        let other = [&long[..], &[2, 0xE8, 0x06]].concat();
        let ends = ["the student ends", "the reference ends"];
        assert_eq!(named(&long, &long), ends);
        let across =
            ["the next record of one, where they part", "the bytes that are equal behind the last equal record"];
        assert_eq!(named(&over, &other), ["they part", ends[0], ends[1], across[0], across[1]]);
        assert_eq!(named(&over, &long)[0], "they part");
        assert!(named(&over, &long).contains(&"only the student"));
        let cut = over[..65_536].to_vec();
        let told = ["the student is bad", ends[0], ends[1], across[1], "only the reference"];
        assert_eq!(named(&cut, &over), told);
    }
}
