//! The lines of the bench program `bench_parted`: what a line asks, what must be written for it, and lines made from a seed.
//!
//! A line is `pair STUDENT REFERENCE`: two recordings of at most 200 bytes in hex, without blanks; an empty one is `-`. What must be
//! written is what `parted::lines` says of the two.

use crate::pairs::{self, Pair, MOST};
use crate::parted::{lines, parted, Parted, Whose};
use crate::reach::{places, Reach, Reached};
use crate::recording::{records, Bad, Fault, Record};
use crate::sheet::Sheet;

/// The line of a pair.
pub fn line(pair: &Pair) -> String {
    format!("pair {} {}\n", hex(&pair.student), hex(&pair.reference))
}

fn hex(bytes: &[u8]) -> String {
    if bytes.is_empty() {
        return "-".to_string();
    }
    bytes.iter().map(|byte| format!("{byte:02X}")).collect()
}

/// The pair that a line is, if it is to be tried.
pub fn parse(line: &str) -> Option<Pair> {
    let mut words = line.split(' ');
    if words.next() != Some("pair") {
        return None;
    }
    let (student, reference) = (bytes(words.next()?)?, bytes(words.next()?)?);
    words.next().is_none().then_some(Pair { student, reference })
}

fn bytes(word: &str) -> Option<Vec<u8>> {
    if word == "-" {
        return Some(Vec::new());
    }
    if word.is_empty() || word.len() % 2 == 1 || word.len() > 2 * MOST {
        return None;
    }
    let digits: Vec<u32> = word.chars().map(|digit| digit.to_digit(16)).collect::<Option<_>>()?;
    Some(digits.chunks(2).map(|two| (two[0] * 16 + two[1]) as u8).collect())
}

/// What must be written for a whole sheet: a line that is not tried stands as it is.
pub fn told(sheet: &str) -> String {
    let one = |text: &str| {
        parse(text).map_or_else(|| format!("{text}\n"), |Pair { student, reference }| lines(&student, &reference))
    };
    sheet.lines().map(one).collect()
}

// What is reached: 200 of 20,000 lines is one of a hundred.
places! {
    Equal = 200, "equal": "both empty" "good";
    Part = 200, "part":
        "both go on" "the reference has ended" "the student has ended" "the student is empty" "the reference is empty";
    Behind = 200, "part behind so many records": "none" "1" "2 to 9" "10 or more";
    Offset = 200, "part at an offset of so many digits": "one" "two" "three";
    StudentNext = 200, "part, the student's next record is of kind": "0" "1" "2" "3" "4" "5";
    ReferenceNext = 200, "part, the reference's next record is of kind": "0" "1" "2" "3" "4" "5";
    Differ = 200, "part, the next records are": "of two kinds" "of one kind and one length" "of one kind and two lengths";
    SameBytes = 200, "part, so many bytes of the next records are equal": "none" "1" "2 or more";
    Further = 200, "part, and a fault further on": "of the student" "of the reference" "of both";
    StudentBad = 200, "only the student bad": "21" "22" "23";
    ReferenceBad = 200, "only the reference bad": "21" "22" "23";
    BesideBad = 200, "only one bad":
        "the student, the reference has ended" "the student, the reference goes on" "the reference, the student has ended"
        "the reference, the student goes on";
    BothBad = 200, "both bad, student and reference":
        "21 and 21" "21 and 22" "21 and 23" "22 and 21" "22 and 22" "22 and 23" "23 and 21" "23 and 22" "23 and 23";
    SameBad = 200, "both bad, all bytes equal";
    BadBehind = 200, "bad behind so many records": "none" "1" "2 or more";
    BadBytes = 200, "bad, and of the next record so many bytes are equal": "none" "1" "2 or more";
    LongForm = 200, "bad 21, and the number says what the other's says": "the student's" "the reference's";
    Cut = 200, "one is the beginning of the other":
        "the student, between two records" "the student, inside a record" "the reference, between two records" "the reference, inside a record";
}

/// What was reached.
#[derive(Default)]
pub struct Lines {
    reach: Reach<Place>,
    lines: u64,
}

impl Sheet for Lines {
    const COUNT: u64 = 10_000;

    fn made(&mut self, seed: u64, index: u64) -> (String, String) {
        let pair = pairs::short(seed, index);
        self.lines += 1;
        self.reach.count(&reached(&pair));
        (line(&pair), lines(&pair.student, &pair.reference))
    }

    fn table(&self) -> (String, Vec<String>) {
        (self.reach.table(), self.reach.missing(self.lines))
    }
}

/// What a pair reaches.
pub fn reached(Pair { student, reference }: &Pair) -> Reached<Place> {
    let mut all = Reached::nothing();
    match parted(student, reference) {
        Parted::Equal { at: 0, .. } => all.part(Place::Equal, 0),
        Parted::Equal { .. } => all.part(Place::Equal, 1),
        Parted::Part { at, records, student: one, reference: other, .. } => {
            let ended = match (one, other) {
                (_, []) => 1,
                ([], _) => 2,
                _ => 0,
            };
            all.part(Place::Part, ended);
            if student.is_empty() {
                all.part(Place::Part, 3);
            }
            if reference.is_empty() {
                all.part(Place::Part, 4);
            }
            all.part(Place::Behind, part_of(records, &[1, 2, 10]));
            all.part(Place::Offset, part_of(at, &[10, 100]));
            next_records(one, other, &mut all);
            match (fault(student), fault(reference)) {
                (Some(_), None) => all.part(Place::Further, 0),
                (None, Some(_)) => all.part(Place::Further, 1),
                (Some(_), Some(_)) => all.part(Place::Further, 2),
                (None, None) => {}
            }
        }
        Parted::Bad { whose, bad, .. } => malformed(student, reference, whose, bad, &mut all),
    }
    for (part, one, other) in [(0, student, reference), (2, reference, student)] {
        if one.len() < other.len() && other.starts_with(one) {
            all.part(Place::Cut, part + usize::from(fault(one).is_some()));
        }
    }
    all
}

/// Which part a number belongs to, of parts that begin at these numbers; the first begins before them.
fn part_of(number: usize, begin: &[usize]) -> usize {
    begin.iter().filter(|&&begin| number >= begin).count()
}

/// The first fault of a recording.
fn fault(recording: &[u8]) -> Option<Bad> {
    records(recording).find_map(Result::err)
}

fn same_bytes(one: &[u8], other: &[u8]) -> usize {
    one.iter().zip(other).take_while(|(one, other)| one == other).count()
}

/// The next record of each, where the two part.
fn next_records(one: &[u8], other: &[u8], all: &mut Reached<Place>) {
    for (record, place) in [(one, Place::StudentNext), (other, Place::ReferenceNext)] {
        if let Some(&kind) = record.first() {
            all.part(place, usize::from(kind));
        }
    }
    if let ([kind, ..], [other_kind, ..]) = (one, other) {
        let differ = match (kind == other_kind, one.len() == other.len()) {
            (false, _) => 0,
            (true, true) => 1,
            (true, false) => 2,
        };
        all.part(Place::Differ, differ);
        all.part(Place::SameBytes, same_bytes(one, other).min(2));
    }
}

/// One of the two is malformed, the one that is named; perhaps the other is too.
fn malformed(student: &[u8], reference: &[u8], whose: Whose, bad: Bad, all: &mut Reached<Place>) {
    let (named, other, side) = match whose {
        Whose::Student => (student, reference, 0),
        Whose::Reference => (reference, student, 1),
    };
    let (at, number) = (bad.at, |fault: Fault| usize::from(fault.number()) - 21);
    match fault(other).filter(|other| other.at == at) {
        Some(next) => {
            all.part(Place::BothBad, 3 * number(bad.fault) + number(next.fault));
            if student == reference {
                all.mark(Place::SameBad);
            }
        }
        None => {
            all.part(if side == 0 { Place::StudentBad } else { Place::ReferenceBad }, number(bad.fault));
            all.part(Place::BesideBad, 2 * side + usize::from(other.len() > at));
            if says_the_same(&named[at..], &other[at..]) {
                all.part(Place::LongForm, side);
            }
        }
    }
    all.part(Place::BadBehind, records(&named[..at]).count().min(2));
    if other.len() > at {
        all.part(Place::BadBytes, same_bytes(&named[at..], &other[at..]).min(2));
    }
}

/// Whether the first record of some bytes is bad since its last number has a needless group, and says without it what the other
/// record says.
fn says_the_same(bad: &[u8], good: &[u8]) -> bool {
    let mut records = records(good);
    match records.next() {
        Some(Ok(Record::Clear)) | Some(Err(_)) | None => false,
        Some(Ok(_)) => {
            let mut long = good[..records.at()].to_vec();
            *long.last_mut().expect("a kind byte") |= 0x80;
            long.push(0x00);
            bad.starts_with(&long)
        }
    }
}

#[cfg(test)]
mod tests {
    use super::*;

    /// The same, told at length: all records of each, then how many are equal, then what comes next.
    fn told_plainly(Pair { student, reference }: &Pair) -> String {
        // where each record begins, its bytes, and the fault behind the last one
        let read = |bytes: &[u8]| {
            let (mut all, mut records, mut at) = (Vec::new(), records(bytes), 0);
            while let Some(record) = records.next() {
                match record {
                    Ok(_) => all.push(Ok(bytes[at..records.at()].to_vec())),
                    Err(bad) => {
                        all.push(Err(bad.fault.number()));
                        break;
                    }
                }
                at = records.at();
            }
            all
        };
        let (ours, theirs) = (read(student), read(reference));
        let whole = |all: &[Result<Vec<u8>, u8>], n: usize| all.len() >= n && all[..n].iter().all(Result::is_ok);
        let longest = (0..=ours.len().min(theirs.len()))
            .filter(|&n| whole(&ours, n) && whole(&theirs, n) && ours[..n] == theirs[..n])
            .max()
            .unwrap();
        let at: usize = ours[..longest].iter().flatten().map(Vec::len).sum();
        let told = |who: &str, next: Option<&Result<Vec<u8>, u8>>| match next {
            None => format!("{who} end\n"),
            Some(Ok(record)) => {
                format!("{who} {}\n", record.iter().map(|b| format!("{b:02X}")).collect::<Vec<_>>().join(" "))
            }
            Some(Err(number)) => format!("{who} bad {number} at {at}\n"),
        };
        let (next, other) = (ours.get(longest), theirs.get(longest));
        let (one, two) = (told("student", next), told("reference", other));
        match (next, other) {
            (Some(Err(_)), _) => one,
            (_, Some(Err(_))) => two,
            (None, None) => format!("equal {}\n", student.len()),
            (Some(_), _) => format!("part at {at} record {longest} student\n{one}{two}"),
            (None, Some(_)) => format!("part at {at} record {longest} reference\n{one}{two}"),
        }
    }

    #[test]
    fn a_line_is_its_pair_and_told_plainly_it_is_the_same() {
        let mut sheet = Lines::default();
        for index in 0..4_000 {
            let (text, wanted) = sheet.made(3, index);
            let pair = parse(text.trim_end()).expect("a pair");
            assert_eq!(line(&pair), text);
            assert_eq!(told(&text), wanted);
            assert_eq!(told_plainly(&pair), wanted, "{text}");
        }
    }

    #[test]
    fn what_is_no_pair_stands_as_it_is() {
        for text in ["", "pair", "pair -", "pair - - -", "pair 0 -", "pair 0G -", "pare - -", "pair  -", "pair - "] {
            assert_eq!(parse(text), None, "{text}");
        }
        assert_eq!(parse(&format!("pair {} -", "05".repeat(201))), None);
        let sheet = "# a remark\npair 0115 -\npair 0e -\n";
        let wanted = "# a remark\npart at 0 record 0 student\nstudent 01 15\nreference end\nstudent bad 23 at 0\n";
        assert_eq!(told(sheet), wanted);
    }

    #[test]
    fn what_a_pair_reaches() {
        let reached = |line: &str, name: &str| reached(&parse(line).unwrap()).named(name);
        assert_eq!(reached("pair - -", ""), ["both empty"]);
        assert_eq!(reached("pair 05 05", ""), ["good"]);
        assert_eq!(reached("pair 0500 05", "beginning"), ["the reference, between two records"]);
        assert_eq!(reached("pair 0500 05", "only"), ["22", "the student, the reference has ended"]);
        assert_eq!(reached("pair 0501 050105", "beginning"), ["the student, inside a record"]);
        assert_eq!(reached("pair 0501 050106", "only"), ["22", "the student, the reference goes on"]);
        assert_eq!(reached("pair 09 02", "both bad"), ["23 and 22"]);
        assert_eq!(reached("pair 02E807 02E80605", "so many"), ["none", "one", "2 or more"]);
        assert_eq!(reached("pair 020109 0202", "further"), ["of the student"]);
        assert_eq!(reached("pair 028A00 020A", "says"), ["the student's"]);
        assert_eq!(reached("pair 020A 028A00", "says"), ["the reference's"]);
        assert!(reached("pair 020B 028A00", "says").is_empty());
    }
}
