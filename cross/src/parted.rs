//! "Where did the two runs part?" (Q-8 of document 02): a student's recording beside the reference.

use crate::recording::{records, Bad};
use std::fmt;

/// Whose recording.
#[derive(Clone, Copy, Debug, PartialEq, Eq)]
pub enum Whose {
    Student,
    Reference,
}

impl fmt::Display for Whose {
    fn fmt(&self, f: &mut fmt::Formatter) -> fmt::Result {
        f.write_str(match self {
            Whose::Student => "student",
            Whose::Reference => "reference",
        })
    }
}

/// What two recordings are beside each other.
#[derive(Clone, Copy, Debug, PartialEq, Eq)]
pub enum Parted<'a> {
    /// The same, to the end. What is handed back is the reference's rest, which is empty.
    Equal { rest: &'a [u8], at: usize },
    /// They part behind so many records, at an offset. What is handed back is the rest of one of them: "the student's remainder if
    /// it has one, otherwise the reference's". Beside it stands the next record of each, which is empty where there is none.
    Part { whose: Whose, rest: &'a [u8], at: usize, records: usize, student: &'a [u8], reference: &'a [u8] },
    /// One is malformed "within the equal run or in the next record", with 21, 22 or 23; "if both are, the student's is named". What
    /// is handed back is the student's first no bytes.
    Bad { whose: Whose, bad: Bad, rest: &'a [u8] },
}

/// Where the two part: behind "the longest run of equal whole records". However long they are, there is no 24.
pub fn parted<'a>(student: &'a [u8], reference: &'a [u8]) -> Parted<'a> {
    let (mut ours, mut theirs) = (records(student), records(reference));
    let mut equal = 0;
    loop {
        // as long as the records are equal, so are their places: a record is written in one way
        let at = ours.at();
        let bad = |whose, bad| Parted::Bad { whose, bad, rest: &student[..0] };
        let whose = match (ours.next(), theirs.next()) {
            (Some(Err(why)), _) => return bad(Whose::Student, why),
            (_, Some(Err(why))) => return bad(Whose::Reference, why),
            (None, None) => return Parted::Equal { rest: &reference[at..], at },
            (Some(Ok(one)), Some(Ok(other))) if one == other => {
                equal += 1;
                continue;
            }
            (Some(Ok(_)), _) => Whose::Student,
            (None, Some(Ok(_))) => Whose::Reference,
        };
        let rest = match whose {
            Whose::Student => &student[at..],
            Whose::Reference => &reference[at..],
        };
        let (student, reference) = (&student[at..ours.at()], &reference[at..theirs.at()]);
        return Parted::Part { whose, rest, at, records: equal, student, reference };
    }
}

impl<'a> Parted<'a> {
    /// The part that is handed back.
    pub fn rest(&self) -> &'a [u8] {
        match *self {
            Parted::Equal { rest, .. } | Parted::Part { rest, .. } | Parted::Bad { rest, .. } => rest,
        }
    }

    /// 0 equal, 1 different, 2 malformed, "as `cmp` has it".
    pub fn status(&self) -> u8 {
        match self {
            Parted::Equal { .. } => 0,
            Parted::Part { .. } => 1,
            Parted::Bad { .. } => 2,
        }
    }
}

/// The lines about two recordings.
///
/// ```text
/// equal 120                       the length
/// part at 37 record 12 student    the offset, how many equal records stand before it, whose rest is handed back; then the next
/// student 01 15                   record of each
/// reference end                   or that there is none
/// student bad 22 at 7             or reference
/// ```
pub fn lines(student: &[u8], reference: &[u8]) -> String {
    parted(student, reference).to_string()
}

impl fmt::Display for Parted<'_> {
    fn fmt(&self, f: &mut fmt::Formatter) -> fmt::Result {
        match *self {
            Parted::Equal { at, .. } => writeln!(f, "equal {at}"),
            Parted::Part { whose, at, records, student, reference, .. } => {
                writeln!(f, "part at {at} record {records} {whose}")?;
                write_next(f, Whose::Student, student)?;
                write_next(f, Whose::Reference, reference)
            }
            Parted::Bad { whose, bad, .. } => writeln!(f, "{whose} bad {} at {}", bad.fault.number(), bad.at),
        }
    }
}

fn write_next(f: &mut fmt::Formatter, whose: Whose, record: &[u8]) -> fmt::Result {
    write!(f, "{whose}")?;
    if record.is_empty() {
        write!(f, " end")?;
    }
    record.iter().try_for_each(|byte| write!(f, " {byte:02X}"))?;
    writeln!(f)
}

#[cfg(test)]
mod tests {
    use super::*;

    #[test]
    fn equal_recordings() {
        assert_eq!(lines(&[], &[]), "equal 0\n");
        assert_eq!(lines(&[5], &[5]), "equal 1\n");
        let long = [2, 0xE8, 7].repeat(40);
        assert_eq!(lines(&long, &long), "equal 120\n");
    }

    #[test]
    fn they_part_behind_the_last_equal_record() {
        // E8 is equal, but the record is not
        let wanted = "part at 2 record 1 student\nstudent 02 E8 07\nreference 02 E8 06\n";
        assert_eq!(lines(&[1, 6, 2, 0xE8, 7, 5], &[1, 6, 2, 0xE8, 6]), wanted);
        let wanted = "part at 0 record 0 student\nstudent 00 45 0A 00\nreference 01 15\n";
        assert_eq!(lines(&[0, 0x45, 10, 0], &[1, 0x15]), wanted);
        // what follows is the same again
        let wanted = "part at 1 record 1 student\nstudent 01 06\nreference 05\n";
        assert_eq!(lines(&[5, 1, 6, 5], &[5, 5]), wanted);
    }

    #[test]
    fn one_that_goes_on() {
        assert_eq!(lines(&[5, 1, 0x15], &[5]), "part at 1 record 1 student\nstudent 01 15\nreference end\n");
        assert_eq!(lines(&[5], &[5, 1, 0x15]), "part at 1 record 1 reference\nstudent end\nreference 01 15\n");
        assert_eq!(lines(&[], &[5]), "part at 0 record 0 reference\nstudent end\nreference 05\n");
        assert_eq!(lines(&[5], &[]), "part at 0 record 0 student\nstudent 05\nreference end\n");
    }

    #[test]
    fn a_malformed_one_is_named_and_the_students_first() {
        let (good, number, cut, unknown): (&[u8], &[u8], &[u8], &[u8]) = (&[2, 1], &[2, 0x81, 0], &[2], &[9]);
        for (bad, why) in [(number, 21), (cut, 22), (unknown, 23)] {
            for other in [good, &[]] {
                let (one, two) = ([&[5], bad].concat(), [&[5], other].concat());
                assert_eq!(lines(&one, &two), format!("student bad {why} at 1\n"));
                assert_eq!(lines(&two, &one), format!("reference bad {why} at 1\n"));
            }
            for other in [number, cut, unknown] {
                assert_eq!(lines(bad, other), format!("student bad {why} at 0\n"));
            }
        }
    }

    #[test]
    fn a_fault_further_on_is_not_seen() {
        let wanted = "part at 0 record 0 student\nstudent 05\nreference 02 01\n";
        assert_eq!(lines(&[5, 9], &[2, 1, 2, 0x80]), wanted);
        assert_eq!(lines(&[5, 2, 1, 9], &[5]), "part at 1 record 1 student\nstudent 02 01\nreference end\n");
    }

    #[test]
    fn the_part_is_the_callers_own_bytes() {
        let (student, reference) = ([5, 1, 0x15, 2, 1], [5, 1, 0x06]);
        assert_eq!(parted(&student, &reference).rest().as_ptr_range(), student[1..].as_ptr_range());
        assert_eq!(parted(&student[..1], &reference).rest().as_ptr_range(), reference[1..].as_ptr_range());
        assert_eq!(parted(&student, &student.clone()).rest(), []);
        let same = student;
        assert_eq!(parted(&student, &same).rest().as_ptr_range(), same[5..].as_ptr_range());
        assert_eq!(parted(&[9], &reference).rest(), []);
        let bad = [9];
        assert_eq!(parted(&student, &bad).rest().as_ptr_range(), student[..0].as_ptr_range());
    }

    #[test]
    fn there_is_no_limit_of_length() {
        let long = [2, 1].repeat(40_000);
        let longer = [&long[..], &[5]].concat();
        assert_eq!(lines(&long, &long), "equal 80000\n");
        let wanted = "part at 80000 record 40000 reference\nstudent end\nreference 05\n";
        assert_eq!(lines(&long, &longer), wanted);
    }
}
