//! Wrong readings of a rule, followed beside the right one. A recording whose report would be another by a wrong reading tells
//! it from the right one: that is what it reaches.

use crate::dispenser_frame::Code;
use crate::error_class::{ErrorClass, LastErrors};

/// Wrong readings of "from paying and test answers" and of "For a pay-both answer the same name stands on both."
#[derive(Clone, Copy, PartialEq, Eq)]
enum Misread {
    StatusSets,
    PurgeSets,
    BadFrameSets,
    RefusedClears,
    UnknownClears,
    BothSetsUpper,
    BothSetsLower,
    TestUpperLeaves,
    TestLowerLeaves,
}

const MISREAD: [Misread; 9] = [
    Misread::StatusSets,
    Misread::PurgeSets,
    Misread::BadFrameSets,
    Misread::RefusedClears,
    Misread::UnknownClears,
    Misread::BothSetsUpper,
    Misread::BothSetsLower,
    Misread::TestUpperLeaves,
    Misread::TestLowerLeaves,
];

/// The last error byte of each cassette, by the right reading and by the wrong ones.
#[derive(Default)]
pub struct Errors {
    right: Last,
    wrong: [Last; MISREAD.len()],
}

#[derive(Clone, Copy, Default)]
struct Last {
    upper: Option<u8>,
    lower: Option<u8>,
}

impl Last {
    /// On the cassettes that a command with this code pays from or tests.
    fn set(&mut self, code: Code, error: Option<u8>) {
        if matches!(code, Code::PayUpper | Code::PayBoth | Code::TestUpper) {
            self.upper = error;
        }
        if matches!(code, Code::PayLower | Code::PayBoth | Code::TestLower) {
            self.lower = error;
        }
    }

    fn classes(self) -> LastErrors {
        LastErrors { upper: self.upper.map(ErrorClass::of), lower: self.lower.map(ErrorClass::of) }
    }
}

impl Errors {
    /// So many wrong readings, the first ones, are of what leaves a name; the others are of what sets one.
    pub const LEFT: usize = 5;

    /// A good answer to a command with this code.
    pub fn answered(&mut self, code: Code, error: u8) {
        self.right.set(code, Some(error));
        for (misread, last) in MISREAD.iter().zip(&mut self.wrong) {
            let code = match (misread, code) {
                (Misread::StatusSets, Code::Status) | (Misread::PurgeSets, Code::Purge) => Code::PayBoth,
                (Misread::BothSetsUpper, Code::PayBoth) => Code::PayUpper,
                (Misread::BothSetsLower, Code::PayBoth) => Code::PayLower,
                (Misread::TestUpperLeaves, Code::TestUpper) | (Misread::TestLowerLeaves, Code::TestLower) => continue,
                _ => code,
            };
            last.set(code, Some(error));
        }
    }

    pub fn bad_frame(&mut self, code: Code, error: u8) {
        self.wrongly(Misread::BadFrameSets, code, Some(error));
    }

    pub fn refused(&mut self, code: Code) {
        self.wrongly(Misread::RefusedClears, code, None);
    }

    pub fn unknown(&mut self, code: Code) {
        self.wrongly(Misread::UnknownClears, code, None);
    }

    fn wrongly(&mut self, one: Misread, code: Code, error: Option<u8>) {
        for (misread, last) in MISREAD.iter().zip(&mut self.wrong) {
            if *misread == one {
                last.set(code, error);
            }
        }
    }

    /// The bytes that the report names.
    pub fn named(&self) -> impl Iterator<Item = u8> {
        [self.right.upper, self.right.lower].into_iter().flatten()
    }

    /// The wrong readings by which the report would name another error.
    pub fn told_apart(&self) -> impl Iterator<Item = usize> + '_ {
        let right = self.right.classes();
        (0..MISREAD.len()).filter(move |&wrong| self.wrong[wrong].classes() != right)
    }
}

#[cfg(test)]
mod tests {
    use super::*;

    const JAM: u8 = 0x33;
    const FINE: u8 = 0x30;

    type Event = fn(&mut Errors);

    /// Both cassettes name a jam.
    fn jammed() -> Errors {
        let mut errors = Errors::default();
        errors.answered(Code::PayUpper, JAM);
        errors.answered(Code::PayLower, JAM);
        assert!(errors.told_apart().next().is_none());
        errors
    }

    #[test]
    fn what_tells_a_wrong_reading_from_the_right_one() {
        let events: [(Event, Misread); 9] = [
            (|errors| errors.answered(Code::Status, FINE), Misread::StatusSets),
            (|errors| errors.answered(Code::Purge, FINE), Misread::PurgeSets),
            (|errors| errors.bad_frame(Code::PayLower, FINE), Misread::BadFrameSets),
            (|errors| errors.refused(Code::TestUpper), Misread::RefusedClears),
            (|errors| errors.unknown(Code::PayBoth), Misread::UnknownClears),
            (|errors| errors.answered(Code::PayBoth, FINE), Misread::BothSetsUpper),
            (|errors| errors.answered(Code::PayBoth, FINE), Misread::BothSetsLower),
            (|errors| errors.answered(Code::TestUpper, FINE), Misread::TestUpperLeaves),
            (|errors| errors.answered(Code::TestLower, FINE), Misread::TestLowerLeaves),
        ];
        for (event, misread) in events {
            let mut errors = jammed();
            event(&mut errors);
            assert!(errors.told_apart().any(|wrong| MISREAD[wrong] == misread));
            // what comes later can hide it
            errors.answered(Code::PayUpper, FINE);
            errors.answered(Code::PayLower, FINE);
            assert!(errors.told_apart().next().is_none());
        }
    }

    #[test]
    fn another_byte_of_the_same_class_tells_nothing_apart() {
        let mut errors = jammed();
        errors.answered(Code::Status, 0x35);
        errors.bad_frame(Code::PayBoth, 0x36);
        errors.refused(Code::Purge);
        errors.unknown(Code::Status);
        assert!(errors.told_apart().next().is_none());
        assert_eq!(errors.named().collect::<Vec<u8>>(), [JAM, JAM]);
    }
}
