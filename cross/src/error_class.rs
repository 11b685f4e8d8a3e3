//! What an error byte tells the student, and the last one of each cassette: request Q-5 of document 02.

use crate::dispenser_frame::Answer;

/// "The error lookup should answer one of: fine (30h, 31h), out of notes (38h, 40h), not seated (3Fh, 45h, 46h), jam (33h, 35h,
/// 36h, 42h, 48h, 4Ch, 4Eh), count in doubt (3Ah, 3Ch, 3Dh), other listed, unlisted."
#[derive(Clone, Copy, Debug, PartialEq, Eq)]
pub enum ErrorClass {
    Fine,
    OutOfNotes,
    NotSeated,
    Jam,
    CountInDoubt,
    OtherListed,
    Unlisted,
}

impl ErrorClass {
    pub fn of(error: u8) -> ErrorClass {
        match error {
            0x30 | 0x31 => ErrorClass::Fine,
            0x38 | 0x40 => ErrorClass::OutOfNotes,
            0x3F | 0x45 | 0x46 => ErrorClass::NotSeated,
            0x33 | 0x35 | 0x36 | 0x42 | 0x48 | 0x4C | 0x4E => ErrorClass::Jam,
            0x3A | 0x3C | 0x3D => ErrorClass::CountInDoubt,
            _ if LISTED.contains(&error) => ErrorClass::OtherListed,
            _ => ErrorClass::Unlisted,
        }
    }

    /// What the report calls it.
    pub fn name(self) -> &'static str {
        match self {
            ErrorClass::Fine => "fine",
            ErrorClass::OutOfNotes => "out of notes",
            ErrorClass::NotSeated => "not seated",
            ErrorClass::Jam => "jam",
            ErrorClass::CountInDoubt => "count in doubt",
            ErrorClass::OtherListed => "other listed",
            ErrorClass::Unlisted => "unlisted",
        }
    }
}

/// "the 27 published codes .. 30h to 38h, 3Ah to 3Dh, 3Fh to 4Ah, 4Ch, 4Eh"
pub const LISTED: [u8; 27] = [
    0x30, 0x31, 0x32, 0x33, 0x34, 0x35, 0x36, 0x37, 0x38, 0x3A, 0x3B, 0x3C, 0x3D, 0x3F, 0x40, 0x41, 0x42, 0x43, 0x44,
    0x45, 0x46, 0x47, 0x48, 0x49, 0x4A, 0x4C, 0x4E,
];

/// The unlisted codes beside the runs of the list, and the last one that an answer can have.
pub const BESIDE: [u8; 6] = [0x39, 0x3E, 0x4B, 0x4D, 0x4F, 0x7F];

/// The class of the last error byte of each cassette, if there was one.
#[derive(Clone, Copy, Debug, Default, PartialEq, Eq)]
pub struct LastErrors {
    pub upper: Option<ErrorClass>,
    pub lower: Option<ErrorClass>,
}

impl LastErrors {
    /// A good answer: "from paying and test answers"; "For a pay-both answer the same name stands on both."
    pub fn answered(&mut self, answer: Answer, error: ErrorClass) {
        match answer {
            Answer::PaidUpper(_) | Answer::TestedUpper { .. } => self.upper = Some(error),
            Answer::PaidLower(_) | Answer::TestedLower { .. } => self.lower = Some(error),
            Answer::PaidBoth(..) => (self.upper, self.lower) = (Some(error), Some(error)),
            Answer::Purged | Answer::Status => {}
        }
    }
}

#[cfg(test)]
mod tests {
    use super::*;
    use crate::dispenser_frame::Payment;

    #[test]
    fn every_class_has_its_codes_and_its_name() {
        let classes: [(&str, &[u8]); 6] = [
            ("fine", &[0x30, 0x31]),
            ("out of notes", &[0x38, 0x40]),
            ("not seated", &[0x3F, 0x45, 0x46]),
            ("jam", &[0x33, 0x35, 0x36, 0x42, 0x48, 0x4C, 0x4E]),
            ("count in doubt", &[0x3A, 0x3C, 0x3D]),
            ("other listed", &[0x32, 0x34, 0x37, 0x3B, 0x41, 0x43, 0x44, 0x47, 0x49, 0x4A]),
        ];
        for error in 0..=255 {
            let class = classes.iter().find(|(_, codes)| codes.contains(&error));
            assert_eq!(ErrorClass::of(error).name(), class.map_or("unlisted", |(name, _)| name), "{error:02X}");
        }
    }

    #[test]
    fn the_list_is_its_runs_and_what_is_beside_them_is_unlisted() {
        let listed = |error| matches!(error, 0x30..=0x38 | 0x3A..=0x3D | 0x3F..=0x4A | 0x4C | 0x4E);
        let runs: Vec<u8> = (0..=255).filter(|&error| listed(error)).collect();
        assert_eq!(LISTED[..], runs);
        for beside in BESIDE {
            assert_eq!(ErrorClass::of(beside), ErrorClass::Unlisted, "{beside:02X}");
        }
    }

    #[test]
    fn each_answer_sets_its_own_cassettes() {
        use ErrorClass::{CountInDoubt, Fine, Jam, NotSeated, OutOfNotes};
        let ten = Payment { exit: 10, rejects: 0 };
        let mut last = LastErrors::default();
        assert_eq!((last.upper, last.lower), (None, None));
        let answers = [
            (Answer::Purged, Jam, (None, None)),
            (Answer::Status, Jam, (None, None)),
            (Answer::PaidUpper(ten), Jam, (Some(Jam), None)),
            (Answer::PaidLower(ten), OutOfNotes, (Some(Jam), Some(OutOfNotes))),
            (Answer::PaidBoth(ten, ten), Fine, (Some(Fine), Some(Fine))),
            (Answer::TestedUpper { rejects: 0 }, CountInDoubt, (Some(CountInDoubt), Some(Fine))),
            (Answer::TestedLower { rejects: 0 }, NotSeated, (Some(CountInDoubt), Some(NotSeated))),
            (Answer::Purged, Fine, (Some(CountInDoubt), Some(NotSeated))),
            (Answer::Status, Fine, (Some(CountInDoubt), Some(NotSeated))),
        ];
        for (answer, error, names) in answers {
            last.answered(answer, error);
            assert_eq!((last.upper, last.lower), names, "{answer:?}");
        }
    }
}
