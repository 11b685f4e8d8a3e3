//! The report of a recording: "Every line ends with 0Ah."

use crate::account::Sums;
use crate::bill_table::total;
use crate::error_class::ErrorClass;
use crate::recording::Bad;
use crate::replay::{replay, Bench};

/// The report, good or bad: a function of the recording's bytes.
pub fn report(recording: &[u8]) -> String {
    told(replay(recording))
}

/// The report of a recording that was replayed.
pub fn told(replayed: Result<Bench, Bad>) -> String {
    match replayed {
        Ok(bench) => lines(&bench),
        Err(bad) => self::bad(bad),
    }
}

/// "A bad recording writes only "bad 22 at 7", with its number and the record's offset."
pub(crate) fn bad(bad: Bad) -> String {
    format!("bad {} at {}\n", bad.fault.number(), bad.at)
}

/// The report of a good recording.
pub(crate) fn lines(bench: &Bench) -> String {
    let account = bench.dispenser.account();
    let mut text = cassette("upper", &account.upper) + &cassette("lower", &account.lower);
    text += &last_error("upper", bench.last_errors.upper);
    text += &last_error("lower", bench.last_errors.lower);
    text += &format!("declined {}\n", bench.declined);
    // "A line "type 3 bills 2" per type seen, rising, stands between "declined" and "records"."
    for (kind, bills) in bench.validator.bills().iter().enumerate().filter(|(_, &bills)| bills > 0) {
        text += &format!("type {kind} bills {bills}\n");
        // "After a valued type's "type" line the report gains "value 2500 NLC 2""
        if let Ok(Some(money)) = total(bench.validator.table().word(kind), *bills) {
            text += &format!("value {money}\n");
        }
    }
    text + &format!("records {}\n", bench.records)
}

fn cassette(name: &str, sums: &Sums) -> String {
    let Sums { asked, paid, short, over, refused, unknown, open, rejected } = sums;
    format!(
        "{name} asked {asked} paid {paid} short {short} over {over} refused {refused} unknown {unknown} open {open} rejected {rejected}\n"
    )
}

/// "after the two cassette lines the report adds "upper last error NAME" and "lower last error NAME" .., "none" before any."
fn last_error(name: &str, error: Option<ErrorClass>) -> String {
    format!("{name} last error {}\n", error.map_or("none", ErrorClass::name))
}

#[cfg(test)]
mod tests {
    use super::*;
    use crate::dispenser_frame::{answer, Code, Counted};
    use crate::text;

    const EMPTY: &str = "upper asked 0 paid 0 short 0 over 0 refused 0 unknown 0 open 0 rejected 0\n\
                         lower asked 0 paid 0 short 0 over 0 refused 0 unknown 0 open 0 rejected 0\n\
                         upper last error none\n\
                         lower last error none\n\
                         declined 0\n\
                         records 0\n";

    #[test]
    fn the_whole_case() {
        let mut recording = Vec::new();
        for _ in 0..5 {
            recording.extend([0x02, 0xE8, 0x07]);
        }
        recording.extend([0x02, 0xC8, 0x01, 0x00, 0x45, 0x0A, 0x00, 0x01, 0x06]);
        for byte in [0x01, 0x50, 0x02, 0x45, 0x31, 0x30, 0x31, 0x30, 0x30, 0x30, 0x30, 0x30, 0x03, 0x15] {
            recording.extend([0x01, byte]);
        }
        let wanted = "upper asked 10 paid 10 short 0 over 0 refused 0 unknown 0 open 0 rejected 0\n\
                      lower asked 0 paid 0 short 0 over 0 refused 0 unknown 0 open 0 rejected 0\n\
                      upper last error fine\n\
                      lower last error none\n\
                      declined 0\n\
                      records 22\n";
        assert_eq!(report(&recording), wanted);
    }

    #[test]
    fn an_empty_recording_is_good() {
        assert_eq!(report(&[]), EMPTY);
    }

    #[test]
    fn each_refusal_of_a_recording() {
        assert_eq!(report(&[2, 1, 2, 0x80, 0x00]), "bad 21 at 2\n");
        assert_eq!(report(&[2, 1, 2, 0x80]), "bad 22 at 2\n");
        assert_eq!(report(&[2, 1, 2]), "bad 22 at 2\n");
        assert_eq!(report(&[2, 1, 0xFF]), "bad 23 at 2\n");
        assert_eq!(report(&[2, 1, 4, 0x34]), "bad 23 at 2\n");
        assert_eq!(report(&[0xFF; 65_537]), "bad 23 at 0\n");
        assert_eq!(report(&[2; 65_536]).lines().last(), Some("records 32768"));
        assert_eq!(report(&[2; 65_537]), "bad 22 at 65536\n");
        assert_eq!(report(&[2; 65_538]).lines().last(), Some("records 32769"));
    }

    #[test]
    fn however_a_recording_is_cut_its_report_is_the_same() {
        let (_, bytes) = crate::generate::recording(1, 0);
        let wanted = report(&bytes);
        assert!(wanted.starts_with("upper "));
        for size in [1, 2, 3, 7, 64, bytes.len() - 1] {
            let mut replay = crate::replay::Replay::fresh();
            for piece in bytes.chunks(size) {
                replay.piece(piece);
                replay.piece(&[]);
            }
            assert_eq!(told(replay.ended()), wanted, "by {size}");
        }
    }

    #[test]
    fn a_declined_record_is_counted_once_and_is_a_record() {
        // a tick of 0 that both sessions refuse, a request too early on each line
        let text = report(&[2, 0, 0, 0x45, 10, 0, 4, 0x33]);
        assert!(text.ends_with("declined 3\nrecords 3\n"), "{text}");
    }

    #[test]
    fn a_clear_is_a_record_and_a_refused_one_is_declined() {
        assert!(report(&[5]).ends_with("declined 0\nrecords 1\n"));
        let open = text::recording("tick 1000 x6\npay upper 10\nclear x2\ndispenser 00\nclear\n").unwrap();
        assert!(report(&open).ends_with("declined 2\nrecords 11\n"));
        // a validator command is no reason to refuse it
        assert!(report(&[2, 20, 4, 0x33, 5]).ends_with("declined 0\nrecords 3\n"));
    }

    #[test]
    fn a_stopped_payout_is_declined_and_a_cleared_one_taken() {
        let lost = "tick 1000 x96\npay upper 10\ndispenser 00\n".repeat(2);
        let stopped = text::recording(&(lost.clone() + "tick 1000 x96\npay lower 5\n")).unwrap();
        let wanted = "upper asked 20 paid 0 short 0 over 0 refused 0 unknown 20 open 0 rejected 0\n\
                      lower asked 0 paid 0 short 0 over 0 refused 0 unknown 0 open 0 rejected 0\n\
                      upper last error none\n\
                      lower last error none\n\
                      declined 1\n\
                      records 293\n";
        assert_eq!(report(&stopped), wanted);
        let cleared = text::recording(&(lost + "clear\ntick 1000 x96\npay lower 5\n")).unwrap();
        let wanted = "upper asked 20 paid 0 short 0 over 0 refused 0 unknown 20 open 0 rejected 0\n\
                      lower asked 5 paid 0 short 0 over 0 refused 0 unknown 0 open 5 rejected 0\n\
                      upper last error none\n\
                      lower last error none\n\
                      declined 0\n\
                      records 294\n";
        assert_eq!(report(&cleared), wanted);
    }

    #[test]
    fn types_rise_and_stand_before_records() {
        let mut recording = Vec::new();
        for kind in [23, 0, 3] {
            recording.extend([2, 20, 4, 0x33]);
            for byte in crate::ccnet_frame::write(3, &[0x81, kind]).unwrap() {
                crate::recording::write(3, &[u32::from(byte)], &mut recording);
            }
        }
        let text = report(&recording);
        assert!(text.contains("declined 0\ntype 0 bills 1\ntype 3 bills 1\ntype 23 bills 1\nrecords 27\n"), "{text}");
    }

    /// Adds a validator command on a quiet line, and a frame that answers it.
    fn exchanged(code: u32, body: &[u8], recording: &mut Vec<u8>) {
        recording.extend([2, 20]);
        crate::recording::write(crate::recording::ASK, &[code], recording);
        for byte in crate::ccnet_frame::write(3, body).unwrap() {
            crate::recording::write(crate::recording::VALIDATOR_BYTE, &[u32::from(byte)], recording);
        }
    }

    /// The lines about bills.
    fn bills(recording: &[u8]) -> String {
        let text = report(recording);
        text.lines().filter(|line| line.starts_with("type") || line.starts_with("value")).collect::<Vec<_>>().join("; ")
    }

    #[test]
    fn a_valued_type_has_its_total() {
        let mut recording = Vec::new();
        for _ in 0..100 {
            exchanged(0x33, &[0x81, 0], &mut recording);
            exchanged(0x33, &[0x81, 2], &mut recording);
        }
        exchanged(0x33, &[0x81, 3], &mut recording);
        assert_eq!(bills(&recording), "type 0 bills 100; type 2 bills 100; type 3 bills 1");
        // the last table values what was taken in before it too
        let table = *b"\x19NLC\x82\x01ITL\x03\x02USA\x01\x05USA\x0A";
        exchanged(0x41, &table, &mut recording);
        let valued = "type 0 bills 100; value 2500 NLC 2; type 2 bills 100; value 2000 USA 0; type 3 bills 1";
        assert_eq!(bills(&recording), valued);
        // over 120 bytes, to another command, or one of the three one-byte bodies
        exchanged(0x41, &[b'A'; 121], &mut recording);
        exchanged(0x38, &[b'A'; 120], &mut recording);
        exchanged(0x41, &[0x30], &mut recording);
        assert_eq!(bills(&recording), valued);
        exchanged(0x41, &table[..5], &mut recording);
        assert_eq!(bills(&recording), "type 0 bills 100; value 2500 NLC 2; type 2 bills 100; type 3 bills 1");
        exchanged(0x33, &[0x81, 0], &mut recording);
        assert_eq!(bills(&recording), "type 0 bills 101; value 2525 NLC 2; type 2 bills 100; type 3 bills 1");
        exchanged(0x41, b"\x00USA\x00", &mut recording);
        assert_eq!(bills(&recording), "type 0 bills 101; value 0 USA 0; type 2 bills 100; type 3 bills 1");
    }

    /// What the dispenser says to a command that is done, with this error.
    fn done(code: Code, error: u8) -> Vec<u8> {
        let counted = Counted { chk: 10, exit: 10, state: 0x30, rejects: 0 };
        [vec![0x06], answer(code, counted, counted, error)].concat()
    }

    /// Adds a command on a line that has been quiet for long enough, with no succession behind it, and what the dispenser says
    /// to it.
    fn asked(command: &str, said: &[u8], recording: &mut Vec<u8>) {
        recording.extend(text::recording(&format!("tick 1000 x96\nclear\n{command}")).unwrap());
        for &byte in said {
            crate::recording::write(crate::recording::DISPENSER_BYTE, &[u32::from(byte)], recording);
        }
    }

    /// The third and the fourth line.
    fn last_errors(recording: &[u8]) -> [String; 2] {
        let text = report(recording);
        let lines: Vec<&str> = text.lines().collect();
        assert!(lines[4].starts_with("declined "), "{text}");
        [lines[2].to_string(), lines[3].to_string()]
    }

    fn named(upper: &str, lower: &str) -> [String; 2] {
        [format!("upper last error {upper}"), format!("lower last error {lower}")]
    }

    #[test]
    fn each_class_has_its_name_on_the_cassette_of_the_answer() {
        let names = [
            (0x30, "fine"),
            (0x40, "out of notes"),
            (0x46, "not seated"),
            (0x4E, "jam"),
            (0x3A, "count in doubt"),
            (0x4A, "other listed"),
            (0x39, "unlisted"),
            (0x3E, "unlisted"),
            (0x4B, "unlisted"),
            (0x4D, "unlisted"),
            (0x4F, "unlisted"),
            (0x7F, "unlisted"),
        ];
        for (error, name) in names {
            for (command, code, wanted) in [
                ("pay upper 10", Code::PayUpper, named(name, "none")),
                ("test upper", Code::TestUpper, named(name, "none")),
                ("pay lower 10", Code::PayLower, named("none", name)),
                ("test lower", Code::TestLower, named("none", name)),
                ("pay both 10 10", Code::PayBoth, named(name, name)),
                ("status", Code::Status, named("none", "none")),
                ("purge", Code::Purge, named("none", "none")),
            ] {
                let mut recording = Vec::new();
                asked(command, &done(code, error), &mut recording);
                assert_eq!(last_errors(&recording), wanted, "{command} {error:02X}");
            }
        }
    }

    #[test]
    fn the_last_answer_of_a_cassette_names_it() {
        let mut recording = Vec::new();
        for (command, code, error, upper, lower) in [
            ("pay upper 10", Code::PayUpper, 0x33, "jam", "none"),
            ("pay lower 10", Code::PayLower, 0x38, "jam", "out of notes"),
            ("test upper", Code::TestUpper, 0x30, "fine", "out of notes"),
            ("pay both 10 10", Code::PayBoth, 0x3D, "count in doubt", "count in doubt"),
            ("test lower", Code::TestLower, 0x4D, "count in doubt", "unlisted"),
            ("pay both 10 10", Code::PayBoth, 0x31, "fine", "fine"),
        ] {
            asked(command, &done(code, error), &mut recording);
            assert_eq!(last_errors(&recording), named(upper, lower), "{command}");
        }
    }

    #[test]
    fn what_leaves_the_name() {
        let mut recording = Vec::new();
        asked("pay both 10 10", &done(Code::PayBoth, 0x35), &mut recording);
        let mut bad = done(Code::PayUpper, 0x40);
        let last = bad.len() - 1;
        bad[last] ^= 1;
        // the answer three times, after one 06h
        let thrice = |answer: &[u8]| [answer, &answer[1..], &answer[1..]].concat();
        for (command, said) in [
            ("status", done(Code::Status, 0x40)),
            ("purge", done(Code::Purge, 0x40)),
            ("pay upper 10", vec![0x15; 4]),
            ("test lower", vec![0x15; 4]),
            ("pay both 10 10", vec![0x00]),
            ("test upper", vec![]),
            ("pay upper 10", thrice(&bad)),
            ("pay upper 10", thrice(&done(Code::PayLower, 0x40))),
            ("pay upper 10", thrice(&done(Code::PayUpper, 0x2F))),
            ("pay lower 61", vec![]),
            ("pay both 10 10", vec![0x06]),
        ] {
            asked(command, &said, &mut recording);
            assert_eq!(last_errors(&recording), named("jam", "jam"), "{command} {said:02X?}");
        }
    }

    #[test]
    fn a_bad_recording_names_no_error() {
        let mut recording = Vec::new();
        asked("pay upper 10", &done(Code::PayUpper, 0x35), &mut recording);
        let at = recording.len();
        recording.push(0xFF);
        assert_eq!(report(&recording), format!("bad 23 at {at}\n"));
    }
}
