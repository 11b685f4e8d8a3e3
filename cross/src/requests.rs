//! What the program `requests` writes of a recording: which payouts there were, for whoever looks for one that went astray.
//!
//! ```text
//! 45 upper 10 lower 0 handed 1 answered paid 10 0
//! 56 upper 5 lower 3 handed 4 refused
//! 55 upper 0 lower 2 handed 1 unknown
//! 45 upper 1 lower 0 handed 2 open
//! ```

use crate::dispenser_frame::Command;
use crate::kept::{Entry, Fate};
use crate::recording::Bad;
use crate::replay::{replay, Bench};
use crate::report;

/// "one line for each kept request, oldest first"; "A bad recording writes its one line "bad 22 at 7", as the report does; one
/// without paying requests writes nothing."
pub fn requests(recording: &[u8]) -> String {
    told(replay(recording))
}

/// The lines about a recording that was replayed.
pub fn told(replayed: Result<Bench, Bad>) -> String {
    match replayed {
        Ok(bench) => lines(bench.dispenser.account().kept.all()),
        Err(bad) => report::bad(bad),
    }
}

/// A line for each.
pub(crate) fn lines<'a>(entries: impl IntoIterator<Item = &'a Entry>) -> String {
    entries.into_iter().map(line).collect()
}

/// "code in hex, counts asked, hand-overs, how it closed, and for an answered one the notes paid from each cassette"
fn line(entry: &Entry) -> String {
    let Entry { command: Command { code, upper, lower }, handed, fate } = entry;
    let closed = match fate {
        Fate::Open => "open".to_string(),
        Fate::Answered { upper, lower } => format!("answered paid {upper} {lower}"),
        Fate::Refused => "refused".to_string(),
        Fate::Unknown => "unknown".to_string(),
    };
    format!("{:02X} upper {upper} lower {lower} handed {handed} {closed}\n", code.byte())
}

#[cfg(test)]
mod tests {
    use super::*;
    use crate::text;

    /// What is written of a recording that is told as text.
    fn of(said: &str) -> String {
        requests(&text::recording(said).unwrap())
    }

    const PAID: &str = "tick 1000 x6\npay upper 1\ndispenser 06 01 50 02 45 30 31 30 31 30 30 30 30 03 15\n";
    const LOST: &str = "tick 1000 x96\npay lower 2\ndispenser 00\n";

    #[test]
    fn the_lines_of_the_request() {
        let said = "tick 1000 x6\n\
                    pay upper 10\n\
                    dispenser 06 01 50 02 45 31 30 31 30 30 30 30 30 03 15\n\
                    tick 1000 x6\n\
                    pay both 5 3\n\
                    dispenser 15 15 15 15\n\
                    tick 1000 x6\n\
                    pay lower 2\n\
                    dispenser 00\n\
                    tick 1000 x96\n\
                    pay upper 1\n\
                    dispenser 15\n";
        let wanted = "45 upper 10 lower 0 handed 1 answered paid 10 0\n\
                      56 upper 5 lower 3 handed 4 refused\n\
                      55 upper 0 lower 2 handed 1 unknown\n\
                      45 upper 1 lower 0 handed 2 open\n";
        assert_eq!(of(said), wanted);
    }

    #[test]
    fn a_bad_recording_writes_its_line_and_one_without_payouts_nothing() {
        assert_eq!(of(""), "");
        assert_eq!(of("tick 1000 x6\nstatus\ndispenser 15 15 15 15\n"), "");
        assert_eq!(of(&format!("{PAID}raw 00 45")), "bad 22 at 52\n");
        assert_eq!(requests(&[2, 1, 0xFF]), "bad 23 at 2\n");
        assert_eq!(requests(&[2, 1, 2, 0x80, 0x00]), "bad 21 at 2\n");
        assert_eq!(requests(&[2; 65_537]), "bad 22 at 65536\n");
    }

    #[test]
    fn what_was_paid_is_the_exit_count_of_each_cassette() {
        let both = "tick 1000 x6\n\
                    pay both 15 15\n\
                    dispenser 06 01 50 02 56 31 34 31 32 31 37 31 37 30 30 30 30 32 33 31 03 30\n";
        assert_eq!(of(both), "56 upper 15 lower 15 handed 1 answered paid 12 17\n");
        let lower = "tick 1000 x6\npay lower 9\ndispenser 06 01 50 02 55 30 39 30 30 33 31 39 39 03 0E\n";
        assert_eq!(of(lower), "55 upper 0 lower 9 handed 1 answered paid 0 0\n");
    }

    #[test]
    fn each_hand_over_is_counted_and_an_answer_that_is_asked_for_again_is_none() {
        for more in 0..=3 {
            let no = "dispenser 15\n".repeat(more);
            let asked = format!("tick 1000 x6\npay upper 1\n{no}");
            let line = format!("45 upper 1 lower 0 handed {}", more + 1);
            assert_eq!(of(&asked), format!("{line} open\n"));
            assert_eq!(of(&format!("{asked}dispenser 00\n")), format!("{line} unknown\n"));
            assert_eq!(of(&format!("{asked}tick 1000 x6\n")), format!("{line} unknown\n"));
            // late, our 15h, and the answer
            let late = "dispenser 06 01\ntick 200\ndispenser 01 50 02 45 30 31 30 31 30 30 30 30 03 15\n";
            assert_eq!(of(&format!("{asked}{late}")), format!("{line} answered paid 1 0\n"));
        }
        assert_eq!(of("tick 1000 x6\npay upper 1\ndispenser 15 15 15 15\n"), "45 upper 1 lower 0 handed 4 refused\n");
    }

    #[test]
    fn a_status_a_test_a_purge_and_a_declined_payout_are_not_kept() {
        let paid = "45 upper 1 lower 0 handed 1 answered paid 1 0\n";
        for other in ["status", "purge", "test upper", "test lower"] {
            for said in ["dispenser 15 15 15 15", "dispenser 15 00", "tick 1000 x6", ""] {
                let said = format!("{PAID}tick 1000 x6\n{other}\n{said}\n");
                assert_eq!(of(&said), paid, "{said}");
            }
        }
        let answered = "status\ndispenser 06 01 50 02 46 30 30 80 00 03 96\n";
        assert_eq!(of(&format!("{PAID}tick 1000 x6\n{answered}")), paid);
        for declined in ["pay upper 1", "tick 1000 x6\npay upper 61", "tick 1000 x6\nrequest 45 1 1"] {
            assert_eq!(of(&format!("{PAID}{declined}\n")), paid);
        }
        let open = "tick 1000 x6\npay lower 3\npay lower 4\n";
        assert_eq!(of(open), "55 upper 0 lower 3 handed 1 open\n");
    }

    #[test]
    fn a_clear_and_a_stop_leave_what_is_kept() {
        let lost = "55 upper 0 lower 2 handed 1 unknown\n";
        let stopped = format!("{LOST}{LOST}");
        assert_eq!(of(&stopped), lost.repeat(2));
        // the third payout gets 7
        assert_eq!(of(&format!("{stopped}{LOST}")), lost.repeat(2));
        assert_eq!(of(&format!("{stopped}clear\n")), lost.repeat(2));
        assert_eq!(of(&format!("{stopped}clear\n{LOST}")), lost.repeat(3));
    }

    #[test]
    fn a_33rd_pushes_out_the_oldest_and_the_sums_cover_all() {
        for (payouts, kept) in [(31, 31), (32, 32), (33, 32), (64, 32), (65, 32)] {
            // the k-th asks for k notes, as far as there are so many
            let said: String = (1..=payouts)
                .map(|k| format!("tick 1000 x6\npay upper {}\ndispenser 15 15 15 15\n", k.min(60)))
                .collect();
            let lines: String = (payouts - kept + 1..=payouts)
                .map(|k: u32| format!("45 upper {} lower 0 handed 4 refused\n", k.min(60)))
                .collect();
            assert_eq!(of(&said), lines, "{payouts}");
            let sum: u32 = (1..=payouts).map(|k| k.min(60)).sum();
            let report = report::report(&text::recording(&said).unwrap());
            assert!(report.starts_with(&format!("upper asked {sum} paid 0 short 0 over 0 refused {sum} unknown 0 ")));
        }
    }
}
