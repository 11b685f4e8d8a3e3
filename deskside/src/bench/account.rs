//! What must hold of a report, whatever happened.

/// The sums of a cassette's line.
#[derive(Clone, Copy, Debug, Default, PartialEq, Eq)]
struct Sums {
    asked: u64,
    paid: u64,
    short: u64,
    over: u64,
    refused: u64,
    unknown: u64,
    open: u64,
}

fn sums(report: &str, cassette: &str) -> Option<Sums> {
    let line = report.lines().find_map(|line| line.strip_prefix(cassette)?.strip_prefix(" asked "))?;
    let words: Vec<&str> = line.split_whitespace().collect();
    let [asked, "paid", paid, "short", short, "over", over, "refused", refused, "unknown", unknown, "open", open, "rejected", _] =
        words[..]
    else {
        return None;
    };
    let n = |text: &str| text.parse().ok();
    Some(Sums {
        asked: n(asked)?,
        paid: n(paid)?,
        short: n(short)?,
        over: n(over)?,
        refused: n(refused)?,
        unknown: n(unknown)?,
        open: n(open)?,
    })
}

/// What is wrong with a report, given the notes that the unit was told it paid from each cassette: no note may be out of the account. Where nothing is unknown or open, the two agree.
pub fn fault(report: &str, told: [u64; 2]) -> Option<String> {
    for (cassette, told) in ["upper", "lower"].into_iter().zip(told) {
        let Some(sums) = sums(report, cassette) else {
            return Some(format!("the report has no line of the {cassette} cassette: {report}"));
        };
        let Sums { asked, paid, short, over, refused, unknown, open } = sums;
        if asked + over != paid + short + refused + unknown + open {
            return Some(format!("the {cassette} cassette does not balance: {report}"));
        }
        if told < paid || told > paid + unknown + open {
            return Some(format!(
                "the unit paid {told} notes from the {cassette} cassette, and the account does not have them: {report}"
            ));
        }
    }
    None
}

#[cfg(test)]
mod tests {
    use super::*;

    const REPORT: &str = "upper asked 20 paid 9 short 1 over 0 refused 0 unknown 10 open 0 rejected 2\n\
                          lower asked 5 paid 6 short 0 over 1 refused 0 unknown 0 open 0 rejected 0\n";

    #[test]
    fn no_note_may_be_out_of_the_account() {
        for (told, right) in
            [([9, 6], true), ([19, 6], true), ([20, 6], false), ([8, 6], false), ([9, 5], false), ([9, 7], false)]
        {
            assert_eq!(fault(REPORT, told).is_none(), right, "{told:?}");
        }
        assert!(fault(&REPORT.replace("asked 20", "asked 21"), [9, 6]).is_some());
        assert!(fault("bad 22 at 7\n", [0, 0]).is_some());
    }
}
