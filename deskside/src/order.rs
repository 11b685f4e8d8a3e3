//! What the operator types.

use crate::record;
use crate::side::Side;

#[derive(Clone, Debug, PartialEq, Eq)]
pub enum Order {
    /// A record for `host`, about one of the two lines.
    Record(Side, Vec<u8>),
    PollEvery(u32),
    PollOff,
    Account,
    Requests,
    Help,
    /// So many milliseconds pass before the next order.
    Wait(u32),
    Quit,
    Nothing,
}

pub const HELP: &str = "\
pay upper 10        ten notes from the upper cassette; pay lower 10; pay both 5 3
status, purge       what the dispenser says of itself; notes left in its path are put aside
test upper          one note counted and put aside; test lower
clear               pays again after two payouts in succession that closed unknown
poll                asks the validator what happened; poll every 200 does it again and again, poll off ends that
reset, table        starts the validator afresh; asks for its bill table
stack, return, hold what becomes of a bill in escrow
account, requests   the account so far; the last 32 payouts
wait 6000           so many milliseconds pass before the next order
help, quit
";

/// The order that a line is, or none where it is not understood.
pub fn order(line: &str) -> Option<Order> {
    let words: Vec<&str> = line.split_whitespace().collect();
    let dispenser = |code, upper, lower| Order::Record(Side::Dispenser, record::request(code, upper, lower));
    let validator = |code| Order::Record(Side::Validator, record::ask(code));
    Some(match words[..] {
        [] => Order::Nothing,
        ["pay", "upper", n] => dispenser(0x45, count(n)?, 0),
        ["pay", "lower", n] => dispenser(0x55, 0, count(n)?),
        ["pay", "both", upper, lower] => dispenser(0x56, count(upper)?, count(lower)?),
        ["status"] => dispenser(0x46, 0, 0),
        ["purge"] => dispenser(0x44, 0, 0),
        ["test", "upper"] => dispenser(0x76, 0, 0),
        ["test", "lower"] => dispenser(0x77, 0, 0),
        ["clear"] => Order::Record(Side::Dispenser, record::clear()),
        ["reset"] => validator(0x30),
        ["poll"] => validator(record::POLL),
        ["stack"] => validator(0x35),
        ["return"] => validator(0x36),
        ["hold"] => validator(0x38),
        ["table"] => validator(0x41),
        ["poll", "every", ms] => Order::PollEvery(count(ms).filter(|&ms| ms > 0)?),
        ["poll", "off"] => Order::PollOff,
        ["account"] => Order::Account,
        ["requests"] => Order::Requests,
        ["help"] => Order::Help,
        ["wait", ms] => Order::Wait(count(ms)?),
        ["quit"] => Order::Quit,
        _ => return None,
    })
}

/// Digits alone.
fn count(text: &str) -> Option<u32> {
    if text.is_empty() || !text.bytes().all(|byte| byte.is_ascii_digit()) {
        return None;
    }
    text.parse().ok()
}

#[cfg(test)]
mod tests {
    use super::*;

    #[test]
    fn every_order() {
        let dispenser = |bytes: &[u8]| Some(Order::Record(Side::Dispenser, bytes.to_vec()));
        let validator = |bytes: &[u8]| Some(Order::Record(Side::Validator, bytes.to_vec()));
        for (line, wanted) in [
            ("pay upper 10", dispenser(&[0, 0x45, 10, 0])),
            ("  pay   lower 60 ", dispenser(&[0, 0x55, 0, 60])),
            ("pay both 5 300", dispenser(&[0, 0x56, 5, 0xAC, 0x02])),
            ("status", dispenser(&[0, 0x46, 0, 0])),
            ("purge", dispenser(&[0, 0x44, 0, 0])),
            ("test upper", dispenser(&[0, 0x76, 0, 0])),
            ("test lower", dispenser(&[0, 0x77, 0, 0])),
            ("clear", dispenser(&[5])),
            ("poll", validator(&[4, 0x33])),
            ("reset", validator(&[4, 0x30])),
            ("stack", validator(&[4, 0x35])),
            ("return", validator(&[4, 0x36])),
            ("hold", validator(&[4, 0x38])),
            ("table", validator(&[4, 0x41])),
            ("poll every 200", Some(Order::PollEvery(200))),
            ("poll off", Some(Order::PollOff)),
            ("wait 6000", Some(Order::Wait(6_000))),
            ("", Some(Order::Nothing)),
        ] {
            assert_eq!(order(line), wanted, "{line}");
        }
        for line in
            ["pay", "pay upper", "pay upper -1", "pay upper 4294967296", "pay upper 1 2", "poll every 0", "Pay upper 1"]
        {
            assert_eq!(order(line), None, "{line}");
        }
    }

    #[test]
    fn help_names_what_is_understood() {
        for word in ["pay upper 10", "poll every 200", "wait 6000"] {
            assert!(HELP.contains(word) && order(word).is_some(), "{word}");
        }
    }
}
