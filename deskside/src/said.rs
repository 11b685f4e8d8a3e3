//! The lines that `host` and `enable_bills` write.

use crate::hex;
use crate::side::Side;

#[derive(Clone, Debug, PartialEq, Eq)]
pub enum Said {
    /// Bytes that go to a line now.
    Send(Side, Vec<u8>),
    /// What happened, for the operator.
    Said(String),
    /// An order that was not taken, and not written down.
    Refused(String),
    /// The recording has taken all the commands that it can.
    Renew,
    Began,
    Cut(String),
    Resumed(String),
    Done,
    Failed,
    Enabled,
    NotEnabled(String),
}

pub fn said(line: &str) -> Option<Said> {
    let (first, rest) = line.split_once(' ').unwrap_or((line, ""));
    Some(match first {
        "send" => {
            let (side, bytes) = rest.split_once(' ')?;
            Said::Send(Side::named(side)?, hex::bytes(bytes.strip_prefix("paying ").unwrap_or(bytes))?)
        }
        "said" => Said::Said(rest.into()),
        "refused:" => Said::Refused(rest.into()),
        "renew" => Said::Renew,
        "began" => Said::Began,
        "cut" => Said::Cut(rest.into()),
        "resumed" => Said::Resumed(rest.into()),
        "done" => Said::Done,
        "failed" => Said::Failed,
        "enabled" => Said::Enabled,
        "not" => Said::NotEnabled(rest.strip_prefix("enabled ")?.into()),
        _ => return None,
    })
}

#[cfg(test)]
mod tests {
    use super::*;

    #[test]
    fn every_line() {
        for (line, wanted) in [
            ("send dispenser 04 50 02 46 03 13", Some(Said::Send(Side::Dispenser, vec![4, 0x50, 2, 0x46, 3, 0x13]))),
            ("send dispenser paying 04 50", Some(Said::Send(Side::Dispenser, vec![4, 0x50]))),
            ("send validator 02", Some(Said::Send(Side::Validator, vec![2]))),
            (
                "said request pay upper 10 | refused 4: quiet",
                Some(Said::Said("request pay upper 10 | refused 4: quiet".into())),
            ),
            ("refused: too early", Some(Said::Refused("too early".into()))),
            ("renew", Some(Said::Renew)),
            ("began", Some(Said::Began)),
            ("cut 1234", Some(Said::Cut("1234".into()))),
            ("resumed 56 1234 open", Some(Said::Resumed("56 1234 open".into()))),
            ("done", Some(Said::Done)),
            ("failed", Some(Said::Failed)),
            ("enabled", Some(Said::Enabled)),
            ("not enabled silent", Some(Said::NotEnabled("silent".into()))),
            ("send printer 04", None),
            ("send dispenser 4", None),
            ("hello", None),
            ("", None),
        ] {
            assert_eq!(said(line), wanted, "{line}");
        }
    }
}
