//! A script, a line for each step. `#` begins a remark.
//!
//! ```text
//! bills FF FF FF 00 00 00      before the recording begins, enables these
//! not switched on              the desk is not told that the unit was switched off and on
//! clock machine                real time, and not that of the script
//! wait 5200                    so many milliseconds pass
//! pay upper 10                 any order of the desk
//! unit .., validator ..        what the units do next: `pretend::units`
//! expect TEXT                  since the last order the desk has said a line with TEXT
//! sent dispenser 15            since the last order the desk has sent these bytes to that unit, one behind the other
//! kill host                    SIGKILL, and the desk must end; `kill desk`
//! kill host during pay upper 1 the same, while the order is being carried out: in each round a little later; `kill desk during ..`
//! times 12                     the script is run in so many rounds
//! resume                       the desk goes on with the recording
//! polled 999999                the first desk goes on with a recording that has so many polls, each closed silent
//! small disk                   the first desk's recording cannot grow beyond half a kilobyte
//! until full                   time passes until it has grown that far, and the desk must end
//! report LINE                  at the end the report has this line
//! ```

use crate::hex;
use crate::side::Side;

#[derive(Clone, Copy, Debug, PartialEq, Eq)]
pub enum Who {
    Host,
    Desk,
}

#[derive(Clone, Debug, PartialEq, Eq)]
pub enum Step {
    Wait(u64),
    Order(String),
    Units(String),
    Expect(String),
    Sent(Side, Vec<u8>),
    Kill(Who, Option<String>),
    Resume,
    UntilFull,
}

#[derive(Clone, Debug, Default, PartialEq, Eq)]
pub struct Script {
    pub bills: Option<String>,
    pub not_switched_on: bool,
    pub machine: bool,
    pub small_disk: bool,
    pub polled: u32,
    pub times: u32,
    pub steps: Vec<Step>,
    pub report: Vec<String>,
}

pub fn script(text: &str) -> Result<Script, String> {
    let mut script = Script { times: 1, ..Script::default() };
    for (number, line) in text.lines().enumerate() {
        let said = line.split('#').next().unwrap_or_default().trim();
        script.line(said).ok_or_else(|| format!("line {}: not understood: {line}", number + 1))?;
    }
    Ok(script)
}

impl Script {
    fn line(&mut self, line: &str) -> Option<()> {
        let (first, rest) = line.split_once(' ').unwrap_or((line, ""));
        let step = match (first, rest) {
            ("", _) => return Some(()),
            ("bills", bytes) => {
                self.bills = Some(bytes.into());
                return Some(());
            }
            ("not", "switched on") => {
                self.not_switched_on = true;
                return Some(());
            }
            ("clock", "machine") => {
                self.machine = true;
                return Some(());
            }
            ("small", "disk") => {
                self.small_disk = true;
                return Some(());
            }
            ("polled", n) => {
                self.polled = n.parse().ok()?;
                return Some(());
            }
            ("times", n) => {
                self.times = n.parse().ok()?;
                return Some(());
            }
            ("report", line) => {
                self.report.push(line.into());
                return Some(());
            }
            ("wait", ms) => Step::Wait(ms.parse().ok()?),
            ("unit" | "validator", _) => Step::Units(line.into()),
            ("expect", text) => Step::Expect(text.into()),
            ("sent", rest) => {
                let (side, bytes) = rest.split_once(' ')?;
                Step::Sent(Side::named(side)?, hex::bytes(bytes).filter(|bytes| !bytes.is_empty())?)
            }
            ("kill", rest) => kill(rest)?,
            ("resume", "") => Step::Resume,
            ("until", "full") => Step::UntilFull,
            _ => {
                crate::order::order(line)?;
                Step::Order(line.into())
            }
        };
        self.steps.push(step);
        Some(())
    }
}

fn kill(rest: &str) -> Option<Step> {
    let (who, during) = rest.split_once(" during ").map_or((rest, None), |(who, order)| (who, Some(order.to_string())));
    let who = match who {
        "host" => Who::Host,
        "desk" => Who::Desk,
        _ => return None,
    };
    Some(Step::Kill(who, during))
}

#[cfg(test)]
mod tests {
    use super::*;

    #[test]
    fn every_step() {
        let text = "# a remark\ntimes 3\npolled 2\nbills FF 00\nwait 5200 # quiet\npay upper 10\nunit mute\nexpect closed unknown\nsent dispenser 15\nkill host during pay upper 1\nkill desk\nresume\nreport declined 0\nnot switched on\n";
        let wanted = Script {
            bills: Some("FF 00".into()),
            not_switched_on: true,
            machine: false,
            small_disk: false,
            polled: 2,
            times: 3,
            steps: vec![
                Step::Wait(5_200),
                Step::Order("pay upper 10".into()),
                Step::Units("unit mute".into()),
                Step::Expect("closed unknown".into()),
                Step::Sent(Side::Dispenser, vec![0x15]),
                Step::Kill(Who::Host, Some("pay upper 1".into())),
                Step::Kill(Who::Desk, None),
                Step::Resume,
            ],
            report: vec!["declined 0".into()],
        };
        assert_eq!(script(text), Ok(wanted));
        for wrong in ["wait", "kill unit", "sing", "pay upper", "sent 15", "sent dispenser"] {
            assert!(script(wrong).is_err(), "{wrong}");
        }
    }
}
