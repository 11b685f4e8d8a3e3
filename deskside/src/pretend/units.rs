//! Both pretend units behind their lines, and the words that a script has for them.

use super::mishaps::Mishaps;
use super::unit::{Plan, Unit};
use super::validator::{framed, Answer, Validator};
use crate::hex;
use crate::side::Side;

pub struct Units {
    pub unit: Unit,
    pub validator: Validator,
    pub line: Mishaps,
}

/// Bytes for each line.
pub type Bytes = [Vec<u8>; 2];

impl Units {
    pub fn new(unit: Unit) -> Units {
        Units { unit, validator: Validator::default(), line: Mishaps::default() }
    }

    /// What arrives at the desk because of a byte that it sent.
    pub fn byte(&mut self, side: Side, byte: u8) -> Result<Vec<u8>, String> {
        match side {
            Side::Validator => Ok(self.validator.byte(byte)),
            Side::Dispenser => match self.line.to_unit(byte) {
                Some(byte) => {
                    let put = self.unit.byte(byte)?;
                    Ok(self.arrives(put))
                }
                None => Ok(Vec::new()),
            },
        }
    }

    pub fn pass(&mut self, ms: u64) -> Result<Bytes, String> {
        let put = self.unit.pass(ms)?;
        Ok([self.arrives(put), self.validator.pass(ms)])
    }

    /// The unit's 06h and its answer can come in one go; each meets its own mishap.
    fn arrives(&mut self, put: Vec<u8>) -> Vec<u8> {
        let single = usize::from(put.len() > 1 && put[0] != 0x01);
        let (first, rest) = put.split_at(single.min(put.len()));
        let mut bytes = Vec::new();
        for part in [first, rest] {
            if !part.is_empty() {
                bytes.extend(self.line.to_desk(part.to_vec()));
            }
        }
        bytes
    }

    /// A line of a script that is about the units; what arrives at the desk at once. None where it is about something else.
    pub fn direct(&mut self, line: &str) -> Option<Result<Bytes, String>> {
        let (first, rest) = line.split_once(' ')?;
        let done = match first {
            "unit" => self.direct_unit(rest),
            "validator" => self.direct_validator(rest),
            _ => return None,
        };
        Some(done.ok_or_else(|| format!("not understood: {line}")))
    }

    fn direct_unit(&mut self, line: &str) -> Option<Bytes> {
        let words: Vec<&str> = line.split_whitespace().collect();
        let number = |text: &str| text.parse::<usize>().ok();
        match words[..] {
            ["pays", ref how @ ..] => self.unit.plans.push_back(plan(how)?),
            ["mute"] => self.line.mute = true,
            ["speaks"] => self.line.mute = false,
            ["deaf"] => self.line.deaf = true,
            ["hears"] => self.line.deaf = false,
            ["loses", n] => self.line.loses += number(n)?,
            ["garbles", n] => self.line.garbles += number(n)?,
            ["mishears", n] => self.line.mishears += number(n)?,
            ["instead", byte] => self.line.instead = Some(hex::byte(byte)?),
            ["holds", ref counts @ ..] => {
                self.line.holds.extend(counts.iter().map(|n| number(n)).collect::<Option<Vec<_>>>()?);
            }
            ["lets", "go"] => return Some([self.line.let_go(), Vec::new()]),
            ["says", ..] => return Some([hex::bytes(&line["says".len()..])?, Vec::new()]),
            _ => return None,
        }
        Some(Bytes::default())
    }

    fn direct_validator(&mut self, line: &str) -> Option<Bytes> {
        let words: Vec<&str> = line.split_whitespace().collect();
        let bill = |code: u8, kind: &str| kind.parse().ok().map(|kind| Answer::Body(vec![code, kind]));
        let answer = match words[..] {
            ["idling"] => Answer::Body(vec![0x14]),
            ["busy"] => Answer::Body(vec![0x17]),
            ["escrow", kind] => bill(0x80, kind)?,
            ["stacked", kind] => bill(0x81, kind)?,
            ["returned", kind] => bill(0x82, kind)?,
            ["acknowledges"] => Answer::Body(vec![0x00]),
            ["refuses"] => Answer::Body(vec![0xFF]),
            ["illegal"] => Answer::Body(vec![0x30]),
            ["silent"] => Answer::Silent,
            ["body", ref bytes @ ..] => {
                Answer::Body(hex::bytes(&bytes.join(" ")).filter(|body| (1..=250).contains(&body.len()))?)
            }
            ["raw", ref bytes @ ..] => Answer::Raw(hex::bytes(&bytes.join(" "))?),
            ["damaged"] => {
                let mut frame = framed(&[0x14]);
                frame[4] ^= 1;
                Answer::Raw(frame)
            }
            ["late", first, ms] => Answer::Late(vec![0x14], first.parse().ok()?, ms.parse().ok()?),
            ["says", ref bytes @ ..] => return Some([Vec::new(), hex::bytes(&bytes.join(" "))?]),
            _ => return None,
        };
        self.validator.answers.push_back(answer);
        Some(Bytes::default())
    }
}

/// `9 rejects 2 error 38h after 3000`, or `9 2 ..` for both cassettes, or `all` for as many as are asked.
fn plan(words: &[&str]) -> Option<Plan> {
    let mut plan = Plan::default();
    let counts = words.iter().take_while(|word| word.parse::<u32>().is_ok()).count();
    let number = |word: &str| word.parse::<u32>().ok();
    match words[..counts] {
        [] if words.first() == Some(&"all") => return options(plan, &words[1..]),
        [one] => plan.exits = Some([number(one)?; 2]),
        [upper, lower] => plan.exits = Some([number(upper)?, number(lower)?]),
        _ => return None,
    }
    options(plan, &words[counts..])
}

fn options(mut plan: Plan, words: &[&str]) -> Option<Plan> {
    match words {
        [] => Some(plan),
        ["rejects", n, rest @ ..] => {
            plan.rejects = [n.parse().ok()?; 2];
            options(plan, rest)
        }
        ["error", byte, rest @ ..] => {
            plan.error = Some(hex::byte(byte.trim_end_matches('h'))?);
            options(plan, rest)
        }
        ["after", ms, rest @ ..] => {
            plan.takes = ms.parse().ok()?;
            options(plan, rest)
        }
        _ => None,
    }
}

#[cfg(test)]
mod tests {
    use super::*;
    use crate::filter::Filter;

    fn units() -> Units {
        Units::new(Unit::new(Filter::over(std::io::sink(), &b""[..])))
    }

    #[test]
    fn the_words_of_a_script() {
        let mut units = units();
        for line in [
            "unit pays 9 rejects 2 error 38h after 3000",
            "unit pays all",
            "unit pays 5 2",
            "unit mute",
            "unit speaks",
            "unit deaf",
            "unit hears",
            "unit loses 1",
            "unit garbles 3",
            "unit mishears 4",
            "unit instead 41",
            "unit holds 5 5 5",
            "validator idling",
            "validator escrow 3",
            "validator stacked 23",
            "validator illegal",
            "validator damaged",
            "validator late 3 500",
            "validator raw 02 04",
        ] {
            assert_eq!(units.direct(line), Some(Ok(Bytes::default())), "{line}");
        }
        let plan = Plan { exits: Some([9, 9]), rejects: [2, 2], error: Some(0x38), takes: 3_000 };
        assert_eq!(units.unit.plans[0], plan);
        assert_eq!(units.validator.answers.len(), 7);
        assert_eq!(units.direct("unit says 41 42"), Some(Ok([vec![0x41, 0x42], Vec::new()])));
        assert_eq!(units.direct("validator says 41"), Some(Ok([Vec::new(), vec![0x41]])));
        for line in ["unit", "pay upper 10", "wait 10"] {
            assert_eq!(units.direct(line), None, "{line}");
        }
        for line in ["unit pays", "unit pays x", "unit sings", "validator stacked", "validator raw 2"] {
            assert!(matches!(units.direct(line), Some(Err(_))), "{line}");
        }
    }
}
