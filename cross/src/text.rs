//! Recordings as text, a line for each thing that happens. `#` begins a remark; ` x5` at the end of a line says it five times.
//!
//! ```text
//! tick 1000 x5                    kind 2
//! pay upper 10                    kind 0; also pay lower 15, pay both 15 15, purge, status, test upper, test lower
//! request 45 10 5                 kind 0, any code (in hex) and counts
//! dispenser 06 15                 kind 1 for each byte (in hex)
//! poll                            kind 4; also reset, stack, return, hold, table (GET BILL TABLE)
//! validator 02 03 06 00 C2 82     kind 3 for each byte (in hex)
//! clear                           kind 5
//! raw 02 E8                       the recording's own bytes, for what no record has
//! ```

use crate::recording::{self, write};

/// The recording that a text describes, or what is wrong with the text.
pub fn recording(text: &str) -> Result<Vec<u8>, String> {
    let mut bytes = Vec::new();
    for (number, line) in text.lines().enumerate() {
        let said = line.split('#').next().unwrap_or_default();
        one(said, &mut bytes).map_err(|why| format!("line {}: {why}: {line}", number + 1))?;
    }
    Ok(bytes)
}

fn one(said: &str, bytes: &mut Vec<u8>) -> Result<(), String> {
    let mut words: Vec<&str> = said.split_whitespace().collect();
    let times = match words.last().and_then(|word| word.strip_prefix('x')) {
        Some(times) => {
            words.pop();
            decimal(times)?
        }
        None => 1,
    };
    let mut once = Vec::new();
    event(&words, &mut once)?;
    for _ in 0..times {
        bytes.extend(&once);
    }
    Ok(())
}

fn event(words: &[&str], bytes: &mut Vec<u8>) -> Result<(), String> {
    match *words {
        [] => {}
        ["tick", ms] => write(recording::TICK, &[decimal(ms)?], bytes),
        ["pay", "upper", upper] => write(recording::REQUEST, &[0x45, decimal(upper)?, 0], bytes),
        ["pay", "lower", lower] => write(recording::REQUEST, &[0x55, 0, decimal(lower)?], bytes),
        ["pay", "both", upper, lower] => write(recording::REQUEST, &[0x56, decimal(upper)?, decimal(lower)?], bytes),
        ["purge"] => write(recording::REQUEST, &[0x44, 0, 0], bytes),
        ["status"] => write(recording::REQUEST, &[0x46, 0, 0], bytes),
        ["test", "upper"] => write(recording::REQUEST, &[0x76, 0, 0], bytes),
        ["test", "lower"] => write(recording::REQUEST, &[0x77, 0, 0], bytes),
        ["request", code, upper, lower] => {
            write(recording::REQUEST, &[u32::from(hex(code)?), decimal(upper)?, decimal(lower)?], bytes)
        }
        ["reset"] => write(recording::ASK, &[0x30], bytes),
        ["poll"] => write(recording::ASK, &[0x33], bytes),
        ["stack"] => write(recording::ASK, &[0x35], bytes),
        ["return"] => write(recording::ASK, &[0x36], bytes),
        ["hold"] => write(recording::ASK, &[0x38], bytes),
        ["table"] => write(recording::ASK, &[0x41], bytes),
        ["clear"] => write(recording::CLEAR, &[], bytes),
        ["dispenser", ref line @ ..] => each(recording::DISPENSER_BYTE, line, bytes)?,
        ["validator", ref line @ ..] => each(recording::VALIDATOR_BYTE, line, bytes)?,
        ["raw", ref line @ ..] => {
            for word in line {
                bytes.push(hex(word)?);
            }
        }
        _ => return Err("not understood".into()),
    }
    Ok(())
}

/// A record of the kind for each byte of the line.
fn each(kind: u8, line: &[&str], bytes: &mut Vec<u8>) -> Result<(), String> {
    for word in line {
        write(kind, &[u32::from(hex(word)?)], bytes);
    }
    Ok(())
}

fn hex(word: &str) -> Result<u8, String> {
    u8::from_str_radix(word, 16).map_err(|_| format!("'{word}' is no byte in hex"))
}

fn decimal(word: &str) -> Result<u32, String> {
    word.parse().map_err(|_| format!("'{word}' is no number below 4,294,967,296"))
}

#[cfg(test)]
mod tests {
    use super::*;

    #[test]
    fn each_line_is_its_records() {
        let text =
            "tick 1000 x2 # two seconds\n\npay upper 10\ndispenser 06 95\nraw FF\npoll\nvalidator 02\nclear x2\n";
        let bytes = [2, 0xE8, 7, 2, 0xE8, 7, 0, 0x45, 10, 0, 1, 6, 1, 0x95, 1, 0xFF, 4, 0x33, 3, 2, 5, 5];
        assert_eq!(recording(text).unwrap(), bytes);
    }

    #[test]
    fn a_line_that_says_nothing_known_is_named() {
        assert_eq!(recording("poll\npay 10\n").unwrap_err(), "line 2: not understood: pay 10");
        assert!(recording("dispenser 1FF").is_err());
        assert!(recording("tick -1").is_err());
    }
}
