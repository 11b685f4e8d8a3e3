//! The words that `desk` is started with.

use crate::filter::Program;
use crate::hex;
use crate::line::{Parity, Settings};
use std::ffi::OsString;
use std::path::PathBuf;

pub const USAGE: &str = "\
usage: desk --record FILE | --resume FILE  [--dispenser DEVICE] [--validator DEVICE] [OPTION..]

Speaks to both units, and writes down what it saw. Orders are lines on standard input; help lists them.

  --record FILE            a new recording; FILE must not exist
  --resume FILE            goes on with a recording: after a crash this is the way back
  --dispenser DEVICE       a serial line, as /dev/ttyUSB0, or unix:PATH where a pretend unit is
  --validator DEVICE       the same; either may be left out
  --switched-on            the dispenser was switched off and on: no old answer can be on its way, and payouts are taken at once
  --bills 'FF FF FF 00 00 00'   enables bill types before the recording begins: the six bytes of 34h
  --dispenser-line 9600,even    speed and parity (none, even, odd)
  --validator-line 9600,none
  --slack 2                milliseconds that a byte may take from the line to this program
  --clock orders           for tests: time passes by the order wait alone
";

/// What the lines are set to where nothing is said: 000 has 9,600 and even parity, 003 has 9,600 or 19,200 and none.
const DISPENSER: Settings = Settings { speed: 9_600, parity: Parity::Even };
const VALIDATOR: Settings = Settings { speed: 9_600, parity: Parity::None };

#[derive(Clone, Debug)]
pub struct Options {
    pub file: PathBuf,
    pub resume: bool,
    pub switched_on: bool,
    /// The dispenser's and the validator's.
    pub devices: [Option<String>; 2],
    pub settings: [Settings; 2],
    pub bills: Option<Vec<u8>>,
    pub slack: u64,
    pub ordered: bool,
    pub host: Program,
    pub replay: Program,
    pub requests: Program,
    pub enable_bills: Program,
}

/// The options, or what is wrong with them.
pub fn options(words: impl IntoIterator<Item = OsString>) -> Result<Options, String> {
    let mut words = words.into_iter();
    let mut options = Options {
        file: PathBuf::new(),
        resume: false,
        switched_on: false,
        devices: [None, None],
        settings: [DISPENSER, VALIDATOR],
        bills: None,
        slack: 2,
        ordered: false,
        host: Program::default(),
        replay: Program::default(),
        requests: Program::default(),
        enable_bills: Program::default(),
    };
    let mut runner = None;
    while let Some(word) = words.next() {
        let name = word.to_string_lossy().into_owned();
        if name == "--switched-on" {
            options.switched_on = true;
            continue;
        }
        let value = words.next().ok_or_else(|| format!("{name} has no value, or is no option"))?;
        let text = || value.to_str().map(String::from).ok_or_else(|| format!("{name}: not understood"));
        let wrong = || format!("{name}: not understood: {}", value.to_string_lossy());
        match name.as_str() {
            "--record" | "--resume" if options.file.as_os_str().is_empty() => {
                options.resume = name == "--resume";
                options.file = value.into();
            }
            "--record" | "--resume" => return Err("one recording is written, and two were named".into()),
            "--dispenser" => options.devices[0] = Some(text()?),
            "--validator" => options.devices[1] = Some(text()?),
            "--dispenser-line" => options.settings[0] = Settings::read(&text()?).ok_or_else(wrong)?,
            "--validator-line" => options.settings[1] = Settings::read(&text()?).ok_or_else(wrong)?,
            "--bills" => options.bills = Some(hex::bytes(&text()?).filter(|bytes| bytes.len() == 6).ok_or_else(wrong)?),
            "--slack" => options.slack = text()?.parse().ok().filter(|&ms: &u64| ms <= 1_000).ok_or_else(wrong)?,
            "--clock" if value == "orders" => options.ordered = true,
            "--runner" => runner = Some(PathBuf::from(value)),
            "--host" => options.host.file = value.into(),
            "--replay" => options.replay.file = value.into(),
            "--requests" => options.requests.file = value.into(),
            "--enable-bills" => options.enable_bills.file = value.into(),
            _ => return Err(wrong()),
        }
    }
    if options.file.as_os_str().is_empty() {
        return Err("no recording was named".into());
    }
    if options.resume && options.switched_on {
        return Err("--switched-on is for a new recording: one that goes on has its own quiet time".into());
    }
    for program in [&mut options.host, &mut options.replay, &mut options.requests, &mut options.enable_bills] {
        program.runner = runner.clone();
    }
    Ok(options)
}

#[cfg(test)]
mod tests {
    use super::*;

    fn read(words: &str) -> Result<Options, String> {
        options(words.split_whitespace().map(OsString::from))
    }

    #[test]
    fn what_is_understood() {
        let options = read(
            "--record a.rec --dispenser /dev/ttyUSB0 --validator unix:/tmp/v --validator-line 19200,none --switched-on",
        )
        .unwrap();
        assert_eq!(options.file, PathBuf::from("a.rec"));
        assert!(!options.resume && options.switched_on && !options.ordered);
        assert_eq!(options.devices[1].as_deref(), Some("unix:/tmp/v"));
        assert_eq!(options.settings, [DISPENSER, Settings { speed: 19_200, parity: Parity::None }]);
        assert!(read("--resume a.rec --clock orders").is_ok_and(|options| options.resume && options.ordered));
        assert_eq!(
            super::options(["--record", "a", "--bills", "FF FF FF 00 00 00"].map(OsString::from))
                .unwrap()
                .bills
                .map(|b| b.len()),
            Some(6)
        );
    }

    #[test]
    fn what_is_not() {
        for words in [
            "",
            "--record",
            "--record a --resume b",
            "--dispenser x",
            "--record a --slack x",
            "--record a --clock sun",
            "--resume a --switched-on",
            "--record a --bills FF",
            "--what x",
        ] {
            assert!(read(words).is_err(), "{words}");
        }
    }
}
