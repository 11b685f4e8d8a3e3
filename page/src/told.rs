//! The text that `explain` writes, read line by line:
//!
//! ```text
//! 5,200 ms @18 request pay upper 10 | dispenser sends 04 50 02 45 31 30 03 11; booked upper asked 10 open 10
//!
//! requests
//! 45 upper 10 lower 0 handed 1 answered paid 10 0
//!
//! report
//! upper asked 10 paid 10 short 0 over 0 refused 0 unknown 0 open 0 rejected 0
//! ```

use crate::markup::number;
use std::io::{self, BufRead};

/// A record, or a run of them that is told in one line.
#[derive(Clone, Debug, PartialEq, Eq)]
pub struct Record {
    pub ms: u64,
    pub at: u64,
    /// What came.
    pub words: String,
    /// What the session made of it.
    pub parts: Vec<String>,
}

#[derive(Clone, Debug, PartialEq, Eq)]
pub enum Line {
    Record(Record),
    /// A line among the records that is none: where a recording is bad, say.
    Aside(String),
    Request(String),
    Report(String),
}

/// Gives each line of the text to `each`. Bytes that are no UTF-8 are read as U+FFFD.
pub fn read(mut text: impl BufRead, mut each: impl FnMut(Line)) -> io::Result<()> {
    let mut section = Section::Records;
    let mut bytes = Vec::new();
    while text.read_until(b'\n', &mut bytes)? > 0 {
        let line = String::from_utf8_lossy(&bytes);
        let line = line.trim_end();
        match line {
            "" => {}
            "requests" => section = Section::Requests,
            "report" => section = Section::Report,
            line => each(section.line(line)),
        }
        bytes.clear();
    }
    Ok(())
}

#[derive(Clone, Copy)]
enum Section {
    Records,
    Requests,
    Report,
}

impl Section {
    fn line(self, line: &str) -> Line {
        match self {
            Section::Records => record(line).map_or_else(|| Line::Aside(line.into()), Line::Record),
            Section::Requests => Line::Request(line.into()),
            Section::Report => Line::Report(line.into()),
        }
    }
}

/// `MS ms @OFFSET WORDS | PART; PART`
fn record(line: &str) -> Option<Record> {
    let (came, made) = line.split_once('|').unwrap_or((line, ""));
    let (ms, rest) = came.split_once(" ms @")?;
    let (at, words) = rest.split_once(' ').unwrap_or((rest, ""));
    let parts = made.split(';').map(str::trim).filter(|part| !part.is_empty()).map(String::from).collect();
    Some(Record { ms: number(ms.trim())?, at: number(at.trim())?, words: words.trim().into(), parts })
}

#[cfg(test)]
mod tests {
    use super::*;

    fn lines(text: &[u8]) -> Vec<Line> {
        let mut lines = Vec::new();
        read(text, |line| lines.push(line)).unwrap();
        lines
    }

    fn told(ms: u64, at: u64, words: &str, parts: &[&str]) -> Line {
        Line::Record(Record { ms, at, words: words.into(), parts: parts.iter().map(|&part| part.into()).collect() })
    }

    #[test]
    fn each_section() {
        let text = b"5,000 ms @0 tick 1000 x5\n\
                     5200 ms @18 request pay upper 10 | dispenser sends 04 50; booked upper asked 10 open 10\n\
                     bad 22 at 22: 01\n\
                     \n\
                     requests\n\
                     45 upper 10 lower 0 handed 1 open\n\
                     \n\
                     report\n\
                     bad 22 at 22\n";
        let wanted = [
            told(5_000, 0, "tick 1000 x5", &[]),
            told(5_200, 18, "request pay upper 10", &["dispenser sends 04 50", "booked upper asked 10 open 10"]),
            Line::Aside("bad 22 at 22: 01".into()),
            Line::Request("45 upper 10 lower 0 handed 1 open".into()),
            Line::Report("bad 22 at 22".into()),
        ];
        assert_eq!(lines(text), wanted);
    }

    #[test]
    fn any_bytes_are_lines() {
        assert_eq!(lines(b""), []);
        assert_eq!(lines(b"\xFF ms @1 x\n"), [Line::Aside("\u{FFFD} ms @1 x".into())]);
        assert_eq!(lines(b"1 ms @2"), [told(1, 2, "", &[])]);
        assert_eq!(lines(b"99999999999999999999 ms @2 poll"), [Line::Aside("99999999999999999999 ms @2 poll".into())]);
    }
}
