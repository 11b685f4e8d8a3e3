//! Lines as they are typed.

use std::io::{self, BufRead};

/// The lines, without their ends. Where a byte is not UTF-8, U+FFFD stands in its place: no order has that, so the line is not understood, and the
/// next one is read. Where nothing more can be read, why is the last that comes.
pub fn lines(mut from: impl BufRead) -> impl Iterator<Item = io::Result<String>> {
    let mut failed = false;
    std::iter::from_fn(move || {
        if failed {
            return None;
        }
        let mut line = Vec::new();
        match from.read_until(b'\n', &mut line) {
            Ok(0) => None,
            Ok(_) => Some(Ok(text(&line))),
            Err(why) => {
                failed = true;
                Some(Err(why))
            }
        }
    })
}

fn text(line: &[u8]) -> String {
    let line = line.strip_suffix(b"\n").unwrap_or(line);
    let line = line.strip_suffix(b"\r").unwrap_or(line);
    String::from_utf8_lossy(line).into_owned()
}

#[cfg(test)]
mod tests {
    use super::*;
    use std::io::{BufReader, Read};

    fn read(from: impl BufRead) -> Vec<Result<String, String>> {
        lines(from).map(|line| line.map_err(|why| why.to_string())).collect()
    }

    #[test]
    fn every_line_comes() {
        let typed = b"status\n\xFFpay upper 1\r\n\n\xC3\xA4 \xC3\nquit";
        let wanted = ["status", "\u{FFFD}pay upper 1", "", "\u{E4} \u{FFFD}", "quit"];
        assert_eq!(read(&typed[..]), wanted.map(|line| Ok(line.into())));
        assert_eq!(read(&b""[..]), []);
    }

    #[test]
    fn why_no_more_can_be_read_comes_once() {
        struct Broken;
        impl Read for Broken {
            fn read(&mut self, _: &mut [u8]) -> io::Result<usize> {
                Err(io::Error::other("broken"))
            }
        }
        assert_eq!(read(b"status\n".chain(BufReader::new(Broken))), [Ok("status".into()), Err("broken".into())]);
    }
}
