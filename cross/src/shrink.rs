//! The shortest recording that still shows a difference, by leaving out records and then bytes for as long as it stays.

use crate::recording;

/// How many candidates are tried at a time.
const AT_ONCE: usize = 256;

/// How many bytes are tried altogether: enough for any short recording, and a few seconds where only a long one shows it.
const BUDGET: usize = 1 << 26;

/// Shrinks a recording. `differ` says of each candidate whether it still shows the difference.
pub fn shrink<E>(recording: Vec<u8>, mut differ: impl FnMut(&[Vec<u8>]) -> Result<Vec<bool>, E>) -> Result<Vec<u8>, E> {
    let mut tried = 0;
    let mut shows = |candidates: &[Vec<u8>]| {
        if tried > BUDGET {
            return Ok(vec![false; candidates.len()]);
        }
        tried += candidates.iter().map(Vec::len).sum::<usize>();
        differ(candidates)
    };
    let mut parts = records(&recording);
    loop {
        let before = parts.concat().len();
        parts = fewer(parts, &mut shows)?;
        let bytes = parts.concat().into_iter().map(|byte| vec![byte]).collect();
        let kept = fewer(bytes, &mut shows)?.concat();
        if kept.len() == before {
            return Ok(kept);
        }
        parts = records(&kept);
    }
}

/// Leaves out runs of parts, long runs first.
fn fewer<E>(
    mut parts: Vec<Vec<u8>>,
    shows: &mut impl FnMut(&[Vec<u8>]) -> Result<Vec<bool>, E>,
) -> Result<Vec<Vec<u8>>, E> {
    let mut size = parts.len();
    while size > 0 {
        let mut from = 0;
        while from < parts.len() {
            let starts: Vec<usize> = (from..parts.len()).step_by(size).take(AT_ONCE).collect();
            let candidates: Vec<Vec<u8>> = starts.iter().map(|&at| without(&parts, at, size)).collect();
            match shows(&candidates)?.iter().position(|&still| still) {
                Some(found) => {
                    from = starts[found];
                    parts.drain(from..(from + size).min(parts.len()));
                }
                None => from = starts[starts.len() - 1] + size,
            }
        }
        size /= 2;
    }
    Ok(parts)
}

fn without(parts: &[Vec<u8>], at: usize, size: usize) -> Vec<u8> {
    let end = (at + size).min(parts.len());
    [parts[..at].concat(), parts[end..].concat()].concat()
}

/// The records of a recording, and what follows the last good one byte by byte.
fn records(bytes: &[u8]) -> Vec<Vec<u8>> {
    let mut parts = Vec::new();
    let mut at = 0;
    let mut records = recording::records(bytes);
    while let Some(Ok(_)) = records.next() {
        parts.push(bytes[at..records.at()].to_vec());
        at = records.at();
    }
    parts.extend(bytes[at..].iter().map(|&byte| vec![byte]));
    parts
}

#[cfg(test)]
mod tests {
    use super::*;
    use std::convert::Infallible;

    fn shrunk(bytes: Vec<u8>, shows: impl Fn(&[u8]) -> bool) -> Vec<u8> {
        let all = |some: &[Vec<u8>]| Ok::<_, Infallible>(some.iter().map(|one| shows(one)).collect());
        shrink(bytes, all).unwrap_or_else(|never| match never {})
    }

    #[test]
    fn only_what_shows_it_is_left() {
        let (_, bytes) = crate::generate::recording(3, 0);
        let good = |bytes: &[u8]| crate::replay::replay(bytes).is_ok_and(|bench| bench.records >= 2);
        assert!(good(&bytes));
        assert_eq!(shrunk(bytes, good).len(), 4);
        assert_eq!(shrunk(vec![1, 6, 0xFF, 0xFF, 0xFF, 7], |bytes| bytes.contains(&7)), [7]);
    }
}
