//! "Which notes make the sum" (Q-10 of document 02) by trying every count. It is for the tests, and for the timing: whoever goes
//! through the cassettes one by one does at most this.

use crate::payout::{in_range, Cassette, Most, Refused};

/// The most cassettes.
const CASSETTES: usize = 4;

/// Counts for the cassettes, and how many notes that is.
#[derive(Clone, Copy)]
struct Found {
    notes: u32,
    counts: [u32; CASSETTES],
}

/// How many notes to take from each cassette.
pub fn plan(amount: u32, cassettes: &[Cassette]) -> Result<Vec<u32>, Refused> {
    let most = in_range(amount, cassettes)?;
    let found = search(amount, cassettes, most).ok_or(Refused::NoPayout)?;
    Ok(found.counts[..cassettes.len()].to_vec())
}

/// "Work through the cassettes one by one, the rest of the job being the same job with one cassette fewer."
fn search(amount: u32, cassettes: &[Cassette], most: Most) -> Option<Found> {
    let Some((first, others)) = cassettes.split_first() else {
        return (amount == 0).then_some(Found { notes: 0, counts: [0; CASSETTES] });
    };
    let mut best: Option<Found> = None;
    for take in 0..=first.stock.min(most.each).min(most.in_all) {
        if take * first.value > amount {
            break;
        }
        let left = Most { each: most.each, in_all: most.in_all - take };
        let Some(rest) = search(amount - take * first.value, others, left) else { continue };
        let notes = take + rest.notes;
        if best.map_or(true, |best| notes <= best.notes) {
            let mut counts = [take, 0, 0, 0];
            counts[1..].copy_from_slice(&rest.counts[..CASSETTES - 1]);
            best = Some(Found { notes, counts });
        }
    }
    best
}
