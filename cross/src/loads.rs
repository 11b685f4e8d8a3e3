//! What replay is timed on: four kinds of recordings, each of an exact length.

use crate::ccnet_frame;
use crate::dispenser_frame::{answer, Code, Counted};
use crate::generate::fill;
use crate::random::Random;
use crate::recording::{self, write};

/// What appends a piece of a recording.
pub type Piece = fn(&mut Random, &mut Vec<u8>);

/// The kinds of recordings, by name.
pub const LOADS: [(&str, Piece); 4] =
    [("dispenser", payment), ("validator", polling), ("ticks", ticks), ("mixed", mixed)];

/// A recording of exactly so many bytes: pieces of one kind for as long as they fit, then ticks.
pub fn load(piece: Piece, seed: u64, length: usize) -> Vec<u8> {
    let mut random = Random::new(seed);
    let mut bytes = Vec::new();
    loop {
        let before = bytes.len();
        piece(&mut random, &mut bytes);
        // `fill` needs two bytes or none
        if bytes.len() > length - 2 {
            bytes.truncate(before);
            fill(&mut bytes, length);
            return bytes;
        }
    }
}

/// A quiet line, a payment and its answer, with a byte behind it that nobody asked for; now and then a refusal, or a wrong answer first.
fn payment(random: &mut Random, bytes: &mut Vec<u8>) {
    for _ in 0..6 {
        write(recording::TICK, &[1_000], bytes);
    }
    let (code, upper, lower) = random.pick(&[
        (Code::PayUpper, 10, 0),
        (Code::PayLower, 0, 15),
        (Code::PayBoth, 20, 7),
        (Code::Status, 0, 0),
        (Code::TestUpper, 0, 0),
    ]);
    write(recording::REQUEST, &[u32::from(code.byte()), upper, lower], bytes);
    if random.once_in(8) {
        write(recording::DISPENSER_BYTE, &[0x15], bytes);
    }
    write(recording::DISPENSER_BYTE, &[0x06], bytes);
    let counted = |asked: u32| Counted { chk: asked.min(29) as u8, exit: asked as u8, state: 0x30, rejects: 1 };
    let mut frame = answer(code, counted(upper), counted(lower), 0x30);
    if random.once_in(8) {
        let mut wrong = frame.clone();
        wrong[5] ^= 1;
        line(recording::DISPENSER_BYTE, &wrong, bytes);
    }
    frame.push(0x00);
    line(recording::DISPENSER_BYTE, &frame, bytes);
}

/// A poll and its answer.
fn polling(random: &mut Random, bytes: &mut Vec<u8>) {
    write(recording::TICK, &[20], bytes);
    write(recording::ASK, &[0x33], bytes);
    let body: &[u8] = random.pick(&[&[0x14][..], &[0x15], &[0x80, 3], &[0x81, 3], &[0x81, 4], &[0x1C, 0x60]]);
    line(recording::VALIDATOR_BYTE, &ccnet_frame::write(3, body).expect("a short body"), bytes);
}

fn ticks(random: &mut Random, bytes: &mut Vec<u8>) {
    let ms = random.pick(&[1, 10, 100, 250, 1_000]);
    write(recording::TICK, &[ms], bytes);
}

fn mixed(random: &mut Random, bytes: &mut Vec<u8>) {
    match random.below(8) {
        0 => payment(random, bytes),
        1..=4 => polling(random, bytes),
        _ => ticks(random, bytes),
    }
}

fn line(kind: u8, frame: &[u8], bytes: &mut Vec<u8>) {
    for &byte in frame {
        write(kind, &[u32::from(byte)], bytes);
    }
}

#[cfg(test)]
mod tests {
    use super::*;

    #[test]
    fn every_load_is_good_and_has_its_length() {
        for (name, piece) in LOADS {
            for length in [1_024, 65_536, 70_000] {
                let bytes = load(piece, 1, length);
                assert_eq!(bytes.len(), length);
                let bench = crate::replay::replay(&bytes).unwrap();
                assert!(bench.declined * 20 < bench.records, "{name}: {} of {}", bench.declined, bench.records);
            }
        }
    }
}
