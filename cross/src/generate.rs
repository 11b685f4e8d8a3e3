//! Recordings to try, each made from a seed and its place in the run alone.

use crate::bench::Simulation;
use crate::dispenser_frame::Code;
use crate::number;
use crate::quick;
use crate::random::Random;
use crate::recording;
use crate::tables;
use crate::validator;

#[derive(Clone, Copy, Debug, PartialEq, Eq)]
pub enum Family {
    /// A bench at work.
    Plausible,
    /// Payouts one after the other: about as many as are kept, or more.
    Many,
    /// A bench at work with a loose cable: payouts are lost in succession.
    Loose,
    /// A bench at work, with bytes changed, lost, added, moved or doubled.
    Damaged,
    /// Bills, and bill tables that value them.
    Tables,
    /// Records of every kind with numbers around every limit.
    Records,
    /// Any bytes.
    Bytes,
    /// A few bytes.
    Short,
    /// Around 65,536 bytes, and over them.
    Long,
}

/// Where the turns of `Many` begin, those of `Tables`, and those of `Long`.
const MANY: u64 = 37;
const TABLES: u64 = 72;
const LONG: u64 = 95;

/// A program may hold so many bytes of a recording at a time. It can go wrong where one piece ends and the next begins.
pub const PIECE: usize = 65_536;

impl Family {
    pub const ALL: [Family; 9] = [
        Family::Plausible,
        Family::Many,
        Family::Loose,
        Family::Damaged,
        Family::Tables,
        Family::Records,
        Family::Bytes,
        Family::Short,
        Family::Long,
    ];

    pub fn name(self) -> &'static str {
        match self {
            Family::Plausible => "plausible",
            Family::Many => "many",
            Family::Loose => "loose",
            Family::Damaged => "damaged",
            Family::Tables => "tables",
            Family::Records => "records",
            Family::Bytes => "bytes",
            Family::Short => "short",
            Family::Long => "long",
        }
    }

    /// The families take turns: of a hundred recordings, so many of each.
    fn of(index: u64) -> Family {
        match index * 37 % 100 {
            0..=36 => Family::Plausible,
            MANY..=44 => Family::Many,
            45..=56 => Family::Loose,
            57..=71 => Family::Damaged,
            TABLES..=80 => Family::Tables,
            81..=87 => Family::Records,
            88 => Family::Bytes,
            89..=94 => Family::Short,
            LONG.. => Family::Long,
        }
    }
}

/// The recording at `index` of the run with this seed.
pub fn recording(seed: u64, index: u64) -> (Family, Vec<u8>) {
    let mut random = Random::new(seed ^ index.wrapping_mul(0xD6E8_FEB8_6659_FD93));
    let random = &mut random;
    let family = Family::of(index);
    let bytes = match family {
        Family::Plausible => plausible(random),
        Family::Many => many(random, index / 100 * 8 + index * 37 % 100 - MANY),
        Family::Loose => loose(random),
        Family::Damaged => damaged(random),
        Family::Tables => tables::recording(random.word(), index / 100 * 9 + index * 37 % 100 - TABLES),
        Family::Records => records(random),
        Family::Bytes => any(random, 200),
        Family::Short => short(random),
        Family::Long => long(random, index / 100 * 5 + index * 37 % 100 - LONG),
    };
    (family, bytes)
}

fn plausible(random: &mut Random) -> Vec<u8> {
    let length = match random.below(10) {
        0 => random.within(2_000, 8_000),
        1..=4 => random.within(400, 2_000),
        _ => random.within(30, 600),
    };
    Simulation::new(random.word()).run(length as usize)
}

/// As many payouts as are kept, one fewer or more, or another number; they take turns, and so does whether the last is left open.
fn many(random: &mut Random, turn: u64) -> Vec<u8> {
    let payouts = match turn % 20 {
        0..=2 => 31,
        3..=5 => 32,
        6..=8 => 33,
        9..=11 => 64,
        12..=14 => 65,
        15 => random.within(1, 30),
        16..=17 => random.within(34, 63),
        18 => random.within(66, 95),
        _ => random.within(96, 130),
    };
    quick::recording(random.word(), payouts, turn / 20 % 3 != 0)
}

fn loose(random: &mut Random) -> Vec<u8> {
    let length = random.within(1_200, 4_000);
    let mut bytes = Simulation::loose(random.word()).run(length as usize);
    if random.once_in(10) {
        recording::write(recording::CLEAR, &[], &mut bytes);
    }
    bytes
}

fn damaged(random: &mut Random) -> Vec<u8> {
    let length = random.within(20, 800);
    let bench = if random.once_in(8) { Simulation::loose } else { Simulation::new };
    let mut bytes = bench(random.word()).run(length as usize);
    if random.below(5) < 3 {
        wrong(random, &mut bytes);
        return bytes;
    }
    for _ in 0..random.pick(&[1, 1, 1, 2, 4]) {
        damage(random, &mut bytes);
    }
    bytes
}

fn damage(random: &mut Random, bytes: &mut Vec<u8>) {
    if bytes.is_empty() {
        return;
    }
    let length = bytes.len();
    let place = random.below(length as u32) as usize;
    let some = place..(place + random.within(1, 12) as usize).min(length);
    match random.below(8) {
        0 => bytes[place] = random.byte(),
        1 => bytes[place] ^= 1 << random.below(8),
        2 => drop(bytes.remove(place)),
        3 => bytes.insert(place, random.byte()),
        4 => bytes.truncate(place),
        5 => drop(bytes.drain(some)),
        6 => {
            let again = bytes[some].to_vec();
            bytes.splice(place..place, again);
        }
        _ => bytes[place] |= 0x80,
    }
}

/// Records whose numbers lie around the limits, most of them good; often the last one is wrong.
fn records(random: &mut Random) -> Vec<u8> {
    let mut bytes = Vec::new();
    for _ in 0..random.within(1, 40) {
        record(random, &mut bytes);
    }
    if !random.once_in(4) {
        wrong(random, &mut bytes);
    }
    bytes
}

fn record(random: &mut Random, bytes: &mut Vec<u8>) {
    match random.below(67) {
        0..=9 => {
            let code = if random.once_in(40) { random.byte() } else { random.pick(&Code::ALL).byte() };
            let (upper, lower) = (value(random), value(random));
            recording::write(recording::REQUEST, &[u32::from(code), upper, lower], bytes);
        }
        10..=19 => {
            let byte = if random.once_in(60) { value(random) } else { u32::from(line_byte(random)) };
            recording::write(recording::DISPENSER_BYTE, &[byte], bytes);
        }
        20..=34 => {
            let ms =
                if random.once_in(10) { value(random) } else { random.pick(&[1, 9, 10, 20, 200, 400, 999, 1_000]) };
            recording::write(recording::TICK, &[ms], bytes);
        }
        35..=44 => {
            let byte = if random.once_in(60) { value(random) } else { u32::from(line_byte(random)) };
            recording::write(recording::VALIDATOR_BYTE, &[byte], bytes);
        }
        45..=52 => recording::write(recording::CLEAR, &[], bytes),
        _ => {
            let code = if random.once_in(60) { 0x34 } else { random.pick(&validator::Command::ALL).byte() };
            recording::write(recording::ASK, &[u32::from(code)], bytes);
        }
    }
}

/// A record that makes the recording bad, as the last one, and perhaps bytes behind it.
fn wrong(random: &mut Random, bytes: &mut Vec<u8>) {
    let request = u32::from(random.pick(&Code::ALL).byte());
    match random.below(14) {
        0..=6 => {
            // in each place that a number can have
            let (kind, before) = random.pick(&[(0, 0), (0, 1), (0, 2), (1, 0), (2, 0), (3, 0), (4, 0)]);
            recording::write(kind, &[request, value(random)][..before], bytes);
            wrong_number(random, bytes);
        }
        7..=8 => {
            let kind = [random.within(6, 15) as u8, random.within(16, 254) as u8, 0xFF];
            bytes.push(random.pick(&kind));
            bytes.extend(any(random, 4));
        }
        9..=10 => {
            // good but for what is above its eight lowest bits
            let above = 256 * random.pick(&[1, 2, 127, 0x00FF_FFFF]);
            let ask = u32::from(random.pick(&validator::Command::ALL).byte());
            let (counts, byte) = ([value(random), value(random)], u32::from(line_byte(random)));
            match random.below(4) {
                0 => recording::write(recording::REQUEST, &[request + above, counts[0], counts[1]], bytes),
                1 => recording::write(recording::DISPENSER_BYTE, &[byte + above], bytes),
                2 => recording::write(recording::VALIDATOR_BYTE, &[byte + above], bytes),
                _ => recording::write(recording::ASK, &[ask + above], bytes),
            }
        }
        _ => {
            // a code outside its list: judged after the record's numbers, one of which may be wrong or not there
            let code = random.pick(&[0x00, 0x30, 0x34, 0x43, 0x47, 0x57, 0x78, request + 256]);
            if random.once_in(4) {
                return recording::write(recording::ASK, &[random.pick(&[0x34, 0x31, 0x00, 0x45, 0x40, 0x42])], bytes);
            }
            recording::write(recording::REQUEST, &[code, value(random)], bytes);
            match random.below(4) {
                0..=1 => wrong_number(random, bytes),
                2 => {}
                _ => number::write(value(random), bytes),
            }
        }
    }
}

/// A number in a wrong form: more than five groups, not the shortest, over 32 bits, or cut short by the recording's end.
fn wrong_number(random: &mut Random, bytes: &mut Vec<u8>) {
    let form = random.below(11);
    let (groups, last) = match form {
        0 => (5, None),
        1..=4 => (form, Some(0x00)),
        5 => (4, Some(random.within(0x10, 0x7F) as u8)),
        _ => (form - 6, None),
    };
    bytes.extend((0..groups).map(|_| random.byte() | 0x80));
    bytes.extend(last);
    if form <= 5 && random.once_in(2) {
        bytes.extend(any(random, 3));
    }
}

fn line_byte(random: &mut Random) -> u8 {
    if random.once_in(4) {
        return random.byte();
    }
    random.pick(&[0x00, 0x01, 0x02, 0x03, 0x04, 0x06, 0x15, 0x30, 0x31, 0x45, 0x50, 0x81])
}

/// A number around a limit, or a small one.
pub fn value(random: &mut Random) -> u32 {
    match random.below(4) {
        0 => random.pick(&[0, 1, 59, 60, 61, 127, 128, 255, 256, 999, 1_000, 1_001]),
        1 => random.pick(&[16_383, 16_384, 2_097_151, 2_097_152, 268_435_455, 268_435_456, u32::MAX]),
        2 => random.below(61),
        _ => 0,
    }
}

/// Any bytes, so many at most.
fn any(random: &mut Random, most: u32) -> Vec<u8> {
    (0..random.below(most + 1)).map(|_| random.byte()).collect()
}

fn short(random: &mut Random) -> Vec<u8> {
    match random.below(4) {
        0 => any(random, 6),
        1..=2 => {
            let mut bytes = Vec::new();
            for _ in 0..random.below(4) {
                record(random, &mut bytes);
            }
            if !random.once_in(3) {
                wrong(random, &mut bytes);
            } else {
                bytes.truncate(random.below(bytes.len() as u32 + 1) as usize);
            }
            bytes
        }
        // bytes that a kind or a number could be
        _ => {
            (0..random.below(9)).map(|_| random.pick(&[0, 1, 2, 3, 4, 5, 0x33, 0x45, 0x80, 0xFF, 0x0F, 0x10])).collect()
        }
    }
}

/// A bench at work for about a piece, or more than a piece. They take turns, and so do the kinds of the record that lies across its end.
fn long(random: &mut Random, turn: u64) -> Vec<u8> {
    match turn % 20 {
        0..=3 => about_a_piece(random),
        4..=6 => over(random, None),
        place => over(random, Some(((turn / 20 * 13 + place) % 5) as u8)),
    }
}

fn about_a_piece(random: &mut Random) -> Vec<u8> {
    let length = match random.below(8) {
        0..=2 => PIECE,
        3 => PIECE - random.below(4) as usize,
        4..=6 => PIECE + random.within(1, 4) as usize,
        _ => random.within(20_000, 70_000) as usize,
    };
    let mut bytes = Simulation::new(random.word()).run(length - 32);
    if random.once_in(4) {
        // cut wherever it is
        bytes.truncate(length);
        return bytes;
    }
    fill(&mut bytes, length);
    bytes
}

/// The same bench at work over and over, up to a record that lies across the end of a piece. Either that one is wrong; or it is a good one of
/// this kind, the bench is at work once more, and then there may be a wrong one.
fn over(random: &mut Random, kind: Option<u8>) -> Vec<u8> {
    let end = PIECE * random.pick(&[1, 1, 1, 1, 2]);
    let length = random.within(1_000, 4_000) as usize;
    let some = Simulation::new(random.word()).run(length);
    let mut bytes = some.repeat((end - 32) / some.len());
    let Some(kind) = kind else {
        let mut across = Vec::new();
        // one that shows it at its second byte or further on
        while !matches!(across[..], [recording::REQUEST..=recording::ASK, _, ..]) {
            across.clear();
            wrong(random, &mut across);
        }
        fill(&mut bytes, end - 1);
        return [bytes, across].concat();
    };
    let across = good(random, kind);
    fill(&mut bytes, end - random.within(1, across.len() as u32 - 1) as usize);
    bytes.extend(across);
    bytes.extend(some);
    if random.below(5) < 3 {
        wrong(random, &mut bytes);
    }
    bytes
}

/// A good record of a kind that has numbers.
fn good(random: &mut Random, kind: u8) -> Vec<u8> {
    let mut bytes = Vec::new();
    let numbers = match kind {
        recording::REQUEST => vec![u32::from(random.pick(&Code::ALL).byte()), value(random), value(random)],
        recording::TICK => vec![random.pick(&[1, 127, 128, 1_000, 16_384, u32::MAX])],
        recording::ASK => vec![u32::from(random.pick(&validator::Command::ALL).byte())],
        _ => vec![u32::from(line_byte(random) | random.pick(&[0, 0x80]))],
    };
    recording::write(kind, &numbers, &mut bytes);
    bytes
}

/// Fills up to the length with ticks of two or three bytes; the bytes must be at least two short of it, or have it.
pub fn fill(bytes: &mut Vec<u8>, length: usize) {
    while bytes.len() < length {
        let ms = if (length - bytes.len()) % 2 == 1 { 1_000 } else { 1 };
        recording::write(recording::TICK, &[ms], bytes);
    }
}

#[cfg(test)]
mod tests {
    use super::*;

    #[test]
    fn the_same_seed_makes_the_same_recording() {
        for index in 0..200 {
            assert_eq!(recording(1, index), recording(1, index));
        }
        assert_ne!(recording(1, 0), recording(2, 0));
    }

    #[test]
    fn a_bench_at_work_makes_good_recordings() {
        for index in (0..500).filter(|&i| Family::of(i) == Family::Plausible) {
            let (_, bytes) = recording(7, index);
            let bench = crate::replay::replay(&bytes).unwrap();
            assert!(bench.dispenser.account().upper.balances() && bench.dispenser.account().lower.balances());
        }
    }

    #[test]
    fn filled_to_the_byte() {
        for start in 0..8 {
            let mut bytes = vec![2; start];
            fill(&mut bytes, 11);
            assert_eq!(bytes.len(), 11);
        }
    }
}
