//! Pairs of recordings that part somewhere (Q-8 of document 02), each made from a seed and its place in the run alone.

use crate::bench::Simulation;
use crate::dispenser_frame::{Code, Command};
use crate::generate::{fill, value};
use crate::random::Random;
use crate::recording::{self, Record};
use crate::validator;

#[derive(Clone, Debug, Default, PartialEq, Eq)]
pub struct Pair {
    pub student: Vec<u8>,
    pub reference: Vec<u8>,
}

impl Pair {
    /// One recording and what was made of it, in either order.
    fn either(random: &mut Random, one: Vec<u8>, other: Vec<u8>) -> Pair {
        if random.once_in(2) {
            Pair { student: one, reference: other }
        } else {
            Pair { student: other, reference: one }
        }
    }
}

/// The most bytes of a short recording.
pub const MOST: usize = 200;

fn random(seed: u64, of: u64, index: u64) -> Random {
    Random::new(seed.wrapping_mul(0x2545_F491_4F6C_DD1D) ^ of << 48 ^ index)
}

/// A pair of short recordings: in turn a very short one that was changed at each of its places, and any.
pub fn short(seed: u64, index: u64) -> Pair {
    if index % 2 == 0 {
        return at_every_place(seed, index / 2);
    }
    let random = &mut random(seed, 0, index);
    let mut pair = match random.below(50) {
        0..=2 => Pair::default(),
        3..=4 => Pair { student: Vec::new(), reference: some(random, MOST) },
        5..=6 => Pair { student: some(random, MOST), reference: Vec::new() },
        7..=9 => {
            let one = some(random, MOST);
            Pair { student: one.clone(), reference: one }
        }
        10..=39 => from_one_place(random),
        _ => {
            let one = some(random, MOST - 40);
            let last = one.len() as u32;
            let first = if random.once_in(2) { last / 2 } else { 0 };
            let place = random.within(first, last) as usize;
            let mut other = one.clone();
            change(random, &mut other, place);
            if random.once_in(6) {
                let place = random.below(other.len() as u32 + 1) as usize;
                change(random, &mut other, place);
            }
            Pair::either(random, one, other)
        }
    };
    pair.student.truncate(MOST);
    pair.reference.truncate(MOST);
    pair
}

/// How long the recordings are that are changed at each of their places.
const PLACES: usize = 20;

/// A recording that is cut, changed and made longer at each of its places, one after the other, and left as it is once.
fn at_every_place(seed: u64, turn: u64) -> Pair {
    let turns = 3 * (PLACES as u64 + 1) + 1;
    let base = some(&mut random(seed, 1, turn / turns), PLACES);
    let random = &mut random(seed, 2, turn);
    let (what, place) = (turn % turns % 3, (turn % turns / 3) as usize);
    let place = if place <= base.len() { place } else { random.below(base.len() as u32 + 1) as usize };
    let mut other = base.clone();
    match what {
        _ if turn % turns == turns - 1 => {}
        0 => other.truncate(place),
        1 => turn_byte(random, &mut other, place),
        _ => lengthen(random, &mut other, place),
    }
    Pair::either(random, base, other)
}

/// Changes a recording at a place.
fn change(random: &mut Random, bytes: &mut Vec<u8>, place: usize) {
    match random.below(5) {
        0 => bytes.truncate(place),
        1..=2 => turn_byte(random, bytes, place),
        3 => drop(bytes.drain(place..(place + random.within(1, 4) as usize).min(bytes.len()))),
        _ => lengthen(random, bytes, place),
    }
}

/// Another byte at a place, or one more where there is none.
fn turn_byte(random: &mut Random, bytes: &mut Vec<u8>, place: usize) {
    let any = random.byte();
    match bytes.get_mut(place) {
        None => bytes.push(any),
        Some(byte) => {
            *byte = match random.below(4) {
                0 => any,
                1 => *byte ^ 0x80,
                2 => random.below(6) as u8,
                _ => *byte ^ 1 << random.below(7),
            }
        }
    }
}

/// A byte, a record, or one that is wrong, put in at a place.
fn lengthen(random: &mut Random, bytes: &mut Vec<u8>, place: usize) {
    let more = match random.below(6) {
        0..=1 => vec![random.pick(&[0x00, 0x80, 0x05, 0x02, 0xFF])],
        2 => {
            let number = random.within(21, 23);
            wrong(random, number)
        }
        _ => written(record(random)),
    };
    bytes.splice(place..place, more);
}

/// Some records, so many bytes at most; sometimes the last one is wrong.
fn some(random: &mut Random, most: usize) -> Vec<u8> {
    let mut bytes = Vec::new();
    let length = random.below(most as u32 + 1) as usize;
    loop {
        let mut more = written(record(random));
        let last = bytes.len() + more.len() > length;
        if last {
            if bytes.is_empty() {
                return vec![recording::CLEAR];
            }
            if !random.once_in(5) {
                return bytes;
            }
            let number = random.within(21, 23);
            more = wrong(random, number);
            if bytes.len() + more.len() > most {
                return bytes;
            }
        }
        bytes.extend(more);
        if last {
            return bytes;
        }
    }
}

fn written(record: Record) -> Vec<u8> {
    let mut bytes = Vec::new();
    record.write(&mut bytes);
    bytes
}

/// A record of any kind.
fn record(random: &mut Random) -> Record {
    match random.below(6) {
        0 => Record::Request(Command { code: random.pick(&Code::ALL), upper: value(random), lower: value(random) }),
        1 => Record::DispenserByte(random.byte()),
        2 => Record::Tick(value(random)),
        3 => Record::ValidatorByte(random.byte()),
        4 => Record::Ask(random.pick(&validator::Command::ALL)),
        _ => Record::Clear,
    }
}

/// A record that is nearly the same.
fn near(random: &mut Random, one: Record) -> Record {
    let bit = 1 << random.below(32);
    let byte = 1 << random.below(8);
    match one {
        Record::Request(command) => Record::Request(match random.below(3) {
            0 => Command { code: random.pick(&Code::ALL), ..command },
            1 => Command { upper: command.upper ^ bit, ..command },
            _ => Command { lower: command.lower ^ bit, ..command },
        }),
        Record::DispenserByte(b) => Record::DispenserByte(b ^ byte),
        Record::Tick(ms) => Record::Tick(ms ^ bit),
        Record::ValidatorByte(b) => Record::ValidatorByte(b ^ byte),
        Record::Ask(_) => Record::Ask(random.pick(&validator::Command::ALL)),
        Record::Clear => record(random),
    }
}

/// A record with 21, 22 or 23.
fn wrong(random: &mut Random, number: u32) -> Vec<u8> {
    let good = written(record(random));
    match number {
        21 => {
            // in each place that a number can have
            let (kind, before) = random.pick(&[(0, 0), (0, 1), (0, 2), (1, 0), (2, 0), (3, 0), (4, 0)]);
            let mut bytes = Vec::new();
            recording::write(kind, &[0x45, value(random)][..before], &mut bytes);
            match random.below(3) {
                0 => bytes.extend([0x80; 5]),
                1 => bytes.extend([0xFF, 0xFF, 0xFF, 0xFF, random.within(0x10, 0x7F) as u8]),
                _ => {
                    bytes.extend(&[0x80, 0x81, 0xFF, 0x80][..random.within(1, 4) as usize]);
                    bytes.push(0x00);
                }
            }
            bytes
        }
        22 if good.len() > 1 => good[..random.within(1, good.len() as u32 - 1) as usize].to_vec(),
        22 => vec![random.below(5) as u8],
        _ => {
            let mut bytes = Vec::new();
            match random.below(4) {
                0 => recording::write(random.within(6, 255) as u8, &[], &mut bytes),
                1 => recording::write(random.pick(&[1, 3]), &[random.pick(&[256, 262, u32::MAX])], &mut bytes),
                2 => recording::write(0, &[random.pick(&[0x47, 0x33, 0x145]), 1, 0], &mut bytes),
                _ => recording::write(4, &[random.pick(&[0x34, 0x45, 0x133])], &mut bytes),
            }
            bytes
        }
    }
}

/// The record with a needless group in its last number, if it has one.
fn in_long_form(record: Record) -> Vec<u8> {
    let mut bytes = written(record);
    if bytes.len() > 1 {
        let last = bytes.len() - 1;
        bytes[last] |= 0x80;
        bytes.push(0x00);
    }
    bytes
}

/// Some equal records, and then what goes on in each: nothing, a record, or one that is wrong.
fn from_one_place(random: &mut Random) -> Pair {
    let mut both = Vec::new();
    let few = random.within(0, 3);
    for _ in 0..random.pick(&[0, 1, few, few, 10, 40]) {
        both.extend(written(record(random)));
    }
    let one = record(random);
    let other = if random.once_in(2) { record(random) } else { near(random, one) };
    let wrongs = [random.within(21, 23), random.within(21, 23)];
    let [first, second] = wrongs.map(|number| wrong(random, number));
    // whether something may follow
    let (one, other, goes_on) = match random.below(48) {
        0..=17 => (first, second, [wrongs[0] != 22, wrongs[1] != 22]),
        18..=19 => (first.clone(), first, [wrongs[0] != 22; 2]),
        20..=22 => (in_long_form(one), written(one), [true, true]),
        23..=25 => (written(one), in_long_form(one), [true, true]),
        26..=29 => (first, written(other), [wrongs[0] != 22, true]),
        30..=33 => (written(one), second, [true, wrongs[1] != 22]),
        34..=35 => (first, Vec::new(), [wrongs[0] != 22, false]),
        36..=38 => (Vec::new(), second, [false, wrongs[1] != 22]),
        39..=40 => (written(one), Vec::new(), [true, false]),
        41..=42 => (Vec::new(), written(other), [false, true]),
        _ => (written(one), written(other), [true, true]),
    };
    let [student, reference] = [(one, goes_on[0]), (other, goes_on[1])].map(|(next, goes_on)| {
        let mut bytes = both.clone();
        bytes.extend(next);
        if goes_on && random.once_in(2) {
            bytes.extend(some(random, 20));
        }
        bytes
    });
    Pair { student, reference }
}

/// What a program holds of a file at a time, at most: here it may go wrong.
pub const WINDOW: usize = 65_536;

/// A pair of recordings that may be long: they part, are bad or end near a multiple of the window, or anywhere.
pub fn long(seed: u64, index: u64) -> Pair {
    let random = &mut random(seed, 3, index);
    if index % 5 == 0 {
        return if random.once_in(12) { Pair::default() } else { short(seed, index / 5) };
    }
    let (mut one, place) = if random.once_in(2) { across(random) } else { anywhere(random) };
    let length = one.len();
    let mut other = one.clone();
    match random.below(12) {
        0 => {}
        1 => {
            // both, in the same way
            change(random, &mut other, place);
            one = other.clone();
        }
        2..=5 => {
            let number = random.within(21, 23);
            let bad = wrong(random, number);
            replace(&mut other, place, if number == 22 { length } else { place + 8 }, &bad);
        }
        6 => other.truncate(place),
        7 => replace(&mut other, place, length, &[]),
        _ => change(random, &mut other, place),
    }
    Pair::either(random, one, other)
}

/// A bench at work for so long that the recording has so many bytes.
fn bench(random: &mut Random, length: usize) -> Vec<u8> {
    let mut bytes = Simulation::new(random.word()).run(length - 60);
    fill(&mut bytes, length);
    bytes
}

/// A recording, and a place in it: near a multiple of the window, or anywhere.
fn anywhere(random: &mut Random) -> (Vec<u8>, usize) {
    let windows = random.within(1, 3) as usize;
    let near = |random: &mut Random| windows * WINDOW - 40 + random.within(0, 80) as usize;
    let length = match random.below(6) {
        0 => random.within(1_000, 250_000) as usize,
        1..=2 => near(random),
        _ => windows * WINDOW + random.within(100, 70_000) as usize,
    };
    let place = match random.below(8) {
        0 => length,
        1 => random.below(1_000) as usize,
        2 => random.below(length as u32 + 1) as usize,
        3 => near(random).min(length),
        _ => (windows * WINDOW - 4 + random.below(8) as usize).min(length),
    };
    (bench(random, length), place)
}

/// A recording with a long record across a multiple of the window, or before it where the second part of the file that a program holds
/// may end, and a place in that record.
fn across(random: &mut Random) -> (Vec<u8>, usize) {
    let windows = random.within(1, 3);
    let at = windows * WINDOW as u32 - random.within(1, if windows == 1 { 11 } else { 26 });
    let mut bytes = bench(random, at as usize);
    let mut count = || random.within(1 << 28, u32::MAX);
    let command = Command { code: Code::PayBoth, upper: count(), lower: count() };
    Record::Request(command).write(&mut bytes);
    let place = at + random.below(bytes.len() as u32 - at);
    if random.once_in(2) {
        let more = random.within(100, 70_000) as usize;
        bytes.extend(bench(random, more));
    }
    (bytes, place as usize)
}

/// Puts bytes where the record begins that holds a place, or behind the last record before it, up to an offset.
fn replace(bytes: &mut Vec<u8>, place: usize, upto: usize, with: &[u8]) {
    let mut records = recording::records(bytes);
    let mut at = 0;
    while let Some(Ok(_)) = records.next() {
        if records.at() > place {
            break;
        }
        at = records.at();
    }
    let upto = upto.clamp(at, bytes.len());
    bytes.splice(at..upto, with.iter().copied());
}

#[cfg(test)]
mod tests {
    use super::*;
    use crate::recording::{Bad, Fault};

    #[test]
    fn the_same_seed_makes_the_same_pair_and_a_short_one_is_short() {
        for index in 0..2_000 {
            let pair = short(1, index);
            assert_eq!(pair, short(1, index));
            assert!(pair.student.len() <= MOST && pair.reference.len() <= MOST);
        }
        assert_ne!(short(1, 1), short(2, 1));
        for index in 0..10 {
            assert_eq!(long(1, index), long(1, index));
        }
    }

    #[test]
    fn a_wrong_record_has_its_number() {
        let random = &mut Random::new(1);
        for _ in 0..1_000 {
            for (number, fault) in [(21, Fault::Number), (22, Fault::Cut), (23, Fault::Unknown)] {
                let bytes = wrong(random, number);
                let first = recording::records(&bytes).next();
                assert_eq!(first, Some(Err(Bad { fault, at: 0 })), "{bytes:02X?}");
            }
        }
    }

    #[test]
    fn a_needless_group_makes_a_record_wrong() {
        let random = &mut Random::new(1);
        for _ in 0..1_000 {
            let one = record(random);
            let read = recording::records(&in_long_form(one)).next();
            match one {
                Record::Clear => assert_eq!(read, Some(Ok(one))),
                _ => assert_eq!(read, Some(Err(Bad { fault: Fault::Number, at: 0 })), "{one:?}"),
            }
        }
    }

    #[test]
    fn each_place_of_a_very_short_recording_is_cut() {
        let cut: Vec<usize> = (0..63)
            .filter(|turn| turn % 3 == 0)
            .map(|turn| {
                let Pair { student, reference } = at_every_place(1, turn);
                student.len().min(reference.len())
            })
            .collect();
        let longest = *cut.iter().max().unwrap();
        assert!((0..=longest).all(|length| cut.contains(&length)), "{cut:?}");
    }
}
