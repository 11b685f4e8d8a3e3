//! "Which notes make the sum" (Q-10 of document 02), by dynamic programming: from the last cassette to the first a table of the
//! sums that can be made, each with its fewest notes.

use crate::dispenser_frame::{Code, Command};
use std::collections::BTreeMap;

/// A cassette: the value of its notes, and how many it holds.
#[derive(Clone, Copy, Debug, PartialEq, Eq)]
pub struct Cassette {
    pub value: u32,
    pub stock: u32,
}

/// "each with a note value of 1 to 1,000,000 and a stock of 0 to 2,000"
pub const VALUE: u32 = 1_000_000;
pub const STOCK: u32 = 2_000;
/// "an amount up to 10,000,000"
pub const AMOUNT: u32 = 10_000_000;

/// Why there is no plan.
#[derive(Clone, Copy, Debug, PartialEq, Eq)]
pub enum Refused {
    Range,
    NoPayout,
}

impl Refused {
    pub fn number(self) -> u8 {
        match self {
            Refused::Range => 2,
            Refused::NoPayout => 8,
        }
    }
}

/// How many notes may be taken: from each cassette, and in all.
#[derive(Clone, Copy, Debug, PartialEq, Eq)]
pub struct Most {
    pub each: u32,
    pub in_all: u32,
}

impl Most {
    /// "at most 60 from each of two cassettes, or 20 in all from four"; there is no payout from another number of cassettes.
    pub fn of(cassettes: usize) -> Option<Most> {
        match cassettes {
            2 => Some(Most { each: 60, in_all: 120 }),
            4 => Some(Most { each: 20, in_all: 20 }),
            _ => None,
        }
    }
}

/// How many notes may be taken from the cassettes, if everything is in its range.
pub fn in_range(amount: u32, cassettes: &[Cassette]) -> Result<Most, Refused> {
    let good = |cassette: &Cassette| (1..=VALUE).contains(&cassette.value) && cassette.stock <= STOCK;
    let most = Most::of(cassettes.len()).filter(|_| amount <= AMOUNT && cassettes.iter().all(good));
    most.ok_or(Refused::Range)
}

/// How many notes to take from each cassette.
pub fn plan(amount: u32, cassettes: &[Cassette]) -> Result<Vec<u32>, Refused> {
    let most = in_range(amount, cassettes)?;
    fewest(amount, cassettes, most).ok_or(Refused::NoPayout)
}

/// The command that a plan for two cassettes becomes, "by which counts are not zero"; none for two zeros.
pub fn command(upper: u32, lower: u32) -> Option<Command> {
    let code = match (upper > 0, lower > 0) {
        (true, false) => Code::PayUpper,
        (false, true) => Code::PayLower,
        (true, true) => Code::PayBoth,
        (false, false) => return None,
    };
    Some(Command { code, upper, lower })
}

/// The best way to make a sum from a cassette and those behind it: how many notes in all, and how many from this one.
#[derive(Clone, Copy)]
struct Best {
    notes: u32,
    take: u32,
}

/// "The answer has the fewest notes; among equals the most from the first cassette, then the second, and so on." For any number
/// of cassettes whose notes have a value.
///
/// If so many from the first cassette are right, the rest of the sum has the fewest notes too. So one entry for each sum is enough.
pub fn fewest(amount: u32, cassettes: &[Cassette], most: Most) -> Option<Vec<u32>> {
    // what the cassettes behind can make; to begin with, nothing of none
    let mut tables = vec![BTreeMap::from([(0, Best { notes: 0, take: 0 })])];
    for cassette in cassettes.iter().rev() {
        let behind = &tables[tables.len() - 1];
        let mut sums: BTreeMap<u32, Best> = BTreeMap::new();
        for take in 0..=cassette.stock.min(most.each) {
            let Some(taken) = cassette.value.checked_mul(take).filter(|&taken| taken <= amount) else { break };
            for (&rest, best) in behind.range(..=amount - taken) {
                let notes = take + best.notes;
                if notes <= most.in_all && sums.get(&(taken + rest)).map_or(true, |best| notes <= best.notes) {
                    // as many notes, and more of them from this cassette: `take` rises
                    sums.insert(taken + rest, Best { notes, take });
                }
            }
        }
        tables.push(sums);
    }
    // from the first cassette on, what is left of the amount says how many to take
    let mut left = amount;
    let mut counts = Vec::new();
    for (cassette, table) in cassettes.iter().zip(tables.iter().rev()) {
        let take = table.get(&left)?.take;
        counts.push(take);
        left -= take * cassette.value;
    }
    Some(counts)
}

#[cfg(test)]
mod tests {
    use super::*;
    use crate::payout_search;
    use crate::random::Random;
    use std::cmp::Reverse;

    fn cassettes(pairs: &[(u32, u32)]) -> Vec<Cassette> {
        pairs.iter().map(|&(value, stock)| Cassette { value, stock }).collect()
    }

    fn planned(amount: u32, pairs: &[(u32, u32)]) -> Result<Vec<u32>, u8> {
        plan(amount, &cassettes(pairs)).map_err(Refused::number)
    }

    /// "a definition which simply ranges over the counts": of all allowed counts that make the amount, the fewest notes, and among
    /// equals the greatest counts, the first before the second.
    fn defined(amount: u32, cassettes: &[Cassette]) -> Option<Vec<u32>> {
        let two = cassettes.len() == 2;
        let most: Vec<u32> = cassettes.iter().map(|one| one.stock.min(if two { 60 } else { 20 })).collect();
        let mut counts = vec![0; cassettes.len()];
        let mut best: Option<Vec<u32>> = None;
        loop {
            let notes = |counts: &[u32]| counts.iter().sum::<u32>();
            let sum: u32 = counts.iter().zip(cassettes).map(|(count, one)| count * one.value).sum();
            if sum == amount && (two || notes(&counts) <= 20) {
                let key = |counts: &Vec<u32>| (Reverse(notes(counts)), counts.clone());
                if best.as_ref().map_or(true, |best| key(&counts) > key(best)) {
                    best = Some(counts.clone());
                }
            }
            // the next counts, as a number with a digit for each cassette
            let Some(place) = (0..counts.len()).find(|&place| counts[place] < most[place]) else { return best };
            counts[..place].fill(0);
            counts[place] += 1;
        }
    }

    #[test]
    fn the_fewest_notes() {
        assert_eq!(planned(60, &[(10, 9), (20, 9)]), Ok(vec![0, 3]));
        assert_eq!(planned(70, &[(10, 9), (20, 9)]), Ok(vec![1, 3]));
        // the largest first would take 4, 1 and 1
        assert_eq!(planned(6, &[(1, 20), (3, 20), (4, 20), (50, 20)]), Ok(vec![0, 2, 0, 0]));
        // the largest first would find nothing
        assert_eq!(planned(60, &[(50, 9), (20, 9)]), Ok(vec![0, 3]));
    }

    #[test]
    fn among_equals_the_most_from_the_first_then_the_second() {
        assert_eq!(planned(50, &[(10, 2_000), (10, 2_000)]), Ok(vec![5, 0]));
        assert_eq!(planned(50, &[(10, 3), (10, 2_000)]), Ok(vec![3, 2]));
        // 10 + 40 or 20 + 30
        assert_eq!(planned(50, &[(10, 9), (20, 9), (30, 9), (40, 9)]), Ok(vec![1, 0, 0, 1]));
        assert_eq!(planned(50, &[(20, 9), (10, 9), (40, 9), (30, 9)]), Ok(vec![1, 0, 0, 1]));
        assert_eq!(planned(50, &[(30, 9), (20, 9), (40, 9), (10, 9)]), Ok(vec![1, 1, 0, 0]));
        assert_eq!(planned(50, &[(1_000, 9), (10, 9), (30, 9), (40, 9)]), Ok(vec![0, 1, 0, 1]));
        assert_eq!(planned(7, &[(9, 9), (9, 9), (1, 4), (1, 4)]), Ok(vec![0, 0, 4, 3]));
    }

    #[test]
    fn at_most_60_from_each_of_two() {
        assert_eq!(planned(600, &[(10, 2_000), (5, 2_000)]), Ok(vec![60, 0]));
        assert_eq!(planned(610, &[(10, 2_000), (5, 2_000)]), Ok(vec![60, 2]));
        assert_eq!(planned(900, &[(10, 2_000), (5, 2_000)]), Ok(vec![60, 60]));
        assert_eq!(planned(905, &[(10, 2_000), (5, 2_000)]), Err(8));
        assert_eq!(planned(120, &[(1, 60), (1, 60)]), Ok(vec![60, 60]));
        assert_eq!(planned(121, &[(1, 61), (1, 61)]), Err(8));
        assert_eq!(planned(60, &[(1, 59), (7, 0)]), Err(8));
    }

    #[test]
    fn at_most_20_in_all_from_four() {
        assert_eq!(planned(20, &[(1, 5), (1, 5), (1, 5), (1, 5)]), Ok(vec![5, 5, 5, 5]));
        assert_eq!(planned(20, &[(1, 2_000), (1, 5), (1, 5), (1, 5)]), Ok(vec![20, 0, 0, 0]));
        assert_eq!(planned(21, &[(1, 2_000), (1, 5), (1, 5), (1, 5)]), Err(8));
        assert_eq!(planned(21, &[(1, 2_000), (2, 1), (9, 5), (9, 5)]), Ok(vec![1, 1, 2, 0]));
        assert_eq!(planned(39, &[(2, 20), (2, 20), (2, 20), (2, 20)]), Err(8));
    }

    #[test]
    fn an_amount_of_0_is_all_zeros_and_no_command() {
        assert_eq!(planned(0, &[(10, 0), (20, 0)]), Ok(vec![0, 0]));
        assert_eq!(planned(0, &[(10, 5), (20, 5), (1, 1), (1, 1)]), Ok(vec![0; 4]));
        assert_eq!(command(0, 0), None);
    }

    #[test]
    fn what_is_out_of_range_is_2() {
        assert_eq!(planned(10_000_000, &[(1_000_000, 2_000), (1, 2_000)]), Ok(vec![10, 0]));
        for (amount, pairs) in [
            (10_000_001, &[(1_000_000, 2_000), (1, 2_000)][..]),
            (10_000_000, &[(1_000_001, 2_000), (1_000_000, 2_000)]),
            (10_000_000, &[(1_000_000, 2_001), (1, 2_000)]),
            (10, &[(0, 5), (10, 5)]),
            (10, &[(10, 5), (0, 0)]),
            (10, &[(10, 5), (10, 5), (10, 5), (0, 5)]),
            (0, &[(10, 5), (10, 2_001)]),
            (0, &[]),
            (10, &[(10, 5)]),
            (10, &[(10, 5), (10, 5), (10, 5)]),
            (10, &[(10, 5), (10, 5), (10, 5), (10, 5), (10, 5)]),
            (u32::MAX, &[(u32::MAX, u32::MAX), (u32::MAX, u32::MAX)]),
        ] {
            assert_eq!(planned(amount, pairs), Err(2), "{amount} {pairs:?}");
        }
    }

    #[test]
    fn the_command_by_which_counts_are_not_zero() {
        for (upper, lower, byte) in [(2, 0, 0x45), (0, 60, 0x55), (1, 1, 0x56)] {
            let command = command(upper, lower).unwrap();
            assert_eq!((command.code.byte(), command.upper, command.lower), (byte, upper, lower));
            assert!(command.is_sendable());
        }
    }

    #[test]
    fn it_is_what_the_definition_says() {
        let mut random = Random::new(1);
        let mut good = 0;
        for round in 0..4_000 {
            let (count, most) = if round % 2 == 0 { (2, 70) } else { (4, 7) };
            let any = |random: &mut Random| Cassette { value: random.within(1, 12), stock: random.below(most) };
            let cassettes: Vec<Cassette> = (0..count).map(|_| any(&mut random)).collect();
            let amount = random.below(if count == 2 { 700 } else { 130 });
            let wanted = defined(amount, &cassettes).ok_or(Refused::NoPayout);
            assert_eq!(plan(amount, &cassettes), wanted, "{amount} {cassettes:?}");
            assert_eq!(payout_search::plan(amount, &cassettes), wanted, "{amount} {cassettes:?}");
            good += u32::from(wanted.is_ok());
        }
        assert!((1_000..3_000).contains(&good), "{good} of 4,000 can be paid");
    }
}
