//! The lines of the bench program `bench_payout`: what a line asks, what must be written for it, and lines made from a seed.
//!
//! A line is an amount and its cassettes, `70 10:9 20:9`: each a value and a stock. What must be written is one line for each.
//!
//! ```text
//! take 2 0 command 45h 2 0        two cassettes: how many from each, and the command with its counts
//! take 0 1 0 2                    four cassettes
//! take 0 0 nothing to send        an amount of 0
//! refused 8                       or 2
//! ```

use crate::payout::{command, fewest, in_range, plan, Cassette, Most, Refused, AMOUNT, STOCK, VALUE};
use crate::random::Random;
use crate::sheet::Sheet;
use std::cmp::Reverse;
use std::collections::BTreeMap;
use std::fmt;

/// A line that is tried.
#[derive(Clone, Debug, PartialEq, Eq)]
pub struct Line {
    pub amount: u32,
    pub cassettes: Vec<Cassette>,
}

impl fmt::Display for Line {
    fn fmt(&self, f: &mut fmt::Formatter) -> fmt::Result {
        write!(f, "{}", self.amount)?;
        self.cassettes.iter().try_for_each(|Cassette { value, stock }| write!(f, " {value}:{stock}"))
    }
}

impl Line {
    /// The line that a text is, if it is to be tried: its numbers are in decimal. One that is too large for u32 is out of every range, as the
    /// largest is.
    pub fn parse(text: &str) -> Option<Line> {
        let number = |word: &str| {
            let digits = !word.is_empty() && word.bytes().all(|byte| byte.is_ascii_digit());
            digits.then(|| word.parse().unwrap_or(u32::MAX))
        };
        let mut words = text.split(' ');
        let amount = number(words.next()?)?;
        let cassette = |word: &str| {
            let (value, stock) = word.split_once(':')?;
            Some(Cassette { value: number(value)?, stock: number(stock)? })
        };
        Some(Line { amount, cassettes: words.map(cassette).collect::<Option<_>>()? })
    }

    /// What must be written for the line, and what it reached.
    pub fn told(&self, reached: &mut Reached) -> String {
        let plan = plan(self.amount, &self.cassettes);
        self.reach(plan.as_deref().ok(), reached);
        self.written(plan)
    }

    /// What is written for the line by somebody who has this plan for it.
    pub fn written(&self, plan: Result<Vec<u32>, Refused>) -> String {
        match plan {
            Err(why) => format!("refused {}\n", why.number()),
            Ok(counts) => {
                let mut told = String::from("take");
                counts.iter().for_each(|count| told += &format!(" {count}"));
                if self.amount == 0 {
                    told += " nothing to send";
                } else if let [upper, lower] = counts[..] {
                    let command = command(upper, lower).expect("an amount that is not 0 needs notes");
                    told += &format!(" command {:02X}h {upper} {lower}", command.code.byte());
                }
                told + "\n"
            }
        }
    }
}

/// What must be written for a whole sheet: a line that is not tried stands as it is.
pub fn told(sheet: &str, reached: &mut Reached) -> String {
    sheet.lines().map(|text| Line::parse(text).map_or_else(|| format!("{text}\n"), |line| line.told(reached))).collect()
}

// What is reached

/// How many lines reached what must not be missed.
#[derive(Default)]
pub struct Reached {
    lines: u64,
    places: BTreeMap<String, u64>,
}

/// Each of these must be reached by one line of a hundred.
const PLACES: [&str; 49] = [
    "refused 2: only a value of 0",
    "refused 2: only a value of 1,000,001",
    "refused 2: only a value over that",
    "refused 2: only a stock of 2,001",
    "refused 2: only a stock over that",
    "refused 2: only an amount of 10,000,001",
    "refused 2: only an amount over that",
    "refused 2: only that there is 1 cassette",
    "refused 2: only that there are 3 cassettes",
    "refused 2: only that there are 5 cassettes",
    "refused 2, and no counts make the amount",
    "refused 2, and some counts make the amount",
    "refused 2, the amount is 0",
    "refused 8, two cassettes",
    "refused 8, four cassettes",
    "an amount of 0, two cassettes",
    "an amount of 0, four cassettes",
    "an amount of 10,000,000, two cassettes",
    "an amount of 10,000,000, four cassettes",
    "taken: a value of 1,000,000",
    "taken: from a stock of 2,000",
    "taken: the whole stock",
    "a stock of 0",
    "45h",
    "55h",
    "56h",
    "60 from a cassette",
    "60 from both cassettes",
    "20 from four cassettes",
    "the 60 bite: another plan",
    "the 60 bite: refused 8",
    "the 20 in all bite: 21 would do",
    "the 20 in all bite: 22 to 24 would do",
    "the stock bites, two cassettes: another plan",
    "the stock bites, two cassettes: refused 8",
    "the stock bites, four cassettes: another plan",
    "the stock bites, four cassettes: refused 8",
    "a tie, two cassettes: decided by the first",
    "a tie, four cassettes: decided by the first",
    "a tie, four cassettes: decided by the second",
    "a tie, four cassettes: decided by the third",
    "the largest first, two cassettes: finds nothing",
    "the largest first, four cassettes: finds nothing",
    "the largest first, four cassettes: takes more notes",
    "the most from the first, two cassettes: takes more notes",
    "the most from the first, four cassettes: takes more notes",
    "the most from the last, two cassettes: takes more notes",
    "the most from the last, four cassettes: takes more notes",
    "taken: from all four cassettes",
];

impl Reached {
    fn add(&mut self, what: impl Into<String>) {
        *self.places.entry(what.into()).or_default() += 1;
    }
}

impl Sheet for Reached {
    fn made(&mut self, seed: u64, index: u64) -> (String, String) {
        self.lines += 1;
        let line = made(seed, index);
        (format!("{line}\n"), line.told(self))
    }

    fn table(&self) -> (String, Vec<String>) {
        let count = |place: &str| self.places.get(place).copied().unwrap_or(0);
        let table = PLACES.iter().map(|place| format!("{:>8}  {place}\n", count(place))).collect();
        let few =
            PLACES.iter().filter(|place| count(place) * 100 < self.lines).map(|place| place.to_string()).collect();
        (table, few)
    }
}

/// "two cassettes" or "four cassettes"
fn how_many(cassettes: &[Cassette]) -> &'static str {
    if cassettes.len() == 2 {
        "two cassettes"
    } else {
        "four cassettes"
    }
}

fn notes(counts: &[u32]) -> u32 {
    counts.iter().sum()
}

impl Line {
    fn reach(&self, plan: Option<&[u32]>, reached: &mut Reached) {
        let Line { amount, ref cassettes } = *self;
        let Ok(most) = in_range(amount, cassettes) else { return self.out_of_range(reached) };
        let these = how_many(cassettes);
        match (amount, plan) {
            (0, _) => return reached.add(format!("an amount of 0, {these}")),
            (AMOUNT, _) => reached.add(format!("an amount of 10,000,000, {these}")),
            _ => {}
        }
        if cassettes.iter().any(|cassette| cassette.stock == 0) {
            reached.add("a stock of 0");
        }
        self.bites(plan, most, reached);
        match plan {
            None => reached.add(format!("refused 8, {these}")),
            Some(counts) => {
                self.taken(counts, reached);
                self.ties(counts, most, reached);
                self.wrong_ways(counts, most, reached);
            }
        }
    }

    /// A line that is refused with 2: what is wrong, if it is one thing alone.
    fn out_of_range(&self, reached: &mut Reached) {
        let Line { amount, ref cassettes } = *self;
        let mut wrong = Vec::new();
        for cassette in cassettes {
            match cassette.value {
                0 => wrong.push("a value of 0"),
                1..=VALUE => {}
                1_000_001 => wrong.push("a value of 1,000,001"),
                _ => wrong.push("a value over that"),
            }
            match cassette.stock {
                0..=STOCK => {}
                2_001 => wrong.push("a stock of 2,001"),
                _ => wrong.push("a stock over that"),
            }
        }
        match amount {
            0..=AMOUNT => {}
            10_000_001 => wrong.push("an amount of 10,000,001"),
            _ => wrong.push("an amount over that"),
        }
        match cassettes.len() {
            2 | 4 => {}
            1 => wrong.push("that there is 1 cassette"),
            3 => wrong.push("that there are 3 cassettes"),
            5 => wrong.push("that there are 5 cassettes"),
            _ => wrong.push("another number of cassettes"),
        }
        if let [wrong] = wrong[..] {
            reached.add(format!("refused 2: only {wrong}"));
        }
        if amount == 0 {
            return reached.add("refused 2, the amount is 0");
        }
        if let Some(most) = Most::of(cassettes.len()).filter(|_| cassettes.iter().all(|cassette| cassette.value > 0)) {
            let some = if fewest(amount, cassettes, most).is_some() { "some" } else { "no" };
            reached.add(format!("refused 2, and {some} counts make the amount"));
        }
    }

    fn taken(&self, counts: &[u32], reached: &mut Reached) {
        let cassettes = &self.cassettes;
        let any = |holds: fn(&Cassette, u32) -> bool| {
            cassettes.iter().zip(counts).any(|(cassette, &count)| count > 0 && holds(cassette, count))
        };
        if any(|cassette, _| cassette.value == VALUE) {
            reached.add("taken: a value of 1,000,000");
        }
        if any(|cassette, _| cassette.stock == STOCK) {
            reached.add("taken: from a stock of 2,000");
        }
        if any(|cassette, count| cassette.stock == count) {
            reached.add("taken: the whole stock");
        }
        if let [upper, lower] = *counts {
            let command = command(upper, lower).expect("an amount that is not 0 needs notes");
            reached.add(format!("{:02X}h", command.code.byte()));
            if upper == 60 || lower == 60 {
                reached.add("60 from a cassette");
            }
            if upper == 60 && lower == 60 {
                reached.add("60 from both cassettes");
            }
        } else {
            if notes(counts) == 20 {
                reached.add("20 from four cassettes");
            }
            if !counts.contains(&0) {
                reached.add("taken: from all four cassettes");
            }
        }
    }

    /// Limits without which there would be another plan, or one where there is none.
    fn bites(&self, plan: Option<&[u32]>, most: Most, reached: &mut Reached) {
        let Line { amount, ref cassettes } = *self;
        let these = how_many(cassettes);
        let full: Vec<Cassette> = cassettes.iter().map(|&cassette| Cassette { stock: STOCK, ..cassette }).collect();
        let refused = if plan.is_some() { "another plan" } else { "refused 8" };
        if fewest(amount, &full, most).as_deref() != plan {
            reached.add(format!("the stock bites, {these}: {refused}"));
        }
        if cassettes.len() == 2 {
            if fewest(amount, cassettes, Most { each: STOCK, in_all: 2 * STOCK }).as_deref() != plan {
                reached.add(format!("the 60 bite: {refused}"));
            }
        } else if plan.is_none() {
            match fewest(amount, cassettes, Most { each: 24, in_all: 24 }).map(|counts| notes(&counts)) {
                Some(21) => reached.add("the 20 in all bite: 21 would do"),
                Some(_) => reached.add("the 20 in all bite: 22 to 24 would do"),
                None => {}
            }
        }
    }

    /// Cassettes that decide between plans with as many notes: fewer from the first would do as well, then from the second, and so on.
    fn ties(&self, counts: &[u32], most: Most, reached: &mut Reached) {
        let mut left = self.amount;
        for (place, name) in ["first", "second", "third"].into_iter().enumerate().take(counts.len() - 1) {
            let (mut cassettes, count) = (self.cassettes[place..].to_vec(), counts[place]);
            if let Some(fewer) = count.checked_sub(1) {
                cassettes[0].stock = fewer;
                let other = fewest(left, &cassettes, most);
                if other.is_some_and(|other| notes(&other) == notes(&counts[place..])) {
                    reached.add(format!("a tie, {}: decided by the {name}", how_many(&self.cassettes)));
                }
            }
            left -= count * self.cassettes[place].value;
        }
    }

    /// Ways to a plan that are not the one to the fewest notes.
    fn wrong_ways(&self, counts: &[u32], most: Most, reached: &mut Reached) {
        let these = how_many(&self.cassettes);
        let mut falling = self.cassettes.clone();
        falling.sort_by_key(|cassette| Reverse(cassette.value));
        match largest_first(self.amount, &falling, most) {
            None => reached.add(format!("the largest first, {these}: finds nothing")),
            Some(more) if more > notes(counts) => reached.add(format!("the largest first, {these}: takes more notes")),
            Some(_) => {}
        }
        let last = counts.len() - 1;
        for (place, name) in [(0, "first"), (last, "last")] {
            if self.more_from(place, counts[place], most) {
                reached.add(format!("the most from the {name}, {these}: takes more notes"));
            }
        }
    }

    /// Whether more notes than so many could be taken from a cassette, whatever the others then need.
    fn more_from(&self, place: usize, count: u32, most: Most) -> bool {
        let mut others = self.cassettes.clone();
        let cassette = others.remove(place);
        (count + 1..=cassette.stock.min(most.each)).any(|count| {
            let left = self.amount.checked_sub(count * cassette.value);
            let most = Most { each: most.each, in_all: most.in_all - count };
            left.is_some_and(|left| fewest(left, &others, most).is_some())
        })
    }
}

/// How many notes somebody takes who takes as many as possible of each value, the largest first, if that makes the amount.
fn largest_first(amount: u32, falling: &[Cassette], most: Most) -> Option<u32> {
    let (mut left, mut taken) = (amount, 0);
    for cassette in falling {
        let take = (left / cassette.value).min(cassette.stock).min(most.each).min(most.in_all - taken);
        left -= take * cassette.value;
        taken += take;
    }
    (left == 0).then_some(taken)
}

// Lines made from a seed

/// The line at that place of a run.
fn made(seed: u64, index: u64) -> Line {
    let random = &mut Random::new(seed.wrapping_mul(0x2545_F491_4F6C_DD1D) ^ index);
    let count = if random.once_in(2) { 2 } else { 4 };
    match random.below(22) {
        0..=3 => spoilt(random, count),
        4 => Line { amount: 0, ..payable(random, count) },
        5..=6 => at_the_bounds(random, count),
        7..=9 => alike(random, count),
        10..=12 => many(random, count),
        13..=15 => scarce(random, count),
        16..=18 => small(random, count),
        _ => payable(random, count),
    }
}

/// Cassettes with notes of any value.
fn cassettes(random: &mut Random, count: usize) -> Vec<Cassette> {
    let one = |random: &mut Random| {
        let real = random.pick(&[1, 2, 5, 10, 20, 50, 100, 200, 500, 1_000, 10_000, 50_000]);
        let value = match random.below(4) {
            0 => random.within(1, 30),
            1 => random.within(1, VALUE),
            _ => real,
        };
        Cassette { value, stock: stock(random) }
    };
    (0..count).map(|_| one(random)).collect()
}

fn stock(random: &mut Random) -> u32 {
    match random.below(6) {
        0 => random.pick(&[0, 1, 2, STOCK]),
        1 => random.within(19, 21),
        2 => random.within(59, 61),
        _ => random.within(0, STOCK),
    }
}

/// An amount that some counts make, allowed or nearly, or one beside it.
fn payable(random: &mut Random, count: usize) -> Line {
    let cassettes = cassettes(random, count);
    let mut left = if count == 2 { 60 } else { random.within(1, 21) };
    let mut amount = 0;
    for cassette in &cassettes {
        let take = match random.below(6) {
            0 => 0,
            1 => left,
            _ => random.below(left + 1),
        };
        amount += take.min(cassette.stock) * cassette.value;
        if count == 4 {
            left -= take.min(cassette.stock);
        }
    }
    if random.once_in(6) {
        amount += random.pick(&[1, 5, 10]);
    }
    Line { amount: amount.min(AMOUNT), cassettes }
}

/// A line with one thing out of its range.
fn spoilt(random: &mut Random, count: usize) -> Line {
    let mut line = if random.once_in(6) { at_the_bounds(random, count) } else { payable(random, count) };
    if random.once_in(8) {
        line.amount = 0;
    }
    let place = random.below(count as u32) as usize;
    let over = random.pick(&[2, 3, 255, 65_536, 900_000_000]);
    let cassette = &mut line.cassettes[place];
    match random.below(10) {
        0 => cassette.value = 0,
        1 => cassette.value = VALUE + 1,
        2 => cassette.value = VALUE + over,
        3 => cassette.stock = STOCK + 1,
        4 => cassette.stock = STOCK + over,
        5 => line.amount = AMOUNT + 1,
        6 => line.amount = AMOUNT + over,
        one => {
            let other = cassettes(random, 5);
            line.cassettes.extend(other);
            line.cassettes.truncate([1, 3, 5][one as usize - 7]);
        }
    }
    line
}

/// Values, stocks and amounts that are as large as they may be.
fn at_the_bounds(random: &mut Random, count: usize) -> Line {
    let one = |random: &mut Random| Cassette {
        value: random.pick(&[VALUE, VALUE, VALUE - 1, VALUE / 2, VALUE / 4, VALUE / 5, 1]),
        stock: random.pick(&[STOCK, STOCK, STOCK - 1, 20, 10, 5]),
    };
    let cassettes = (0..count).map(|_| one(random)).collect();
    Line { amount: random.pick(&[AMOUNT, AMOUNT, AMOUNT - 1, VALUE, 5 * VALUE]), cassettes }
}

/// Values that are equal, or make the same sums.
fn alike(random: &mut Random, count: usize) -> Line {
    let step = random.pick(&[1, 5, 10, 1_000]);
    let most = if random.once_in(2) { 2 } else { 6 };
    let one = |random: &mut Random| Cassette { value: step * random.within(1, most), stock: stock(random) };
    let cassettes: Vec<Cassette> = (0..count).map(|_| one(random)).collect();
    let largest = step * most * if count == 2 { 60 } else { 20 };
    Line { amount: step * random.within(1, largest / step), cassettes }
}

/// So many notes that the limits of 60 and of 20 are near.
fn many(random: &mut Random, count: usize) -> Line {
    let low = random.within(1, 40);
    let one = |random: &mut Random| Cassette { value: low + random.below(4), stock: random.within(40, 80) };
    let mut cassettes: Vec<Cassette> = (0..count).map(|_| one(random)).collect();
    if count == 4 {
        let most = low + 3;
        let amount = random.within(19, 23) * most - random.below(3);
        return Line { amount, cassettes };
    }
    let place = random.below(2) as usize;
    cassettes[place].value *= random.pick(&[1, 2, 3]);
    let full = 60 * (cassettes[0].value + cassettes[1].value);
    let amount = match random.below(5) {
        0 => {
            cassettes.iter_mut().for_each(|cassette| cassette.stock += 20);
            full
        }
        1 => full - random.below(5) * cassettes[place].value,
        _ => random.within(58, 75) * cassettes[place].value + random.below(4) * cassettes[1 - place].value,
    };
    Line { amount, cassettes }
}

/// Stocks that are soon used up.
fn scarce(random: &mut Random, count: usize) -> Line {
    let mut line = payable(random, count);
    for cassette in &mut line.cassettes {
        cassette.stock = random.below(12);
        cassette.value = random.pick(&[1, 2, 5, 10, 20, 50]);
    }
    let all: u32 = line.cassettes.iter().map(|cassette| cassette.value * cassette.stock).sum();
    line.amount = random.within(1, all.max(1));
    line
}

/// Small values: the largest first often finds nothing or, where there are ones, takes more notes.
fn small(random: &mut Random, count: usize) -> Line {
    let change = count == 4 && random.once_in(2);
    let most = if change { 15 } else { 40 };
    let one = |random: &mut Random| Cassette { value: random.within(2, most), stock: random.within(0, 70) };
    let mut cassettes: Vec<Cassette> = (0..count).map(|_| one(random)).collect();
    if change {
        cassettes[random.below(4) as usize] = Cassette { value: 1, stock: 20 };
    }
    Line { amount: random.within(1, 10 * most), cassettes }
}

#[cfg(test)]
mod tests {
    use super::*;
    use crate::payout_search;

    #[test]
    fn a_line_is_its_text_and_the_plain_search_agrees() {
        let mut reached = Reached::default();
        for index in 0..2_000 {
            let (text, told) = reached.made(2, index);
            let line = Line::parse(text.trim_end()).expect("a line");
            assert_eq!(format!("{line}\n"), text);
            assert_eq!(line.written(payout_search::plan(line.amount, &line.cassettes)), told, "{line}");
        }
    }

    #[test]
    fn what_is_written() {
        let sheet = "no line\n20 10:5 20:0\n20 10:5 20:1\n30 10:5 20:1\n0 10:5 20:1\n50 10:0 20:5 30:0 10:5\n\
                     0 1:1 1:1 1:1 1:1\n5 10:5 20:1\n5 5:1 5:1 5:1\n5 5:1\n";
        let wanted = "no line\ntake 2 0 command 45h 2 0\ntake 0 1 command 55h 0 1\ntake 1 1 command 56h 1 1\n\
                      take 0 0 nothing to send\ntake 0 2 0 1\ntake 0 0 0 0 nothing to send\nrefused 8\nrefused 2\nrefused 2\n";
        assert_eq!(told(sheet, &mut Reached::default()), wanted);
    }

    #[test]
    fn what_a_line_reaches() {
        let lines: [(&str, &[&str]); 7] = [
            (
                "610 10:2000 5:2000",
                &[
                    "56h",
                    "60 from a cassette",
                    "taken: from a stock of 2,000",
                    "the 60 bite: another plan",
                    "the most from the last, two cassettes: takes more notes",
                ],
            ),
            ("20 10:1 7:9", &["refused 8, two cassettes", "the stock bites, two cassettes: refused 8"]),
            ("61 1:61 70:9", &["refused 8, two cassettes", "the 60 bite: refused 8"]),
            ("21 1:9 1:9 1:9 1:9", &["refused 8, four cassettes", "the 20 in all bite: 21 would do"]),
            ("60 50:9 20:9", &["55h", "the largest first, two cassettes: finds nothing"]),
            ("40 99:9 10:9 20:9 30:9", &["a tie, four cassettes: decided by the second"]),
            ("21 20:2001 1:5", &["refused 2, and some counts make the amount", "refused 2: only a stock of 2,001"]),
        ];
        for (text, places) in lines {
            let mut reached = Reached::default();
            Line::parse(text).expect("a line").told(&mut reached);
            let all: Vec<&str> = reached.places.keys().map(String::as_str).collect();
            assert_eq!(all, places, "{text}");
        }
    }
}
