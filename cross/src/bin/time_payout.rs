//! `time_payout [ROUNDS]`: how long the plain search for a payout takes where it takes longest, and the dynamic programming beside
//! it: many in one run, by the clock, the quickest of the rounds.
//!
//! From four cassettes 20 notes in all may be taken. Where all have the value 2 and the amount is odd and above 40, each of the
//! 10,626 ways to take 20 or fewer is tried, and none makes the amount. The same for a program that reads lines:
//!
//! ```sh
//! yes '41 2:20 2:20 2:20 2:20' | head -n 1000 >lines; time PROGRAM <lines
//! ```

use cross::payout::{self, Cassette, Refused};
use cross::payout_search;
use std::hint::black_box;
use std::process::ExitCode;
use std::time::{Duration, Instant};

type Plan = fn(u32, &[Cassette]) -> Result<Vec<u32>, Refused>;

const TIMES: u32 = 1_000;

fn main() -> ExitCode {
    let words: Vec<String> = std::env::args().skip(1).collect();
    let rounds = match &words[..] {
        [] => Some(5),
        [word] => word.parse().ok().filter(|&rounds: &u32| rounds > 0),
        _ => None,
    };
    let Some(rounds) = rounds else {
        eprintln!("usage: time_payout [ROUNDS]");
        return ExitCode::from(2);
    };
    // from two cassettes 60 from each: 3,721 ways
    let cases: [(&str, u32, usize, u32); 2] = [("four cassettes", 41, 4, 20), ("two cassettes", 241, 2, 60)];
    let ways: [(&str, Plan); 2] = [("plain search", payout_search::plan), ("dynamic programming", payout::plan)];
    println!("{:<15} {:<20} {:>10}", "no payout", "by", "us each");
    for (name, amount, count, stock) in cases {
        let cassettes = vec![Cassette { value: 2, stock }; count];
        for (way, plan) in ways {
            let each = quickest(rounds, || {
                assert_eq!(plan(black_box(amount), black_box(&cassettes)), Err(Refused::NoPayout));
            });
            println!("{name:<15} {way:<20} {each:>10.1}");
        }
    }
    ExitCode::SUCCESS
}

/// Microseconds for one call, in the quickest of the rounds.
fn quickest(rounds: u32, call: impl Fn()) -> f64 {
    let mut quickest = Duration::MAX;
    for _ in 0..rounds {
        let began = Instant::now();
        (0..TIMES).for_each(|_| call());
        quickest = quickest.min(began.elapsed());
    }
    quickest.as_secs_f64() * 1e6 / f64::from(TIMES)
}
