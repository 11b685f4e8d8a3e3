//! `search_payout`: reads lines as `bench_payout` does, on standard input, and writes what must be written for them, by the plain
//! search. `compare_payout -- search_payout` holds it against the dynamic programming.

use cross::payout_search::plan;
use cross::payout_sheet::Line;
use std::io;

fn main() -> io::Result<()> {
    let mut wrote = String::new();
    for text in io::stdin().lines() {
        let text = text?;
        wrote += &Line::parse(&text)
            .map_or_else(|| format!("{text}\n"), |line| line.written(plan(line.amount, &line.cassettes)));
    }
    print!("{wrote}");
    Ok(())
}
