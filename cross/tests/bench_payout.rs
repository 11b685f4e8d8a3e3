//! The stored lines of the bench program `bench_payout`: this implementation agrees with what must be written for them, and so does
//! the plain search.

use cross::payout_search;
use cross::payout_sheet::{told, Line, Reached};

#[test]
fn the_stored_lines() {
    let stored = |name| {
        std::fs::read_to_string(format!("{}/../crates/bench_payout/{name}", env!("CARGO_MANIFEST_DIR"))).unwrap()
    };
    let (lines, wanted) = (stored("stdin"), stored("stdout"));
    let told = told(&lines, &mut Reached::default());
    let mut tried = 0;
    for ((text, wanted), told) in lines.lines().zip(wanted.lines()).zip(told.lines()) {
        assert_eq!(told, wanted, "{text}");
        let Some(line) = Line::parse(text) else { continue };
        let searched = line.written(payout_search::plan(line.amount, &line.cassettes));
        assert_eq!(searched.trim_end(), wanted, "{text}");
        tried += 1;
    }
    assert_eq!(told.len(), wanted.len());
    assert!(tried > 300);
}
