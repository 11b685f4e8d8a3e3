//! The stored runs of the bench program `bench_pretend`: this implementation agrees with what must be written for them.

use cross::pretend_sheet::told;

#[test]
fn the_stored_runs() {
    let stored = |name| {
        std::fs::read_to_string(format!("{}/../crates/bench_pretend/{name}", env!("CARGO_MANIFEST_DIR"))).unwrap()
    };
    let (wanted, told) = (stored("stdout"), told(&stored("stdin")));
    for (wanted, told) in wanted.lines().zip(told.lines()) {
        assert_eq!(told, wanted);
    }
    assert_eq!(told.len(), wanted.len());
}
