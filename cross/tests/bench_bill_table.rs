//! The stored lines of the bench program `bench_bill_table`: this implementation agrees with what must be written for them.

use cross::bill_table_sheet::told;

#[test]
fn the_stored_lines() {
    let stored = |name| {
        std::fs::read_to_string(format!("{}/../crates/bench_bill_table/{name}", env!("CARGO_MANIFEST_DIR"))).unwrap()
    };
    let (wanted, told) = (stored("stdout"), told(&stored("stdin")));
    for (wanted, told) in wanted.lines().zip(told.lines()) {
        assert_eq!(told, wanted);
    }
    assert_eq!(told.len(), wanted.len());
}
