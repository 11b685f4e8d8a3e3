//! The stored lines of the bench program `bench_parted`: this implementation agrees with what must be written for them, and every part
//! that is handed back is one of the caller's own.

use cross::parted::{parted, Parted, Whose};
use cross::parted_sheet::{parse, told};

fn stored(name: &str) -> String {
    std::fs::read_to_string(format!("{}/../crates/bench_parted/{name}", env!("CARGO_MANIFEST_DIR"))).unwrap()
}

#[test]
fn the_stored_lines() {
    let (lines, wanted) = (stored("stdin"), stored("stdout"));
    let mut rest = wanted.as_str();
    for line in lines.lines() {
        let told = told(line);
        assert!(rest.starts_with(&told), "{line}\n{told}");
        rest = &rest[told.len()..];
    }
    assert_eq!(rest, "");
    assert_eq!(lines.lines().count(), 300);
}

#[test]
fn the_part_is_the_end_of_one_of_the_two() {
    let lines = stored("stdin");
    for line in lines.lines() {
        let pair = parse(line).expect("a pair");
        let parted = parted(&pair.student, &pair.reference);
        let whole = match parted {
            Parted::Equal { at, .. } => &pair.reference[at..],
            Parted::Part { whose: Whose::Student, at, .. } => &pair.student[at..],
            Parted::Part { whose: Whose::Reference, at, .. } => &pair.reference[at..],
            Parted::Bad { .. } => &pair.student[..0],
        };
        assert_eq!(parted.rest().as_ptr_range(), whole.as_ptr_range(), "{line}");
    }
}
