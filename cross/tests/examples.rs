//! The example recordings of the product: each is what its text describes, and its report is the one it must give. Some have the
//! requests that are kept of them too.

use cross::{report::report, requests::requests, text};
use std::fs;
use std::path::Path;

#[test]
fn every_example_gives_its_report() {
    let folder = Path::new(env!("CARGO_MANIFEST_DIR")).join("../crates/regression/data");
    let given = fs::read_to_string(folder.join("../args")).expect("what the program `regression` is given");
    let given: Vec<&str> = given.lines().collect();
    let (mut examples, mut with_requests) = (0, 0);
    for entry in fs::read_dir(&folder).expect("the examples") {
        let path = entry.expect("an example").path();
        if path.extension().is_some_and(|end| end == "txt") {
            let said = fs::read_to_string(&path).expect("a text");
            let recording = fs::read(path.with_extension("rec")).expect("its recording");
            let wanted = fs::read_to_string(path.with_extension("report")).expect("its report");
            assert_eq!(text::recording(&said).as_ref(), Ok(&recording), "{}", path.display());
            assert_eq!(report(&recording), wanted, "{}", path.display());
            if let Ok(wanted) = fs::read_to_string(path.with_extension("requests")) {
                assert_eq!(requests(&recording), wanted, "{}", path.display());
                with_requests += 1;
            }
            let name = path.file_stem().and_then(|name| name.to_str()).expect("a plain name");
            assert!(given.contains(&name), "{name} is not replayed by `regression`");
            examples += 1;
        }
    }
    assert!(examples >= 12, "only {examples} examples");
    assert!(with_requests >= 2, "only {with_requests} examples have their requests");
}
