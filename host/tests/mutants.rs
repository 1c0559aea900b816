//! The list of porter's mistakes: each edit finds its text once in the crates.

use std::collections::BTreeSet;
use std::path::Path;

use facetings_host::compare::mutants::read;

#[test]
fn each_mistake_can_be_put_in() {
    let repository = Path::new(env!("CARGO_MANIFEST_DIR")).join("..");
    let list = repository.join("host/mutants/list.txt");
    let text = std::fs::read_to_string(list).expect("the list is there");
    let mistakes = read(&text).expect("the list is well formed");
    let names: BTreeSet<&str> = mistakes.iter().map(|one| one.name.as_str()).collect();
    assert!(names.len() >= 20 && names.len() == mistakes.len());
    if !repository.join("crates/register/src/lib.rt").is_file() {
        println!("skipped: the crate register is not there");
        return;
    }
    for mistake in &mistakes {
        let applied = mistake.applied(&repository);
        assert!(applied.is_ok(), "{}: {applied:?}", mistake.name);
    }
}
