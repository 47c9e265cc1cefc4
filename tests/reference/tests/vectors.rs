//! The bundle of named job files: the cases' reports are what the scope document
//! asks for, the files in the crate `vectors` are as they are made, and nothing
//! is missing in them.

use reference::program::{self, Outcome};
use reference::survey::{self, Counts};
use reference::{cases, generate, vectors};
use std::path::Path;

#[test]
fn each_case_prints_what_the_document_asks_for() {
    for case in cases::cases() {
        let report = program::report(&case.bytes);
        let whole = case.ends.starts_with("axes") || case.ends.starts_with("refused");
        match whole {
            true => assert_eq!(report, case.ends, "{}", case.name),
            false => assert!(report.ends_with(case.ends), "{}: {report}", case.name),
        }
    }
}

#[test]
fn the_files_are_as_they_are_made() {
    let directory = Path::new(env!("CARGO_MANIFEST_DIR")).join("../../crates/vectors");
    let read = |name: &str| std::fs::read(directory.join(name)).expect("the crate has its files");
    let files = vectors::files();
    assert!(read("stdin") == vectors::write(&files), "make vectors writes the files anew");
    assert!(
        read("stdout") == vectors::reports(&files).as_bytes(),
        "make vectors writes the files anew"
    );
}

#[test]
fn nothing_is_missing() {
    let files = vectors::files();
    let mut counts = Counts::new();
    let mut generated = 0;
    for file in &files {
        let seed = file.name.strip_prefix("seed ").and_then(|rest| rest.split(',').next());
        if let Some(seed) = seed {
            let seed = seed.parse().expect("a name begins with its seed");
            survey::checked_outcome(seed, &generate::generate(seed), &mut counts);
            generated += 1;
        }
        assert!(file.name.len() <= 64, "{}", file.name);
        if let Outcome::Refused { byte, .. } = program::outcome(&file.bytes) {
            assert!(byte <= file.bytes.len());
        }
    }
    assert!(generated >= 300, "{generated}");
    assert_eq!(survey::missing(&counts), Vec::<String>::new());
}
