//! The program held to the reference's, byte for byte, on generated job files.

use bench::program;
use reference::generate;
use std::collections::BTreeSet;
use std::io::Write;
use std::process::{Command, Stdio};

#[test]
fn reports_are_the_references() {
    let mut kinds = BTreeSet::new();
    for seed in 0..1_500 {
        let job = generate::generate(seed);
        kinds.insert(job.kind);
        let expected = reference::program::report(&job.bytes);
        assert_eq!(program::report(&job.bytes), expected, "seed {seed}, {:?}", job.kind);
    }
    assert!(kinds.len() > 20, "{kinds:?}");
}

/// The binary itself, which also has to leave bytes past the deciding ones.
#[test]
fn the_binary_prints_the_references_reports() {
    for seed in 0..120 {
        let mut bytes = generate::generate(seed).bytes;
        if seed % 10 == 0 {
            bytes.resize(bytes.len() + 60_000, 7);
        }
        let expected = reference::program::report(&bytes);
        assert_eq!(printed(&bytes), expected, "seed {seed}");
    }
}

fn printed(bytes: &[u8]) -> String {
    let mut child = Command::new(env!("CARGO_BIN_EXE_idiomatic"))
        .stdin(Stdio::piped())
        .stdout(Stdio::piped())
        .spawn()
        .expect("the binary was built");
    // The program may stop reading before the end; that is no fault.
    let _ = child.stdin.take().expect("piped").write_all(bytes);
    let output = child.wait_with_output().expect("it ends");
    assert!(output.status.success());
    String::from_utf8(output.stdout).expect("a report is text")
}
