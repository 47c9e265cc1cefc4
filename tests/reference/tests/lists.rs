//! Lists of calls against the log, and generated files made again; short runs of
//! fixed seeds. Generated files are held against the log's own report in `coverage`.

use reference::drive::{drive, missing};
use reference::generate::{generate, Kind};

/// What points comes to as the block or the buffer ends first, and as a row does.
const POINTS: [&str; 8] = [
    "went on to another row",
    "wrote a block whole",
    "wrote the rest of a block",
    "wrote one point of several left",
    "left points with room for a part of one",
    "wrote just what there was room for",
    "wrote all with room for a part of one",
    "wrote all with room for more",
];

/// What doubles finds: each sign, equals of either sign, fractions, nothing.
const DOUBLES: [&str; 9] = [
    "of nothing delivered",
    "of a largest above 0",
    "of a largest below 0",
    "of differences that are all 0",
    "of a largest that is not the root's",
    "of a largest that is not whole",
    "of a largest that a later one equals",
    "of a largest that a later one has with the other sign",
    "while a block is wanted",
];

#[test]
fn random_lists_of_calls() {
    let mut seen = std::collections::BTreeMap::new();
    for seed in [1, 6, 8] {
        for (what, count) in drive(seed, 12_000) {
            *seen.entry(what).or_insert(0) += count;
        }
    }
    for number in [1, 2, 3, 5, 6, 7, 8, 9, 11] {
        assert!(seen[&format!("refusal {number}")] > 100, "refusal {number}: {seen:?}");
    }
    assert!(!seen.contains_key("refusal 4"), "cause 4 never comes from the area");
    assert_eq!(missing(&seen), [] as [&str; 0], "{seen:?}");
    for (number, name) in [(3, "choose"), (6, "choose"), (3, "promote"), (6, "promote")] {
        assert!(seen[&format!("refused {number} by {name}")] > 20, "{number} by {name}: {seen:?}");
    }
    for number in [3, 5, 9] {
        assert!(seen[&format!("refused {number} by points")] > 20, "refused {number}: {seen:?}");
    }
    for answer in POINTS {
        assert!(seen[&format!("points {answer}")] > 20, "{answer}: {seen:?}");
    }
    assert!(seen["points went on along three axes"] > 5, "three axes: {seen:?}");
    assert!(seen["refused 3 by doubles"] > 20, "refused 3: {seen:?}");
    for answer in DOUBLES {
        assert!(seen[&format!("doubles {answer}")] > 5, "{answer}: {seen:?}");
    }
}

#[test]
fn generated_files_are_the_same_again() {
    for seed in 0..40 {
        let (one, other) = (generate(seed), generate(seed));
        assert_eq!(one.bytes, other.bytes);
        assert!(!matches!(one.kind, Kind::Longest) || one.bytes.len() == 38_936);
    }
}
