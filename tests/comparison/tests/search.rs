//! Searches by name: where a level is larger than a byte, and where a word would
//! confuse two lists if it were made otherwise.

use comparison::search;
use reference::search::{cases, same_packed};

/// Every case of this name, or with this name in front of a comma, is found where it
/// must be; there is at least one.
fn holds(name: &str) {
    let all = cases();
    let named = all.iter().filter(|case| case.name.split(',').next() == Some(name));
    let answers: Vec<_> = named
        .map(|case| {
            (search::found(case.held.len(), &case.sought, &search::cells(&case.held)), case.place)
        })
        .collect();
    assert!(!answers.is_empty(), "no case has the name {name}");
    assert!(answers.iter().all(|(proved, place)| proved == place), "{name}: {answers:?}");
}

#[test]
fn a_carry_is_no_match() {
    holds("a_carry_is_no_match");
}

#[test]
fn every_byte_counts() {
    holds("every_byte_counts");
}

#[test]
fn larger_is_found_unpacked() {
    holds("larger_is_found_unpacked");
}

#[test]
fn one_larger_record_spoils_no_other() {
    holds("one_larger_record_spoils_no_other");
}

#[test]
fn every_named_search_and_comparison_is_the_references() {
    for case in cases() {
        let cells = search::cells(&case.held);
        assert_eq!(
            search::found(case.held.len(), &case.sought, &cells),
            case.place,
            "{}",
            case.name
        );
        for levels in &case.held {
            let expected = same_packed(levels, &case.sought);
            assert_eq!(search::same_word(levels, &case.sought), expected, "{}", case.name);
        }
    }
}
