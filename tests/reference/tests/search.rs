//! The search for an index and the word of eight levels: searches by name, "two words
//! are equal exactly if all eight levels are, for levels that fit a byte", what the
//! lists by seed come to, and that in an area the search finds what the links name.

use reference::area::{Area, NONE};
use reference::grid::{Levels, HELD_LIMIT, MOST_AXES, ROOT};
use reference::sample;
use reference::search::{self, Case, Comparison};
use std::collections::{BTreeMap, BTreeSet};

fn assert_found(case: &Case) {
    assert_eq!(search::first_with(&case.held, &case.sought), case.place, "{}", case.name);
}

/// All cases of a name; where there are several, each adds what it seeks after a comma.
fn assert_named(name: &str, count: usize) {
    let mut cases = search::cases();
    cases.retain(|case| case.name.split(',').next() == Some(name));
    assert_eq!(cases.len(), count, "{name}");
    cases.iter().for_each(assert_found);
}

#[test]
fn a_carry_is_no_match() {
    assert_named("a_carry_is_no_match", 1);
}

#[test]
fn every_byte_counts() {
    assert_named("every_byte_counts", 2);
}

#[test]
fn larger_is_found_unpacked() {
    assert_named("larger_is_found_unpacked", 1);
}

#[test]
fn one_larger_record_spoils_no_other() {
    assert_named("one_larger_record_spoils_no_other", 1);
}

/// All the others too, no two of one name.
#[test]
fn each_search_by_name_finds_its_place() {
    let cases = search::cases();
    cases.iter().for_each(assert_found);
    let names: BTreeSet<&str> = cases.iter().map(|case| case.name.as_str()).collect();
    assert_eq!(names.len(), cases.len());
    let found = cases.iter().filter(|case| case.place.is_some()).count();
    println!("{} searches by name, {found} find a place", cases.len());
}

fn with(levels: &Levels, axis: usize, level: u32) -> Levels {
    let mut changed = *levels;
    changed[axis] = level;
    changed
}

/// In hexadecimal a word shows its bytes, axis 1 last.
#[test]
fn words_by_hand() {
    for (levels, word) in [
        (ROOT, 0x0101_0101_0101_0101),
        ([0; MOST_AXES], 0),
        ([255; MOST_AXES], u64::MAX),
        ([2, 1, 1, 1, 1, 1, 1, 1], 0x0101_0101_0101_0102),
        ([1, 1, 1, 1, 1, 1, 1, 2], 0x0201_0101_0101_0101),
        ([1, 2, 3, 4, 5, 6, 7, 8], 0x0807_0605_0403_0201),
        ([0, 255, 0, 128, 0, 16, 0, 0], 0x0000_1000_8000_ff00),
        ([0, 0, 0, 0, 0, 0, 0, 255], 0xff00_0000_0000_0000),
    ] {
        assert_eq!(search::word(&levels), Some(word), "{levels:?}");
    }
}

/// A list has a word exactly if each of its levels fits, whichever doesn't.
#[test]
fn larger_levels_have_no_word() {
    for axis in 0..MOST_AXES {
        for others in [ROOT, [0; MOST_AXES], [255; MOST_AXES]] {
            for level in [256, 257, 511, 512, 65_535, 65_536, 1 << 24, 1 << 31, u32::MAX] {
                let levels = with(&others, axis, level);
                assert_eq!(search::word(&levels), None, "{levels:?}");
            }
            for level in 0..=255 {
                let levels = with(&others, axis, level);
                assert!(search::word(&levels).is_some(), "{levels:?}");
            }
        }
    }
}

/// Each byte of a word is the level of one axis: along each axis, every level of a
/// byte; and on all axes together, every list of four levels.
#[test]
fn different_levels_have_different_words() {
    let bytes = |levels: &Levels| u64::from_le_bytes(levels.map(|level| level as u8));
    for axis in 0..MOST_AXES {
        let lists = (0..=255).map(|level| with(&ROOT, axis, level));
        let words: BTreeSet<u64> = lists.filter_map(|levels| search::word(&levels)).collect();
        assert_eq!(words.len(), 256, "axis {axis}");
    }
    let mut words = BTreeSet::new();
    for number in 0..1 << (2 * MOST_AXES) {
        let level = |axis: usize| [0, 1, 128, 255][number >> (2 * axis) & 3];
        let levels: Levels = std::array::from_fn(level);
        let word = search::word(&levels).expect("no level is larger than 255");
        assert_eq!(word, bytes(&levels), "{levels:?}");
        words.insert(word);
    }
    assert_eq!(words.len(), 1 << (2 * MOST_AXES));
}

/// What the comparison must answer, by the words.
fn by_words(left: &Levels, right: &Levels) -> Comparison {
    match (search::word(left), search::word(right)) {
        (Some(left), Some(right)) if left == right => Comparison::Equal,
        (Some(_), Some(_)) => Comparison::Different,
        _ => Comparison::NotPacked,
    }
}

/// "Two words are equal exactly if all eight levels are, for levels that fit a byte":
/// on the lists by name and by seed, each sought one with each held one.
#[test]
fn two_words_are_equal_exactly_if_all_eight_levels_are() {
    let named = search::cases().into_iter().map(|case| (case.held, vec![case.sought]));
    let mut seen: BTreeMap<Comparison, u32> = BTreeMap::new();
    for (held, sought) in named.chain((0..300).map(search::held_lists)) {
        for (left, right) in held.iter().flat_map(|h| sought.iter().map(move |s| (h, s))) {
            let said = search::same_packed(left, right);
            assert_eq!(said, by_words(left, right), "{left:?} and {right:?}");
            assert_eq!(said, search::same_packed(right, left), "{left:?} and {right:?}");
            if said != Comparison::NotPacked {
                assert_eq!(said == Comparison::Equal, left == right, "{left:?} and {right:?}");
            }
            *seen.entry(said).or_default() += 1;
        }
    }
    println!("{seen:?}");
    assert_eq!(seen.len(), 3, "{seen:?}");
    assert!(seen.values().all(|&count| count > 10_000), "{seen:?}");
}

/// What one search was like.
fn notes(held: &[Levels], sought: &Levels) -> Vec<&'static str> {
    let Some(place) = search::first_with(held, sought) else {
        return vec!["nothing found"];
    };
    let again = held[place + 1..].contains(sought);
    let one_larger = held.iter().any(|levels| !search::fits(levels));
    let fits = search::fits(sought);
    let notes = [
        (place == 0, "found at the first place"),
        (place + 1 == held.len(), "found at the last place"),
        (place + 1 == HELD_LIMIT, "found at place 511"),
        (again, "found among equal ones"),
        (again && !fits, "found among equal larger ones"),
        (!fits, "a larger one found"),
        (fits && one_larger, "a small one found, a larger one held"),
        (fits && !one_larger, "a small one found, all small"),
    ];
    notes.into_iter().filter_map(|(seen, note)| seen.then_some(note)).collect()
}

/// The ways in which a sum misses a difference: a base of 128 or 256 that levels pass,
/// and bytes cut off.
fn near_misses(held: &[Levels], sought: &Levels) -> Vec<&'static str> {
    let sum = |levels: &Levels, base: u128| {
        levels.iter().rev().fold(0, |sum, &level| sum * base + u128::from(level))
    };
    let missed = |seen: &dyn Fn(&Levels) -> bool| held.iter().any(|h| h != sought && seen(h));
    let low = |levels: &Levels| levels.map(|level| level as u8);
    let notes = [
        (missed(&|h| sum(h, 128) == sum(sought, 128)), "differs by a carry of 128"),
        (missed(&|h| sum(h, 256) == sum(sought, 256)), "differs by a carry of 256"),
        (missed(&|h| low(h) == low(sought)), "differs above the low bytes"),
        (missed(&|h| h.iter().zip(sought).filter(|(l, s)| l != s).count() == 1), "differs once"),
    ];
    notes.into_iter().filter_map(|(seen, note)| seen.then_some(note)).collect()
}

/// What lists by seed must come to, and how often at least.
const DUE: [(&str, u32); 15] = [
    ("0 held", 10),
    ("512 held", 20),
    ("nothing found", 1_000),
    ("found at the first place", 500),
    ("found at the last place", 200),
    ("found at place 511", 50),
    ("found among equal ones", 200),
    ("found among equal larger ones", 50),
    ("a larger one found", 300),
    ("a small one found, a larger one held", 200),
    ("a small one found, all small", 300),
    ("differs by a carry of 128", 200),
    ("differs by a carry of 256", 200),
    ("differs above the low bytes", 200),
    ("differs once", 1_000),
];

#[test]
fn lists_by_seed_come_to_all_that_is_due() {
    let mut seen: BTreeMap<&str, u32> = BTreeMap::new();
    for seed in 0..300 {
        let (held, sought) = search::held_lists(seed);
        assert!(held.len() <= HELD_LIMIT && (20..=60).contains(&sought.len()), "seed {seed}");
        match held.len() {
            0 => *seen.entry("0 held").or_default() += 1,
            HELD_LIMIT => *seen.entry("512 held").or_default() += 1,
            _ => {}
        }
        for sought in &sought {
            for note in notes(&held, sought).into_iter().chain(near_misses(&held, sought)) {
                *seen.entry(note).or_default() += 1;
            }
        }
    }
    println!("{seen:#?}");
    for (note, least) in DUE {
        assert!(seen.get(note).is_some_and(|&count| count >= least), "{note} in {seen:?}");
    }
}

#[test]
fn a_seed_gives_the_same_lists_again() {
    for seed in [0, 7, u64::MAX] {
        assert_eq!(search::held_lists(seed), search::held_lists(seed));
    }
}

/// The place that a link names.
fn named(link: u32) -> Option<usize> {
    (link != NONE).then_some(link as usize)
}

/// In a sound area each held index is found at its own place, and each of its
/// neighbours where the link says; what is past a ceiling, beyond the job's axes or of
/// level 0 is not found.
fn assert_links_are_found(area: &Area) {
    let held = search::held_in(area);
    let sought = search::sought_in(area);
    let each = 1 + 2 * MOST_AXES;
    assert_eq!(sought.len(), each * held.len());
    for (place, (record, around)) in area.held().iter().zip(sought.chunks(each)).enumerate() {
        let mut due = vec![Some(place)];
        for axis in 0..MOST_AXES {
            due.extend([named(record.forward[axis]), named(record.backward[axis])]);
        }
        let found: Vec<Option<usize>> =
            around.iter().map(|levels| search::first_with(&held, levels)).collect();
        assert_eq!(found, due, "{:?}", record.levels);
    }
}

#[test]
fn the_search_finds_what_the_links_name() {
    (0..200).for_each(|seed| assert_links_are_found(&sample::area(seed)));
    assert_links_are_found(&sample::ceiling_area(1));
    assert_links_are_found(&sample::full_area(3, 8));
}

/// Any content may be sought, levels of 0 and of 2^32 - 1 included.
#[test]
fn levels_that_cannot_be_moved_have_one_neighbour() {
    let mut area = sample::area(1);
    area.job.held = 1;
    area.records[0].levels = with(&with(&ROOT, 0, 0), 7, u32::MAX);
    let sought = search::sought_in(&area);
    assert_eq!(sought.len(), 15);
    assert!(sought.contains(&with(&with(&ROOT, 0, 1), 7, u32::MAX)));
    assert!(sought.contains(&with(&with(&ROOT, 0, 0), 7, u32::MAX - 1)));
}
