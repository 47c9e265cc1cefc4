//! Choose and promote by themselves: whether a job goes on, and where; that any
//! active place can be refined, whatever is chosen; and the order of the causes
//! for which both are refused.

mod support;

use support::{levels, refused, refused_in, run, Storage, MARK};
use wihupya::{Choice, Promotion, Refusal, CELLS};

/// Two axes, budget 64, threshold 40; the root is delivered with the indicator
/// 40.
fn met() -> Storage {
    let mut storage = Storage::started(2, 40, 64);
    storage.call(|job| job.deliver(&[7], 40)).unwrap();
    storage
}

/// The same job when the root is refined all the same, and both its neighbours
/// have come with the indicator 30.
fn refined() -> Storage {
    let mut storage = met();
    assert_eq!(storage.call(|job| job.promote(0)), Ok(Promotion::Promoted));
    for _ in 0..2 {
        storage.call(|job| job.deliver(&[7, 7], 30)).unwrap();
    }
    storage
}

/// One axis and the budget that it takes: all of its levels are delivered with
/// the indicator 10 and refined, though at threshold 10 none is ever chosen.
fn all_of_one_axis(threshold: u64) -> Storage {
    let mut storage = Storage::marked();
    storage.store.resize(129, 0);
    storage.call(|job| job.start(1, threshold, 129)).unwrap();
    for place in 0..8 {
        let readings = vec![7; storage.call(|job| job.wanted_block().unwrap().len())];
        storage.call(|job| job.deliver(&readings, 10)).unwrap();
        assert_eq!(storage.call(|job| job.promote(place)), Ok(Promotion::Promoted));
    }
    storage
}

/// One cell less than a job takes.
fn short(mut storage: Storage) -> Storage {
    storage.cells.truncate(CELLS - 1);
    storage
}

/// With another pending error the area is not sound.
fn unsound(mut storage: Storage) -> Storage {
    storage.job.pending_error += 1;
    storage
}

#[test]
fn right_after_start_a_block_is_wanted() {
    let mut storage = Storage::started(2, 40, 64);
    refused(&mut storage, Refusal::BlockWanted, |job| job.choose());
    refused(&mut storage, Refusal::BlockWanted, |job| job.promote(usize::MAX));
}

#[test]
fn a_job_that_is_met_can_be_refined_all_the_same() {
    let mut storage = met();
    assert_eq!(storage.call(|job| job.choose()), Ok(Choice::Met));
    for place in [1, 512, 1 << 32, usize::MAX] {
        refused(&mut storage, Refusal::NotActive, |job| job.promote(place));
    }
    assert_eq!(storage.call(|job| job.promote(0)), Ok(Promotion::Promoted));
    let counts = storage.call(|job| job.result()).unwrap();
    assert_eq!((counts.old, counts.active, counts.wanted, counts.pending_error), (1, 0, 2, 0));
}

#[test]
fn another_place_than_the_chosen_one_is_refined() {
    let mut storage = refined();
    assert_eq!(storage.call(|job| job.choose()), Ok(Choice::Place(1)));
    refused(&mut storage, Refusal::NotActive, |job| job.promote(0));
    assert_eq!(storage.call(|job| job.promote(2)), Ok(Promotion::Promoted));
    // (2,2) is not admitted, since (2,1) is not old.
    assert_eq!((storage.job.held, storage.job.pending_error), (4, 30));
    assert_eq!(storage.call(|job| levels(job, 3)), [1, 3]);
}

#[test]
fn the_largest_indicator_is_chosen_at_the_lowest_place() {
    for (indicators, place) in [([9, 5, 7], 1), ([5, 9, 9], 2), ([0, 0, 1], 3), ([7, 7, 7], 1)] {
        let mut storage = Storage::started(3, 0, 64);
        storage.call(|job| job.deliver(&[7], 100)).unwrap();
        storage.call(|job| job.promote(0)).unwrap();
        for indicator in indicators {
            storage.call(|job| job.deliver(&[7, 7], indicator)).unwrap();
        }
        let choice = storage.call(|job| job.choose());
        assert_eq!(choice, Ok(Choice::Place(place)), "{indicators:?}");
    }
}

/// The highest level admits nothing, and is promoted too.
#[test]
fn one_axis_refined_throughout_is_capped_at_9_and_met_at_10() {
    for (threshold, choice) in [(9, Choice::Capped), (10, Choice::Met)] {
        let mut storage = all_of_one_axis(threshold);
        assert_eq!(storage.call(|job| job.choose()), Ok(choice), "threshold {threshold}");
        let counts = storage.call(|job| job.result()).unwrap();
        assert_eq!((counts.old, counts.active, counts.wanted, counts.reserved), (8, 0, 0, 129));
        assert_eq!((counts.pending_error, counts.carried_error), (0, 10));
    }
}

/// The budget has no room for the root's neighbours.
#[test]
fn a_job_that_is_met_can_be_spent() {
    let mut storage = Storage::started(2, 0, 4);
    storage.call(|job| job.deliver(&[7], 0)).unwrap();
    assert_eq!(storage.call(|job| job.choose()), Ok(Choice::Met));
    let before = storage.clone();
    assert_eq!(storage.call(|job| job.promote(0)), Ok(Promotion::Spent));
    assert!(storage == before, "spent changes nothing");
}

/// At each of its answers. Both its words are written.
#[test]
fn choose_changes_nothing() {
    let capped = run((1, 9, 129), 7, |_| 10).0;
    for (mut storage, words) in [(met(), [0, 0]), (capped, [3, 0]), (refined(), [4, 1])] {
        let before = storage.clone();
        storage.call(|job| job.choose()).unwrap();
        assert!(storage == before, "{words:?}");
        assert_eq!(storage.choice_words(), (0, words));
    }
}

#[test]
fn a_refused_choose_leaves_its_words() {
    let refusals = [(short(refined()), 3), (unsound(refined()), 4), (Storage::wanting_two(), 6)];
    for (storage, cause) in refusals {
        assert_eq!(storage.choice_words(), (cause, [MARK; 2]));
    }
}

#[test]
fn a_refused_promote_leaves_its_outcome() {
    let refusals = [
        (short(refined()), 3),
        (unsound(refined()), 4),
        (Storage::wanting_two(), 6),
        (refined(), 11),
    ];
    for (mut storage, cause) in refusals {
        let before = storage.clone();
        assert_eq!(storage.outcome_word(0), (cause, [MARK]));
        assert!(storage == before, "refused with {cause}");
    }
}

/// Both causes of each pair apply, and the earlier is named: 3 and 4, then 4 and
/// 6 at choose; these, then 6 and 11 at promote.
#[test]
fn the_causes_come_in_their_order() {
    for part in [(CELLS - 1, 64), (CELLS, 63)] {
        let mut storage = unsound(refined());
        refused_in(&mut storage, part, Refusal::TooShort, |job| job.choose());
        refused_in(&mut storage, part, Refusal::TooShort, |job| job.promote(1));
    }
    let mut storage = unsound(Storage::wanting_two());
    refused(&mut storage, Refusal::NotSound, |job| job.choose());
    refused(&mut storage, Refusal::NotSound, |job| job.promote(1));
    // Place 0 is old, 1 and 2 are wanted, 3 is that of no index.
    for place in [0, 1, 2, 3, usize::MAX] {
        refused(&mut Storage::wanting_two(), Refusal::BlockWanted, |job| job.promote(place));
    }
}

/// Each would be that of an active index if some of its high bits were cut.
#[test]
fn a_place_keeps_its_64_bits() {
    let mut storage = refined();
    for bit in 2..64 {
        refused(&mut storage, Refusal::NotActive, |job| job.promote(1 << bit | 1));
        refused(&mut storage, Refusal::NotActive, |job| job.promote(1 << bit | 2));
    }
    assert_eq!(storage.call(|job| job.promote(1)), Ok(Promotion::Promoted));
}
