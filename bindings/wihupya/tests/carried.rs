//! The carried error: how a job ends that carries some, and that the area is
//! sound with the recorded sum alone.

mod support;

use support::{refused, run, Storage};
use wihupya::{Choice, Counts, Promotion, Refusal, RECORD_CELLS, SCALE};

/// The cell of a record that holds its indicator.
const INDICATOR: usize = 9;

/// One axis and readings all 3. The budget is what the axis takes up to its
/// highest level.
fn one_axis(threshold: u64, indicator: impl Fn(u32) -> u32) -> (Storage, Choice) {
    run((1, threshold, 129), 3, |levels| indicator(levels[0]))
}

/// One axis, refined throughout; the indicator 10 of its highest level is
/// carried.
fn capped() -> Storage {
    let (storage, end) = one_axis(9, |_| 10);
    assert_eq!(end, Choice::Capped);
    storage
}

/// Chooses in a copy of the area with another threshold, which is sound too.
fn chosen_with(storage: &Storage, threshold: u64) -> Choice {
    let mut storage = storage.clone();
    storage.job.threshold = threshold;
    storage.call(|job| job.choose()).unwrap()
}

#[test]
fn a_job_whose_last_refinement_is_at_a_ceiling_is_capped() {
    let mut storage = capped();
    let expected = Counts {
        pending_error: 0,
        carried_error: 10,
        scaled_mean: 3 * SCALE,
        old: 8,
        active: 0,
        wanted: 0,
        reserved: 129,
        ceiling: 1,
    };
    assert_eq!(storage.call(|job| job.result()), Ok(expected));
    assert_eq!(storage.call(|job| job.cross_total()), Ok(3 * SCALE));
    assert_eq!(storage.job.carried_error, 10);
    assert_eq!(storage.call(|job| job.choose()), Ok(Choice::Capped));
}

/// The highest level is active, so its indicator is pending and not carried.
#[test]
fn a_pending_error_equal_to_the_threshold_is_met_with_nothing_carried() {
    let (mut storage, end) = one_axis(10, |level| if level < 8 { 11 } else { 10 });
    assert_eq!(end, Choice::Met);
    let counts = storage.call(|job| job.result()).unwrap();
    assert_eq!((counts.pending_error, counts.carried_error), (10, 0));
    assert_eq!((counts.old, counts.active, counts.ceiling), (7, 1, 0));
}

/// A job that promotes only what is chosen never comes to this. Here the highest
/// level is refined although the job is met already.
#[test]
fn a_job_refined_beyond_its_end_is_met_with_something_carried() {
    let (mut storage, end) = one_axis(10, |level| if level < 8 { 11 } else { 10 });
    assert_eq!(end, Choice::Met);
    assert_eq!(storage.call(|job| job.promote(7)), Ok(Promotion::Promoted));
    let counts = storage.call(|job| job.result()).unwrap();
    assert_eq!((counts.pending_error, counts.carried_error), (0, 10));
    assert_eq!((counts.old, counts.active, counts.ceiling), (8, 0, 1));
    assert_eq!(storage.call(|job| job.choose()), Ok(Choice::Met));
}

/// (8,1) is refined before (1,2), which is still active at the end.
#[test]
fn pending_and_carried_error_count_together() {
    let indicator = |levels: &[u32]| match levels {
        [1, 2] => 5,
        [8, 1] => 6,
        _ => 100,
    };
    let (mut storage, end) = run((2, 9, 131), 1, indicator);
    assert_eq!(end, Choice::Capped);
    let counts = storage.call(|job| job.result()).unwrap();
    assert_eq!((counts.pending_error, counts.carried_error), (5, 6));
    assert_eq!((counts.old, counts.active, counts.ceiling), (8, 1, 1));
    let choices = [
        // The job goes on, whatever is carried.
        (4, Choice::Place(2)),
        (5, Choice::Capped),
        (10, Choice::Capped),
        (11, Choice::Met),
        (u64::MAX, Choice::Met),
    ];
    for (threshold, choice) in choices {
        assert_eq!(chosen_with(&storage, threshold), choice, "threshold {threshold}");
    }
}

/// Everything up to (7,7) is refined, which has excess 12: along both axes it
/// passes a ceiling. (8,1) and (1,8) come beside it, and matter nothing.
#[test]
fn an_index_at_a_ceiling_along_two_axes_counts_once() {
    let indicator = |levels: &[u32]| if levels.contains(&8) { 0 } else { 10 };
    let (mut storage, end) = run((2, 9, 4_353), 1, indicator);
    assert_eq!(end, Choice::Capped);
    let counts = storage.call(|job| job.result()).unwrap();
    assert_eq!((counts.pending_error, counts.carried_error), (0, 10));
    assert_eq!((counts.old, counts.active, counts.ceiling), (49, 2, 2));
}

/// One axis and indicators all 10, looked at after each delivery and promotion.
#[test]
fn nothing_is_carried_before_an_index_at_a_ceiling_is_refined() {
    let mut storage = Storage::marked();
    storage.store.resize(129, 0);
    storage.call(|job| job.start(1, 9, 129)).unwrap();
    for level in 1..=8 {
        assert_eq!(storage.job.carried_error, 0);
        let readings = vec![3; storage.call(|job| job.wanted_block().unwrap().len())];
        storage.call(|job| job.deliver(&readings, 10)).unwrap();
        assert_eq!((storage.job.pending_error, storage.job.carried_error), (10, 0));
        assert_eq!(storage.call(|job| job.promote(level - 1)), Ok(Promotion::Promoted));
        let carried = if level == 8 { 10 } else { 0 };
        assert_eq!((storage.job.pending_error, storage.job.carried_error), (0, carried));
        assert!(storage.call(|job| job.check()));
    }
}

#[test]
fn another_carried_error_is_not_sound() {
    for carried_error in [0, 9, 11, 1 << 32 | 10, u64::MAX] {
        let mut storage = capped();
        storage.job.carried_error = carried_error;
        assert!(!storage.call(|job| job.check()));
        let cause = Refusal::NotSound;
        refused(&mut storage, cause, |job| job.point(0, &mut [0; 1]));
        refused(&mut storage, cause, |job| job.points(0, &mut [0; 1]));
        refused(&mut storage, cause, |job| job.wanted_block().map(|block| block.len()));
        refused(&mut storage, cause, |job| job.deliver(&[0], 1));
        refused(&mut storage, cause, |job| job.choose());
        refused(&mut storage, cause, |job| job.promote(7));
        refused(&mut storage, cause, |job| job.result());
        refused(&mut storage, cause, |job| job.doubles());
        refused(&mut storage, cause, |job| job.cross_total());
        assert_eq!(storage.call(|job| job.start(1, 9, 129)), Ok(()));
        assert_eq!(storage.job.carried_error, 0);
        assert!(storage.call(|job| job.check()));
    }
}

/// Level 8 has place 7. The indicators of the other levels are in no sum.
#[test]
fn the_sum_is_that_of_the_indicators_at_a_ceiling() {
    for place in 0..8 {
        let mut storage = capped();
        storage.cells[place * RECORD_CELLS + INDICATOR] = 12;
        assert_eq!(storage.call(|job| job.check()), place < 7, "place {place}");
        storage.job.carried_error = 12;
        assert_eq!(storage.call(|job| job.check()), place == 7, "place {place}");
    }
}
