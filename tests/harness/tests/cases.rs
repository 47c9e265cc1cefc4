//! The boundary cases that are executed, the example job by calls, and each
//! cause of a refusal in its own case: its number, and that everything lent is
//! as it was.

mod support;

use harness::answers;
use harness::calls;
use harness::lent::{Lent, Part};
use reference::area::WORDS;
use reference::call::Call;
use reference::sample;
use support::*;

#[test]
fn before_the_first_delivery_the_scaled_mean_is_0() {
    for axes in 1..=8 {
        let mut lent = started(axes, 40, 64);
        assert!(calls::check_lent(&mut lent));
        assert_eq!(counts(&mut lent), [0, 0, 0, 0, 0, 0, 1, 1, 0, 0, 0]);
        assert_eq!(cross_total(&mut lent), 0);
    }
}

#[test]
fn a_threshold_equal_to_the_pending_error_is_met_with_nothing_carried() {
    let mut equal = started(2, 7, 64);
    deliver(&mut equal, &[5], 7);
    let before = equal.clone();
    assert_eq!(choose(&mut equal), MET);
    assert!(equal == before, "met changes nothing");
    let mut below = started(2, 6, 64);
    deliver(&mut below, &[5], 7);
    assert_eq!(choose(&mut below), chosen(0));
}

/// One axis, its readings all 3 and its indicators all 10, refined up to level 8.
fn refined_to_the_ceiling() -> Lent {
    let mut lent = storage();
    lent.store.resize(129, 0);
    assert_eq!(calls::start(lent.all(), 1, 9, 129), 0);
    for points in [1, 2, 2, 4, 8, 16, 32, 64] {
        deliver(&mut lent, &vec![3; points], 10);
        promote_chosen(&mut lent);
    }
    lent
}

#[test]
fn a_job_whose_error_lies_at_a_ceiling_is_capped() {
    let mut lent = refined_to_the_ceiling();
    let before = lent.clone();
    assert_eq!(choose(&mut lent), CAPPED);
    assert!(lent == before, "capped changes nothing");
    assert_eq!(lent.job[CARRIED..], [10, 0]);
    assert_eq!(counts(&mut lent), [0, 0, 3 << 20, 0, 8, 0, 0, 129, 1, 10, 0]);
}

#[test]
fn another_carried_error_is_not_sound() {
    for (word, value) in [(CARRIED, 11), (CARRIED, 0), (CARRIED + 1, 1)] {
        let mut lent = refined_to_the_ceiling();
        lent.job[word] = value;
        assert!(!calls::check_lent(&mut lent));
        let others = [Call::Choose, Call::Result, Call::CrossTotal, Call::Doubles];
        for call in [point(0), points(0), delivery(&[3]), promotion(7)].into_iter().chain(others) {
            refused(&mut lent, &call, 4);
        }
        accepted(&lent, &start(1, 129));
    }
}

#[test]
fn with_two_axes_a_budget_of_4_is_spent_at_the_first_promotion() {
    let mut lent = started(2, 0, 4);
    deliver(&mut lent, &[5], 1);
    let before = lent.clone();
    assert_eq!(promote(&mut lent, 0), SPENT);
    assert!(lent == before, "spent changes nothing");
}

#[test]
fn with_two_axes_a_budget_of_5_is_not_spent_at_the_first_promotion() {
    let mut lent = started(2, 0, 5);
    deliver(&mut lent, &[5], 1);
    assert_eq!(promote(&mut lent, 0), PROMOTED);
    assert_eq!(counts(&mut lent)[4..], [1, 0, 2, 5, 0, 0, 0]);
}

#[test]
fn the_example_job_is_met_with_its_counts_and_scaled_mean() {
    let entries: [(u32, &[i32]); 4] =
        [(100, &[4_160]), (50, &[64, 16_448]), (0, &[4_096, 4_224]), (10, &[1_088, 9_280])];
    let mut entries = entries.into_iter();
    let mut lent = started(2, 40, 64);
    let ending = loop {
        let wanted = counts(&mut lent)[6];
        if wanted > 0 {
            let (indicator, readings) = entries.next().expect("an entry for each wanted block");
            let asked: Vec<i32> = (0..readings.len()).map(|n| stroke_at(&mut lent, n)).collect();
            assert_eq!(asked, readings);
            deliver(&mut lent, readings, indicator);
        } else {
            match choose(&mut lent) {
                [4, place] => assert_eq!(promote(&mut lent, place as usize), PROMOTED),
                ending => break ending,
            }
        }
    };
    assert_eq!(ending, MET);
    assert_eq!(entries.next(), None);
    let mean = 5_972_688_896u64;
    assert_eq!(counts(&mut lent), [10, 0, mean as u32, (mean >> 32) as u32, 2, 2, 0, 7, 0, 0, 0]);
    assert_eq!(cross_total(&mut lent), mean as i64);
    assert!(calls::check_lent(&mut lent));
}

#[test]
fn a_negative_cross_total_has_the_words_of_a_negative_mean() {
    for reading in [-1, -4_160, -1_048_576] {
        let mut lent = started(3, 0, 64);
        deliver(&mut lent, &[reading], 1);
        let mean = i64::from(reading) << 20;
        assert_eq!(cross_total(&mut lent), mean);
        assert_eq!(counts(&mut lent)[2..4], answers::total_words(mean));
    }
}

#[test]
fn after_a_job_the_cross_total_is_the_mean_of_result() {
    for seed in 0..200 {
        let area = sample::area(seed);
        let mut lent = Lent::of(&area);
        let total = cross_total(&mut lent);
        assert_eq!(counts(&mut lent)[2..4], answers::total_words(total), "seed {seed}");
        assert_eq!(Ok(total), reference::calls::cross_total(&area), "seed {seed}");
    }
}

#[test]
fn where_the_recorded_mean_is_altered_the_cross_total_is_not() {
    let mut others = 0;
    for seed in 0..200 {
        let before = sample::area(seed);
        let delivered = before.held().iter().filter(|record| record.is_delivered()).count() as i64;
        // In range, so the area is still sound; in a job with nothing
        // delivered 0 is the only mean that is.
        for mean in [delivered << 40, -delivered << 40, before.job.mean / 2, 0] {
            let mut area = before.clone();
            area.job.mean = mean;
            let mut lent = Lent::of(&area);
            assert!(calls::check_lent(&mut lent), "seed {seed}");
            assert_eq!(counts(&mut lent)[2..4], answers::total_words(mean), "seed {seed}");
            let total = cross_total(&mut lent);
            assert_eq!(total, before.job.mean, "seed {seed}");
            assert_eq!(Ok(total), reference::calls::cross_total(&area), "seed {seed}");
            others += u32::from(total != mean);
        }
    }
    assert!(others > 400, "{others}");
}

/// The example's readings are x squared plus y at the points asked for.
fn stroke_at(lent: &mut Lent, n: usize) -> i32 {
    let mut position = [0u8; 2];
    assert_eq!(calls::point(lent.all(), n, &mut position), 0);
    i32::from(position[0]).pow(2) + i32::from(position[1])
}

#[test]
fn cause_1_a_start_with_other_than_1_to_8_axes() {
    let mut lent = wanting_two();
    for axes in [0, 9, u32::MAX] {
        refused(&mut lent, &start(axes, 64), 1);
    }
    for axes in [1, 8] {
        accepted(&lent, &start(axes, 64));
    }
}

#[test]
fn cause_2_a_start_with_a_budget_other_than_1_to_8192() {
    let mut lent = wanting_two();
    lent.store.resize(8_192, 0);
    for budget in [0, 8_193, u32::MAX] {
        refused(&mut lent, &start(2, budget), 2);
    }
    for budget in [1, 8_192] {
        accepted(&lent, &start(2, budget));
    }
}

/// Each call that can be refused, in an area in which it is accepted.
fn each_call() -> Vec<(Lent, Call)> {
    vec![
        (wanting_two(), start(2, 64)),
        (wanting_two(), point(0)),
        (wanting_two(), points(0)),
        (wanting_two(), delivery(&[64, 16_448])),
        (wanting_nothing(), Call::Choose),
        (wanting_nothing(), promotion(1)),
        (wanting_two(), Call::Result),
        (wanting_two(), Call::CrossTotal),
        (wanting_two(), Call::Doubles),
    ]
}

#[test]
fn cause_3_fewer_than_512_records() {
    for (mut lent, call) in each_call() {
        let part = short_of_records(&lent);
        refused_in(&mut lent, part, &call, 3);
        refused_in(&mut lent, Part { cells: 0, ..part }, &call, 3);
        accepted_in(&lent, Part { cells: RECORDS * WORDS, ..part }, &call);
    }
}

#[test]
fn cause_3_a_store_under_the_budget() {
    for (mut lent, call) in each_call() {
        let part = short_of_readings(&lent, 64);
        refused_in(&mut lent, part, &call, 3);
        refused_in(&mut lent, Part { store: 0, ..part }, &call, 3);
        accepted_in(&lent, Part { store: 64, ..part }, &call);
    }
}

#[test]
fn cause_3_for_start_goes_by_the_budget_it_is_given() {
    let mut lent = wanting_two();
    let whole = lent.whole();
    refused_in(&mut lent, Part { store: 69, ..whole }, &start(2, 70), 3);
    accepted_in(&lent, Part { store: 3, ..whole }, &start(2, 3));
}

#[test]
fn cause_3_a_point_buffer_shorter_than_the_axes() {
    let mut lent = wanting_two();
    for buffer in [0, 1] {
        refused(&mut lent, &Call::Point { n: 0, buffer }, 3);
        refused(&mut lent, &Call::Points { n: 0, buffer }, 3);
    }
    accepted(&lent, &Call::Point { n: 0, buffer: 2 });
    accepted(&lent, &Call::Points { n: 0, buffer: 2 });
}

#[test]
fn check_says_no_to_short_storage() {
    let mut lent = wanting_two();
    for part in [short_of_records(&lent), short_of_readings(&lent, 64)] {
        assert!(!calls::check_loan(&lent.part(part)));
    }
    let enough = Part { cells: RECORDS * WORDS, store: 64 };
    assert!(calls::check_loan(&lent.part(enough)));
}

#[test]
fn cause_4_an_area_that_is_not_sound_for_every_call_but_start_and_check() {
    for (lent, call) in each_call().into_iter().skip(1) {
        refused(&mut altered(lent), &call, 4);
    }
    accepted(&altered(wanting_two()), &start(2, 64));
}

#[test]
fn cause_5_point_points_and_deliver_where_no_block_is_wanted() {
    let mut lent = wanting_nothing();
    refused(&mut lent, &point(0), 5);
    refused(&mut lent, &points(0), 5);
    refused(&mut lent, &delivery(&[1, 2]), 5);
}

#[test]
fn cause_6_choose_and_promote_while_a_block_is_wanted() {
    for call in [Call::Choose, promotion(0), promotion(1)] {
        refused(&mut started(2, 0, 64), &call, 6);
        refused(&mut wanting_two(), &call, 6);
    }
}

#[test]
fn cause_7_a_reading_count_that_is_not_the_blocks() {
    let mut lent = wanting_two();
    for readings in [&[][..], &[1], &[1, 2, 3]] {
        refused(&mut lent, &delivery(readings), 7);
    }
    accepted(&lent, &delivery(&[1, 2]));
}

#[test]
fn cause_8_a_reading_out_of_range() {
    let mut lent = wanting_two();
    for reading in [1_048_577, -1_048_577, i32::MAX, i32::MIN] {
        refused(&mut lent, &delivery(&[reading, 0]), 8);
        refused(&mut lent, &delivery(&[0, reading]), 8);
    }
    accepted(&lent, &delivery(&[1_048_576, -1_048_576]));
}

#[test]
fn cause_9_a_point_number_not_below_the_blocks_size() {
    let mut lent = wanting_two();
    for n in [2, 3, 1 << 32, u64::MAX] {
        refused(&mut lent, &point(n), 9);
        refused(&mut lent, &points(n), 9);
    }
    accepted(&lent, &point(1));
    accepted(&lent, &points(1));
}

/// An old place, the number of those held and all past it, and active places past 32
/// and 63 bits.
#[test]
fn cause_11_promote_where_no_active_index_is() {
    let mut lent = wanting_nothing();
    let past = [3, 511, 512, 1 << 32, (1 << 32) + 1, (1 << 63) + 2, u64::MAX];
    for place in [0].into_iter().chain(past) {
        refused(&mut lent, &promotion(place), 11);
    }
    accepted(&lent, &promotion(1));
    accepted(&lent, &promotion(2));
}
