//! Where several causes hold at once, the earliest of the table is returned, 11 being
//! the last, and everything lent is as it was.

mod support;

use harness::lent::{Lent, Part};
use reference::call::Call;
use support::*;

/// One reading too many, and one of them out of range.
const TOO_MANY_AND_TOO_LARGE: [i32; 3] = [0, 1_048_577, 0];

fn nothing_lent() -> Part {
    Part { cells: 0, store: 0 }
}

#[test]
fn the_axes_come_before_the_budget() {
    refused(&mut wanting_two(), &start(9, 0), 1);
}

#[test]
fn the_axes_come_before_the_storage() {
    refused_in(&mut wanting_two(), nothing_lent(), &start(0, 64), 1);
}

#[test]
fn the_budget_comes_before_the_storage() {
    refused_in(&mut wanting_two(), nothing_lent(), &start(2, 8_193), 2);
}

#[test]
fn the_storage_comes_before_the_area() {
    let looking = [point(0), points(0), Call::Result, Call::CrossTotal, Call::Doubles];
    for call in looking.into_iter().chain([delivery(&[1, 2])]) {
        storage_before(altered(wanting_two()), &call, 4);
    }
    for call in [Call::Choose, promotion(1)] {
        storage_before(altered(wanting_nothing()), &call, 4);
    }
}

#[test]
fn the_point_buffer_comes_before_the_area() {
    refused(&mut altered(wanting_two()), &Call::Point { n: 0, buffer: 1 }, 3);
    refused(&mut altered(wanting_two()), &Call::Points { n: 0, buffer: 1 }, 3);
}

/// Short storage, and a later cause as well.
fn storage_before(mut lent: Lent, call: &Call, later: u32) {
    refused(&mut lent, call, later);
    for part in [short_of_records(&lent), short_of_readings(&lent, 64)] {
        refused_in(&mut lent, part, call, 3);
    }
}

#[test]
fn the_storage_comes_before_what_is_wanted_and_before_the_arguments() {
    storage_before(wanting_nothing(), &point(0), 5);
    storage_before(wanting_nothing(), &points(0), 5);
    storage_before(wanting_nothing(), &delivery(&[1, 2]), 5);
    storage_before(wanting_two(), &Call::Choose, 6);
    storage_before(wanting_one(), &promotion(1), 6);
    storage_before(wanting_nothing(), &promotion(0), 11);
    storage_before(wanting_two(), &delivery(&[1]), 7);
    storage_before(wanting_two(), &delivery(&[1_048_577, 0]), 8);
    storage_before(wanting_two(), &point(2), 9);
    storage_before(wanting_two(), &points(2), 9);
}

#[test]
fn the_point_buffer_comes_before_what_is_wanted_and_before_the_point_number() {
    refused(&mut wanting_nothing(), &Call::Point { n: 0, buffer: 1 }, 3);
    refused(&mut wanting_nothing(), &Call::Points { n: 0, buffer: 1 }, 3);
    refused(&mut wanting_two(), &Call::Point { n: 2, buffer: 1 }, 3);
    refused(&mut wanting_two(), &Call::Points { n: 2, buffer: 1 }, 3);
}

/// An area that is not sound, and a later cause as well.
fn area_before(mut lent: Lent, call: &Call, later: u32) {
    refused(&mut lent, call, later);
    refused(&mut altered(lent), call, 4);
}

#[test]
fn the_area_comes_before_what_is_wanted_and_before_the_arguments() {
    area_before(wanting_nothing(), &point(0), 5);
    area_before(wanting_nothing(), &points(0), 5);
    area_before(wanting_nothing(), &delivery(&[1, 2]), 5);
    area_before(wanting_two(), &Call::Choose, 6);
    area_before(wanting_one(), &promotion(1), 6);
    area_before(wanting_nothing(), &promotion(0), 11);
    area_before(wanting_two(), &delivery(&[1]), 7);
    area_before(wanting_two(), &delivery(&[1_048_577, 0]), 8);
    area_before(wanting_two(), &point(2), 9);
    area_before(wanting_two(), &points(2), 9);
}

#[test]
fn that_no_block_is_wanted_comes_before_the_arguments() {
    refused(&mut wanting_nothing(), &delivery(&[]), 5);
    refused(&mut wanting_nothing(), &delivery(&TOO_MANY_AND_TOO_LARGE), 5);
    refused(&mut wanting_nothing(), &point(u64::MAX), 5);
    refused(&mut wanting_nothing(), &points(u64::MAX), 5);
}

#[test]
fn that_a_block_is_wanted_comes_before_met() {
    // Nothing is pending before the first delivery, so it would be met.
    refused(&mut started(2, 0, 64), &Call::Choose, 6);
}

#[test]
fn that_a_block_is_wanted_comes_before_spent() {
    let mut lent = started(2, 0, 5);
    deliver(&mut lent, &[1], 1);
    assert_eq!(promote(&mut lent, 0), PROMOTED);
    deliver(&mut lent, &[1, 1], 1);
    refused(&mut lent, &promotion(1), 6);
    deliver(&mut lent, &[1, 1], 1);
    assert_eq!(promote(&mut lent, 1), SPENT);
}

/// An old place, a wanted one, and those where no index is.
#[test]
fn that_a_block_is_wanted_comes_before_the_place() {
    for place in [0, 2, 3, 512, (1 << 32) + 1, u64::MAX] {
        refused(&mut wanting_one(), &promotion(place), 6);
    }
}

#[test]
fn of_three_causes_of_choose_or_promote_the_first_is_returned() {
    storage_before(altered(wanting_one()), &Call::Choose, 4);
    storage_before(altered(wanting_one()), &promotion(1), 4);
    storage_before(altered(wanting_nothing()), &promotion(0), 4);
    storage_before(wanting_one(), &promotion(0), 6);
    area_before(wanting_one(), &promotion(0), 6);
}

#[test]
fn of_all_four_causes_of_promote_the_storage_is_returned() {
    storage_before(altered(wanting_one()), &promotion(0), 4);
}

#[test]
fn the_reading_count_comes_before_the_range() {
    refused(&mut wanting_two(), &delivery(&TOO_MANY_AND_TOO_LARGE), 7);
    refused(&mut wanting_two(), &delivery(&[1_048_577]), 7);
}
