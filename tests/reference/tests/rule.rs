//! The one-axis rule: the document's words against first principles.

use reference::rule::*;
use reference::trapezoid::{self, Fraction};

/// A whole weight in units of 2^-unit(level) as a fraction.
fn as_fraction(weight: i64, level: u32) -> Fraction {
    Fraction::new(i128::from(weight), 1 << unit(level))
}

#[test]
fn both_derivations_agree_at_every_level_and_position() {
    for level in 1..=TOP_LEVEL {
        let rule = trapezoid::rule(level);
        assert_eq!(rule.len(), points(level).len());
        for position in 0..=LAST_POSITION {
            let at = trapezoid::abscissa(position);
            let whole = as_fraction(whole_weight(level, position), level);
            assert_eq!(whole, trapezoid::weight_at(&rule, at), "whole {level} {position}");
            let difference = as_fraction(difference_weight(level, position), level);
            assert_eq!(difference, trapezoid::difference_at(level, at), "{level} {position}");
        }
    }
}

#[test]
fn points_and_new_points_have_their_numbers() {
    assert_eq!(points(1), [64]);
    assert_eq!(new_points(1), [64]);
    assert_eq!(new_points(2), [0, 128]);
    for level in 2..=TOP_LEVEL {
        assert_eq!(points(level).len(), (1 << (level - 1)) + 1);
        let fresh: Vec<u32> =
            points(level).into_iter().filter(|&p| !is_point(level - 1, p)).collect();
        assert_eq!(new_points(level), fresh, "new at {level}");
    }
    for level in 1..=TOP_LEVEL {
        assert_eq!(new_count(level), Some(new_points(level).len() as u128));
    }
    for position in 0..=LAST_POSITION {
        let levels: Vec<u32> = (1..=TOP_LEVEL).filter(|&k| is_new(k, position)).collect();
        assert_eq!(levels, [new_at(position)], "new exactly once: {position}");
    }
}

#[test]
fn proved_cases_1_to_3() {
    let weights = |level: u32| -> Vec<i64> {
        points(level).into_iter().map(|p| difference_weight(level, p)).collect()
    };
    assert_eq!(weights(2), [1, -2, 1]);
    assert_eq!(weights(3), [-1, 2, -2, 2, -1]);
    assert_eq!(new_points(4), [16, 48, 80, 112]);
}

#[test]
fn the_centre_of_level_2_is_not_plus_2() {
    assert_eq!(difference_weight(2, CENTRE), -2);
    assert_eq!(whole_weight(2, CENTRE), 2);
}

#[test]
fn weights_sum_to_one_and_differences_to_nothing() {
    for level in 1..=TOP_LEVEL {
        let all = 0..=LAST_POSITION;
        let whole: i64 = all.clone().map(|p| whole_weight(level, p)).sum();
        assert_eq!(whole, 1 << unit(level));
        let difference: i64 = all.clone().map(|p| difference_weight(level, p)).sum();
        assert_eq!(difference, i64::from(level == 1));
        let size: i64 = all.map(|p| difference_weight(level, p).abs()).sum();
        assert_eq!(size, 1 << unit(level), "so a difference is at most a reading in size");
    }
}

#[test]
fn tables_are_the_definitions() {
    for level in 1..=TOP_LEVEL {
        let table = table(level);
        assert_eq!(table.points, points(level));
        assert_eq!(table.new_points, new_points(level));
        for position in 0..=LAST_POSITION {
            assert_eq!(table.whole[position as usize], whole_weight(level, position));
            assert_eq!(table.difference[position as usize], difference_weight(level, position));
        }
    }
    for position in 0..=LAST_POSITION {
        let (level, rank) = origin(position);
        assert_eq!(level, new_at(position));
        assert_eq!(new_points(level)[rank], position);
    }
}
