//! Differences, full tensor rules, coefficients and the combination identity.

use reference::examples::scope_job;
use reference::grid::{self, Levels, READING_LIMIT, ROOT};
use reference::rng::Rng;
use reference::rule;
use reference::sums::*;
use reference::trapezoid::{self, Fraction};
use std::collections::HashMap;

fn index(levels: &[u32]) -> Levels {
    let mut index = ROOT;
    index[..levels.len()].copy_from_slice(levels);
    index
}

/// The delivered blocks of the scope document's file.
fn scope_blocks() -> Vec<(Levels, Vec<i32>)> {
    let indices = [index(&[1, 1]), index(&[2, 1]), index(&[1, 2]), index(&[3, 1])];
    indices.into_iter().zip(scope_job().entries.into_iter().map(|e| e.readings)).collect()
}

fn readings(blocks: &[(Levels, Vec<i32>)]) -> Readings<'_> {
    Readings::new(blocks.iter().map(|(levels, readings)| (*levels, readings.as_slice())))
}

#[test]
fn proved_cases_6_to_9() {
    let blocks = scope_blocks();
    let known = readings(&blocks);
    let reading = |levels: &Levels, number: usize| known.at(levels, number);
    assert_eq!(difference(2, &index(&[2, 1]), &reading), 2048 << 20);
    assert_eq!(difference(2, &index(&[3, 1]), &reading), -512 << 20);
    assert_eq!(difference(2, &index(&[1, 2]), &reading), 0);
    let delivered = |levels: &Levels| known.is_delivered(levels);
    let coefficients: Vec<i128> =
        blocks.iter().map(|(levels, _)| coefficient(2, levels, &delivered)).collect();
    assert_eq!(coefficients, [-1, 0, 1, 1]);
    assert_eq!(sum_of_differences(2, &known), 5_972_688_896);
    assert_eq!(cross_total(2, &known), 5_972_688_896);
}

#[test]
fn wanted_indices_stay_out_of_the_coefficients() {
    let delivered_only = |levels: &Levels| [ROOT, index(&[2, 1])].contains(levels);
    assert_eq!(coefficient(2, &ROOT, &delivered_only), 0);
    let with_wanted = |levels: &Levels| delivered_only(levels) || *levels == index(&[1, 2]);
    assert_eq!(coefficient(2, &ROOT, &with_wanted), -1, "the plausible wrong figure");
}

#[test]
fn proved_case_10_constant_readings() {
    let five = |_: &Levels, _: usize| 5;
    for axes in 1..=8 {
        grid::for_each_within_ceilings(axes, |levels| {
            if grid::excess(levels) > 5 {
                return;
            }
            let expected = if *levels == ROOT { 5 << 20 } else { 0 };
            assert_eq!(difference(axes, levels, &five), expected, "{levels:?}");
            if grid::excess(levels) <= 3 {
                assert_eq!(full_tensor_rule(axes, levels, &five), 5 << 20, "{levels:?}");
            }
        });
    }
}

/// Readings by index and number that look random and need no storage.
fn scrambled(levels: &Levels, number: usize) -> i32 {
    let mut seed = number as u64;
    for &level in levels {
        seed = seed * 9 + u64::from(level);
    }
    Rng::new(seed).between(-i64::from(READING_LIMIT), i64::from(READING_LIMIT)) as i32
}

/// The difference is the product over the axes of rule(k) - rule(k-1), so it
/// is the signed sum of the full tensor rules of all ways to lower levels.
#[test]
fn a_difference_is_the_signed_sum_of_tensor_rules() {
    let mut rng = Rng::new(3);
    for _ in 0..200 {
        let axes = rng.between(1, 5) as usize;
        let mut levels = ROOT;
        for level in &mut levels[..axes] {
            *level = rng.between(1, 4) as u32;
        }
        if !grid::within_ceilings(&levels) {
            continue;
        }
        let mut sum = 0;
        for subset in 0u32..1 << axes {
            let lowered: Option<Levels> = (0..axes)
                .filter(|axis| subset >> axis & 1 == 1)
                .try_fold(levels, |low, axis| grid::backward_neighbour(&low, axis));
            if let Some(lowered) = lowered {
                let sign = if subset.count_ones() % 2 == 0 { 1 } else { -1 };
                sum += sign * full_tensor_rule(axes, &lowered, &scrambled);
            }
        }
        assert_eq!(difference(axes, &levels, &scrambled), sum, "{levels:?}");
    }
}

/// Both sums once more with exact fractions straight from the trapezoidal
/// rule, point by point over the whole tensor grid. A point's reading is found by
/// its number in the walk, though no sum shows which point of its block it is.
#[test]
fn sums_agree_with_exact_fractions() {
    for levels in [&[1][..], &[4], &[2, 3], &[5, 2], &[3, 1, 2], &[2, 2, 2, 2]] {
        let axes = levels.len();
        let levels = index(levels);
        let mut tensor = Fraction::whole(0);
        let mut hierarchical = Fraction::whole(0);
        let total: usize = (0..axes).map(|axis| rule::points(levels[axis]).len()).product();
        for mut rest in 0..total {
            let mut point = [64u8; 8];
            for axis in 0..axes {
                let points = rule::points(levels[axis]);
                point[axis] = points[rest % points.len()] as u8;
                rest /= points.len();
            }
            let own: Levels = std::array::from_fn(|axis| rule::new_at(u32::from(point[axis])));
            let number = grid::block(axes, &own).iter().position(|p| *p == point).unwrap();
            let mut whole_weight = Fraction::whole(i128::from(scrambled(&own, number)));
            let mut difference_weight = whole_weight;
            for axis in 0..axes {
                let at = trapezoid::abscissa(u32::from(point[axis]));
                let rule = trapezoid::rule(levels[axis]);
                whole_weight = whole_weight.times(trapezoid::weight_at(&rule, at));
                difference_weight =
                    difference_weight.times(trapezoid::difference_at(levels[axis], at));
            }
            tensor = tensor.plus(whole_weight);
            hierarchical = hierarchical.plus(difference_weight);
        }
        let scale = Fraction::whole(1 << 20);
        let whole = Fraction::whole(full_tensor_rule(axes, &levels, &scrambled));
        assert_eq!(tensor.times(scale), whole, "{levels:?}");
        let whole = Fraction::whole(difference(axes, &levels, &scrambled));
        assert_eq!(hierarchical.times(scale), whole, "{levels:?}");
    }
}

/// The coefficients times the tensor rules give the sum of the differences on
/// every downward closed set, not on the simplex alone.
#[test]
fn the_combination_identity_on_random_closed_sets() {
    let mut rng = Rng::new(11);
    for _ in 0..150 {
        let axes = rng.between(1, 8) as usize;
        let mut set: Vec<Levels> = vec![ROOT];
        for _ in 0..rng.between(0, 120) {
            let base = set[rng.place(set.len())];
            let next = grid::forward_neighbour(&base, rng.place(axes)).unwrap();
            let closed = (0..axes)
                .filter_map(|axis| grid::backward_neighbour(&next, axis))
                .all(|backward| set.contains(&backward));
            let small = grid::within_ceilings(&next) && grid::block_size(&next) <= 64;
            if closed && small && !set.contains(&next) {
                set.push(next);
            }
        }
        let blocks: HashMap<Levels, Vec<i32>> = set
            .iter()
            .map(|levels| {
                let size = grid::block_size(levels);
                (*levels, (0..size).map(|number| scrambled(levels, number)).collect())
            })
            .collect();
        let known = Readings::new(blocks.iter().map(|(levels, r)| (*levels, r.as_slice())));
        assert_eq!(cross_total(axes, &known), sum_of_differences(axes, &known), "{set:?}");
        let ones: i128 = set
            .iter()
            .map(|levels| coefficient(axes, levels, &|other: &Levels| known.is_delivered(other)))
            .sum();
        assert_eq!(ones, 1, "the coefficients of a closed set sum to 1");
    }
}

/// Readings at the ends of the range, with the sign of their weight, bring a
/// difference to exactly 2^40, the bound.
#[test]
fn the_bound_of_a_difference_is_reached_and_not_passed() {
    for levels in [index(&[1]), index(&[2]), index(&[8, 6]), index(&[2; 8]), index(&[3, 3, 2])] {
        let signed = |own: &Levels, _: usize| {
            let negative = (0..8).filter(|&axis| own[axis] < levels[axis]).count() % 2 == 1;
            if negative {
                -READING_LIMIT
            } else {
                READING_LIMIT
            }
        };
        assert_eq!(difference(8, &levels, &signed), DIFFERENCE_LIMIT, "{levels:?}");
    }
}
