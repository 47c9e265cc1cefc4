//! Differences, full tensor rules, combination coefficients and the cross
//! total, all times 2^20, worked literally reading by reading.
//!
//! Sums run in 128-bit numbers, so nothing can wrap; the bounds of the scope
//! document are asserted on the way.
//!
//! A reading is asked for by its index and its number in the walk of that
//! index's block. All points of a block have one weight, so no sum shows in
//! which order they are walked.

use crate::grid::{self, Levels, MOST_AXES};
use crate::rule;
use std::cell::Cell;
use std::collections::HashMap;

/// Differences and tensor rules are taken times 2^20.
pub const SCALE: u32 = 20;
/// "Times 2^20 it is a whole number of size at most 2^40."
pub const DIFFERENCE_LIMIT: i128 = 1 << 40;

/// The readings of delivered indices, found by index.
pub struct Readings<'a> {
    blocks: HashMap<Levels, &'a [i32]>,
    /// The block found last: walks mostly stay in one block.
    last: Cell<Option<(Levels, &'a [i32])>>,
}

impl<'a> Readings<'a> {
    pub fn new(blocks: impl Iterator<Item = (Levels, &'a [i32])>) -> Readings<'a> {
        Readings { blocks: blocks.collect(), last: Cell::new(None) }
    }

    /// The reading at the point of this number in the block of this index.
    pub fn at(&self, index: &Levels, number: usize) -> i32 {
        if let Some((levels, readings)) = self.last.get() {
            if levels == *index {
                return readings[number];
            }
        }
        let readings = *self.blocks.get(index).expect("an index nowhere higher is delivered");
        self.last.set(Some((*index, readings)));
        readings[number]
    }

    pub fn is_delivered(&self, index: &Levels) -> bool {
        self.blocks.contains_key(index)
    }

    pub fn delivered(&self) -> impl Iterator<Item = &Levels> {
        self.blocks.keys()
    }
}

/// Brings a sum in units of the product of the axes' units to units of 2^-20.
/// The units' exponents add up to at most excess 12 plus one for each of eight
/// axes, so the factor is a whole power of two and nothing is cut off.
fn scaled(sum: i128, index: &Levels) -> i128 {
    let units: u32 = index.iter().map(|&level| rule::unit(level)).sum();
    assert!(units <= SCALE, "an index within the ceilings has units of at most 2^-20");
    let result = sum * (1i128 << (SCALE - units));
    assert!(result.abs() <= DIFFERENCE_LIMIT, "readings in range keep the sum within 2^40");
    result
}

/// The difference of an index times 2^20: "sums all readings of its own block
/// and of the blocks of every index that is nowhere higher, each times the
/// product of the axes' weights".
pub fn difference(axes: usize, index: &Levels, reading: &impl Fn(&Levels, usize) -> i32) -> i128 {
    let weights: [&[i64]; MOST_AXES] =
        std::array::from_fn(|axis| rule::table(index[axis]).difference.as_slice());
    let mut sum = 0i128;
    grid::for_each_nowhere_higher(axes, index, |lower| {
        grid::for_each_point(axes, lower, |number, point| {
            let mut weight = 1i64;
            for axis in 0..axes {
                weight *= weights[axis][point[axis] as usize];
            }
            sum += i128::from(weight) * i128::from(reading(lower, number));
        });
    });
    scaled(sum, index)
}

/// The full tensor rule of an index times 2^20: "the product of the axes'
/// whole rules, one axis taken off at a time".
pub fn full_tensor_rule(
    axes: usize,
    index: &Levels,
    reading: &impl Fn(&Levels, usize) -> i32,
) -> i128 {
    scaled(tensor_below(0, axes, index, grid::ROOT, 0, reading), index)
}

/// The rule over the axes from `axis` on, at the positions already chosen on
/// the axes before. Those positions are carried as the index at which the
/// point is new and the number of the point in the walk of that index's block,
/// which is the rank that the next axis turns by.
fn tensor_below(
    axis: usize,
    axes: usize,
    index: &Levels,
    chosen: Levels,
    number: usize,
    reading: &impl Fn(&Levels, usize) -> i32,
) -> i128 {
    if axis == axes {
        return i128::from(reading(&chosen, number));
    }
    let table = rule::table(index[axis]);
    let mut sum = 0i128;
    for &position in &table.points {
        let mut longer = chosen;
        longer[axis] = rule::origin(position).0;
        let number = grid::next_rank(number, position);
        let below = tensor_below(axis + 1, axes, index, longer, number, reading);
        sum += i128::from(table.whole[position as usize]) * below;
    }
    sum
}

/// The combination coefficient: "sums, over every subset of the axes, +1 for
/// an even and -1 for an odd subset when the index raised by one on that
/// subset is delivered".
pub fn coefficient(axes: usize, index: &Levels, delivered: &impl Fn(&Levels) -> bool) -> i128 {
    let mut sum = 0;
    for subset in 0u32..1 << axes {
        let mut raised = *index;
        for (axis, level) in raised.iter_mut().enumerate() {
            if subset >> axis & 1 == 1 {
                *level += 1;
            }
        }
        if delivered(&raised) {
            sum += if subset.count_ones() % 2 == 0 { 1 } else { -1 };
        }
    }
    sum
}

/// The scaled mean worked out from coefficients and full tensor rules.
pub fn cross_total(axes: usize, readings: &Readings) -> i128 {
    let reading = |index: &Levels, number: usize| readings.at(index, number);
    let delivered = |index: &Levels| readings.is_delivered(index);
    readings
        .delivered()
        .map(|index| coefficient(axes, index, &delivered) * full_tensor_rule(axes, index, &reading))
        .sum()
}

/// The scaled mean as the sum of the differences of the delivered indices.
pub fn sum_of_differences(axes: usize, readings: &Readings) -> i128 {
    let reading = |index: &Levels, number: usize| readings.at(index, number);
    readings.delivered().map(|index| difference(axes, index, &reading)).sum()
}
