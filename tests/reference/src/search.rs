//! The search for an index among the held, and the comparison of levels a word at a
//! time: "pack the eight levels into one 64-bit word, a byte for each, and compare the
//! two words". Here is what both must answer, level by level, and the word by its
//! definition; and lists to search, by name, by seed and of an area.
//!
//! "The lookup answers as it did": no call of this reference goes by words, and none
//! changes.

use crate::area::Area;
use crate::grid::{self, Levels, MOST_AXES};

mod lists;
mod named;

pub use lists::held_lists;
pub use named::{cases, Case};

/// How many values a byte has: the base of the word, and the least level that
/// doesn't fit.
pub const BYTE: u32 = 256;

/// What the comparison of two packed lists answers.
#[derive(Clone, Copy, Debug, PartialEq, Eq, Hash, PartialOrd, Ord)]
pub enum Comparison {
    /// One of the two lists doesn't fit a byte on every axis.
    NotPacked,
    Equal,
    Different,
}

/// The first place whose eight levels are the sought ones, which may have any size.
pub fn first_with(held: &[Levels], sought: &Levels) -> Option<usize> {
    held.iter().position(|levels| all_equal(levels, sought))
}

/// Whether "all eight levels are" equal, one axis after the other.
fn all_equal(left: &Levels, right: &Levels) -> bool {
    (0..MOST_AXES).all(|axis| left[axis] == right[axis])
}

/// Whether these are "levels that fit a byte", on every axis.
pub fn fits(levels: &Levels) -> bool {
    levels.iter().all(|&level| level < BYTE)
}

/// The word of eight levels that fit: the sum of each axis's level times 256 to the
/// power of the axes before it, so that axis 1 is the lowest byte. A list with a
/// larger level has none.
pub fn word(levels: &Levels) -> Option<u64> {
    if !fits(levels) {
        return None;
    }
    let term = |axis: usize| u128::from(levels[axis]) * u128::from(BYTE).pow(axis as u32);
    let sum: u128 = (0..MOST_AXES).map(term).sum();
    // At most 255 times (1 + 256 + ... + 256^7), which is 256^8 - 1.
    Some(u64::try_from(sum).expect("eight levels below 256 sum to less than 2^64"))
}

/// The comparison of two packed lists: "two words are equal exactly if all eight
/// levels are, for levels that fit a byte". It goes by the levels; that the words say
/// the same is left to a test.
pub fn same_packed(left: &Levels, right: &Levels) -> Comparison {
    if !fits(left) || !fits(right) {
        return Comparison::NotPacked;
    }
    match all_equal(left, right) {
        true => Comparison::Equal,
        false => Comparison::Different,
    }
}

/// The held lists of an area, in the order of places.
pub fn held_in(area: &Area) -> Vec<Levels> {
    area.held().iter().map(|record| record.levels).collect()
}

/// What may be sought in an area: each held index and, axis after axis, its forward
/// and its backward neighbour, on all eight axes. Those past a ceiling, beyond the
/// job's axes and of level 0 are among them. A level that cannot be raised or lowered
/// at all, which an altered area may have, has no such neighbour.
pub fn sought_in(area: &Area) -> Vec<Levels> {
    area.held().iter().flat_map(|record| around(&record.levels)).collect()
}

fn around(levels: &Levels) -> Vec<Levels> {
    let mut sought = vec![*levels];
    for axis in 0..MOST_AXES {
        sought.extend(grid::forward_neighbour(levels, axis));
        let lower = levels[axis].checked_sub(1);
        sought.extend(lower.map(|level| with(levels, axis, level)));
    }
    sought
}

/// "The record's level list copied with one level changed."
fn with(levels: &Levels, axis: usize, level: u32) -> Levels {
    let mut changed = *levels;
    changed[axis] = level;
    changed
}
