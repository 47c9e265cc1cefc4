//! The lent storage: a job record, a run of index records, and the readings,
//! which are plain numbers. Every field is a plain number too, since a lent
//! area may hold anything.

use crate::index::{Levels, MOST_AXES};

pub const HELD_LIMIT: usize = 512;
pub const BUDGET_LIMIT: u32 = 8_192;
pub const READING_LIMIT: i32 = 1_048_576;

pub const WANTED: u32 = 0;
pub const ACTIVE: u32 = 1;
pub const OLD: u32 = 2;
/// The link to a neighbour that isn't held.
pub const NONE: u32 = u32::MAX;

#[derive(Clone, Copy, Debug, Default, PartialEq, Eq)]
pub struct JobRecord {
    pub axes: u32,
    pub threshold: u64,
    pub budget: u32,
    pub held: u32,
    pub reserved: u32,
    pub pending: u64,
    pub carried: u64,
    pub mean: i64,
}

#[derive(Clone, Copy, Debug, Default, PartialEq, Eq)]
pub struct IndexRecord {
    pub levels: Levels,
    pub state: u32,
    pub indicator: u32,
    pub first_reading: u32,
    pub forward: [u32; MOST_AXES],
    pub backward: [u32; MOST_AXES],
}

impl IndexRecord {
    /// A wanted record without links.
    pub fn wanted(levels: Levels, first_reading: u32) -> IndexRecord {
        IndexRecord {
            levels,
            state: WANTED,
            indicator: 0,
            first_reading,
            forward: [NONE; MOST_AXES],
            backward: [NONE; MOST_AXES],
        }
    }
}

pub fn reading_in_range(reading: i32) -> bool {
    (-READING_LIMIT..=READING_LIMIT).contains(&reading)
}

/// The place of an index among the held.
pub fn lookup(held: &[IndexRecord], levels: &Levels) -> Option<usize> {
    held.iter().position(|record| record.levels == *levels)
}
