//! Indices: eight levels each, 1 beyond the job's axes. An axis is counted
//! from 0.

use crate::rule::{self, TOP_LEVEL};

pub const MOST_AXES: usize = 8;
pub const EXCESS_CEILING: u32 = 12;

pub type Levels = [u32; MOST_AXES];

pub const ROOT: Levels = [1; MOST_AXES];

/// The sum of level - 1, of levels from 1 up.
pub fn excess(levels: &Levels) -> u32 {
    levels.iter().map(|level| level - 1).sum()
}

pub fn within_ceilings(levels: &Levels) -> bool {
    levels.iter().all(|level| (1..=TOP_LEVEL).contains(level)) && excess(levels) <= EXCESS_CEILING
}

/// Whether some forward neighbour of an index within the ceilings passes one.
pub fn at_ceiling(levels: &Levels) -> bool {
    levels.contains(&TOP_LEVEL) || excess(levels) == EXCESS_CEILING
}

pub fn forward_neighbour(levels: &Levels, axis: usize) -> Levels {
    let mut neighbour = *levels;
    neighbour[axis] += 1;
    neighbour
}

/// None at level 1.
pub fn backward_neighbour(levels: &Levels, axis: usize) -> Option<Levels> {
    if levels[axis] == 1 {
        return None;
    }
    let mut neighbour = *levels;
    neighbour[axis] -= 1;
    Some(neighbour)
}

pub fn block_size(levels: &Levels) -> usize {
    levels.iter().map(|&level| rule::new_count(level)).product()
}

/// Writes the positions of the n-th point of a block in reflected order. The
/// last axis is the fastest, so its point is split off first; what is left is
/// then the rank of the earlier axes' point, under which this axis rises or
/// falls.
pub fn write_point(levels: &[u32], n: usize, positions: &mut [u8]) {
    let mut left = n;
    for (position, &level) in positions.iter_mut().zip(levels).rev() {
        let count = rule::new_count(level);
        let visit = left % count;
        left /= count;
        let number = if left % 2 == 0 { visit } else { count - 1 - visit };
        *position = rule::new_point(level, number);
    }
}
