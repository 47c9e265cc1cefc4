//! Jobs with a hard corner: everything is refined toward an index at a ceiling,
//! where the refinement stops, and a little is left pending beside it. The
//! threshold lies at what is left or near it, so that the job ends capped, or
//! goes on with what it carries until the budget is spent.

use crate::grid::{Levels, BUDGET_LIMIT, ROOT};
use crate::rng::Rng;
use crate::rule;
use crate::style::{IndicatorStyle, BESIDE_CORNER};

pub struct Corner {
    pub indicators: IndicatorStyle,
    pub threshold: u64,
    pub budget: u32,
}

/// The smaller of the two sizes toward a corner; the other is the largest of all,
/// of which two come to more than 32 bits.
const SMALLEST: u32 = 75;

/// Levels on some axes whose blocks are within the budget, at the ceiling of excess
/// alone or at both.
const AT_EXCESS: [&[u32]; 6] = [&[7, 7], &[7, 7], &[8, 6], &[6, 8], &[5, 5, 5], &[8, 5, 2]];

/// A corner that takes few readings: level 8 on one axis, at times a little more
/// on another.
pub fn of_level(rng: &mut Rng, axes: usize) -> Corner {
    let mut target = ROOT;
    let first = rng.place(axes);
    target[first] = 8;
    if axes > 1 && rng.percent(30) {
        target[(first + 1) % axes] = rng.between(2, 3) as u32;
    }
    toward(target, rng, axes)
}

/// A corner of excess 12, which takes at least 4,225 readings. There must be two
/// axes.
pub fn of_excess(rng: &mut Rng, axes: usize) -> Corner {
    let fitting: Vec<&[u32]> = AT_EXCESS.into_iter().filter(|t| t.len() <= axes).collect();
    let levels = rng.pick(&fitting);
    let from = rng.place(axes);
    let mut target = ROOT;
    for (offset, level) in levels.iter().enumerate() {
        target[(from + offset) % axes] = *level;
    }
    toward(target, rng, axes)
}

/// The job toward this index.
fn toward(target: Levels, rng: &mut Rng, axes: usize) -> Corner {
    // Beside the way there lies one index on each axis that is not used up.
    let beside = target[..axes].iter().filter(|&&level| level < rule::TOP_LEVEL);
    let left = beside.clone().count() as u64 * u64::from(BESIDE_CORNER);
    let toward = rng.pick(&[SMALLEST, SMALLEST, u32::MAX]);
    // The highest threshold that is capped where one index of the smaller size is
    // carried.
    let highest = left + u64::from(SMALLEST) - 1;
    let lower = left.saturating_sub(1);
    let points: u128 = target.iter().map(|&level| grid_points(level)).product();
    let next: u128 = beside.map(|&level| grid_points(level + 1) - grid_points(level)).sum();
    let more = rng.pick(&[0, 1, 30, 200]);
    Corner {
        indicators: IndicatorStyle::Corner { target, toward },
        threshold: rng.pick(&[left, left, left + 1, highest, highest, highest, lower, 0]),
        budget: BUDGET_LIMIT.min((points + next) as u32 + more),
    }
}

/// The points of a level on one axis, new or not.
fn grid_points(level: u32) -> u128 {
    (1..=level).filter_map(rule::new_count).sum()
}
