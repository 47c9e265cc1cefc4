//! Ways to choose indicators and readings, which give jobs their shape: wide
//! or deep, with ties, near the limits, with extreme or smooth readings.

use crate::grid::{self, Levels, MOST_AXES, READING_LIMIT, ROOT};
use crate::rng::Rng;

#[derive(Clone, Copy, Debug, PartialEq, Eq)]
pub enum IndicatorStyle {
    /// Any number of 32 bits.
    Any,
    /// One of a few small numbers, so that many are equal; zero among them.
    Ties,
    Zero,
    /// All equal and above zero: the lowest place is always selected.
    Equal,
    /// Larger for smaller blocks: reaches many held indices.
    SmallBlocksFirst,
    /// Larger for larger blocks: uses a budget up quickly.
    LargeBlocksFirst,
    /// Above zero exactly for indices nowhere higher than this one.
    Toward(Levels),
    /// Halved with each step on an axis by that axis's own pace.
    Paced([u32; MOST_AXES]),
    /// Of one size toward the target and of a smaller one beside the way there.
    Corner {
        target: Levels,
        toward: u32,
    },
}

/// The size beside the way to a corner.
pub const BESIDE_CORNER: u32 = 25;
/// The least that a root has there, above any threshold of such a job.
const CORNER_ROOT: u32 = 1_000;

#[derive(Clone, Copy, Debug, PartialEq, Eq)]
pub enum ReadingStyle {
    Any,
    Small,
    /// The two ends of the range and zero.
    Extreme,
    Constant(i32),
    /// A smooth function of the positions.
    Smooth,
}

pub fn any_indicator_style(rng: &mut Rng, axes: usize) -> IndicatorStyle {
    match rng.below(9) {
        0 => IndicatorStyle::Any,
        1 | 2 => IndicatorStyle::Ties,
        3 => IndicatorStyle::Zero,
        4 => IndicatorStyle::Equal,
        5 => IndicatorStyle::SmallBlocksFirst,
        6 => IndicatorStyle::LargeBlocksFirst,
        7 => IndicatorStyle::Toward(std::array::from_fn(|axis| match axis < axes {
            true => rng.between(1, 8) as u32,
            false => 1,
        })),
        _ => IndicatorStyle::Paced(std::array::from_fn(|_| rng.between(0, 5) as u32)),
    }
}

pub fn any_reading_style(rng: &mut Rng) -> ReadingStyle {
    match rng.below(6) {
        0 | 1 => ReadingStyle::Any,
        2 => ReadingStyle::Small,
        3 => ReadingStyle::Extreme,
        4 => ReadingStyle::Constant(any_reading(rng)),
        _ => ReadingStyle::Smooth,
    }
}

fn any_reading(rng: &mut Rng) -> i32 {
    rng.between(-i64::from(READING_LIMIT), i64::from(READING_LIMIT)) as i32
}

/// An indicator for the block of an index.
pub fn indicator(style: IndicatorStyle, rng: &mut Rng, levels: &Levels) -> u32 {
    let size = grid::block_size(levels).min(1 << 20) as u32;
    match style {
        IndicatorStyle::Any => match rng.below(8) {
            0 => u32::MAX,
            1 => 0,
            _ => rng.number() as u32,
        },
        IndicatorStyle::Ties => rng.below(4) as u32 * 25,
        IndicatorStyle::Zero => 0,
        IndicatorStyle::Equal => 1_000,
        IndicatorStyle::SmallBlocksFirst => u32::MAX / size - rng.below(7) as u32,
        IndicatorStyle::LargeBlocksFirst => size * 1_000 + rng.below(7) as u32,
        IndicatorStyle::Toward(target) => match grid::nowhere_higher(levels, &target) {
            true => 1 + rng.below(1_000) as u32,
            false => 0,
        },
        IndicatorStyle::Paced(paces) => {
            let steps: u32 = levels.iter().zip(paces).map(|(level, p)| (level - 1) * p).sum();
            (1 << 30) >> steps.min(31)
        }
        IndicatorStyle::Corner { toward, .. } if *levels == ROOT => toward.max(CORNER_ROOT),
        IndicatorStyle::Corner { target, toward } => match grid::nowhere_higher(levels, &target) {
            true => toward,
            false => BESIDE_CORNER,
        },
    }
}

/// Readings for the block of an index, all in range, in the order of its points.
pub fn readings(style: ReadingStyle, rng: &mut Rng, axes: usize, levels: &Levels) -> Vec<i32> {
    let mut readings = Vec::with_capacity(grid::block_size(levels));
    grid::for_each_point(axes, levels, |_, point| {
        readings.push(match style {
            ReadingStyle::Any => any_reading(rng),
            ReadingStyle::Small => rng.between(-3, 3) as i32,
            ReadingStyle::Extreme => rng.pick(&[-READING_LIMIT, READING_LIMIT, 0]),
            ReadingStyle::Constant(reading) => reading,
            ReadingStyle::Smooth => smooth(axes, &point[..axes]),
        });
    });
    readings
}

/// At most 128 squared times 1 + 2 + ... + 8, so well within the range.
fn smooth(axes: usize, positions: &[u8]) -> i32 {
    let mut sum = 0;
    for axis in 0..axes {
        let next = positions[(axis + 1) % axes] as i32;
        sum += positions[axis] as i32 * next * (axis as i32 + 1);
    }
    sum - READING_LIMIT / 4
}
