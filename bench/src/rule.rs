//! The rule along one axis: where the points lie that are new at a level, and
//! what they weigh. Levels are 1 to 8.

pub const TOP_LEVEL: u32 = 8;

/// How many points are new at a level: 1, 2, 2, 4, 8 and so on. As a power of
/// two it needs no branch.
pub fn new_count(level: u32) -> usize {
    1 << (level - if level > 2 { 2 } else { 1 })
}

/// The position of the n-th new point of a level, from 0.
pub fn new_point(level: u32, n: usize) -> u8 {
    match level {
        1 => 64,
        2 => 128 * n as u8,
        _ => (2 * n as u8 + 1) << (TOP_LEVEL - level),
    }
}

/// What a point new at level `point` weighs in the whole rule of level `rule`,
/// in units of 2^-rule; a whole one at level 1.
pub fn whole_weight(rule: u32, point: u32) -> i64 {
    match (rule, point) {
        (1, _) | (_, 2) => 1,
        _ => 2,
    }
}

/// What it weighs in the difference of that level, in the same units.
pub fn difference_weight(rule: u32, point: u32) -> i64 {
    match (rule, point) {
        (1, _) | (2, 2) => 1,
        (2, _) => -2,
        (_, 2) => -1,
        _ if point == rule => 2,
        _ => -2,
    }
}
