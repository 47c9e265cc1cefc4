//! The rule along one axis, by the literal words of the scope document.
//!
//! Levels are 1 to 8 and positions 0 to 128. Weights are whole numbers in
//! units of 2^-k at level k from 2 up, and in whole ones at level 1.

use std::sync::OnceLock;

pub const TOP_LEVEL: u32 = 8;
pub const LAST_POSITION: u32 = 128;
pub const CENTRE: u32 = 64;

/// 2^(8-k): level k from 2 up has the multiples of this as its points.
fn spacing(level: u32) -> u32 {
    assert!((1..=TOP_LEVEL).contains(&level));
    1 << (TOP_LEVEL - level)
}

fn is_end(position: u32) -> bool {
    position == 0 || position == LAST_POSITION
}

/// "Level 1 has one point, 64"; "level k from 2 up has the 2^(k-1) + 1 points
/// that are multiples of 2^(8-k)".
pub fn is_point(level: u32, position: u32) -> bool {
    match level {
        1 => position == CENTRE,
        _ => position <= LAST_POSITION && position.is_multiple_of(spacing(level)),
    }
}

/// The points of a level, positions rising.
pub fn points(level: u32) -> Vec<u32> {
    (0..=LAST_POSITION).filter(|&position| is_point(level, position)).collect()
}

/// "The points new at level 1 are 64; at level 2, 0 and 128; at level k from
/// 3 up, the odd multiples of 2^(8-k)".
pub fn is_new(level: u32, position: u32) -> bool {
    match level {
        1 => position == CENTRE,
        2 => is_end(position),
        _ => {
            let step = spacing(level);
            position <= LAST_POSITION && position.is_multiple_of(step) && (position / step) % 2 == 1
        }
    }
}

/// The points new at a level, positions rising.
pub fn new_points(level: u32) -> Vec<u32> {
    (0..=LAST_POSITION).filter(|&position| is_new(level, position)).collect()
}

/// How many points are new at a level: 1, 2, and 2^(k-2) from 3 up. The
/// formula is carried on past level 8 so that the soundness clauses can add up
/// block sizes of an altered area; level 0 and absurd levels have no size.
pub fn new_count(level: u32) -> Option<u128> {
    match level {
        0 => None,
        1 => Some(1),
        2 => Some(2),
        _ => 1u128.checked_shl(level - 2),
    }
}

/// The level at which a position is new; every position is new at exactly one.
pub fn new_at(position: u32) -> u32 {
    (1..=TOP_LEVEL)
        .find(|&level| is_new(level, position))
        .expect("every position from 0 to 128 is new at some level")
}

/// Weights of level k are in units of 2^-unit(k): whole ones at level 1.
pub fn unit(level: u32) -> u32 {
    match level {
        1 => 0,
        _ => level,
    }
}

/// "Level 1 ... weight 1, a whole one"; from 2 up "both ends weigh 1 and every
/// other point 2". A position that is no point of the level weighs 0.
pub fn whole_weight(level: u32, position: u32) -> i64 {
    if !is_point(level, position) {
        return 0;
    }
    match level {
        1 => 1,
        _ if is_end(position) => 1,
        _ => 2,
    }
}

/// The weight in the difference rule; it "depends only on the level at which
/// the point was new". A point new above the level is no point of it: 0.
pub fn difference_weight(level: u32, position: u32) -> i64 {
    match (level, new_at(position)) {
        (1, 1) => 1,
        // "Level 2: ends +1, centre -2."
        (2, 2) => 1,
        (2, 1) => -2,
        // "From 3 up: points new at k +2, ends -1, all others -2."
        (k, n) if k >= 3 && n == k => 2,
        (k, 2) if k >= 3 => -1,
        (k, n) if k >= 3 && n < k => -2,
        _ => 0,
    }
}

/// The definitions above, written down once for every level, so that long sums
/// need not work them out at each reading.
pub struct Table {
    pub points: Vec<u32>,
    pub new_points: Vec<u32>,
    pub whole: Vec<i64>,
    pub difference: Vec<i64>,
}

/// The table of a level from 1 to 8.
pub fn table(level: u32) -> &'static Table {
    static TABLES: OnceLock<Vec<Table>> = OnceLock::new();
    let tables = TABLES.get_or_init(|| {
        let weights = |weight: fn(u32, u32) -> i64, level| {
            (0..=LAST_POSITION).map(|position| weight(level, position)).collect()
        };
        (1..=TOP_LEVEL)
            .map(|level| Table {
                points: points(level),
                new_points: new_points(level),
                whole: weights(whole_weight, level),
                difference: weights(difference_weight, level),
            })
            .collect()
    });
    &tables[level as usize - 1]
}

/// The level at which a position is new and its rank, from 0, among the
/// points new at that level.
pub fn origin(position: u32) -> (u32, usize) {
    static ORIGINS: OnceLock<Vec<(u32, usize)>> = OnceLock::new();
    ORIGINS.get_or_init(|| {
        (0..=LAST_POSITION)
            .map(|position| {
                let level = new_at(position);
                let rank = new_points(level).iter().position(|&p| p == position);
                (level, rank.expect("a position is among the new points of its level"))
            })
            .collect()
    })[position as usize]
}
