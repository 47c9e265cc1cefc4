//! Indices, their neighbours and their blocks, whose points come in reflected
//! order.
//!
//! An index is a list of eight levels; beyond the job's d axes the levels are
//! 1. In code an axis is counted from 0, so axis 1 of the document is 0 here.

use crate::rule;

pub const MOST_AXES: usize = 8;
pub const EXCESS_CEILING: i64 = 12;
/// "A job holds at most 512 indices."
pub const HELD_LIMIT: usize = 512;
/// "The budget is 1 to 8,192 readings."
pub const BUDGET_LIMIT: u32 = 8_192;
/// "A reading is a signed whole number from -1,048,576 to 1,048,576."
pub const READING_LIMIT: i32 = 1_048_576;

pub type Levels = [u32; MOST_AXES];
/// The positions of one point; beyond the d axes they are 64, the centre.
pub type Point = [u8; MOST_AXES];

/// "The root has level 1 throughout."
pub const ROOT: Levels = [1; MOST_AXES];
/// The root's only point.
const CENTRES: Point = [rule::CENTRE as u8; MOST_AXES];

/// "Its excess is the sum of (level - 1)". Total on any content.
pub fn excess(levels: &Levels) -> i64 {
    levels.iter().map(|&level| i64::from(level) - 1).sum()
}

pub fn levels_in_range(levels: &Levels) -> bool {
    levels.iter().all(|level| (1..=rule::TOP_LEVEL).contains(level))
}

pub fn within_ceilings(levels: &Levels) -> bool {
    levels_in_range(levels) && excess(levels) <= EXCESS_CEILING
}

/// Whether an index is past a ceiling, of level or of excess. Total on any content.
pub fn past_a_ceiling(levels: &Levels) -> bool {
    levels.iter().any(|&level| level > rule::TOP_LEVEL) || excess(levels) > EXCESS_CEILING
}

/// Whether an index is at a ceiling: along the job's axes it has "at least one
/// forward neighbour past a ceiling". A level that cannot be raised is past one.
pub fn at_a_ceiling(axes: usize, levels: &Levels) -> bool {
    (0..axes)
        .map(|axis| forward_neighbour(levels, axis))
        .any(|neighbour| neighbour.is_none_or(|index| past_a_ceiling(&index)))
}

/// "Raising one level gives a forward neighbour." None only where the number
/// itself cannot be raised, which no level within the ceilings comes near.
pub fn forward_neighbour(levels: &Levels, axis: usize) -> Option<Levels> {
    let mut neighbour = *levels;
    neighbour[axis] = levels[axis].checked_add(1)?;
    Some(neighbour)
}

/// "Lowering one level above 1 by one gives a backward neighbour": a level of
/// 1 has none, so (2,1) doesn't ask for (2,0).
pub fn backward_neighbour(levels: &Levels, axis: usize) -> Option<Levels> {
    if levels[axis] <= 1 {
        return None;
    }
    let mut neighbour = *levels;
    neighbour[axis] -= 1;
    Some(neighbour)
}

/// Whether one index is nowhere higher than another.
pub fn nowhere_higher(lower: &Levels, index: &Levels) -> bool {
    lower.iter().zip(index).all(|(low, high)| low <= high)
}

/// The size of a block as a formula, for any levels whatever; none where the
/// levels have no such size.
pub fn block_size_of_any(levels: &Levels) -> Option<u128> {
    levels.iter().try_fold(1u128, |size, &level| size.checked_mul(rule::new_count(level)?))
}

/// The size of the block of an index within the ceilings.
pub fn block_size(levels: &Levels) -> usize {
    assert!(levels_in_range(levels));
    block_size_of_any(levels).expect("levels 1 to 8 have block sizes") as usize
}

/// The block as a list: "the product of its axes' new points, axis 1 slowest and
/// axis d fastest", where "blocks are now walked in reflected order: axis 1 rises,
/// and each later axis rises or falls as the rank of the earlier axes' points in
/// this walk, from 0, is even or odd". The walk of one axis more is made from the
/// walk of the earlier ones.
pub fn block(axes: usize, levels: &Levels) -> Vec<Point> {
    // Before axis 1 there is one point of no axes, of rank 0, so axis 1 rises.
    let mut walk: Vec<Point> = vec![CENTRES];
    for axis in 0..axes {
        let new_points = rule::new_points(levels[axis]);
        let mut longer = Vec::new();
        for (rank, point) in walk.iter().enumerate() {
            for q in 0..new_points.len() {
                let number = turned(rank, new_points.len(), q);
                longer.push(moved(point, axis, new_points[number]));
            }
        }
        walk = longer;
    }
    walk
}

/// Which of an axis's new points, positions rising and from 0, is visited q-th:
/// number q if the rank of the earlier axes' point is even, the q-th from the end
/// if it is odd. A turn undoes itself, so this also tells which visit, from 0,
/// number q gets.
fn turned(rank: usize, new_points: usize, q: usize) -> usize {
    match rank.is_multiple_of(2) {
        true => q,
        false => new_points - 1 - q,
    }
}

fn moved(point: &Point, axis: usize, position: u32) -> Point {
    let mut moved = *point;
    moved[axis] = position as u8;
    moved
}

/// The same list by rows and without ranks: what the later axes walk at one new
/// point of an axis they walk backwards at the next, and so on in turn.
pub fn block_by_rows(axes: usize, levels: &Levels) -> Vec<Point> {
    let mut row: Vec<Point> = vec![CENTRES];
    for axis in (0..axes).rev() {
        let mut rows = Vec::new();
        for position in rule::new_points(levels[axis]) {
            rows.extend(row.iter().map(|point| moved(point, axis, position)));
            row.reverse();
        }
        row = rows;
    }
    row
}

/// Goes through the points of a block in its order without building a list;
/// gives the number of the point, from 0, and its positions. The fastest axis
/// steps; one that has run through stays and turns, and the next slower one
/// steps.
pub fn for_each_point(axes: usize, levels: &Levels, mut visit: impl FnMut(usize, &Point)) {
    let mut new_points: [&[u32]; MOST_AXES] = [&[]; MOST_AXES];
    let mut at = [0usize; MOST_AXES];
    let mut falls = [false; MOST_AXES];
    let mut point = CENTRES;
    for axis in 0..axes {
        new_points[axis] = &rule::table(levels[axis]).new_points;
        point[axis] = new_points[axis][0] as u8;
    }
    let mut number = 0;
    loop {
        visit(number, &point);
        number += 1;
        let mut axis = axes;
        loop {
            if axis == 0 {
                return;
            }
            axis -= 1;
            let next = match falls[axis] {
                true => at[axis].checked_sub(1),
                false => Some(at[axis] + 1).filter(|&next| next < new_points[axis].len()),
            };
            if let Some(next) = next {
                at[axis] = next;
                point[axis] = new_points[axis][next] as u8;
                break;
            }
            falls[axis] = !falls[axis];
        }
    }
}

/// The n-th point of a block, from 0, without those before it. Each axis goes
/// there and back again over its new points, a step whenever the faster axes have
/// run through once.
pub fn nth_point(axes: usize, levels: &Levels, n: usize) -> Point {
    let mut point = CENTRES;
    // How often the axes faster than this one have run through.
    let mut rank = n;
    for axis in (0..axes).rev() {
        let new_points = &rule::table(levels[axis]).new_points;
        let there_and_back = 2 * new_points.len();
        let there = rank % there_and_back;
        let back = there_and_back - 1 - there;
        point[axis] = new_points[there.min(back)] as u8;
        rank /= new_points.len();
    }
    assert_eq!(rank, 0, "a block has no points past its size");
    point
}

/// The number of a point, from 0, in the walk of its block.
pub fn point_number(axes: usize, point: &Point) -> usize {
    point[..axes].iter().fold(0, |rank, &position| next_rank(rank, u32::from(position)))
}

/// The rank of a point in the walk of the axes up to one of them, from the rank
/// of the earlier axes' point and the position on that one: what the next axis
/// turns by.
pub fn next_rank(rank: usize, position: u32) -> usize {
    let (level, number) = rule::origin(position);
    let new_points = rule::table(level).new_points.len();
    rank * new_points + turned(rank, new_points, number)
}

/// Goes through every index that is nowhere higher than the given one, the
/// given one included.
pub fn for_each_nowhere_higher(axes: usize, index: &Levels, mut visit: impl FnMut(&Levels)) {
    let mut lower = ROOT;
    loop {
        visit(&lower);
        let mut axis = axes;
        loop {
            if axis == 0 {
                return;
            }
            axis -= 1;
            if lower[axis] < index[axis] {
                lower[axis] += 1;
                break;
            }
            lower[axis] = 1;
        }
    }
}

/// Goes through every index of d axes within the ceilings.
pub fn for_each_within_ceilings(axes: usize, mut visit: impl FnMut(&Levels)) {
    fn descend(axis: usize, axes: usize, index: &mut Levels, visit: &mut impl FnMut(&Levels)) {
        if axis == axes {
            visit(index);
            return;
        }
        for level in 1..=rule::TOP_LEVEL {
            index[axis] = level;
            if excess(index) <= EXCESS_CEILING {
                descend(axis + 1, axes, index, visit);
            }
        }
        index[axis] = 1;
    }
    let mut index = ROOT;
    descend(0, axes, &mut index, &mut visit);
}

pub fn reading_in_range(reading: i32) -> bool {
    (-READING_LIMIT..=READING_LIMIT).contains(&reading)
}
