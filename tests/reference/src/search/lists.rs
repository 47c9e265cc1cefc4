//! Lists to search, by seed: held ones of one style, and sought ones that are held,
//! nearly held or neither.

use super::{with, BYTE};
use crate::grid::{Levels, EXCESS_CEILING, HELD_LIMIT, MOST_AXES, ROOT};
use crate::rng::Rng;
use crate::rule;

/// Draws one list.
type Draw = fn(&mut Rng) -> Levels;

/// Levels at a byte's edge and at that of its half; the first eight fit.
const AT_EDGES: [u32; 12] = [0, 1, 2, 127, 128, 129, 254, 255, 256, 257, 511, 512];

/// 0 to 512 held lists, in the order of places, and 20 to 60 sought ones.
pub fn held_lists(seed: u64) -> (Vec<Levels>, Vec<Levels>) {
    let mut rng = Rng::new(seed);
    let count = any_count(&mut rng);
    let (draw, held) = match rng.below(5) {
        0 => drawn(&mut rng, small, count),
        1 => drawn(&mut rng, at_edges, count),
        2 => drawn(&mut rng, of_any_size, count),
        3 => with_one_larger(&mut rng, count),
        _ => repeated(&mut rng, count),
    };
    let enough = rng.between(20, 60) as usize;
    let mut sought = Vec::new();
    while sought.len() < enough {
        sought.extend(any_sought(&mut rng, draw, &held));
    }
    (held, sought)
}

/// None, few, any number and all that can be held.
fn any_count(rng: &mut Rng) -> usize {
    let few = rng.between(3, 40) as usize;
    let any = rng.place(HELD_LIMIT + 1);
    rng.pick(&[0, 1, 2, few, few, few, any, any, any, HELD_LIMIT - 1, HELD_LIMIT, HELD_LIMIT])
}

fn drawn(rng: &mut Rng, draw: Draw, count: usize) -> (Draw, Vec<Levels>) {
    (draw, (0..count).map(|_| draw(rng)).collect())
}

/// As in jobs: an index within the ceilings, of one axis to eight.
fn small(rng: &mut Rng) -> Levels {
    let mut levels = ROOT;
    let axes = rng.between(1, MOST_AXES as i64) as usize;
    for _ in 0..rng.between(0, EXCESS_CEILING) {
        let axis = rng.place(axes);
        levels[axis] = (levels[axis] + 1).min(rule::TOP_LEVEL);
    }
    levels
}

/// Around a byte's edge, every other list within it.
fn at_edges(rng: &mut Rng) -> Levels {
    let edges = match rng.percent(50) {
        true => &AT_EDGES[..8],
        false => &AT_EDGES[..],
    };
    std::array::from_fn(|_| match rng.percent(60) {
        true => rng.pick(edges),
        false => rng.below(4) as u32,
    })
}

/// Of every size, up to so many bits as the list may have.
fn of_any_size(rng: &mut Rng) -> Levels {
    let shift = rng.between(0, 31);
    std::array::from_fn(|_| rng.number() as u32 >> rng.between(shift, 31))
}

/// Small ones with one larger record, at the first place, the last or any.
fn with_one_larger(rng: &mut Rng, count: usize) -> (Draw, Vec<Levels>) {
    let (draw, mut held) = drawn(rng, small, count);
    if count > 0 {
        let any = rng.place(count);
        let place = rng.pick(&[0, count - 1, any, any]);
        let (axis, size) = (rng.place(MOST_AXES), rng.below(24));
        held[place][axis] = rng.pick(&[256, 257, 300, u32::MAX, BYTE << size]);
    }
    (draw, held)
}

/// A few lists, each held again and again.
fn repeated(rng: &mut Rng, count: usize) -> (Draw, Vec<Levels>) {
    let draw = rng.pick(&[small as Draw, at_edges, of_any_size]);
    let few = rng.between(1, 20) as usize;
    let (draw, lists) = drawn(rng, draw, few);
    (draw, (0..count).map(|_| rng.pick(&lists)).collect())
}

/// A held list as it is or changed, or any of the style. None where the change can't
/// be made.
fn any_sought(rng: &mut Rng, draw: Draw, held: &[Levels]) -> Option<Levels> {
    if held.is_empty() || rng.percent(15) {
        return Some(draw(rng));
    }
    let any = rng.place(held.len());
    let levels = held[rng.pick(&[0, held.len() - 1, any, any, any])];
    match rng.below(6) {
        0 | 1 => Some(levels),
        2 => one_off(rng, &levels),
        3 => low_byte_kept(rng, &levels),
        _ => carried(rng, &levels),
    }
}

/// One more or less on one axis.
fn one_off(rng: &mut Rng, levels: &Levels) -> Option<Levels> {
    moved(rng, levels, 1)
}

/// A multiple of 256 more or less on one axis; half the time a larger level, if there
/// is one, comes down to its low byte.
fn low_byte_kept(rng: &mut Rng, levels: &Levels) -> Option<Levels> {
    let larger: Vec<usize> = (0..MOST_AXES).filter(|&axis| levels[axis] >= BYTE).collect();
    if !larger.is_empty() && rng.percent(50) {
        let axis = rng.pick(&larger);
        return Some(with(levels, axis, levels[axis] % BYTE));
    }
    let size = rng.below(24);
    let step = rng.pick(&[BYTE, BYTE, 2 * BYTE, BYTE << size]);
    moved(rng, levels, step)
}

/// So much more or less on one axis.
fn moved(rng: &mut Rng, levels: &Levels, step: u32) -> Option<Levels> {
    let axis = rng.place(MOST_AXES);
    let level = match rng.percent(50) {
        true => levels[axis].checked_add(step)?,
        false => levels[axis].checked_sub(step)?,
    };
    Some(with(levels, axis, level))
}

/// A carry: so many times the base more on one axis and so many less on the next, or
/// the other way round. A packing of that base which lets a level pass it doesn't
/// notice.
fn carried(rng: &mut Rng, levels: &Levels) -> Option<Levels> {
    let axis = rng.place(MOST_AXES - 1);
    let times = rng.pick(&[1, 1, 1, 2, 3]);
    let step = times * rng.pick(&[BYTE, BYTE / 2]);
    let (here, next) = (levels[axis], levels[axis + 1]);
    let (here, next) = match rng.percent(50) {
        true => (here.checked_add(step)?, next.checked_sub(times)?),
        false => (here.checked_sub(step)?, next.checked_add(times)?),
    };
    Some(with(&with(levels, axis, here), axis + 1, next))
}
