//! Changes after which nearly everything still agrees. Each is aimed at a test
//! that might look at links, states and sums and leave one thing out.

use super::held::{append, place_past_held};
use super::{any_in_state, axes, carries, make_active};
use crate::area::{Area, IndexRecord, ACTIVE, NONE, OLD};
use crate::grid::{self, ROOT};
use crate::rng::Rng;

/// One of the job's axes.
fn any_axis(area: &Area, rng: &mut Rng) -> Option<usize> {
    let axes = axes(area);
    (axes > 0).then(|| rng.place(axes))
}

/// A second root, without links or with those of the first.
pub fn append_root(area: &mut Area, rng: &mut Rng) -> Option<String> {
    let place = append(area, ROOT)?;
    let linked = rng.percent(50);
    if linked {
        area.records[place].forward = area.records[0].forward;
    }
    Some(format!("a second root appended at {place}, linked: {linked}"))
}

/// A wanted index with a level of 0, which has no points, so that no sum of
/// sizes changes.
pub fn append_level_0(area: &mut Area, rng: &mut Rng) -> Option<String> {
    let place = place_past_held(area)?;
    let mut levels = ROOT;
    levels[any_axis(area, rng)?] = 0;
    area.records[place] = IndexRecord::wanted(levels, area.job.reserved);
    area.job.held += 1;
    Some(format!("{levels:?} with a level of 0 appended at {place}"))
}

/// Two links along an axis exchange their far ends, so that each is still
/// named back, by an index that is no neighbour.
pub fn cross_links(area: &mut Area, rng: &mut Rng) -> Option<String> {
    let axis = any_axis(area, rng)?;
    let held = area.held().len();
    let behind = |place: usize| area.records[place].backward[axis];
    let linked: Vec<usize> = (0..held).filter(|&at| (behind(at) as usize) < held).collect();
    if linked.len() < 2 {
        return None;
    }
    let (one, other) = (rng.pick(&linked), rng.pick(&linked));
    let (behind_one, behind_other) = (behind(one), behind(other));
    area.records[one].backward[axis] = behind_other;
    area.records[other].backward[axis] = behind_one;
    area.records[behind_one as usize].forward[axis] = other as u32;
    area.records[behind_other as usize].forward[axis] = one as u32;
    Some(format!("links of {one} and {other} along axis {} crossed", axis + 1))
}

/// A forward link to the record past the last held, which has the neighbour's
/// levels and names this one back.
pub fn forward_past_held(area: &mut Area, rng: &mut Rng) -> Option<String> {
    let past = place_past_held(area)?;
    let axis = any_axis(area, rng)?;
    let open: Vec<usize> =
        (0..past).filter(|&place| area.records[place].forward[axis] == NONE).collect();
    if open.is_empty() {
        return None;
    }
    let place = rng.pick(&open);
    let levels = grid::forward_neighbour(&area.records[place].levels, axis)?;
    area.records[past] = IndexRecord::wanted(levels, area.job.reserved);
    area.records[past].backward[axis] = place as u32;
    area.records[place].forward[axis] = past as u32;
    Some(format!("{place} linked along axis {} with {past}, past the last held", axis + 1))
}

/// An old record with one forward neighbour becomes active, and that neighbour
/// names in its place a copy past the last held, which is still old.
pub fn backward_past_held(area: &mut Area, rng: &mut Rng) -> Option<String> {
    let past = place_past_held(area)?;
    let behind = any_in_state(area, rng, OLD)?;
    let record = area.records[behind];
    let linked = |axis: &usize| (record.forward[*axis] as usize) < past;
    let mut axes = (0..axes(area)).filter(linked);
    let (Some(axis), None) = (axes.next(), axes.next()) else {
        return None;
    };
    area.records[past] = record;
    area.records[record.forward[axis] as usize].backward[axis] = past as u32;
    area.records[behind].forward[axis] = NONE;
    make_active(area, behind);
    Some(format!("old {behind} became active, and is old as {past}, past the last held"))
}

/// A record without forward neighbours goes, half the time one of the highest
/// excess, and the places close up: an admissible index is missing.
pub fn drop_leaf(area: &mut Area, rng: &mut Rng) -> Option<String> {
    let held = area.held();
    let excess = |place: usize| grid::excess(&held[place].levels);
    let is_leaf = |place: &usize| held[*place].forward.iter().all(|&link| link == NONE);
    let mut leaves: Vec<usize> = (1..held.len()).filter(is_leaf).collect();
    if rng.percent(50) {
        let highest = leaves.iter().map(|&place| excess(place)).max()?;
        leaves.retain(|&place| excess(place) == highest);
    }
    if leaves.is_empty() {
        return None;
    }
    let place = rng.pick(&leaves);
    let levels = held[place].levels;
    remove(area, place)?;
    Some(format!("{levels:?} dropped from place {place}, and the places closed up"))
}

/// Takes a record out, with its readings and the links to it.
fn remove(area: &mut Area, place: usize) -> Option<()> {
    let held = area.held().len();
    let record = area.records[place];
    let size = u32::try_from(grid::block_size_of_any(&record.levels)?).ok()?;
    let after = record.first_reading.checked_add(size)? as usize;
    if after > area.store.len() {
        return None;
    }
    area.store.copy_within(after.., record.first_reading as usize);
    area.records[place..held].rotate_left(1);
    area.job.held -= 1;
    area.job.reserved = area.job.reserved.wrapping_sub(size);
    if record.state == ACTIVE {
        area.job.pending = area.job.pending.wrapping_sub(u64::from(record.indicator));
    }
    if record.state == OLD {
        area.job.carried = area.job.carried.wrapping_sub(carries(area, &record));
    }
    for (at, other) in area.records[..held - 1].iter_mut().enumerate() {
        if at >= place {
            other.first_reading = other.first_reading.wrapping_sub(size);
        }
        for link in other.forward.iter_mut().chain(&mut other.backward) {
            match *link as usize {
                named if named == place => *link = NONE,
                named if named > place && named < held => *link -= 1,
                _ => {}
            }
        }
    }
    Some(())
}
