//! Changes of how many are held: records appended or dropped with everything
//! that goes with them.

use super::{any_in_state, axes, make_old};
use crate::area::{Area, IndexRecord, ACTIVE, NONE, OLD, WANTED};
use crate::grid::{self, Levels, HELD_LIMIT, ROOT};
use crate::rng::Rng;

/// The place just past the last held, if there is a record.
pub fn place_past_held(area: &Area) -> Option<usize> {
    let place = area.job.held as usize;
    (place < area.records.len()).then_some(place)
}

/// Appends a wanted record of these levels with links both ways.
pub fn append(area: &mut Area, levels: Levels) -> Option<usize> {
    let place = place_past_held(area)?;
    let size = u32::try_from(grid::block_size_of_any(&levels)?).ok()?;
    let mut record = IndexRecord::wanted(levels, area.job.reserved);
    for axis in 0..axes(area) {
        let Some(backward) = grid::backward_neighbour(&levels, axis) else {
            continue;
        };
        if let Some(at) = area.held().iter().position(|held| held.levels == backward) {
            record.backward[axis] = at as u32;
            area.records[at].forward[axis] = place as u32;
        }
    }
    area.records[place] = record;
    area.job.held += 1;
    area.job.reserved = area.job.reserved.wrapping_add(size);
    Some(place)
}

pub fn append_copy(area: &mut Area, rng: &mut Rng) -> Option<String> {
    let wanted = any_in_state(area, rng, WANTED)?;
    let place = append(area, area.records[wanted].levels)?;
    Some(format!("a second record of wanted {wanted} appended at {place}"))
}

/// A next index past a ceiling, whose backward neighbours are old if any such
/// index can be found.
pub fn append_past_ceiling(area: &mut Area, rng: &mut Rng) -> Option<String> {
    let held = area.held();
    let is_old = |levels: Levels| held.iter().any(|r| r.levels == levels && r.state == OLD);
    let mut choices: Vec<Levels> = Vec::new();
    for record in held.iter().filter(|record| record.state == OLD) {
        for axis in 0..axes(area) {
            let forward = grid::forward_neighbour(&record.levels, axis)?;
            let backward = (0..axes(area)).filter_map(|a| grid::backward_neighbour(&forward, a));
            if !grid::within_ceilings(&forward) && backward.into_iter().all(is_old) {
                choices.push(forward);
            }
        }
    }
    if choices.is_empty() {
        return None;
    }
    let levels = rng.pick(&choices);
    let place = append(area, levels)?;
    Some(format!("{levels:?} past a ceiling appended at {place}"))
}

/// The root's forward neighbour along the first axis beyond d, linked with the
/// root or not.
pub fn append_beyond_axes(area: &mut Area, rng: &mut Rng) -> Option<String> {
    let axis = area.job.axes as usize;
    let mut levels = ROOT;
    *levels.get_mut(axis)? = 2;
    let place = append(area, levels)?;
    let linked = rng.percent(50);
    if linked {
        area.records[place].backward[axis] = 0;
        area.records[0].forward[axis] = place as u32;
    }
    Some(format!("{levels:?} with a level beyond d appended at {place}, linked: {linked}"))
}

/// A promotion that minds neither the 512 held nor the budget; in a nearly full
/// area as many as it takes to pass the 512.
pub fn promote_past_limits(area: &mut Area, rng: &mut Rng) -> Option<String> {
    let mut promoted = vec![any_in_state(area, rng, ACTIVE)?];
    promote_ignoring_limits(area, promoted[0]);
    while (500..=HELD_LIMIT).contains(&area.held().len()) {
        let Some(selected) = any_in_state(area, rng, ACTIVE) else {
            break;
        };
        promote_ignoring_limits(area, selected);
        promoted.push(selected);
    }
    Some(format!("active {promoted:?} promoted without regard to the limits"))
}

pub fn promote_ignoring_limits(area: &mut Area, selected: usize) {
    let levels = area.records[selected].levels;
    make_old(area, selected);
    for axis in 0..axes(area) {
        let Some(forward) = grid::forward_neighbour(&levels, axis) else {
            continue;
        };
        let old = (0..axes(area))
            .filter_map(|a| grid::backward_neighbour(&forward, a))
            .all(|backward| area.held().iter().any(|r| r.levels == backward && r.state == OLD));
        if grid::within_ceilings(&forward) && old {
            append(area, forward);
        }
    }
}

pub fn drop_last_wanted(area: &mut Area, _: &mut Rng) -> Option<String> {
    let place = area.held().len().checked_sub(1)?;
    let record = area.records[place];
    if place == 0 || record.state != WANTED {
        return None;
    }
    for other in &mut area.records[..place] {
        for link in other.forward.iter_mut().chain(&mut other.backward) {
            if *link as usize == place {
                *link = NONE;
            }
        }
    }
    area.job.held -= 1;
    let size = grid::block_size_of_any(&record.levels).unwrap_or(0) as u32;
    area.job.reserved = area.job.reserved.wrapping_sub(size);
    Some(format!("wanted {place} dropped with the links to it"))
}
