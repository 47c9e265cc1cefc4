//! Choose and promote: the place that the rule selects, and the step that makes
//! the active index of a place old.

use super::{first_wanted, past_ceilings, refuse_storage_or_area, Cause};
use crate::area::{Area, IndexRecord, JobRecord, ACTIVE, OLD};
use crate::grid::{self, Levels, HELD_LIMIT};

/// What choose answers.
#[derive(Clone, Copy, Debug, PartialEq, Eq, Hash, PartialOrd, Ord)]
pub enum Choice {
    Met,
    /// The pending error is at most the threshold, but not together with the
    /// carried error.
    Capped,
    /// The place that the rule selects.
    Place(u64),
}

/// What promote answers.
#[derive(Clone, Copy, Debug, PartialEq, Eq, Hash, PartialOrd, Ord)]
pub enum Promotion {
    Spent,
    Promoted,
}

/// Causes 3, 4 and 6: "choose keeps the refusals 3, 4 and 6; promote answers 11,
/// after 6".
fn refuse_while_wanted(area: &Area) -> Result<(), Cause> {
    refuse_storage_or_area(area)?;
    match first_wanted(area) {
        Some(_) => Err(Cause::BlockWanted),
        None => Ok(()),
    }
}

/// "It selects the active index of largest indicator, the lowest place among
/// equals."
fn select(area: &Area) -> Option<usize> {
    let mut best: Option<usize> = None;
    for (place, record) in area.held().iter().enumerate() {
        let larger = best.is_none_or(|b| record.indicator > area.records[b].indicator);
        if record.state == ACTIVE && larger {
            best = Some(place);
        }
    }
    best
}

/// Where the pending error is at most the threshold: "met exactly if pending and
/// carried together are at most the threshold, and otherwise capped".
fn ending(job: &JobRecord) -> Choice {
    // Each sums at most 512 indicators of 32 bits.
    match job.pending + job.carried <= job.threshold {
        true => Choice::Met,
        false => Choice::Capped,
    }
}

/// Choose: "answers met, capped or the place that the rule selects, and changes
/// nothing".
pub fn choose(area: &Area) -> Result<Choice, Cause> {
    refuse_while_wanted(area)?;
    if area.job.pending <= area.job.threshold {
        return Ok(ending(&area.job));
    }
    let selected = select(area).expect("a pending error above 0 comes from an active index");
    Ok(Choice::Place(selected as u64))
}

/// The record of a place, any number, if it is that of an active index.
fn active_at(area: &Area, place: u64) -> Option<usize> {
    let mut held = area.held().iter().enumerate();
    held.find(|(at, record)| *at as u64 == place && record.state == ACTIVE).map(|(at, _)| at)
}

/// "It then goes through axes 1 to d: a forward neighbour within the ceilings
/// is admitted if all its own backward neighbours are old, the selected one
/// now included; the scan leaves it for the next axis at the first that is
/// not."
fn admit(area: &Area, promoted: usize) -> Vec<Levels> {
    let axes = area.job.axes as usize;
    let held = area.held();
    let mut admitted = Vec::new();
    'axes: for axis in 0..axes {
        let Some(neighbour) = grid::forward_neighbour(&held[promoted].levels, axis) else {
            continue;
        };
        if !grid::within_ceilings(&neighbour) {
            continue;
        }
        for other in 0..axes {
            let Some(backward) = grid::backward_neighbour(&neighbour, other) else {
                continue;
            };
            let old = held.iter().enumerate().any(|(place, record)| {
                record.levels == backward && (record.state == OLD || place == promoted)
            });
            if !old {
                continue 'axes;
            }
        }
        admitted.push(neighbour);
    }
    admitted
}

/// Appends an admitted index, wanted, and links it with its neighbours.
fn append(area: &mut Area, levels: Levels) {
    let place = area.job.held as usize;
    let mut record = IndexRecord::wanted(levels, area.job.reserved);
    for axis in 0..area.job.axes as usize {
        // Only backward neighbours can be held: a held forward neighbour would
        // ask for this index to be old.
        let Some(backward) = grid::backward_neighbour(&levels, axis) else {
            continue;
        };
        let neighbour = area.held().iter().position(|held| held.levels == backward);
        let neighbour = neighbour.expect("an admitted index has its backward neighbours held");
        record.backward[axis] = neighbour as u32;
        area.records[neighbour].forward[axis] = place as u32;
    }
    area.records[place] = record;
    area.job.held += 1;
    area.job.reserved += grid::block_size(&levels) as u32;
}

/// Whether the admitted would bring the held above 512, and whether they would
/// bring the reserved readings above the budget.
fn past_limits(area: &Area, admitted: &[Levels]) -> (bool, bool) {
    let held = area.job.held as usize + admitted.len();
    let sizes: u64 = admitted.iter().map(|levels| grid::block_size(levels) as u64).sum();
    let reserved = u64::from(area.job.reserved) + sizes;
    (held > HELD_LIMIT, reserved > u64::from(area.job.budget))
}

/// Which of the two limits makes a promote of this place answer spent, for counts
/// of what was seen. In a sound area; none where no active index is there.
pub fn limits_passed(area: &Area, place: u64) -> Option<(bool, bool)> {
    active_at(area, place).map(|promoted| past_limits(area, &admit(area, promoted)))
}

/// Promote: "takes a place and makes that active index old, or answers spent,
/// whatever the threshold". What the index takes out of the pending error it
/// carries if it is at a ceiling.
pub fn promote(area: &mut Area, place: u64) -> Result<Promotion, Cause> {
    refuse_while_wanted(area)?;
    let promoted = active_at(area, place).ok_or(Cause::PlaceNotActive)?;
    let admitted = admit(area, promoted);
    if past_limits(area, &admitted) != (false, false) {
        return Ok(Promotion::Spent);
    }
    let IndexRecord { levels, indicator, .. } = area.records[promoted];
    area.records[promoted].state = OLD;
    area.job.pending -= u64::from(indicator);
    if past_ceilings(area.job.axes as usize, &levels) > 0 {
        area.job.carried += u64::from(indicator);
    }
    for levels in admitted {
        append(area, levels);
    }
    Ok(Promotion::Promoted)
}
