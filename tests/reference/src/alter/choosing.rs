//! Changes around choose and promote: areas in which nothing is wanted any more,
//! equal indicators, and a budget at the edge of a promotion.

use super::held::promote_ignoring_limits;
use super::{any_in_state, set_active_indicator};
use crate::area::{Area, ACTIVE, WANTED};
use crate::grid::{self, READING_LIMIT};
use crate::rng::Rng;
use std::ops::Range;

/// Every wanted record becomes active, with readings in range; the recorded mean is
/// left as it is.
pub fn deliver_all(area: &mut Area, rng: &mut Rng) -> Option<String> {
    let wanted: Vec<usize> =
        (0..area.held().len()).filter(|&at| area.records[at].state == WANTED).collect();
    let blocks: Vec<Range<usize>> =
        wanted.iter().map(|&place| stored(area, place)).collect::<Option<_>>()?;
    let limit = i64::from(READING_LIMIT);
    for (&place, block) in wanted.iter().zip(blocks) {
        area.store[block].fill_with(|| rng.between(-limit, limit) as i32);
        area.records[place].state = ACTIVE;
        set_active_indicator(area, place, rng.pick(&[0, 25, 25, 75, u32::MAX]));
    }
    (!wanted.is_empty()).then(|| format!("wanted {wanted:?} became active, pending with them"))
}

/// Where a record's block lies in the store, if it does.
fn stored(area: &Area, place: usize) -> Option<Range<usize>> {
    let record = &area.records[place];
    let first = record.first_reading as usize;
    let size = usize::try_from(grid::block_size_of_any(&record.levels)?).ok()?;
    let end = first.checked_add(size)?;
    (end <= area.store.len()).then_some(first..end)
}

/// An active record gets the indicator of another, half the time the largest, and
/// the pending error follows.
pub fn equal_indicators(area: &mut Area, rng: &mut Rng) -> Option<String> {
    let (one, other) = (any_in_state(area, rng, ACTIVE)?, any_in_state(area, rng, ACTIVE)?);
    let active = area.held().iter().filter(|record| record.state == ACTIVE);
    let largest = active.map(|record| record.indicator).max()?;
    let indicator = match rng.percent(50) {
        true => largest,
        false => area.records[other].indicator,
    };
    set_active_indicator(area, one, indicator);
    Some(format!("indicator of active {one} became {indicator}, pending with it"))
}

/// The budget that a promotion of an active record takes, or one off it.
pub fn budget_of_a_promotion(area: &mut Area, rng: &mut Rng) -> Option<String> {
    let place = any_in_state(area, rng, ACTIVE)?;
    let mut after = area.clone();
    promote_ignoring_limits(&mut after, place);
    let takes = after.job.reserved;
    area.job.budget = rng.pick(&[takes, takes.wrapping_sub(1), takes.wrapping_add(1)]);
    Some(format!("budget became {}, a promotion of {place} takes {takes}", area.job.budget))
}
