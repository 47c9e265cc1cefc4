//! Changes around the carried error: what is recorded of it, the indicators that
//! it sums, and thresholds near it.

use super::{any_in_state, make_active, make_old, significant};
use crate::area::{Area, IndexRecord, ACTIVE, NONE, OLD};
use crate::grid::{self, BUDGET_LIMIT, EXCESS_CEILING};
use crate::rng::Rng;
use crate::rule::TOP_LEVEL;

/// The places of this state at a ceiling, or of this state and not at one.
fn places(area: &Area, state: u32, at_a_ceiling: bool) -> Vec<usize> {
    let axes = super::axes(area);
    let fits = |record: &IndexRecord| {
        record.state == state && grid::at_a_ceiling(axes, &record.levels) == at_a_ceiling
    };
    (0..area.held().len()).filter(|&place| fits(&area.records[place])).collect()
}

fn any_of(places: &[usize], rng: &mut Rng) -> Option<usize> {
    (!places.is_empty()).then(|| rng.pick(places))
}

/// The indicators of some held records, each so many times.
fn sum(area: &Area, times: impl Fn(&IndexRecord) -> u64) -> u64 {
    area.held().iter().fold(0, |sum: u64, record| {
        sum.wrapping_add(times(record).wrapping_mul(u64::from(record.indicator)))
    })
}

/// Sums over the wrong records: the active ones too, an index once for each axis
/// past a ceiling, one ceiling without the other, all that are old.
fn wrong_sums(area: &Area) -> [u64; 5] {
    let axes = super::axes(area);
    let old = |record: &IndexRecord| record.state == OLD;
    let at = |record: &IndexRecord| grid::at_a_ceiling(axes, &record.levels);
    let at_level = |record: &IndexRecord| record.levels.contains(&TOP_LEVEL);
    let at_excess = |record: &IndexRecord| grid::excess(&record.levels) == EXCESS_CEILING;
    let pairs = |record: &IndexRecord| match at_excess(record) {
        true => axes as u64,
        false => at_level(record).into(),
    };
    [
        sum(area, |record| (at(record) && (old(record) || record.state == ACTIVE)).into()),
        sum(area, |record| u64::from(old(record)) * pairs(record)),
        sum(area, |record| (old(record) && at_level(record)).into()),
        sum(area, |record| (old(record) && at_excess(record)).into()),
        sum(area, |record| old(record).into()),
    ]
}

/// Another carried error than the recorded one: off by one, 0, another bit, with
/// the pending error, or a wrong sum.
pub fn carried_off(area: &mut Area, rng: &mut Rng) -> Option<String> {
    let (was, pending) = (area.job.carried, area.job.pending);
    let near = [was.wrapping_add(1), was.wrapping_sub(1), 0, was.wrapping_add(pending)];
    let bits = [was ^ 1 << 32, was ^ 1 << 63];
    let mut others = [&near[..], &bits, &wrong_sums(area)].concat();
    others.retain(|&other| other != was);
    area.job.carried = rng.pick(&others);
    Some(format!("carried {was} became {}", area.job.carried))
}

/// An old record at a ceiling, its indicator changed alone or with the carried
/// error along.
pub fn carried_indicator(area: &mut Area, rng: &mut Rng) -> Option<String> {
    let place = any_of(&places(area, OLD, true), rng)?;
    let was = area.records[place].indicator;
    let indicator = significant(area, rng, was);
    let along = rng.percent(50);
    if along {
        let rest = area.job.carried.wrapping_sub(u64::from(was));
        area.job.carried = rest.wrapping_add(u64::from(indicator));
    }
    area.records[place].indicator = indicator;
    Some(format!("indicator of {place}, old at a ceiling, became {indicator}, along: {along}"))
}

/// An old record that is at no ceiling: its indicator is free.
pub fn uncarried_indicator(area: &mut Area, rng: &mut Rng) -> Option<String> {
    let place = any_of(&places(area, OLD, false), rng)?;
    area.records[place].indicator = significant(area, rng, area.records[place].indicator);
    Some(format!("indicator of {place}, old at no ceiling, became another"))
}

/// Two old records exchange their indicators: both at a ceiling, which leaves the
/// sum, or one of them.
pub fn exchange_indicators(area: &mut Area, rng: &mut Rng) -> Option<String> {
    let one = any_of(&places(area, OLD, true), rng)?;
    let other = any_in_state(area, rng, OLD)?;
    let (first, second) = (area.records[one].indicator, area.records[other].indicator);
    area.records[one].indicator = second;
    area.records[other].indicator = first;
    Some(format!("old {one}, at a ceiling, and {other} exchanged their indicators"))
}

/// A record at a ceiling becomes old, or is old no more, and the pending error
/// follows alone.
pub fn carried_left_behind(area: &mut Area, rng: &mut Rng) -> Option<String> {
    let (from, to) = rng.pick(&[(ACTIVE, OLD), (OLD, ACTIVE)]);
    let place = any_of(&places(area, from, true), rng)?;
    let indicator = u64::from(area.records[place].indicator);
    area.records[place].state = to;
    area.job.pending = match to {
        OLD => area.job.pending.wrapping_sub(indicator),
        _ => area.job.pending.wrapping_add(indicator),
    };
    Some(format!("state of {place}, at a ceiling, became {to}, pending with it, carried not"))
}

/// A threshold at the pending error, at both errors together, or next to one; half
/// the time with a budget under which a promotion can go on.
pub fn threshold_near(area: &mut Area, rng: &mut Rng) -> Option<String> {
    let (pending, carried) = (area.job.pending, area.job.carried);
    let both = pending.wrapping_add(carried);
    area.job.threshold = rng.pick(&[
        both,
        both,
        both.wrapping_sub(1),
        both.wrapping_add(1),
        pending,
        pending.wrapping_sub(1),
        pending.wrapping_sub(1),
        carried,
    ]);
    if rng.percent(50) {
        area.job.budget = BUDGET_LIMIT;
    }
    Some(format!("threshold became {} beside {pending} and {carried}", area.job.threshold))
}

/// The active records at a ceiling become old with everything that goes with it,
/// where nothing is admitted by that: an area that carries.
pub fn carry_all(area: &mut Area, _: &mut Rng) -> Option<String> {
    let stopped = |place: &usize| {
        let levels = area.records[*place].levels;
        (0..super::axes(area)).all(|axis| {
            grid::forward_neighbour(&levels, axis).is_none_or(|n| grid::past_a_ceiling(&n))
        })
    };
    let all: Vec<usize> = places(area, ACTIVE, true).into_iter().filter(stopped).collect();
    for &place in &all {
        make_old(area, place);
    }
    (!all.is_empty()).then(|| format!("{all:?}, active where nothing is next, became old"))
}

/// An old record at a ceiling without forward neighbours becomes active with
/// everything that goes with it: an area before the promotion that carries it.
pub fn take_back(area: &mut Area, rng: &mut Rng) -> Option<String> {
    let mut last = places(area, OLD, true);
    last.retain(|&place| area.records[place].forward.iter().all(|&link| link == NONE));
    let place = any_of(&last, rng)?;
    make_active(area, place);
    Some(format!("old {place}, at a ceiling with nothing next, became active, both errors with it"))
}
