//! What result, the records and Fig. 1 say of choose and promote. The laws leave
//! the two calls no freedom and hold on any area, altered ones included.
//!
//! Both are refused as result is, or for a wanted block; promote then "when the
//! place is not that of an active index".
//!
//! "Choose answers met, capped or the place that the rule selects, and changes
//! nothing": met or capped where the pending error is at most the threshold, met
//! exactly if pending and carried together are; else an active place that none
//! passes in its indicator and none before it equals.
//!
//! Promote "makes that active index old, or answers spent, whatever the threshold":
//! spent exactly if the body of Fig. 1 with that index passes a limit, and the area
//! is then as it was; else what the body makes of it. What a promotion takes out of
//! the pending error is carried exactly if the ceiling count rises.

use crate::algorithm::Figure;
use crate::area::{Area, IndexRecord, ACTIVE, OLD};
use crate::calls::{self, Cause, Choice, Promotion, Totals};

/// Asserts the laws for a call of choose on this area.
pub fn assert_choose(area: &Area) {
    let answer = calls::choose(area);
    assert_eq!(broken_by_choose(area, &answer, area), None, "{answer:?}");
}

/// Asserts the laws for a call of promote on this area, which is left as it is, and
/// that any other threshold gives the same.
pub fn assert_promote(area: &Area, place: u64) {
    let mut after = area.clone();
    let answer = calls::promote(&mut after, place);
    assert_eq!(broken_by_promote(area, place, &answer, &after), None, "{place}: {answer:?}");
    for threshold in [0, u64::MAX] {
        let mut other = area.clone();
        other.job.threshold = threshold;
        assert_eq!(calls::promote(&mut other, place), answer, "threshold {threshold}");
        other.job.threshold = area.job.threshold;
        assert_eq!(other, after, "threshold {threshold}");
    }
}

/// What refuses both calls, or what result gives.
fn due(area: &Area) -> Result<Totals, Cause> {
    match calls::result(area) {
        Ok(totals) if totals.wanted > 0 => Err(Cause::BlockWanted),
        other => other,
    }
}

/// The active record of a place, in a sound area.
fn active_record(area: &Area, place: u64) -> Option<&IndexRecord> {
    let there = (0..u64::from(area.job.held)).contains(&place);
    let record = there.then(|| &area.records[place as usize])?;
    (record.state == ACTIVE).then_some(record)
}

fn first_broken<const N: usize>(laws: [(&'static str, bool); N]) -> Option<&'static str> {
    laws.into_iter().find(|(_, holds)| !holds).map(|(law, _)| law)
}

/// The first law that an answer of choose breaks, with the area before and after
/// it, in words.
pub fn broken_by_choose(
    area: &Area,
    answer: &Result<Choice, Cause>,
    after: &Area,
) -> Option<&'static str> {
    if after != area {
        return Some("choose changes nothing");
    }
    let (totals, choice) = match (due(area), answer) {
        (Ok(totals), Ok(choice)) => (totals, *choice),
        (Err(cause), Err(other)) if cause == *other => return None,
        _ => return Some("choose is refused as result is, or for a wanted block"),
    };
    let threshold = u128::from(area.job.threshold);
    let (pending, carried) = (u128::from(totals.pending), u128::from(totals.carried));
    let place = match choice {
        Choice::Place(place) => Some(place),
        Choice::Met | Choice::Capped => None,
    };
    let met = choice == Choice::Met;
    first_broken([
        ("a place above the threshold alone", place.is_some() == (pending > threshold)),
        (
            "met is both together",
            place.is_some() || met == (pending <= threshold && pending + carried <= threshold),
        ),
        ("an active index is chosen", place.is_none_or(|at| active_record(area, at).is_some())),
        ("the largest, and the first of equals", place.is_none_or(|at| is_first_largest(area, at))),
    ])
}

/// Whether no active record passes the one of this place in its indicator, and none
/// before it equals it.
fn is_first_largest(area: &Area, place: u64) -> bool {
    let Some(chosen) = active_record(area, place) else {
        return false;
    };
    let others = (0..).zip(area.held()).filter(|(_, other)| other.state == ACTIVE);
    let mut others = others.filter(|(at, _)| *at != place);
    others.all(|(at, other): (u64, _)| match at < place {
        true => other.indicator < chosen.indicator,
        false => other.indicator <= chosen.indicator,
    })
}

/// The first law that an answer of promote breaks, with the area before and after
/// it, in words.
pub fn broken_by_promote(
    area: &Area,
    place: u64,
    answer: &Result<Promotion, Cause>,
    after: &Area,
) -> Option<&'static str> {
    let due = due(area).and_then(|totals| {
        let record = active_record(area, place).ok_or(Cause::PlaceNotActive)?;
        Ok((totals, record))
    });
    let (totals, record, promotion) = match (due, answer) {
        (Ok((totals, record)), Ok(promotion)) => (totals, record, *promotion),
        (Err(cause), Err(other)) if cause == *other && after == area => return None,
        (Err(cause), Err(other)) if cause == *other => return Some("a refusal changes nothing"),
        _ => return Some("promote is refused as choose is, or where no active index is"),
    };
    let mut figure = Figure::of(area);
    figure.refine(&record.levels);
    let passes = figure.passes_a_limit(area.job.budget);
    let broken = first_broken([
        ("spent is a limit passed", (promotion == Promotion::Spent) == passes),
        ("it changes the area if promoted", (promotion == Promotion::Promoted) == (after != area)),
    ]);
    match promotion {
        Promotion::Spent => broken,
        Promotion::Promoted => broken
            .or_else(|| broken_by_promotion(area, &totals, place as usize, after))
            .or_else(|| figure.differs_in(after)),
    }
}

/// The same for an area in which the index of a place was promoted, given the area
/// and result before it.
fn broken_by_promotion(
    area: &Area,
    before: &Totals,
    place: usize,
    after_it: &Area,
) -> Option<&'static str> {
    let Ok(after) = calls::result(after_it) else {
        return Some("a promotion leaves the area sound");
    };
    let indicator = u64::from(area.records[place].indicator);
    let kept = match after.ceiling > before.ceiling {
        true => after.carried == before.carried + indicator,
        false => after.carried == before.carried,
    };
    let same_but_links = |at: usize| {
        let (one, other) = (&area.records[at], &after_it.records[at]);
        let state = if at == place { OLD } else { one.state };
        (one.levels, state, one.indicator, one.first_reading)
            == (other.levels, other.state, other.indicator, other.first_reading)
    };
    first_broken([
        ("that index becomes old, and no other", (0..area.held().len()).all(same_but_links)),
        ("one more is old", (after.old, after.active + 1) == (before.old + 1, before.active)),
        ("its indicator leaves the pending error", after.pending + indicator == before.pending),
        ("what the ceilings stop is carried, and nothing else", kept),
        ("the mean stays", after.mean == before.mean),
        ("the threshold stays", area.job.threshold == after_it.job.threshold),
    ])
}
