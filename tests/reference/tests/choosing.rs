//! Choose and promote: the cases of the request call by call, the rule, the causes
//! in their order, and every place that a job has and hasn't.

use reference::area::{Area, ACTIVE, OLD, WANTED};
use reference::call::{self, Answer, Call};
use reference::calls::{self, Cause, Choice, Promotion};
use reference::grid::{self, Levels, ROOT};
use reference::laws;
use reference::sample;
use reference::steps::{self, Case};

fn index(levels: &[u32]) -> Levels {
    let mut index = ROOT;
    index[..levels.len()].copy_from_slice(levels);
    index
}

fn started(axes: u32, threshold: u64, budget: u32) -> Area {
    let mut area = Area::empty(512, 8192);
    assert_eq!(calls::start(&mut area, axes, threshold, budget), Ok(()));
    area
}

/// The first wanted block, with readings of 1 and this indicator.
fn deliver(area: &mut Area, indicator: u32) {
    let place = calls::first_wanted(area).expect("a block is wanted");
    let size = grid::block_size(&area.records[place].levels);
    assert_eq!(calls::deliver(area, &vec![1; size], indicator), Ok(()));
}

fn promote(area: &mut Area, place: u64) {
    assert_eq!(calls::promote(area, place), Ok(Promotion::Promoted));
}

/// A promote that leaves the area as it was.
fn assert_left(area: &mut Area, place: u64, answer: Result<Promotion, Cause>) {
    let before = area.clone();
    assert_eq!(calls::promote(area, place), answer, "{place}");
    assert_eq!(*area, before, "{place}");
}

fn states(area: &Area) -> Vec<u32> {
    area.held().iter().map(|record| record.state).collect()
}

fn last_held(area: &Area) -> Levels {
    area.held().last().expect("the root is held").levels
}

#[test]
fn right_after_start_both_are_refused_6() {
    let mut area = started(2, 40, 64);
    assert_eq!(calls::choose(&area), Err(Cause::BlockWanted));
    assert_left(&mut area, u64::MAX, Err(Cause::BlockWanted));
    assert_left(&mut area, 0, Err(Cause::BlockWanted));
}

#[test]
fn the_root_alone_with_its_indicator_at_the_threshold() {
    let mut area = started(2, 40, 64);
    deliver(&mut area, 40);
    assert_eq!(calls::choose(&area), Ok(Choice::Met));
    for place in [1, 512, 1 << 32, u64::MAX] {
        assert_left(&mut area, place, Err(Cause::PlaceNotActive));
    }
    promote(&mut area, 0);
    assert_eq!(states(&area), [OLD, WANTED, WANTED]);
}

#[test]
fn both_neighbours_with_equal_indicators() {
    let mut area = started(2, 40, 64);
    deliver(&mut area, 40);
    promote(&mut area, 0);
    deliver(&mut area, 30);
    deliver(&mut area, 30);
    assert_eq!(calls::choose(&area), Ok(Choice::Place(1)));
    assert_left(&mut area, 0, Err(Cause::PlaceNotActive));
    promote(&mut area, 2);
    assert_eq!(last_held(&area), index(&[1, 3]));
    assert_eq!(states(&area), [OLD, ACTIVE, OLD, WANTED]);
}

#[test]
fn one_axis_promoted_in_turn_is_capped_at_9_and_met_at_10() {
    for (threshold, answer) in [(9, Choice::Capped), (10, Choice::Met)] {
        let mut area = started(1, threshold, 129);
        for place in 0..8 {
            deliver(&mut area, 10);
            promote(&mut area, place);
        }
        assert_eq!((area.job.pending, area.job.carried), (0, 10));
        assert_eq!(calls::choose(&area), Ok(answer), "threshold {threshold}");
        for place in 0..10 {
            assert_left(&mut area, place, Err(Cause::PlaceNotActive));
        }
    }
}

#[test]
fn two_axes_budget_4_indicator_0_is_met_and_spent() {
    let mut area = started(2, 0, 4);
    deliver(&mut area, 0);
    assert_eq!(calls::choose(&area), Ok(Choice::Met));
    assert_left(&mut area, 0, Ok(Promotion::Spent));
}

/// Each area by name: the answer, what is left, and the laws.
#[test]
fn the_steps_by_name() {
    for Case { name, area, call, answer, admitted } in steps::cases() {
        let mut after = area.clone();
        assert_eq!(call::perform(&mut after, &call, &mut []), answer, "{name}");
        match call {
            Call::Choose => laws::assert_choose(&area),
            Call::Promote { place } => laws::assert_promote(&area, place),
            _ => unreachable!("{name} is of another call"),
        }
        let (Call::Promote { place }, Answer::Promotion(Promotion::Promoted)) = (call, answer)
        else {
            assert_eq!(after, area, "{name}");
            continue;
        };
        let held = area.held().len();
        let appended: Vec<Levels> = after.held()[held..].iter().map(|r| r.levels).collect();
        let due: Vec<Levels> = admitted.iter().map(|levels| index(levels)).collect();
        assert_eq!(appended, due, "{name}");
        let mut due = states(&area);
        due[place as usize] = OLD;
        due.resize(held + admitted.len(), WANTED);
        assert_eq!(states(&after), due, "{name}");
    }
}

#[test]
fn the_names_differ() {
    let mut names: Vec<&str> = steps::cases().iter().map(|case| case.name).collect();
    let count = names.len();
    names.sort_unstable();
    names.dedup();
    assert_eq!(names.len(), count);
}

#[test]
fn a_threshold_equal_to_the_pending_error_is_met() {
    for (threshold, answer) in [(100, Choice::Met), (99, Choice::Place(0))] {
        let mut area = started(2, threshold, 64);
        deliver(&mut area, 100);
        assert_eq!(calls::choose(&area), Ok(answer));
    }
}

#[test]
fn budget_4_is_spent_and_budget_5_is_not() {
    for (budget, answer) in [(4, Promotion::Spent), (5, Promotion::Promoted)] {
        for (threshold, indicator) in [(0, 1), (0, 0), (1, 1), (u64::MAX, u32::MAX)] {
            let mut area = started(2, threshold, budget);
            deliver(&mut area, indicator);
            let before = area.clone();
            assert_eq!(calls::promote(&mut area, 0), Ok(answer));
            assert_eq!(area == before, answer == Promotion::Spent);
        }
    }
}

/// The budget is nothing to choose.
#[test]
fn choose_says_met_or_a_place_where_promote_is_spent() {
    for (threshold, indicator, answer) in
        [(1, 1, Choice::Met), (0, 0, Choice::Met), (0, 1, Choice::Place(0))]
    {
        let mut area = started(8, threshold, 1);
        deliver(&mut area, indicator);
        assert_eq!(calls::choose(&area), Ok(answer));
        assert_left(&mut area, 0, Ok(Promotion::Spent));
    }
}

#[test]
fn equal_indicators_select_the_lowest_place() {
    let mut area = started(3, 0, 64);
    deliver(&mut area, 5);
    promote(&mut area, 0);
    for indicator in [3, 9, 9] {
        deliver(&mut area, indicator);
    }
    assert_eq!(calls::choose(&area), Ok(Choice::Place(2)));
    promote(&mut area, 2);
    assert_eq!(states(&area), [OLD, ACTIVE, OLD, ACTIVE, WANTED]);
    assert_eq!(last_held(&area), index(&[1, 3, 1]));
}

/// Where something is pending an index of indicator 0 is not chosen, and where nothing
/// is the job is met or capped. It can be promoted all the same.
#[test]
fn an_indicator_of_0_is_promoted_and_not_chosen() {
    let mut area = started(2, 0, 64);
    deliver(&mut area, 0);
    assert_eq!(calls::choose(&area), Ok(Choice::Met));
    promote(&mut area, 0);
    deliver(&mut area, 0);
    deliver(&mut area, 7);
    assert_eq!(calls::choose(&area), Ok(Choice::Place(2)));
    promote(&mut area, 1);
    assert_eq!((area.job.pending, last_held(&area)), (7, index(&[3, 1])));
}

#[test]
fn a_later_index_joins_when_its_last_backward_neighbour_is_old() {
    let mut area = started(2, u64::MAX, 64);
    deliver(&mut area, 1);
    promote(&mut area, 0);
    deliver(&mut area, 1);
    deliver(&mut area, 1);
    promote(&mut area, 1);
    assert_eq!(last_held(&area), index(&[3, 1]), "(2,2) waits for (1,2)");
    deliver(&mut area, 1);
    promote(&mut area, 2);
    // (1,2) became old: axis 1 brings (2,2), then axis 2 brings (1,3).
    assert_eq!(area.records[4].levels, index(&[2, 2]));
    assert_eq!(area.records[5].levels, index(&[1, 3]));
    assert_eq!((area.records[4].backward[0], area.records[4].backward[1]), (2, 1));
    assert_eq!((area.records[2].forward[0], area.records[1].forward[1]), (4, 4));
}

/// One axis: level 8 is the last; its promotion admits nothing, is promoted
/// all the same, counts one pair at the ceiling and carries its indicator.
#[test]
fn nothing_admitted_is_promoted_and_the_ceiling_is_counted() {
    let mut area = started(1, 0, 129);
    for place in 0..8 {
        deliver(&mut area, 1);
        let totals = calls::result(&area).unwrap();
        assert_eq!((totals.ceiling, totals.carried), (0, 0));
        assert_eq!(calls::choose(&area), Ok(Choice::Place(place)));
        promote(&mut area, place);
    }
    let totals = calls::result(&area).unwrap();
    assert_eq!((totals.old, totals.wanted, totals.reserved, totals.ceiling), (8, 0, 129, 1));
    assert_eq!((totals.pending, totals.carried), (0, 1));
    assert_eq!(calls::choose(&area), Ok(Choice::Capped));
}

/// While a block is wanted both are refused with 6, whatever the place and whatever
/// choose would say.
#[test]
fn cause_6_comes_before_11_and_before_every_answer() {
    for (threshold, budget) in [(u64::MAX, 5), (0, 5), (0, 64)] {
        let mut area = started(2, threshold, budget);
        deliver(&mut area, 1);
        promote(&mut area, 0);
        deliver(&mut area, 1);
        assert_eq!(states(&area), [OLD, ACTIVE, WANTED]);
        assert_eq!(calls::choose(&area), Err(Cause::BlockWanted));
        for place in [0, 1, 2, 3, 511, 512, 1 << 32, (1 << 32) + 1, u64::MAX] {
            assert_left(&mut area, place, Err(Cause::BlockWanted));
            laws::assert_promote(&area, place);
        }
    }
}

/// Every place up to past the held, and each of them past 16, 32 and 63 bits: 11
/// but for the active ones themselves.
#[test]
fn cause_11_but_for_the_active_places() {
    let (mut active, mut other) = (0, 0);
    for seed in 0..150 {
        let area = sample::area(seed);
        if calls::first_wanted(&area).is_some() {
            continue;
        }
        let held = area.held().len() as u64;
        for low in 0..held + 2 {
            let is_active = low < held && area.records[low as usize].state == ACTIVE;
            let answer = calls::promote(&mut area.clone(), low);
            assert_eq!(answer.is_ok(), is_active, "seed {seed}, place {low}");
            if is_active {
                active += 1;
            } else {
                other += 1;
                assert_left(&mut area.clone(), low, Err(Cause::PlaceNotActive));
            }
            for past in [1 << 16, 1 << 32, 1 << 63] {
                assert_left(&mut area.clone(), low + past, Err(Cause::PlaceNotActive));
            }
        }
        for place in [512, u64::from(u32::MAX), u64::MAX - 1, u64::MAX] {
            assert_left(&mut area.clone(), place, Err(Cause::PlaceNotActive));
        }
    }
    assert!(active > 300 && other > 300, "{active} active, {other} not");
}

/// Two jobs with all 512 places held: their last place is active, and promoted where
/// that admits nothing; 512 is not a place.
#[test]
fn the_last_place_of_a_full_job() {
    for (seed, axes, answer) in [(0, 8, Promotion::Promoted), (1, 5, Promotion::Spent)] {
        let area = sample::full_area(seed, axes);
        assert_eq!((area.job.held, area.records[511].state), (512, ACTIVE));
        assert_eq!(calls::promote(&mut area.clone(), 511), Ok(answer));
        laws::assert_promote(&area, 511);
        assert_left(&mut area.clone(), 512, Err(Cause::PlaceNotActive));
        for place in 0..512 {
            let active = area.records[place as usize].state == ACTIVE;
            let past = calls::limits_passed(&area, place);
            let due = match past {
                Some((false, false)) => Ok(Promotion::Promoted),
                Some(_) => Ok(Promotion::Spent),
                None => Err(Cause::PlaceNotActive),
            };
            assert_eq!(calls::promote(&mut area.clone(), place), due, "{place}");
            assert_eq!(past.is_some(), active, "{place}");
        }
    }
}

/// Cause 3 comes first, at an active place and at none.
#[test]
fn short_storage_is_refused_first() {
    for (records, store) in [(511, 64), (512, 63), (0, 0)] {
        let mut area = started(2, 40, 64);
        deliver(&mut area, 41);
        area.records.truncate(records);
        area.store.truncate(store);
        assert_eq!(calls::choose(&area), Err(Cause::StorageShort));
        for place in [0, 1, u64::MAX] {
            assert_left(&mut area, place, Err(Cause::StorageShort));
        }
    }
}
