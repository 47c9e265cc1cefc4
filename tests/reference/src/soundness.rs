//! What makes an area sound: one function for each clause of the scope
//! document's sentence, in its order, by plain searching. After the pending error
//! comes the clause that a later text adds: "soundness includes the carried sum".
//!
//! Every clause is total: it answers on any content whatever. "Held" means the
//! first `held` records as far as records are there, and the axes looked at
//! are the first d, at most eight. A clause that needs a block size or a
//! reading which isn't there counts as broken.

use crate::area::{Area, IndexRecord, ACTIVE, NONE, OLD, WANTED};
use crate::grid::{self, Levels, BUDGET_LIMIT, EXCESS_CEILING, HELD_LIMIT, MOST_AXES, ROOT};
use crate::rule::TOP_LEVEL;
use crate::sums::DIFFERENCE_LIMIT;

#[derive(Clone, Copy, Debug, PartialEq, Eq, Hash, PartialOrd, Ord)]
pub enum Clause {
    AxesInRange,
    BudgetInRange,
    LevelsInRange,
    ExcessInRange,
    LevelsBeyondAxesAreOne,
    LinksBeyondAxesAreNone,
    StatesAreOfTheThree,
    HeldCountInRange,
    HeldAllDifferent,
    RootFirst,
    BackwardNeighboursOld,
    AdmissibleAreHeld,
    LinksNameHeldNeighbours,
    WantedComeLast,
    WantedIndicatorsZero,
    FirstReadingsRunningSum,
    ReservedIsSum,
    ReservedWithinBudget,
    DeliveredReadingsInRange,
    PendingIsActiveSum,
    CarriedIsCeilingSum,
    MeanWithinBound,
}

type Test = fn(&Area) -> bool;

/// The clauses in the document's order, each with its test.
pub const CLAUSES: [(Clause, Test); 22] = [
    (Clause::AxesInRange, axes_in_range),
    (Clause::BudgetInRange, budget_in_range),
    (Clause::LevelsInRange, levels_in_range),
    (Clause::ExcessInRange, excess_in_range),
    (Clause::LevelsBeyondAxesAreOne, levels_beyond_axes_are_one),
    (Clause::LinksBeyondAxesAreNone, links_beyond_axes_are_none),
    (Clause::StatesAreOfTheThree, states_are_of_the_three),
    (Clause::HeldCountInRange, held_count_in_range),
    (Clause::HeldAllDifferent, held_all_different),
    (Clause::RootFirst, root_first),
    (Clause::BackwardNeighboursOld, backward_neighbours_old),
    (Clause::AdmissibleAreHeld, admissible_are_held),
    (Clause::LinksNameHeldNeighbours, links_name_held_neighbours),
    (Clause::WantedComeLast, wanted_come_last),
    (Clause::WantedIndicatorsZero, wanted_indicators_zero),
    (Clause::FirstReadingsRunningSum, first_readings_running_sum),
    (Clause::ReservedIsSum, reserved_is_sum),
    (Clause::ReservedWithinBudget, reserved_within_budget),
    (Clause::DeliveredReadingsInRange, delivered_readings_in_range),
    (Clause::PendingIsActiveSum, pending_is_active_sum),
    (Clause::CarriedIsCeilingSum, carried_is_ceiling_sum),
    (Clause::MeanWithinBound, mean_within_bound),
];

pub fn sound(area: &Area) -> bool {
    first_broken_clause(area).is_none()
}

pub fn first_broken_clause(area: &Area) -> Option<Clause> {
    CLAUSES.iter().find(|(_, holds)| !holds(area)).map(|(clause, _)| *clause)
}

pub fn broken_clauses(area: &Area) -> Vec<Clause> {
    CLAUSES.iter().filter(|(_, holds)| !holds(area)).map(|(clause, _)| *clause).collect()
}

/// The job's axes as far as a record has room for them.
fn axes(area: &Area) -> usize {
    MOST_AXES.min(area.job.axes as usize)
}

/// The place of a held index, by plain search.
fn place_of(held: &[IndexRecord], levels: &Levels) -> Option<usize> {
    held.iter().position(|record| record.levels == *levels)
}

fn is_old(held: &[IndexRecord], levels: &Levels) -> bool {
    held.iter().any(|record| record.levels == *levels && record.state == OLD)
}

/// Whether all backward neighbours of an index are held and old.
fn backward_all_old(axes: usize, held: &[IndexRecord], levels: &Levels) -> bool {
    (0..axes)
        .filter_map(|axis| grid::backward_neighbour(levels, axis))
        .all(|neighbour| is_old(held, &neighbour))
}

// "d, budget, levels and excess are in range"

fn axes_in_range(area: &Area) -> bool {
    (1..=MOST_AXES as u32).contains(&area.job.axes)
}

fn budget_in_range(area: &Area) -> bool {
    (1..=BUDGET_LIMIT).contains(&area.job.budget)
}

fn levels_in_range(area: &Area) -> bool {
    area.held()
        .iter()
        .all(|record| record.levels[..axes(area)].iter().all(|l| (1..=TOP_LEVEL).contains(l)))
}

fn excess_in_range(area: &Area) -> bool {
    area.held().iter().all(|record| {
        let excess: i64 = record.levels[..axes(area)].iter().map(|&l| i64::from(l) - 1).sum();
        excess <= EXCESS_CEILING
    })
}

// "levels and links beyond axis d are 1 and none"

fn levels_beyond_axes_are_one(area: &Area) -> bool {
    area.held().iter().all(|record| record.levels[axes(area)..].iter().all(|&l| l == 1))
}

fn links_beyond_axes_are_none(area: &Area) -> bool {
    let from = axes(area);
    area.held().iter().all(|record| {
        record.forward[from..].iter().chain(&record.backward[from..]).all(|&link| link == NONE)
    })
}

// "each state is one of the three"

fn states_are_of_the_three(area: &Area) -> bool {
    area.held().iter().all(|record| [WANTED, ACTIVE, OLD].contains(&record.state))
}

// "the held are 1 to 512, all different, the root first"

fn held_count_in_range(area: &Area) -> bool {
    let held = area.job.held as usize;
    (1..=HELD_LIMIT).contains(&held) && held <= area.records.len()
}

fn held_all_different(area: &Area) -> bool {
    let held = area.held();
    (0..held.len()).all(|place| place_of(&held[..place], &held[place].levels).is_none())
}

fn root_first(area: &Area) -> bool {
    area.held().first().is_some_and(|record| record.levels == ROOT)
}

// "their backward neighbours are old"

fn backward_neighbours_old(area: &Area) -> bool {
    let held = area.held();
    held.iter().all(|record| backward_all_old(axes(area), held, &record.levels))
}

// "all indices so admissible are held"

/// The literal form: every index of d axes within the ceilings whose backward
/// neighbours are all old is held.
pub fn admissible_are_held_literally(area: &Area) -> bool {
    let held = area.held();
    let mut all = true;
    grid::for_each_within_ceilings(axes(area), |index| {
        if all && place_of(held, index).is_none() && backward_all_old(axes(area), held, index) {
            all = false;
        }
    });
    all
}

/// The same over forward neighbours of old indices: an admissible index is the
/// root, or it has a backward neighbour; that one is old, and the index is a
/// forward neighbour of it.
pub fn admissible_are_held(area: &Area) -> bool {
    let held = area.held();
    let axes = axes(area);
    let missing = |index: &Levels| {
        grid::within_ceilings(index)
            && index[axes..].iter().all(|&level| level == 1)
            && place_of(held, index).is_none()
            && backward_all_old(axes, held, index)
    };
    if missing(&ROOT) {
        return false;
    }
    held.iter().filter(|record| record.state == OLD).all(|record| {
        (0..axes)
            .filter_map(|axis| grid::forward_neighbour(&record.levels, axis))
            .all(|neighbour| !missing(&neighbour))
    })
}

// "links name exactly the held neighbours"

fn links_name_held_neighbours(area: &Area) -> bool {
    let held = area.held();
    held.iter().all(|record| {
        (0..axes(area)).all(|axis| {
            let forward = grid::forward_neighbour(&record.levels, axis);
            let backward = grid::backward_neighbour(&record.levels, axis);
            link_names(held, record.forward[axis], forward)
                && link_names(held, record.backward[axis], backward)
        })
    })
}

/// A link is the place of the neighbour if that is held, and none otherwise.
fn link_names(held: &[IndexRecord], link: u32, neighbour: Option<Levels>) -> bool {
    match neighbour {
        None => link == NONE,
        Some(levels) if link == NONE => place_of(held, &levels).is_none(),
        Some(levels) => held.get(link as usize).is_some_and(|record| record.levels == levels),
    }
}

// "wanted records come last with indicator 0"

fn wanted_come_last(area: &Area) -> bool {
    let mut rest = area.held().iter().skip_while(|record| record.state != WANTED);
    rest.all(|record| record.state == WANTED)
}

fn wanted_indicators_zero(area: &Area) -> bool {
    area.held().iter().all(|record| record.state != WANTED || record.indicator == 0)
}

// "first readings are the running sum of block sizes"

fn first_readings_running_sum(area: &Area) -> bool {
    let mut sum = Some(0u128);
    area.held().iter().all(|record| {
        let expected = sum;
        sum = sum.and_then(|s| s.checked_add(grid::block_size_of_any(&record.levels)?));
        expected == Some(u128::from(record.first_reading))
    })
}

// "reserved is the sum of the held blocks' sizes and within the budget"

fn reserved_is_sum(area: &Area) -> bool {
    let sum = area
        .held()
        .iter()
        .try_fold(0u128, |sum, record| sum.checked_add(grid::block_size_of_any(&record.levels)?));
    sum == Some(u128::from(area.job.reserved))
}

fn reserved_within_budget(area: &Area) -> bool {
    area.job.reserved <= area.job.budget
}

// "delivered readings are in range"

fn delivered_readings_in_range(area: &Area) -> bool {
    area.held().iter().filter(|record| record.is_delivered()).all(|record| {
        let first = u128::from(record.first_reading);
        let end = grid::block_size_of_any(&record.levels).and_then(|size| first.checked_add(size));
        match end {
            Some(end) if end <= area.store.len() as u128 => area.store
                [first as usize..end as usize]
                .iter()
                .all(|&reading| grid::reading_in_range(reading)),
            _ => false,
        }
    })
}

// "the pending error is the active sum"

fn pending_is_active_sum(area: &Area) -> bool {
    let active = area.held().iter().filter(|record| record.state == ACTIVE);
    active.map(|record| u128::from(record.indicator)).sum::<u128>() == u128::from(area.job.pending)
}

// The carried error: "the sum of the indicators of old indices with at least one
// forward neighbour past a ceiling"

/// The carried error as it should be recorded, worked out from the records. An
/// index counts once, however many of its neighbours are past a ceiling.
pub fn ceiling_sum(area: &Area) -> u128 {
    let old = area.held().iter().filter(|record| record.state == OLD);
    old.filter(|record| grid::at_a_ceiling(axes(area), &record.levels))
        .map(|record| u128::from(record.indicator))
        .sum()
}

fn carried_is_ceiling_sum(area: &Area) -> bool {
    ceiling_sum(area) == u128::from(area.job.carried)
}

// "the scaled mean is in size at most the delivered count times 2^40"

fn mean_within_bound(area: &Area) -> bool {
    let delivered = area.held().iter().filter(|record| record.is_delivered()).count();
    i128::from(area.job.mean).abs() <= delivered as i128 * DIFFERENCE_LIMIT
}
