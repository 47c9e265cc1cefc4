//! What a call of choose or promote finds and what it does, by name, for counts of
//! what was seen.

use crate::call::{Call, Lengths};
use crate::calls::Choice;
use crate::grid::{self, Levels, EXCESS_CEILING};
use crate::log::{Job, Plan, State};
use crate::rule::TOP_LEVEL;

/// What a long list of calls has to see of choose and promote.
pub const DUE: [&str; 35] = [
    "choose met",
    "choose met with carried above 0",
    "choose capped",
    "choose capped with pending above 0",
    "choose a place",
    "choose a place before an equal one",
    "choose refused 3 before 6",
    "choose refused 6",
    "promote promoted at the chosen place",
    "promote promoted at another active place",
    "promote promoted with pending at most the threshold",
    "promote promoted though choose says met",
    "promote promoted though choose says capped",
    "promote promoted with nothing admitted",
    "promote promoted with carried above 0",
    "promote promoted at the last of several places",
    "promote spent at the chosen place",
    "promote spent at another active place",
    "promote spent though choose says met",
    "promote spent though choose says capped",
    "promote spent by the budget",
    "promote spent with carried above 0",
    "promote refused 11 at an old place",
    "promote refused 11 at held",
    "promote refused 11 at 511 or 512",
    "promote refused 11 at 2^32 + an active place",
    "promote refused 11 at 2^32 + another held place",
    "promote refused 11 from 2^63 on",
    "promote refused 11 at 2^64 - 1",
    "promote refused 6 at an active place",
    "promote refused 6 at a wanted place",
    "promote refused 6 before 11",
    "promote refused 3 before 6",
    "promote refused 3 before 11",
    "promote refused 3 at an active place",
];

/// The names of a call of choose or promote, worked out on the log before it: its
/// answer first, then what makes it a case of its own. Other calls have none.
pub fn names(job: &Job, call: &Call, lengths: Lengths) -> Vec<&'static str> {
    let short = lengths.records < 512 || lengths.store < job.budget as usize;
    let wanted = job.first_wanted().is_some();
    match *call {
        Call::Choose if short => some([("choose refused 3 before 6", wanted)]),
        Call::Choose if wanted => vec!["choose refused 6"],
        Call::Choose => of_choice(job),
        Call::Promote { place } if short => refused_3(job, wanted, place),
        Call::Promote { place } if wanted => refused_6(job, place),
        Call::Promote { place } => match job.plan(place) {
            Some(plan) => of_plan(job, place, &plan),
            None => refused_11(job, place),
        },
        _ => Vec::new(),
    }
}

fn some<const N: usize>(so: [(&'static str, bool); N]) -> Vec<&'static str> {
    so.into_iter().filter(|(_, seen)| *seen).map(|(name, _)| name).collect()
}

/// The state of the log's entry at a place, any number.
fn state_at(job: &Job, place: u64) -> Option<State> {
    let place = usize::try_from(place).ok()?;
    job.entries.get(place).map(|entry| entry.state)
}

fn of_choice(job: &Job) -> Vec<&'static str> {
    match job.choice() {
        Choice::Met => [vec!["choose met"], at_an_end(job, true)].concat(),
        Choice::Capped => [vec!["choose capped"], at_an_end(job, false)].concat(),
        Choice::Place(place) => {
            let later = &job.entries[place as usize..];
            let active = later.iter().filter(|entry| entry.state == State::Active);
            let equals = active.filter(|entry| entry.indicator == later[0].indicator).count();
            some([("choose a place", true), ("choose a place before an equal one", equals > 1)])
        }
    }
}

/// How the pending error, the carried one and the threshold lie to each other.
fn at_an_end(job: &Job, met: bool) -> Vec<&'static str> {
    let (pending, carried, threshold) = (job.pending(), job.carried(), job.threshold);
    let level = threshold == pending && pending > 0;
    let one_below = u128::from(pending) + u128::from(carried) == u128::from(threshold) + 1;
    some([
        ("choose met with the threshold equal to the pending error", met && level),
        ("choose met with carried above 0", met && carried > 0),
        ("choose capped with the threshold equal to the pending error", !met && level),
        ("choose capped with pending above 0", !met && pending > 0),
        ("choose capped with carried at most the threshold", !met && carried <= threshold),
        ("choose capped with the threshold one below both", !met && one_below),
    ])
}

/// A promote at the place of an active index, no block wanted.
fn of_plan(job: &Job, place: u64, plan: &Plan) -> Vec<&'static str> {
    let choice = job.choice();
    let carried = job.carried() > 0;
    match plan {
        Plan::Spent { past_held, past_budget } => {
            let limit = match (past_held, past_budget) {
                (true, true) => "promote spent by both limits",
                (true, false) => "promote spent by the limit of 512",
                (false, _) => "promote spent by the budget",
            };
            let with_carried = some([("promote spent with carried above 0", carried)]);
            [vec!["promote spent", limit, spent_beside(choice, place)], with_carried].concat()
        }
        Plan::Promoted { promoted, admitted } => {
            let last = *promoted > 0 && promoted + 1 == job.entries.len();
            let so = some([
                ("promote promoted with nothing admitted", admitted.is_empty()),
                ("promote promoted with carried above 0", carried),
                (
                    "promote promoted with pending at most the threshold",
                    job.pending() <= job.threshold,
                ),
                ("promote promoted at the last of several places", last),
            ]);
            let ceiling = ceiling_of(&job.entries[*promoted].levels).into_iter().collect();
            let beside = vec!["promote promoted", promoted_beside(choice, place)];
            [beside, so, ceiling].concat()
        }
    }
}

/// What choose says, where a place is promoted.
fn promoted_beside(choice: Choice, place: u64) -> &'static str {
    match choice {
        Choice::Place(chosen) if chosen == place => "promote promoted at the chosen place",
        Choice::Place(_) => "promote promoted at another active place",
        Choice::Met => "promote promoted though choose says met",
        Choice::Capped => "promote promoted though choose says capped",
    }
}

/// What choose says, where the promote of a place is spent.
fn spent_beside(choice: Choice, place: u64) -> &'static str {
    match choice {
        Choice::Place(chosen) if chosen == place => "promote spent at the chosen place",
        Choice::Place(_) => "promote spent at another active place",
        Choice::Met => "promote spent though choose says met",
        Choice::Capped => "promote spent though choose says capped",
    }
}

/// Which ceilings an index is at.
fn ceiling_of(levels: &Levels) -> Option<&'static str> {
    match (levels.contains(&TOP_LEVEL), grid::excess(levels) == EXCESS_CEILING) {
        (true, false) => Some("promote promoted at the ceiling of level alone"),
        (false, true) => Some("promote promoted at the ceiling of excess alone"),
        (true, true) => Some("promote promoted at both ceilings"),
        (false, false) => None,
    }
}

fn refused_3(job: &Job, wanted: bool, place: u64) -> Vec<&'static str> {
    let active = state_at(job, place) == Some(State::Active);
    some([
        ("promote refused 3 before 6", wanted),
        ("promote refused 3 before 11", !wanted && !active),
        ("promote refused 3 at an active place", !wanted && active),
    ])
}

fn refused_6(job: &Job, place: u64) -> Vec<&'static str> {
    let state = state_at(job, place);
    some([
        ("promote refused 6 at an active place", state == Some(State::Active)),
        ("promote refused 6 at a wanted place", state == Some(State::Wanted)),
        ("promote refused 6 before 11", state != Some(State::Active)),
    ])
}

/// A promote where no active index is, no block wanted.
fn refused_11(job: &Job, place: u64) -> Vec<&'static str> {
    let held = job.entries.len() as u64;
    let state = state_at(job, place);
    let past_32_bits = place.checked_sub(1 << 32).and_then(|low| state_at(job, low));
    some([
        ("promote refused 11", true),
        ("promote refused 11 at an old place", state == Some(State::Old)),
        ("promote refused 11 at held", place == held),
        ("promote refused 11 at 511 or 512", place == 511 || place == 512),
        ("promote refused 11 at 2^32 + an active place", past_32_bits == Some(State::Active)),
        (
            "promote refused 11 at 2^32 + another held place",
            past_32_bits.is_some_and(|state| state != State::Active),
        ),
        ("promote refused 11 from 2^63 on", place >= 1 << 63),
        ("promote refused 11 at 2^64 - 1", place == u64::MAX),
    ])
}
