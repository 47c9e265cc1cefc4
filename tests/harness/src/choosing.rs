//! What the chooses and promotes of a list find and do, by name. The reference
//! names them by a log; the held records of a sound area are such a log's entries.

use crate::lent::Part;
use reference::area::{Area, IndexRecord, ACTIVE, OLD, WORDS};
use reference::call::{Call, Lengths};
use reference::log::{Entry, Job, State};
use reference::promotes;

/// What a long run has to see besides the reference's own list: ends that few jobs
/// come to.
const ENDS: [&str; 3] = [
    "choose capped with the threshold equal to the pending error",
    "promote spent by the limit of 512",
    "promote spent by both limits",
];

/// The names that a long run has to see.
pub fn due() -> impl Iterator<Item = &'static str> {
    promotes::DUE.into_iter().chain(ENDS)
}

/// The names of a call of choose or promote on a sound area, lent so much of it.
/// Other calls have none.
pub fn names(area: &Area, call: &Call, part: Part) -> Vec<&'static str> {
    match call {
        Call::Choose | Call::Promote { .. } => {
            let lengths = Lengths { records: part.cells / WORDS, store: part.store };
            promotes::names(&log_of(area), call, lengths)
        }
        _ => Vec::new(),
    }
}

/// The readings are left out, for no name goes by them.
fn log_of(area: &Area) -> Job {
    let entry = |record: &IndexRecord| Entry {
        levels: record.levels,
        state: match record.state {
            ACTIVE => State::Active,
            OLD => State::Old,
            _ => State::Wanted,
        },
        indicator: record.indicator,
        readings: Vec::new(),
    };
    let entries = area.held().iter().map(entry).collect();
    Job::new(area.job.axes as usize, area.job.threshold, area.job.budget, entries)
}

#[cfg(test)]
mod tests {
    use super::*;
    use crate::lent::Lent;
    use reference::steps;

    #[test]
    fn areas_by_name_show_what_they_are_named_for() {
        let shown = [
            ("choose right after start", "choose refused 6"),
            ("promote 2^64 - 1 right after start", "promote refused 6 before 11"),
            ("choose at the threshold", "choose met"),
            ("promote 0 though met", "promote promoted though choose says met"),
            ("choose the first of equals", "choose a place before an equal one"),
            ("promote 0, an old place", "promote refused 11 at an old place"),
            ("promote 2^32 + 2", "promote refused 11 at 2^32 + an active place"),
            ("choose at threshold 9, 10 carried", "choose capped"),
            ("promote 7, nothing is admitted", "promote promoted with nothing admitted"),
            ("promote 4 with budget 18, the chosen place", "promote spent at the chosen place"),
            ("promote 2 though capped, budget 131", "promote spent though choose says capped"),
            ("choose with 5 and 6, threshold 5", ENDS[0]),
            ("promote, 3 before 11", "promote refused 3 before 11"),
        ];
        let cases = steps::cases();
        for (case, name) in shown {
            let steps::Case { area, call, .. } =
                cases.iter().find(|other| other.name == case).expect("an area of this name");
            let names = names(area, call, Lent::of(area).whole());
            assert!(names.contains(&name), "{case}: {names:?}");
        }
    }
}
