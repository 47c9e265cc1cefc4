//! Runs generated job files through the program, holds each report against the
//! one predicted from the log, and counts what was seen.

use crate::damage::{Refusal, DAMAGES};
use crate::generate::{self, Generated, Kind};
use crate::program::{self, Ending, Outcome};
use crate::replay::{self, Prediction};
use std::collections::BTreeMap;

pub type Counts = BTreeMap<String, u64>;

/// The name of a kind for counting.
pub fn kind_name(kind: Kind) -> String {
    match kind {
        Kind::Damaged(damage) => format!("damage {damage:?}"),
        other => format!("kind {other:?}"),
    }
}

/// Runs the files of the seeds from `first` on; panics at a disagreement.
pub fn survey(first: u64, files: u64) -> Counts {
    let mut counts = Counts::new();
    for seed in first..first + files {
        checked_outcome(seed, &generate::generate(seed), &mut counts);
    }
    counts
}

/// The outcome of a seed's file, held against the predicted one and counted.
pub fn checked_outcome(seed: u64, generated: &Generated, counts: &mut Counts) -> Outcome {
    let outcome = program::outcome(&generated.bytes);
    let predicted = replay::predict(&generated.bytes);
    assert_eq!(outcome, predicted.outcome, "the report of seed {seed}");
    assert_refusal(seed, generated, &outcome);
    let mut count = |what: String| *counts.entry(what).or_insert(0) += 1;
    count(kind_name(generated.kind));
    note(&predicted, &mut count);
    outcome
}

/// Where the damage alone tells the refusal, the report is that.
fn assert_refusal(seed: u64, generated: &Generated, outcome: &Outcome) {
    if let Some(Refusal { number, byte }) = generated.refusal {
        let text = program::text(outcome);
        assert_eq!(text, format!("refused {number} at {byte}\n"), "the damage of seed {seed}");
    }
}

fn note(predicted: &Prediction, count: &mut impl FnMut(String)) {
    match predicted.outcome {
        Outcome::Refused { cause, .. } => {
            let number = cause.number();
            count(format!("refused {number}"));
            if let Some(by) = predicted.broken_by {
                count(format!("refused {number} by {by}"));
            }
            if let Some(cause) = predicted.before {
                count(format!("refused {number} before {}", cause.number()));
            }
        }
        Outcome::Ended { axes, totals, unused, ending } => {
            count(format!("ended with axes {axes}"));
            count(ending_name(ending, predicted));
            predicted.promotes.iter().for_each(|name| count(name.to_string()));
            if unused > 0 {
                count("ended with unused entries".to_string());
            }
            if totals.ceiling > 0 {
                count("ended with a ceiling reached".to_string());
            }
            if totals.carried > 0 {
                count(format!("end {} with carried above 0", ending.name()));
            }
            if totals.reserved >= 8_000 {
                count("ended with 8,000 or more reserved".to_string());
            }
            if totals.old + totals.active + totals.wanted == 512 {
                count("ended with 512 held".to_string());
            }
        }
    }
}

/// An ending, and the limit that a spent one names.
fn ending_name(ending: Ending, predicted: &Prediction) -> String {
    let mut names = predicted.promotes.iter();
    let by = names.find_map(|name| name.strip_prefix("promote spent by"));
    match (ending, by) {
        (Ending::Spent, Some(by)) => format!("end spent by{by}"),
        _ => format!("end {}", ending.name()),
    }
}

const DUE: [&str; 43] = [
    "end met",
    "end capped",
    "end short",
    "end spent by the limit of 512",
    "end spent by the budget",
    "ended with unused entries",
    "ended with 512 held",
    "ended with a ceiling reached",
    "ended with 8,000 or more reserved",
    "end short with carried above 0",
    "end spent with carried above 0",
    "choose met with the threshold equal to the pending error",
    "choose capped with the threshold equal to the pending error",
    "choose capped with pending above 0",
    "choose capped with carried at most the threshold",
    "choose capped with the threshold one below both",
    "choose a place before an equal one",
    "promote promoted with nothing admitted",
    "promote promoted with carried above 0",
    "promote promoted at the ceiling of level alone",
    "promote promoted at the ceiling of excess alone",
    "promote promoted at both ceilings",
    "promote spent with carried above 0",
    "refused 10 by an early end",
    "refused 10 by the entry count",
    "refused 10 by the table offset",
    "refused 12 by an early end",
    "refused 12 by a reading count of 0",
    "refused 12 by a reading count above 8,192",
    "refused 12 by a total above 8,192",
    "refused 12 by an offset",
    "refused 13 by too few readings",
    "refused 13 by bytes too many",
    "refused 10 before 1",
    "refused 10 before 2",
    "refused 12 before 1",
    "refused 12 before 2",
    "refused 12 before 7",
    "refused 12 before 8",
    "refused 13 before 1",
    "refused 13 before 2",
    "refused 13 before 7",
    "refused 13 before 8",
];

/// What a survey has to see and didn't.
pub fn missing(counts: &Counts) -> Vec<String> {
    let mut due: Vec<String> = DUE.iter().map(|what| what.to_string()).collect();
    due.extend([1, 2, 7, 8, 10, 12, 13].map(|number| format!("refused {number}")));
    due.extend((1..=8).map(|axes| format!("ended with axes {axes}")));
    due.extend(DAMAGES.map(|damage| kind_name(Kind::Damaged(damage))));
    due.retain(|what| !counts.contains_key(what));
    due
}
