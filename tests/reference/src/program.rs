//! The program: runs a job file by the calls and writes the report.

use crate::area::Area;
use crate::calls::{self, Cause, Choice, Promotion, Totals};
use crate::grid::{self, BUDGET_LIMIT, HELD_LIMIT};
use crate::jobfile::{self, JobFile, Part};

#[derive(Clone, Copy, Debug, PartialEq, Eq, Hash, PartialOrd, Ord)]
pub enum Ending {
    Met,
    Spent,
    /// "Entries exhausted, block wanted."
    Short,
    Capped,
}

impl Ending {
    pub fn name(self) -> &'static str {
        match self {
            Ending::Met => "met",
            Ending::Spent => "spent",
            Ending::Short => "short",
            Ending::Capped => "capped",
        }
    }
}

#[derive(Clone, Copy, Debug, PartialEq, Eq)]
pub enum Outcome {
    Refused { cause: Cause, byte: usize },
    Ended { axes: u32, totals: Totals, unused: usize, ending: Ending },
}

/// The report of an input, from bytes to text.
pub fn report(input: &[u8]) -> String {
    text(&outcome(input))
}

pub fn outcome(input: &[u8]) -> Outcome {
    match jobfile::parse(input) {
        Ok(job) => run(&job, &mut Area::empty(HELD_LIMIT, BUDGET_LIMIT as usize)),
        Err(fault) => Outcome::Refused { cause: cause_of(fault.part), byte: fault.byte },
    }
}

/// "Number 10 is kept for the 24-byte header", and the two other parts have a number
/// each: "entry faults give 12, reading faults 13".
fn cause_of(part: Part) -> Cause {
    match part {
        Part::Header => Cause::HeaderMalformed,
        Part::EntryTable => Cause::EntryTableMalformed,
        Part::Readings => Cause::ReadingsMalformed,
    }
}

/// "While a block is wanted it delivers the next entry, else it promotes,
/// until met, spent or short"; capped ends it too. To promote it chooses first: "the
/// program calls both in turn". The area is left as the job leaves it.
pub fn run(job: &JobFile, area: &mut Area) -> Outcome {
    match run_to_end(job, area) {
        Ok((ending, used)) => Outcome::Ended {
            axes: job.axes,
            totals: calls::result(area).expect("the area is the run's own"),
            unused: job.entries.len() - used,
            ending,
        },
        Err((cause, byte)) => Outcome::Refused { cause, byte },
    }
}

fn run_to_end(job: &JobFile, area: &mut Area) -> Result<(Ending, usize), (Cause, usize)> {
    calls::start(area, job.axes, job.threshold, job.budget).map_err(|cause| match cause {
        Cause::AxesOutOfRange => (cause, 0),
        Cause::BudgetOutOfRange => (cause, 4),
        _ => unreachable!("the storage of the run is long enough"),
    })?;
    let mut used = 0;
    loop {
        if calls::first_wanted(area).is_some() {
            let Some(entry) = job.entries.get(used) else {
                return Ok((Ending::Short, used));
            };
            calls::deliver(area, &entry.readings, entry.indicator)
                .map_err(|cause| (cause, byte_of(job, used, cause)))?;
            used += 1;
        } else if let Some(ending) = choose_and_promote(area) {
            return Ok((ending, used));
        }
    }
}

/// Choose and promote in turn, where no block is wanted: the ending, or none where
/// the chosen index was promoted.
pub fn choose_and_promote(area: &mut Area) -> Option<Ending> {
    let place = match calls::choose(area).expect("no block is wanted") {
        Choice::Met => return Some(Ending::Met),
        Choice::Capped => return Some(Ending::Capped),
        Choice::Place(place) => place,
    };
    match calls::promote(area, place).expect("an active index was chosen") {
        Promotion::Spent => Some(Ending::Spent),
        Promotion::Promoted => None,
    }
}

/// "7 names the entry's count field, 8 the reading": the first bad one.
fn byte_of(job: &JobFile, entry: usize, cause: Cause) -> usize {
    match cause {
        Cause::ReadingCountWrong => job.count_byte(entry),
        Cause::ReadingOutOfRange => {
            let readings = &job.entries[entry].readings;
            let bad = readings.iter().position(|&reading| !grid::reading_in_range(reading));
            job.reading_byte(entry, bad.expect("a reading is out of range"))
        }
        _ => unreachable!("a block is wanted and the area is the run's own"),
    }
}

/// The text of a report; each line ends with a line feed, the last too.
pub fn text(outcome: &Outcome) -> String {
    match outcome {
        Outcome::Refused { cause, byte } => format!("refused {} at {byte}\n", cause.number()),
        Outcome::Ended { axes, totals, unused, ending } => format!(
            "axes {axes}\nold {}\nactive {}\nwanted {}\nreserved {}\npending {}\ncarried {}\n\
             ceiling {}\nscaled {}\nunused {unused}\nend {}\n",
            totals.old,
            totals.active,
            totals.wanted,
            totals.reserved,
            totals.pending,
            totals.carried,
            totals.ceiling,
            totals.mean,
            ending.name()
        ),
    }
}
