//! The program: from the bytes of a job file to its report.

use crate::area::{self, IndexRecord, JobRecord, BUDGET_LIMIT, HELD_LIMIT};
use crate::calls::{self, Cause};
use crate::jobfile::{JobFile, Malformed};
use crate::steps::{self, Choice, Promotion};

struct Refusal {
    cause: Cause,
    byte: usize,
}

/// The text that the program prints.
pub fn report(bytes: &[u8]) -> String {
    match run(bytes) {
        Ok(report) => report,
        Err(Refusal { cause, byte }) => format!("refused {} at {byte}\n", cause as u32),
    }
}

fn run(bytes: &[u8]) -> Result<String, Refusal> {
    let file =
        JobFile::parse(bytes).map_err(|Malformed { cause, byte }| Refusal { cause, byte })?;
    calls::judge_job(file.axes, file.budget).map_err(|cause| match cause {
        Cause::AxesOutOfRange => Refusal { cause, byte: 0 },
        _ => Refusal { cause, byte: 4 },
    })?;
    let mut job = JobRecord::default();
    let mut records = vec![IndexRecord::default(); HELD_LIMIT];
    let (used, ending) = carry_out(&file, &mut job, &mut records)?;
    let counts = steps::result(&job, &records);
    Ok(format!(
        "axes {}\nold {}\nactive {}\nwanted {}\nreserved {}\npending {}\ncarried {}\nceiling {}\n\
         scaled {}\nunused {}\nend {ending}\n",
        job.axes,
        counts.old,
        counts.active,
        counts.wanted,
        counts.reserved,
        counts.pending,
        counts.carried,
        counts.ceiling,
        counts.mean,
        file.entries.len() - used,
    ))
}

/// Delivers the next entry while a block is wanted, else refines. Gives how
/// many entries were used, and how the job ended.
fn carry_out(
    file: &JobFile,
    job: &mut JobRecord,
    records: &mut [IndexRecord],
) -> Result<(usize, &'static str), Refusal> {
    let mut store = vec![0; BUDGET_LIMIT as usize];
    steps::start(job, records, file.axes, file.threshold, file.budget);
    let mut used = 0;
    loop {
        if let Some(place) = steps::first_wanted(job, records) {
            let Some(entry) = file.entries.get(used) else {
                return Ok((used, "short"));
            };
            let block = &file.readings[entry.readings.clone()];
            calls::judge_block(&records[place].levels, block)
                .map_err(|cause| Refusal { cause, byte: byte_of(file, used, cause) })?;
            steps::deliver(job, records, &mut store, place, block, entry.indicator);
            used += 1;
        } else if let Some(ending) = refine(job, records) {
            return Ok((used, ending));
        }
    }
}

/// Chooses, and promotes the place that is chosen. Gives how the job ended, if
/// it does not go on.
fn refine(job: &mut JobRecord, records: &mut [IndexRecord]) -> Option<&'static str> {
    match steps::choose(job, records) {
        Choice::Met => Some("met"),
        Choice::Capped => Some("capped"),
        Choice::Place(place) => match steps::promote(job, records, place) {
            Promotion::Spent => Some("spent"),
            Promotion::Promoted => None,
        },
    }
}

/// A wrong count names its field, a reading out of range itself.
fn byte_of(file: &JobFile, entry: usize, cause: Cause) -> usize {
    if cause == Cause::ReadingCountWrong {
        return file.count_byte(entry);
    }
    let own = file.entries[entry].readings.clone();
    let bad = own.clone().find(|&reading| !area::reading_in_range(file.readings[reading]));
    file.reading_byte(bad.unwrap_or(own.end))
}
