//! The ten calls on any lent storage. Each but check looks for a cause to
//! refuse first, and a refused call changes nothing.

use crate::area::{self, IndexRecord, JobRecord, BUDGET_LIMIT};
use crate::check::{self, storage_short};
use crate::index::{self, Levels, MOST_AXES};
use crate::steps::{self, Choice, Counts, Doubles, PointCounts, Promotion};

pub use crate::check::check;

/// The causes of a refusal, with their numbers.
#[derive(Clone, Copy, Debug, PartialEq, Eq)]
pub enum Cause {
    AxesOutOfRange = 1,
    BudgetOutOfRange = 2,
    StorageShort = 3,
    AreaNotSound = 4,
    NoBlockWanted = 5,
    BlockWanted = 6,
    ReadingCountWrong = 7,
    ReadingOutOfRange = 8,
    PointNumberTooLarge = 9,
    HeaderMalformed = 10,
    PlaceNotActive = 11,
    EntryTableMalformed = 12,
    ReadingsMalformed = 13,
}

/// Causes 1 and 2.
pub fn judge_job(axes: u32, budget: u32) -> Result<(), Cause> {
    if !(1..=MOST_AXES as u32).contains(&axes) {
        return Err(Cause::AxesOutOfRange);
    }
    if !(1..=BUDGET_LIMIT).contains(&budget) {
        return Err(Cause::BudgetOutOfRange);
    }
    Ok(())
}

/// Causes 3 and 4.
fn judge_area(job: &JobRecord, records: &[IndexRecord], store: &[i32]) -> Result<(), Cause> {
    if storage_short(records, store, job.budget) {
        return Err(Cause::StorageShort);
    }
    if !check::sound(job, records, store) {
        return Err(Cause::AreaNotSound);
    }
    Ok(())
}

/// Causes 3, 4, 5 and 9, for a buffer and the number of a point; else the levels
/// of the first wanted block.
fn judge_point<'a>(
    job: &JobRecord,
    records: &'a [IndexRecord],
    store: &[i32],
    n: usize,
    buffer: &[u8],
) -> Result<&'a Levels, Cause> {
    if buffer.len() < job.axes as usize {
        return Err(Cause::StorageShort);
    }
    judge_area(job, records, store)?;
    let place = steps::first_wanted(job, records).ok_or(Cause::NoBlockWanted)?;
    let levels = &records[place].levels;
    if n >= index::block_size(levels) {
        return Err(Cause::PointNumberTooLarge);
    }
    Ok(levels)
}

/// Causes 3, 4 and 6.
fn judge_choice(job: &JobRecord, records: &[IndexRecord], store: &[i32]) -> Result<(), Cause> {
    judge_area(job, records, store)?;
    match steps::first_wanted(job, records) {
        Some(_) => Err(Cause::BlockWanted),
        None => Ok(()),
    }
}

/// Causes 7 and 8.
pub fn judge_block(levels: &Levels, readings: &[i32]) -> Result<(), Cause> {
    if readings.len() != index::block_size(levels) {
        return Err(Cause::ReadingCountWrong);
    }
    if !readings.iter().all(|&reading| area::reading_in_range(reading)) {
        return Err(Cause::ReadingOutOfRange);
    }
    Ok(())
}

pub fn start(
    job: &mut JobRecord,
    records: &mut [IndexRecord],
    store: &[i32],
    axes: u32,
    threshold: u64,
    budget: u32,
) -> Result<(), Cause> {
    judge_job(axes, budget)?;
    if storage_short(records, store, budget) {
        return Err(Cause::StorageShort);
    }
    steps::start(job, records, axes, threshold, budget);
    Ok(())
}

/// Writes the positions of the n-th point of the first wanted block; later
/// bytes of the buffer stay.
pub fn point(
    job: &JobRecord,
    records: &[IndexRecord],
    store: &[i32],
    n: usize,
    buffer: &mut [u8],
) -> Result<(), Cause> {
    let levels = judge_point(job, records, store, n, buffer)?;
    let axes = job.axes as usize;
    index::write_point(&levels[..axes], n, &mut buffer[..axes]);
    Ok(())
}

/// Writes the points of the first wanted block from the n-th on, as many as are
/// left and have room; later bytes of the buffer stay.
pub fn points(
    job: &JobRecord,
    records: &[IndexRecord],
    store: &[i32],
    n: usize,
    buffer: &mut [u8],
) -> Result<PointCounts, Cause> {
    let levels = judge_point(job, records, store, n, buffer)?;
    Ok(steps::points(job, levels, n, buffer))
}

pub fn deliver(
    job: &mut JobRecord,
    records: &mut [IndexRecord],
    store: &mut [i32],
    readings: &[i32],
    indicator: u32,
) -> Result<(), Cause> {
    judge_area(job, records, store)?;
    let place = steps::first_wanted(job, records).ok_or(Cause::NoBlockWanted)?;
    judge_block(&records[place].levels, readings)?;
    steps::deliver(job, records, store, place, readings, indicator);
    Ok(())
}

pub fn choose(job: &JobRecord, records: &[IndexRecord], store: &[i32]) -> Result<Choice, Cause> {
    judge_choice(job, records, store)?;
    Ok(steps::choose(job, records))
}

pub fn promote(
    job: &mut JobRecord,
    records: &mut [IndexRecord],
    store: &[i32],
    place: usize,
) -> Result<Promotion, Cause> {
    judge_choice(job, records, store)?;
    if !steps::is_active(job, records, place) {
        return Err(Cause::PlaceNotActive);
    }
    Ok(steps::promote(job, records, place))
}

pub fn result(job: &JobRecord, records: &[IndexRecord], store: &[i32]) -> Result<Counts, Cause> {
    judge_area(job, records, store)?;
    Ok(steps::result(job, records))
}

pub fn doubles(job: &JobRecord, records: &[IndexRecord], store: &[i32]) -> Result<Doubles, Cause> {
    judge_area(job, records, store)?;
    Ok(steps::doubles(job, records, store))
}

pub fn cross_total(job: &JobRecord, records: &[IndexRecord], store: &[i32]) -> Result<i64, Cause> {
    judge_area(job, records, store)?;
    Ok(steps::cross_total(job, records, store))
}
