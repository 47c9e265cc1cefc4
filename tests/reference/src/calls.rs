//! The ten calls on a lent area. The storage lent is as long as the area's
//! lists of records and readings. Choose and promote have a file of their own.
//!
//! Causes are tested in the order of the scope document's table, each in its
//! own case and no other; a refused call changes nothing; every call is total
//! on any content.

use crate::area::{Area, IndexRecord, JobRecord, ACTIVE, OLD, WANTED};
use crate::doubles::{ExactReport, Report};
use crate::grid::{self, Levels, Point, BUDGET_LIMIT, HELD_LIMIT, MOST_AXES, ROOT};
use crate::soundness;
use crate::sums::{self, Readings};

mod promotion;

pub use promotion::{choose, limits_passed, promote, Choice, Promotion};

/// The causes of a refusal; their numbers are those of the table, and of the requests
/// that add to it.
#[derive(Clone, Copy, Debug, PartialEq, Eq, Hash, PartialOrd, Ord)]
pub enum Cause {
    AxesOutOfRange = 1,
    BudgetOutOfRange = 2,
    StorageShort = 3,
    AreaNotSound = 4,
    NoBlockWanted = 5,
    BlockWanted = 6,
    ReadingCountWrong = 7,
    ReadingOutOfRange = 8,
    PointNumberTooLarge = 9,
    HeaderMalformed = 10,
    PlaceNotActive = 11,
    EntryTableMalformed = 12,
    ReadingsMalformed = 13,
}

impl Cause {
    pub fn number(self) -> u32 {
        self as u32
    }
}

/// What points answers.
#[derive(Clone, Copy, Debug, PartialEq, Eq)]
pub struct PointCounts {
    /// How many points it wrote.
    pub written: u32,
    /// How many points the block has.
    pub block: u32,
}

/// What result gives.
#[derive(Clone, Copy, Debug, PartialEq, Eq)]
pub struct Totals {
    pub old: u32,
    pub active: u32,
    pub wanted: u32,
    pub reserved: u32,
    pub pending: u64,
    pub carried: u64,
    pub mean: i64,
    pub ceiling: u32,
}

/// What doubles answers: refused, or reported.
pub type Doubled = Result<Report, Cause>;

/// Cause 3 but for the point buffer. Start brings its own budget; every other
/// call goes by the recorded one, whatever that is.
fn storage_short(area: &Area, budget: u32) -> bool {
    area.records.len() < HELD_LIMIT || (area.store.len() as u64) < u64::from(budget)
}

/// Causes 3 and 4 for the calls that ask nothing else of the storage.
fn refuse_storage_or_area(area: &Area) -> Result<(), Cause> {
    if storage_short(area, area.job.budget) {
        return Err(Cause::StorageShort);
    }
    if !soundness::sound(area) {
        return Err(Cause::AreaNotSound);
    }
    Ok(())
}

/// The first wanted record's place. In a sound area.
pub fn first_wanted(area: &Area) -> Option<usize> {
    area.held().iter().position(|record| record.state == WANTED)
}

/// The delivered readings, found by index. In a sound area.
pub fn delivered_readings(area: &Area) -> Readings<'_> {
    Readings::new(area.held().iter().filter(|record| record.is_delivered()).map(|record| {
        let first = record.first_reading as usize;
        (record.levels, &area.store[first..first + grid::block_size(&record.levels)])
    }))
}

/// Start: "the root is then held at place 0, wanted". It doesn't read the old
/// area, and writes the job record and record 0 whole.
pub fn start(area: &mut Area, axes: u32, threshold: u64, budget: u32) -> Result<(), Cause> {
    if !(1..=MOST_AXES as u32).contains(&axes) {
        return Err(Cause::AxesOutOfRange);
    }
    if !(1..=BUDGET_LIMIT).contains(&budget) {
        return Err(Cause::BudgetOutOfRange);
    }
    if storage_short(area, budget) {
        return Err(Cause::StorageShort);
    }
    let reserved = grid::block_size(&ROOT) as u32;
    area.job =
        JobRecord { axes, threshold, budget, held: 1, reserved, pending: 0, mean: 0, carried: 0 };
    area.records[0] = IndexRecord::wanted(ROOT, 0);
    Ok(())
}

/// Causes 3, 4, 5 and 9 for the two calls that write points: points is refused
/// exactly as point is. Gives the first wanted block, whose n-th point there is.
fn block_asked(area: &Area, n: u64, buffer: &[u8]) -> Result<Vec<Point>, Cause> {
    if storage_short(area, area.job.budget) || (buffer.len() as u64) < u64::from(area.job.axes) {
        return Err(Cause::StorageShort);
    }
    refuse_storage_or_area(area)?;
    let place = first_wanted(area).ok_or(Cause::NoBlockWanted)?;
    let block = grid::block(area.job.axes as usize, &area.records[place].levels);
    if n >= block.len() as u64 {
        return Err(Cause::PointNumberTooLarge);
    }
    Ok(block)
}

/// Point: writes the d positions of the n-th point of the first wanted block,
/// "walked in reflected order", into the buffer, later bytes untouched.
pub fn point(area: &Area, n: u64, buffer: &mut [u8]) -> Result<(), Cause> {
    let block = block_asked(area, n, buffer)?;
    let axes = area.job.axes as usize;
    buffer[..axes].copy_from_slice(&block[n as usize][..axes]);
    Ok(())
}

/// Points: from the n-th point of the first wanted block on, writes as many
/// whole points as are left in the block and fit in the buffer, d bytes each,
/// in the block's order, later bytes untouched.
pub fn points(area: &Area, n: u64, buffer: &mut [u8]) -> Result<PointCounts, Cause> {
    let block = block_asked(area, n, buffer)?;
    let axes = area.job.axes as usize;
    let mut written = 0;
    for (room, point) in buffer.chunks_exact_mut(axes).zip(&block[n as usize..]) {
        room.copy_from_slice(&point[..axes]);
        written += 1;
    }
    Ok(PointCounts { written, block: block.len() as u32 })
}

/// Deliver: the first wanted index becomes active, its readings, which come in
/// the order of the points, are stored in that order, the indicator joins the
/// pending error, and its scaled difference is added to the recorded mean.
pub fn deliver(area: &mut Area, readings: &[i32], indicator: u32) -> Result<(), Cause> {
    refuse_storage_or_area(area)?;
    let place = first_wanted(area).ok_or(Cause::NoBlockWanted)?;
    let levels = area.records[place].levels;
    if readings.len() != grid::block_size(&levels) {
        return Err(Cause::ReadingCountWrong);
    }
    if !readings.iter().all(|&reading| grid::reading_in_range(reading)) {
        return Err(Cause::ReadingOutOfRange);
    }
    let first = area.records[place].first_reading as usize;
    area.store[first..first + readings.len()].copy_from_slice(readings);
    area.records[place].state = ACTIVE;
    area.records[place].indicator = indicator;
    area.job.pending += u64::from(indicator);
    let known = delivered_readings(area);
    let reading = |index: &Levels, number: usize| known.at(index, number);
    let difference = sums::difference(area.job.axes as usize, &levels, &reading);
    // At most 512 differences of at most 2^40: far inside 64 bits.
    area.job.mean += i64::try_from(difference).expect("a difference is at most 2^40 in size");
    Ok(())
}

/// How many of an index's forward neighbours pass a ceiling.
fn past_ceilings(axes: usize, levels: &Levels) -> u32 {
    let passes = |axis: &usize| {
        let neighbour = grid::forward_neighbour(levels, *axis);
        !neighbour.is_some_and(|index| grid::within_ceilings(&index))
    };
    (0..axes).filter(passes).count() as u32
}

/// Result: the counts, the recorded pending error, carried error and mean, and
/// the ceiling count, "the number of pairs of an old index and an axis whose forward
/// neighbour passes a ceiling".
pub fn result(area: &Area) -> Result<Totals, Cause> {
    refuse_storage_or_area(area)?;
    let count = |state: u32| area.held().iter().filter(|r| r.state == state).count() as u32;
    let old = area.held().iter().filter(|record| record.state == OLD);
    let axes = area.job.axes as usize;
    Ok(Totals {
        old: count(OLD),
        active: count(ACTIVE),
        wanted: count(WANTED),
        reserved: area.job.reserved,
        pending: area.job.pending,
        carried: area.job.carried,
        mean: area.job.mean,
        ceiling: old.map(|record| past_ceilings(axes, &record.levels)).sum(),
    })
}

/// Cross total: the scaled mean worked out from combination coefficients and
/// full tensor rules, from the readings and not from the recorded mean.
pub fn cross_total(area: &Area) -> Result<i64, Cause> {
    refuse_storage_or_area(area)?;
    let total = sums::cross_total(area.job.axes as usize, &delivered_readings(area));
    let delivered = area.held().iter().filter(|record| record.is_delivered()).count();
    assert!(total.abs() <= delivered as i128 * sums::DIFFERENCE_LIMIT);
    Ok(i64::try_from(total).expect("at most 512 times 2^40"))
}

/// The delivered indices' places and their differences times 2^20, worked out
/// from the readings. In a sound area.
pub fn delivered_differences(area: &Area) -> Vec<(usize, i128)> {
    let axes = area.job.axes as usize;
    let known = delivered_readings(area);
    let reading = |index: &Levels, number: usize| known.at(index, number);
    let delivered = area.held().iter().enumerate().filter(|(_, record)| record.is_delivered());
    delivered
        .map(|(place, record)| (place, sums::difference(axes, &record.levels, &reading)))
        .collect()
}

/// "Largest means largest in size, given with its sign, the lowest place among
/// equals": that place and its difference times 2^20. In a sound area; none if
/// nothing is delivered.
pub fn largest_difference(area: &Area) -> Option<(usize, i128)> {
    let differences = delivered_differences(area);
    let size = differences.iter().map(|(_, difference)| difference.abs()).max()?;
    differences.into_iter().find(|(_, difference)| difference.abs() == size)
}

/// What doubles reports, as exact fractions: the recorded mean and pending error
/// and the largest delivered difference, 0 "with nothing delivered".
pub fn exact_report(area: &Area) -> Result<ExactReport, Cause> {
    refuse_storage_or_area(area)?;
    Ok(ExactReport {
        mean: area.job.mean.into(),
        pending: i128::from(area.job.pending) << sums::SCALE,
        largest: largest_difference(area).map_or(0, |(_, difference)| difference),
    })
}

/// Doubles: the pending error as it is, and "mean and difference are the scaled
/// numbers divided by 2^20". Nothing is lost, for a double holds whole numbers of
/// up to 53 bits: the mean has at most 50, the pending error 41, a difference 41.
pub fn doubles(area: &Area) -> Doubled {
    const DIVISOR: f64 = 1_048_576.0;
    let exact = exact_report(area)?;
    Ok(Report {
        mean: exact.mean as f64 / DIVISOR,
        pending: area.job.pending as f64,
        largest: exact.largest as f64 / DIVISOR,
    })
}

/// Doubles as it is exported: 0 and the three in the array that is lent, or the
/// cause's number and the array as it was.
pub fn doubles_into(area: &Area, lent: &mut [f64; 3]) -> u32 {
    match doubles(area) {
        Ok(report) => {
            *lent = report.array();
            0
        }
        Err(cause) => cause.number(),
    }
}

/// Check: yes exactly if the area is sound; "no to short storage".
pub fn check(area: &Area) -> bool {
    !storage_short(area, area.job.budget) && soundness::sound(area)
}
