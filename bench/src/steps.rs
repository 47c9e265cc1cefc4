//! What the calls do once nothing refuses them: on an area that is known to be
//! sound, with arguments that are known to fit. The program uses these, since
//! its area is its own.

use crate::area::{self, IndexRecord, JobRecord, ACTIVE, HELD_LIMIT, OLD, WANTED};
use crate::index::{self, Levels, MOST_AXES, ROOT};
use crate::quadrature::{Readings, SCALE};

/// What choose gives: that the job is done, or the place to refine next.
#[derive(Clone, Copy, Debug, PartialEq, Eq)]
pub enum Choice {
    Met,
    Capped,
    Place(usize),
}

#[derive(Clone, Copy, Debug, PartialEq, Eq)]
pub enum Promotion {
    Spent,
    Promoted,
}

/// What points gives: the points written, and those of the block.
#[derive(Clone, Copy, Debug, PartialEq, Eq)]
pub struct PointCounts {
    pub written: u32,
    pub block: u32,
}

/// What result gives.
#[derive(Clone, Copy, Debug, PartialEq, Eq)]
pub struct Counts {
    pub old: u32,
    pub active: u32,
    pub wanted: u32,
    pub reserved: u32,
    pub pending: u64,
    pub carried: u64,
    pub mean: i64,
    pub ceiling: u32,
}

/// What doubles gives.
#[derive(Clone, Copy, Debug, PartialEq)]
pub struct Doubles {
    pub mean: f64,
    pub pending: f64,
    pub largest: f64,
}

fn held<'a>(job: &JobRecord, records: &'a [IndexRecord]) -> &'a [IndexRecord] {
    &records[..job.held as usize]
}

fn readings<'a>(job: &JobRecord, records: &'a [IndexRecord], store: &'a [i32]) -> Readings<'a> {
    Readings { axes: job.axes as usize, held: held(job, records), store }
}

/// The place of the first wanted record.
pub fn first_wanted(job: &JobRecord, records: &[IndexRecord]) -> Option<usize> {
    held(job, records).iter().position(|record| record.state == WANTED)
}

pub fn start(
    job: &mut JobRecord,
    records: &mut [IndexRecord],
    axes: u32,
    threshold: u64,
    budget: u32,
) {
    *job = JobRecord { axes, threshold, budget, held: 1, reserved: 1, ..JobRecord::default() };
    records[0] = IndexRecord::wanted(ROOT, 0);
}

/// Writes the points of a wanted block from the n-th on, one after the other, as
/// many as are left and have room.
pub fn points(job: &JobRecord, levels: &Levels, n: usize, buffer: &mut [u8]) -> PointCounts {
    let axes = job.axes as usize;
    let block = index::block_size(levels);
    let rooms = buffer.chunks_exact_mut(axes);
    let written = rooms.len().min(block - n);
    for (positions, point) in rooms.zip(n..block) {
        index::write_point(&levels[..axes], point, positions);
    }
    PointCounts { written: written as u32, block: block as u32 }
}

/// Delivers the block at a place, which is the first wanted.
pub fn deliver(
    job: &mut JobRecord,
    records: &mut [IndexRecord],
    store: &mut [i32],
    place: usize,
    block: &[i32],
    indicator: u32,
) {
    let record = &mut records[place];
    record.state = ACTIVE;
    record.indicator = indicator;
    let first = record.first_reading as usize;
    store[first..first + block.len()].copy_from_slice(block);
    job.pending += u64::from(indicator);
    job.mean += readings(job, records, store).difference(&records[place].levels);
}

pub fn is_active(job: &JobRecord, records: &[IndexRecord], place: usize) -> bool {
    held(job, records).get(place).is_some_and(|record| record.state == ACTIVE)
}

/// Met or capped, or the selected place. No block is wanted.
pub fn choose(job: &JobRecord, records: &[IndexRecord]) -> Choice {
    if job.pending + job.carried <= job.threshold {
        return Choice::Met;
    }
    if job.pending <= job.threshold {
        return Choice::Capped;
    }
    // A pending error above the threshold comes from some active index.
    select(held(job, records)).map_or(Choice::Met, Choice::Place)
}

/// The active place of largest indicator. Of equal ones the last is taken, so
/// the places are gone through backward.
fn select(held: &[IndexRecord]) -> Option<usize> {
    let active = held.iter().enumerate().rev().filter(|(_, record)| record.state == ACTIVE);
    active.max_by_key(|(_, record)| record.indicator).map(|(place, _)| place)
}

/// Refines an active index, unless that is spent. No block is wanted.
pub fn promote(job: &mut JobRecord, records: &mut [IndexRecord], place: usize) -> Promotion {
    let axes = job.axes as usize;
    let IndexRecord { levels, indicator, .. } = records[place];
    let held = held(job, records);
    let admitted: [Option<Levels>; MOST_AXES] = std::array::from_fn(|axis| {
        let neighbour = (axis < axes).then(|| index::forward_neighbour(&levels, axis));
        neighbour.filter(|neighbour| admissible(axes, held, place, neighbour))
    });
    let admitted = admitted.iter().flatten();
    let size: usize = admitted.clone().map(index::block_size).sum();
    let past_held = held.len() + admitted.clone().count() > HELD_LIMIT;
    if past_held || job.reserved as usize + size > job.budget as usize {
        return Promotion::Spent;
    }
    records[place].state = OLD;
    job.pending -= u64::from(indicator);
    if index::at_ceiling(&levels) {
        job.carried += u64::from(indicator);
    }
    for levels in admitted {
        append(job, records, levels);
    }
    Promotion::Promoted
}

/// Whether an index is within the ceilings and all its backward neighbours are
/// old, the promoted place included.
fn admissible(axes: usize, held: &[IndexRecord], promoted: usize, levels: &Levels) -> bool {
    index::within_ceilings(levels)
        && (0..axes).filter_map(|axis| index::backward_neighbour(levels, axis)).all(|backward| {
            area::lookup(held, &backward)
                .is_some_and(|place| place == promoted || held[place].state == OLD)
        })
}

/// Appends an admitted index, wanted, linked both ways with its backward
/// neighbours. None of its forward neighbours can be held.
fn append(job: &mut JobRecord, records: &mut [IndexRecord], levels: &Levels) {
    let place = job.held as usize;
    let mut record = IndexRecord::wanted(*levels, job.reserved);
    for axis in 0..job.axes as usize {
        let backward = index::backward_neighbour(levels, axis);
        if let Some(behind) = backward.and_then(|levels| area::lookup(&records[..place], &levels)) {
            record.backward[axis] = behind as u32;
            records[behind].forward[axis] = place as u32;
        }
    }
    records[place] = record;
    job.held += 1;
    job.reserved += index::block_size(levels) as u32;
}

pub fn result(job: &JobRecord, records: &[IndexRecord]) -> Counts {
    let held = held(job, records);
    let count = |state| held.iter().filter(|record| record.state == state).count() as u32;
    Counts {
        old: count(OLD),
        active: count(ACTIVE),
        wanted: count(WANTED),
        reserved: job.reserved,
        pending: job.pending,
        carried: job.carried,
        mean: job.mean,
        ceiling: ceiling_count(job.axes as usize, held),
    }
}

/// The pairs of an old index and an axis whose forward neighbour passes a
/// ceiling.
fn ceiling_count(axes: usize, held: &[IndexRecord]) -> u32 {
    let passing = |levels: &Levels| {
        (0..axes)
            .filter(|&axis| !index::within_ceilings(&index::forward_neighbour(levels, axis)))
            .count()
    };
    let old = held.iter().filter(|record| record.state == OLD);
    old.map(|record| passing(&record.levels) as u32).sum()
}

pub fn doubles(job: &JobRecord, records: &[IndexRecord], store: &[i32]) -> Doubles {
    let largest = readings(job, records, store).largest_difference();
    // Each is far below 2^53 in size, so that nothing is lost.
    let unscaled = |number: i64| number as f64 / f64::from(1 << SCALE);
    Doubles { mean: unscaled(job.mean), pending: job.pending as f64, largest: unscaled(largest) }
}

/// The scaled mean worked out from the readings.
pub fn cross_total(job: &JobRecord, records: &[IndexRecord], store: &[i32]) -> i64 {
    readings(job, records, store).cross_total()
}
