//! Whether an area is sound, by following links: the work grows with what is
//! held and with its readings.

use crate::area::{self, IndexRecord, JobRecord};
use crate::area::{ACTIVE, BUDGET_LIMIT, HELD_LIMIT, NONE, OLD, WANTED};
use crate::index::{self, Levels, EXCESS_CEILING, MOST_AXES, ROOT};
use crate::rule::TOP_LEVEL;

/// The largest size of a scaled difference.
const DIFFERENCE_LIMIT: u64 = 1 << 40;

/// Whether the lent storage is too short for any job with this budget.
pub fn storage_short(records: &[IndexRecord], store: &[i32], budget: u32) -> bool {
    records.len() < HELD_LIMIT || store.len() < budget as usize
}

/// Check: yes exactly if the area is sound and lies in sufficient storage.
pub fn check(job: &JobRecord, records: &[IndexRecord], store: &[i32]) -> bool {
    !storage_short(records, store, job.budget) && sound(job, records, store)
}

/// Whether the area is sound; the storage is known to be long enough.
pub fn sound(job: &JobRecord, records: &[IndexRecord], store: &[i32]) -> bool {
    let in_range = (1..=MOST_AXES as u32).contains(&job.axes)
        && (1..=BUDGET_LIMIT).contains(&job.budget)
        && (1..=HELD_LIMIT as u32).contains(&job.held);
    if !in_range {
        return false;
    }
    let axes = job.axes as usize;
    let held = &records[..job.held as usize];
    // Completeness reads where the first pass has tested the links.
    places_fit(axes, held)
        && held.iter().all(|record| complete(axes, held, record))
        && figures_fit(job, held, store)
}

/// What each place shows of itself.
fn places_fit(axes: usize, held: &[IndexRecord]) -> bool {
    held.iter().enumerate().all(|(place, record)| {
        index::within_ceilings(&record.levels)
            && record.state <= OLD
            && (record.levels == ROOT) == (place == 0)
            && empty_beyond(axes, record)
            && (0..axes).all(|axis| {
                backward_fits(held, place, record, axis) && forward_fits(held, place, record, axis)
            })
    })
}

/// Beyond the job's axes levels are 1 and links none.
fn empty_beyond(axes: usize, record: &IndexRecord) -> bool {
    record.levels[axes..].iter().all(|&level| level == 1)
        && record.forward[axes..].iter().all(|&link| link == NONE)
        && record.backward[axes..].iter().all(|&link| link == NONE)
}

/// The backward link is none at level 1, else it names an old index, one lower
/// here, that names this one.
fn backward_fits(held: &[IndexRecord], place: usize, record: &IndexRecord, axis: usize) -> bool {
    let link = record.backward[axis];
    if record.levels[axis] == 1 {
        return link == NONE;
    }
    held.get(link as usize).is_some_and(|behind| {
        behind.state == OLD
            && behind.forward[axis] as usize == place
            && one_lower(&behind.levels, &record.levels, axis)
    })
}

/// Whether an index is another with one level lowered by one. It is compared
/// in place: a lowered copy would have to be written before it can be read.
fn one_lower(lower: &Levels, levels: &Levels, lowered: usize) -> bool {
    let mut pairs = lower.iter().zip(levels).enumerate();
    pairs.all(|(axis, (&low, level))| low == level - u32::from(axis == lowered))
}

/// The forward link is none or names a held place that names this one; that
/// place's own backward test compares the levels.
fn forward_fits(held: &[IndexRecord], place: usize, record: &IndexRecord, axis: usize) -> bool {
    let link = record.forward[axis];
    link == NONE
        || held.get(link as usize).is_some_and(|ahead| ahead.backward[axis] as usize == place)
}

/// Whether all that an old index makes admissible is held.
fn complete(axes: usize, held: &[IndexRecord], record: &IndexRecord) -> bool {
    record.state != OLD
        || index::excess(&record.levels) >= EXCESS_CEILING
        || (0..axes).all(|axis| {
            record.forward[axis] != NONE
                || record.levels[axis] >= TOP_LEVEL
                || barred(axes, held, record, axis)
        })
}

/// Whether the forward neighbour has a backward neighbour that isn't old.
fn barred(axes: usize, held: &[IndexRecord], record: &IndexRecord, axis: usize) -> bool {
    (0..axes).filter(|&other| other != axis && record.levels[other] > 1).any(|other| {
        match held[record.backward[other] as usize].forward[axis] {
            NONE => true,
            beside => held[beside as usize].state != OLD,
        }
    })
}

/// Wanted records last and without indicators, blocks one after the other, and
/// the job record's figures.
fn figures_fit(job: &JobRecord, held: &[IndexRecord], store: &[i32]) -> bool {
    let first_wanted = held.iter().position(|record| record.state == WANTED);
    let (delivered, wanted) = held.split_at(first_wanted.unwrap_or(held.len()));
    wanted.iter().all(|record| record.state == WANTED && record.indicator == 0)
        && blocks_fit(job, held)
        && pending(delivered) == job.pending
        && carried(delivered) == job.carried
        && job.mean.unsigned_abs() <= delivered.len() as u64 * DIFFERENCE_LIMIT
        && {
            // The delivered blocks lie in a row, up to the first wanted one.
            let end = wanted.first().map_or(job.reserved, |record| record.first_reading);
            store[..end as usize].iter().all(|&reading| area::reading_in_range(reading))
        }
}

/// Whether each block begins where the one before it ends, and all of them are
/// the reserved readings.
fn blocks_fit(job: &JobRecord, held: &[IndexRecord]) -> bool {
    let mut reserved = 0;
    for record in held {
        if record.first_reading != reserved {
            return false;
        }
        reserved += index::block_size(&record.levels) as u32;
    }
    reserved == job.reserved && reserved <= job.budget
}

fn pending(delivered: &[IndexRecord]) -> u64 {
    sum_of_indicators(delivered, |record| record.state == ACTIVE)
}

/// Of the old indices at a ceiling.
fn carried(delivered: &[IndexRecord]) -> u64 {
    sum_of_indicators(delivered, |record| record.state == OLD && index::at_ceiling(&record.levels))
}

fn sum_of_indicators(records: &[IndexRecord], counts: impl Fn(&IndexRecord) -> bool) -> u64 {
    let counted = records.iter().filter(|record| counts(record));
    counted.map(|record| u64::from(record.indicator)).sum()
}
