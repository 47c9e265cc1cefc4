//! The third demand, asserted on an area against the log: that the held
//! records are the log's entries in order, that what should be old is old and
//! what should be held is held once, that links agree both ways, and that the
//! recorded numbers are the log's.

use crate::area::{Area, ACTIVE, NONE, OLD, WANTED};
use crate::grid::{self, Levels, MOST_AXES, ROOT};
use crate::log::{Job, State};
use std::collections::HashMap;

/// Asserts everything but the two sums; `literally` goes through every index
/// within the ceilings, else through forward neighbours of old ones.
pub fn assert_structure(area: &Area, job: &Job, literally: bool) {
    assert_job_record(area, job);
    assert_records(area, job);
    let places = places(job);
    assert_backward_old(job, &places);
    assert_admissible_held(job, &places, literally);
    assert_links(area, job, &places);
}

/// Each log entry's place by its levels; that no two share their levels is
/// "exactly once".
fn places(job: &Job) -> HashMap<Levels, usize> {
    let mut places = HashMap::new();
    for (place, entry) in job.entries.iter().enumerate() {
        let before = places.insert(entry.levels, place);
        assert_eq!(before, None, "index {:?} is held twice", entry.levels);
    }
    places
}

fn assert_job_record(area: &Area, job: &Job) {
    let record = &area.job;
    assert_eq!(record.axes as usize, job.axes, "axes");
    assert_eq!(record.threshold, job.threshold, "threshold");
    assert_eq!(record.budget, job.budget, "budget");
    assert_eq!(record.held as usize, job.entries.len(), "held");
    assert_eq!(u64::from(record.reserved), job.reserved(), "reserved");
    assert_eq!(record.pending, job.pending(), "pending error");
    assert_eq!(record.carried, job.carried(), "carried error");
}

fn assert_records(area: &Area, job: &Job) {
    let mut first = 0;
    for (place, entry) in job.entries.iter().enumerate() {
        let record = &area.records[place];
        let state = match entry.state {
            State::Wanted => WANTED,
            State::Active => ACTIVE,
            State::Old => OLD,
        };
        let indicator = if entry.is_delivered() { entry.indicator } else { 0 };
        assert_eq!(record.levels, entry.levels, "levels at place {place}");
        assert_eq!(record.state, state, "state at place {place}");
        assert_eq!(record.indicator, indicator, "indicator at place {place}");
        assert_eq!(record.first_reading as usize, first, "first reading at place {place}");
        let size = grid::block_size(&entry.levels);
        if entry.is_delivered() {
            assert_eq!(area.store[first..first + size], entry.readings, "readings at {place}");
        }
        first += size;
    }
}

fn assert_backward_old(job: &Job, places: &HashMap<Levels, usize>) {
    assert_eq!(places.get(&ROOT), Some(&0), "the root is held first");
    for entry in &job.entries {
        assert!(backward_old(job, places, &entry.levels), "backward of {:?}", entry.levels);
    }
}

fn backward_old(job: &Job, places: &HashMap<Levels, usize>, levels: &Levels) -> bool {
    (0..job.axes).filter(|&axis| levels[axis] > 1).all(|axis| {
        let mut lowered = *levels;
        lowered[axis] -= 1;
        places.get(&lowered).is_some_and(|&place| job.entries[place].state == State::Old)
    })
}

fn assert_admissible_held(job: &Job, places: &HashMap<Levels, usize>, literally: bool) {
    let assert_held = |index: &Levels| {
        let excused = places.contains_key(index) || !backward_old(job, places, index);
        assert!(excused, "{index:?} is admissible and not held");
    };
    if literally {
        grid::for_each_within_ceilings(job.axes, assert_held);
        return;
    }
    for entry in job.entries.iter().filter(|entry| entry.state == State::Old) {
        for axis in 0..job.axes {
            let mut raised = entry.levels;
            raised[axis] += 1;
            if grid::within_ceilings(&raised) {
                assert_held(&raised);
            }
        }
    }
}

/// "Links agree both ways if each link names its neighbour's place exactly
/// when that neighbour is held, and is named back."
fn assert_links(area: &Area, job: &Job, places: &HashMap<Levels, usize>) {
    for (place, entry) in job.entries.iter().enumerate() {
        let record = &area.records[place];
        for axis in 0..MOST_AXES {
            let mut raised = entry.levels;
            raised[axis] += 1;
            let forward = match axis < job.axes {
                true => places.get(&raised),
                false => None,
            };
            let mut lowered = entry.levels;
            lowered[axis] -= 1;
            let backward = match lowered[axis] {
                0 => None,
                _ => places.get(&lowered),
            };
            let link = |neighbour: Option<&usize>| neighbour.map_or(NONE, |&at| at as u32);
            assert_eq!(record.forward[axis], link(forward), "forward link at place {place}");
            assert_eq!(record.backward[axis], link(backward), "backward link at place {place}");
            if let Some(&at) = forward {
                assert_eq!(area.records[at].backward[axis] as usize, place, "named back");
            }
            if let Some(&at) = backward {
                assert_eq!(area.records[at].forward[axis] as usize, place, "named back");
            }
        }
    }
}
