//! A full job by calls on the library, from start to the last promotion: its area is
//! that of the reference, word for word, wherever a record or a reading lies.

mod support;

use harness::calls;
use harness::lent::Lent;
use reference::area::{Area, IndexRecord, WORDS};
use reference::grid;
use reference::sample;
use support::*;

/// The place of the number of held records in the job words.
const HELD: usize = 8;

/// The readings of the record at a place, from the store.
fn readings(area: &Area, place: usize) -> &[i32] {
    let IndexRecord { first_reading, levels, .. } = area.records[place];
    &area.store[first_reading as usize..][..grid::block_size(&levels)]
}

/// Runs the area's job on the library: the same blocks with their readings and
/// indicators, and the place that choose tells promoted, until nothing is delivered
/// any more.
fn run_again(area: &Area) -> Lent {
    let mut lent = started_with_store(area);
    let mut delivered = 0;
    loop {
        while delivered < lent.job[HELD] as usize {
            if !area.records[delivered].is_delivered() {
                return lent;
            }
            let indicator = area.records[delivered].indicator;
            deliver(&mut lent, readings(area, delivered), indicator);
            delivered += 1;
        }
        let [answer, place] = choose(&mut lent);
        if [answer, place] != chosen(place) || promote(&mut lent, place as usize) == SPENT {
            return lent;
        }
    }
}

fn started_with_store(area: &Area) -> Lent {
    let mut lent = storage();
    lent.store.resize(area.store.len(), 0);
    let job = area.job;
    assert_eq!(calls::start(lent.all(), job.axes, job.threshold, job.budget), 0);
    lent
}

#[test]
fn the_512_held_job_by_calls_leaves_what_the_reference_leaves() {
    let area = sample::full_area(7, 7);
    let lent = run_again(&area);
    let expected = Lent::of(&area);
    let (held, reserved) = (area.job.held as usize, area.job.reserved as usize);
    assert_eq!(held, 512);
    assert_eq!(lent.job, expected.job);
    assert_eq!(lent.cells[..held * WORDS], expected.cells[..held * WORDS]);
    assert_eq!(lent.store[..reserved], expected.store[..reserved]);
}
