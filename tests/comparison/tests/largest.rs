//! One difference of the index (2,2,2,2,2,6). With 8,019 points its full grid is
//! the largest that an area can hold.

use comparison::{proved, words};
use reference::area::{Area, IndexRecord, NONE, OLD};
use reference::grid::{self, Levels, ROOT};
use reference::{calls, sums};

const AXES: usize = 6;
const TARGET: Levels = [2, 2, 2, 2, 2, 6, 1, 1];

/// Every index nowhere higher than the target, all old, the root first: as
/// much of an area as the difference asks for.
fn area() -> Area {
    let mut indices = Vec::new();
    grid::for_each_nowhere_higher(AXES, &TARGET, |index| indices.push(*index));
    let place = |levels: &Levels| {
        indices.iter().position(|index| index == levels).map_or(NONE, |place| place as u32)
    };
    let mut first = 0;
    let mut records = Vec::new();
    for levels in &indices {
        let mut record = IndexRecord::wanted(*levels, first);
        record.state = OLD;
        for axis in 0..AXES {
            let mut next = *levels;
            next[axis] += 1;
            record.forward[axis] = place(&next);
        }
        first += grid::block_size(levels) as u32;
        records.push(record);
    }
    let mut area = Area::empty(0, 0);
    area.job.axes = AXES as u32;
    area.job.held = records.len() as u32;
    area.records = records;
    area.store = (0..first as i32).map(|number| number * 37 % 1000 - 500).collect();
    area
}

#[test]
fn the_largest_difference_is_the_references() {
    let area = area();
    let (cells, store) = words(&area.to_bytes());
    let place = area.records.len() - 1;
    assert_eq!((area.records[0].levels, area.records[place].levels), (ROOT, TARGET));
    assert_eq!(store.len(), 8019);
    let proved = unsafe { proved::figures_difference(AXES, place, &cells, &store) };
    let readings = calls::delivered_readings(&area);
    let reading = |index: &Levels, number: usize| readings.at(index, number);
    assert_eq!(i128::from(proved), sums::difference(AXES, &TARGET, &reading));
}
