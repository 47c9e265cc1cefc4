//! What start and deliver refuse in a file of the right form: axes and budget out of
//! range (1 and 2), a count that is not the block's and a reading out of range (7 and 8).

use crate::grid::{self, READING_LIMIT};
use crate::jobfile::JobFile;
use crate::rng::Rng;

pub fn axes(job: &mut JobFile, rng: &mut Rng) {
    job.axes = rng.pick(&[0, 9, 10, 256, 257, u32::MAX]);
}

pub fn budget(job: &mut JobFile, rng: &mut Rng) {
    job.budget = rng.pick(&[0, 8_193, 8_194, 65_537, u32::MAX]);
}

/// One reading less or one more than the block has, but never none.
pub fn count(readings: &mut Vec<i32>, rng: &mut Rng) {
    if readings.len() > 1 && rng.percent(50) {
        readings.pop();
    } else {
        readings.push(0);
    }
}

pub fn reading(readings: &mut [i32], rng: &mut Rng) {
    let place = rng.place(readings.len());
    readings[place] =
        rng.pick(&[READING_LIMIT + 1, -READING_LIMIT - 1, i32::MAX, i32::MIN, READING_LIMIT * 2]);
    assert!(!grid::reading_in_range(readings[place]));
}
