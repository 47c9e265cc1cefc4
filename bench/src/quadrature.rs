//! Sums over the delivered readings: differences, full tensor rules,
//! combination coefficients. In a sound area.

use crate::area::{IndexRecord, WANTED};
use crate::index::Levels;
use crate::rule;

/// Sums are given times 2^20, which makes them whole.
pub const SCALE: u32 = 20;

/// The held records of a job of so many axes, and its readings.
#[derive(Clone, Copy)]
pub struct Readings<'a> {
    pub axes: usize,
    pub held: &'a [IndexRecord],
    pub store: &'a [i32],
}

impl Readings<'_> {
    /// The scaled difference of an index.
    pub fn difference(&self, target: &Levels) -> i64 {
        let sum = self.walk(rule::difference_weight, &target[..self.axes], 0, 0, 0);
        sum << (SCALE - units(target))
    }

    /// The scaled full tensor rule of an index.
    fn tensor_rule(&self, target: &Levels) -> i64 {
        let sum = self.walk(rule::whole_weight, &target[..self.axes], 0, 0, 0);
        sum << (SCALE - units(target))
    }

    /// Goes through the levels of an axis, in each level its new points, and
    /// below each point the next axis. `place` is the index reached so far,
    /// `rank` the number of the point in its block.
    fn walk<W>(&self, weight: W, target: &[u32], axis: usize, place: usize, rank: usize) -> i64
    where
        W: Fn(u32, u32) -> i64 + Copy,
    {
        let Some(&top) = target.get(axis) else {
            return self.reading(place, rank);
        };
        let mut at = place;
        let mut sum = 0;
        for level in 1..=top {
            if level > 1 {
                at = self.held[at].forward[axis] as usize;
            }
            let count = rule::new_count(level);
            let points: i64 = (0..count)
                .map(|point| self.walk(weight, target, axis + 1, at, rank * count + point))
                .sum();
            // All points new at one level weigh the same.
            sum += weight(top, level) * points;
        }
        sum
    }

    fn reading(&self, place: usize, rank: usize) -> i64 {
        self.store[self.held[place].first_reading as usize + rank].into()
    }

    /// Sums the signs of the subsets on which the index can be raised to a
    /// delivered one; a bit of the mask marks an axis.
    fn coefficient(&self, place: usize) -> i64 {
        (0..1u32 << self.axes)
            .filter(|&mask| {
                self.raised(place, mask).is_some_and(|at| self.held[at].state != WANTED)
            })
            .map(|mask| if mask.count_ones() % 2 == 0 { 1 } else { -1 })
            .sum()
    }

    /// The place of an index raised by one on a subset, if that is held.
    fn raised(&self, place: usize, mask: u32) -> Option<usize> {
        (0..self.axes)
            .filter(|axis| mask >> axis & 1 == 1)
            .try_fold(place, |at, axis| self.place_at(self.held[at].forward[axis]))
    }

    fn place_at(&self, link: u32) -> Option<usize> {
        let place = link as usize;
        (place < self.held.len()).then_some(place)
    }

    /// The scaled difference of largest size among the delivered, 0 if there is
    /// none. Of equal ones the last is taken, so the places are gone through
    /// backward.
    pub fn largest_difference(&self) -> i64 {
        let delivered = self.held.iter().rev().filter(|record| record.state != WANTED);
        let differences = delivered.map(|record| self.difference(&record.levels));
        differences.max_by_key(|difference| difference.abs()).unwrap_or(0)
    }

    /// The scaled mean from coefficients and full tensor rules.
    pub fn cross_total(&self) -> i64 {
        let delivered = self.held.iter().enumerate().filter(|(_, record)| record.state != WANTED);
        delivered
            .map(|(place, record)| match self.coefficient(place) {
                // Most inner indices have none; their tensor rules can be left out.
                0 => 0,
                coefficient => coefficient * self.tensor_rule(&record.levels),
            })
            .sum()
    }
}

/// The sum over an index comes in units of 2 to minus this.
fn units(levels: &Levels) -> u32 {
    levels.iter().filter(|&&level| level > 1).sum()
}
