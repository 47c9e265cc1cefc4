//! The points of the wanted block, asked for many at a time.

use crate::{Integrator, Refusal, MOST_AXES};
use std::iter::FusedIterator;
use std::ops::Deref;

/// The bytes of points that the iterator asks for at a time. Each call checks
/// the whole work area, so that large pieces save time; this many are at least
/// 512 points, and few blocks have more.
const PIECE: usize = 4_096;

/// What [`Integrator::points`] answers.
#[derive(Clone, Copy, Debug, PartialEq, Eq, Hash)]
pub struct PointCounts {
    /// How many points were written: at least one.
    pub written: usize,
    /// How many points the block has.
    pub block: usize,
}

/// A point to measure: its positions, 0 to 128, one for each axis of the job.
/// It is a slice of them: the position on axis 1 is `point[0]`.
#[derive(Clone, Copy, Debug, PartialEq, Eq, Hash)]
pub struct Point {
    /// 0 beyond the axes.
    positions: [u8; MOST_AXES],
    axes: usize,
}

impl Point {
    fn new(positions: &[u8]) -> Point {
        let mut point = Point { positions: [0; MOST_AXES], axes: positions.len() };
        point.positions[..positions.len()].copy_from_slice(positions);
        point
    }
}

impl Deref for Point {
    type Target = [u8];

    fn deref(&self) -> &[u8] {
        &self.positions[..self.axes]
    }
}

/// The points of a wanted block, one after the other in the order in which its
/// readings are delivered. [`Integrator::wanted_block`] gives it.
#[derive(Clone, Debug)]
pub struct WantedBlock<'a> {
    job: &'a Integrator<'a>,
    axes: usize,
    /// How many points the block has.
    size: usize,
    /// The number of the next point.
    next: usize,
    /// The number of the first point in the piece, and of the one after its last.
    begin: usize,
    end: usize,
    piece: [u8; PIECE],
}

impl<'a> WantedBlock<'a> {
    /// With its first piece, so that a job that wants no block is refused here.
    pub(crate) fn new(job: &'a Integrator<'a>) -> Result<Self, Refusal> {
        let mut piece = [0; PIECE];
        let counts = job.points(0, &mut piece)?;
        let axes = job.job().axes as usize;
        let (size, end) = (counts.block, counts.written);
        Ok(WantedBlock { job, axes, size, next: 0, begin: 0, end, piece })
    }

    /// The piece from the next point on, which is left in the block.
    fn ask(&mut self) {
        let answer = self.job.points(self.next, &mut self.piece);
        let counts = answer.expect("the work area is borrowed, so it wants the same block");
        (self.begin, self.end) = (self.next, self.next + counts.written);
    }
}

impl Iterator for WantedBlock<'_> {
    type Item = Point;

    fn next(&mut self) -> Option<Point> {
        if self.next == self.size {
            return None;
        }
        if self.next == self.end {
            self.ask();
        }
        let first_byte = (self.next - self.begin) * self.axes;
        self.next += 1;
        Some(Point::new(&self.piece[first_byte..][..self.axes]))
    }

    fn size_hint(&self) -> (usize, Option<usize>) {
        let left = self.size - self.next;
        (left, Some(left))
    }
}

impl ExactSizeIterator for WantedBlock<'_> {}

impl FusedIterator for WantedBlock<'_> {}
