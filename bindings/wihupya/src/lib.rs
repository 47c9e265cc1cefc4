//! The sparse-grid integrator for callers in Rust: safe calls over the proved
//! library, in storage that the caller lends.
//!
//! The integrator decides which points to measure and averages the readings;
//! the caller measures. While a block is wanted, the caller asks for its
//! points and delivers their readings; else it chooses, and promotes the place
//! that is chosen or any other, until the job is met, capped or spent:
//!
//! ```
//! use wihupya::{Choice, Integrator, Promotion, Refusal, CELLS, SCALE};
//!
//! /// The reading at (x, y) is x squared plus y.
//! fn reading(point: &[u8]) -> i32 {
//!     let (x, y) = (i32::from(point[0]), i32::from(point[1]));
//!     x * x + y
//! }
//!
//! # fn main() -> Result<(), Refusal> {
//! let (mut cells, mut store) = (vec![0; CELLS], vec![0; 64]);
//! let mut job = Integrator::new(&mut cells, &mut store);
//! job.start(2, 40, 64)?;
//! loop {
//!     match job.wanted_block() {
//!         Ok(points) => {
//!             let readings: Vec<i32> = points.map(|point| reading(&point)).collect();
//!             // How much the block matters is the caller's to say.
//!             let indicator = readings.len() as u32 * 30;
//!             job.deliver(&readings, indicator)?;
//!         }
//!         Err(Refusal::NoBlockWanted) => match job.choose()? {
//!             Choice::Place(place) => match job.promote(place)? {
//!                 Promotion::Promoted => {}
//!                 Promotion::Spent => break,
//!             },
//!             Choice::Met | Choice::Capped => break,
//!         },
//!         Err(refusal) => return Err(refusal),
//!     }
//! }
//! let counts = job.result()?;
//! assert_eq!(counts.scaled_mean, job.cross_total()?);
//! println!("the mean is {} / {SCALE}", counts.scaled_mean);
//! // The same as a double, for software that reads doubles.
//! println!("which is {}", job.doubles()?.mean);
//! # Ok(())
//! # }
//! ```

#![deny(missing_docs)]
#![forbid(unsafe_code)]

mod job;
mod points;
mod refusal;

use wihupya_sys as exported;

pub use job::JobRecord;
pub use points::{Point, PointCounts, WantedBlock};
pub use refusal::Refusal;
pub use wihupya_sys::{JobWords, JOB_WORDS};

/// The most axes of a job.
pub const MOST_AXES: usize = 8;
/// The most indices of a job, and the fewest records to lend.
pub const RECORDS: usize = 512;
/// The cells of an index record; `include/wihupya.h` says what each one holds.
pub const RECORD_CELLS: usize = 27;
/// The fewest cells to lend.
pub const CELLS: usize = RECORDS * RECORD_CELLS;
/// The largest budget; a store of this length is long enough for every job.
pub const LARGEST_BUDGET: u32 = 8_192;
/// No block has more points: a buffer of this many times the axes has room for
/// any of them.
pub const LARGEST_BLOCK: usize = 2_048;
/// A reading lies between minus this and this.
pub const LARGEST_READING: i32 = 1_048_576;
/// The scaled mean is the mean times this.
pub const SCALE: i64 = 1_048_576;

/// A job in lent storage. Its work area is the job record, the index records
/// and the reading store; the first is kept here, the others are lent.
///
/// A call that is refused changes nothing.
#[derive(Debug)]
pub struct Integrator<'a> {
    job: JobWords,
    cells: &'a mut [u32],
    store: &'a mut [i32],
}

/// Whether a job goes on, and where.
#[derive(Clone, Copy, Debug, PartialEq, Eq, Hash)]
pub enum Choice {
    /// Pending and carried error together are at most the threshold: the job is
    /// done.
    Met,
    /// The pending error is at most the threshold, but not together with the
    /// carried error, which no refining takes away: it lies at the ceilings.
    Capped,
    /// The pending error is above the threshold: the place of the active index
    /// of largest indicator, the lowest of several.
    Place(usize),
}

/// How a promotion came out.
#[derive(Clone, Copy, Debug, PartialEq, Eq, Hash)]
pub enum Promotion {
    /// Refining there would take more readings than the budget, or more than
    /// 512 indices; nothing changed.
    Spent,
    /// The index is refined.
    Promoted,
}

/// What a job has come to.
#[derive(Clone, Copy, Debug, PartialEq, Eq, Hash)]
pub struct Counts {
    /// The sum of the active indices' indicators.
    pub pending_error: u64,
    /// The sum of the indicators of old indices at a ceiling, each once. An
    /// index is at a ceiling if along at least one axis of the job refining it
    /// would pass level 8 or excess 12.
    pub carried_error: u64,
    /// The mean times [`SCALE`].
    pub scaled_mean: i64,
    /// Indices that are refined.
    pub old: u32,
    /// Indices that are delivered and not refined.
    pub active: u32,
    /// Indices whose block is not delivered.
    pub wanted: u32,
    /// The readings that all their blocks take together.
    pub reserved: u32,
    /// How often refining would have passed level 8 or excess 12.
    pub ceiling: u32,
}

/// A job's figures as doubles, for plotting packages and other software that
/// reads them. Nothing is lost: each is exactly the number. A zero is +0.
#[derive(Clone, Copy, Debug, PartialEq)]
pub struct Doubles {
    /// The mean, in the unit of the readings.
    pub mean: f64,
    /// The sum of the active indices' indicators, in their unit.
    pub pending_error: f64,
    /// Of the delivered blocks' differences, which are what they add to the
    /// mean, the one of largest size, with its sign; of equals the one of the
    /// lowest place. In the unit of the readings.
    pub largest_difference: f64,
}

impl<'a> Integrator<'a> {
    /// Storage in which no job was started: every call but [`start`] and
    /// [`check`] is refused. At least [`CELLS`] cells and as many readings as
    /// the budget make it long enough.
    ///
    /// [`start`]: Integrator::start
    /// [`check`]: Integrator::check
    pub fn new(cells: &'a mut [u32], store: &'a mut [i32]) -> Self {
        Integrator::resume(JobRecord::default(), cells, store)
    }

    /// A work area as it is: one that was copied or saved, or any other.
    /// Nothing is asked of it; each call judges what it finds.
    pub fn resume(job: JobRecord, cells: &'a mut [u32], store: &'a mut [i32]) -> Self {
        Integrator { job: job.to_words(), cells, store }
    }

    /// The job record.
    pub fn job(&self) -> JobRecord {
        JobRecord::from_words(self.job)
    }

    /// The lent cells.
    pub fn cells(&self) -> &[u32] {
        self.cells
    }

    /// The lent store.
    pub fn store(&self) -> &[i32] {
        self.store
    }

    /// Starts a job, whatever the work area held: its first block, the single
    /// centre point, is wanted. There are 1 to 8 axes; the job is met when
    /// pending and carried error together are at most the threshold, and asks
    /// for no more readings than the budget, 1 to 8,192.
    pub fn start(&mut self, axes: u32, threshold: u64, budget: u32) -> Result<(), Refusal> {
        let Integrator { job, cells, store } = self;
        Refusal::judge(exported::start(job, axes, threshold, budget, cells, store))
    }

    /// Writes the positions, 0 to 128, of the n-th point, from 0, of the first
    /// wanted block: one for each axis, to the front of the buffer.
    ///
    /// Axis 1 rises along a block, and each later axis rises or falls as the
    /// rank of the earlier axes' point, from 0, is even or odd. So two points in
    /// a row differ on one axis only, and there by one step among the block's
    /// positions on that axis: a rig need not jump back. Readings are delivered
    /// in the same order.
    pub fn point(&self, n: usize, buffer: &mut [u8]) -> Result<(), Refusal> {
        Refusal::judge(exported::point(&self.job, n, self.cells, self.store, buffer))
    }

    /// Writes the points of the first wanted block from the n-th on, as many as
    /// it has left and the buffer has room for: the positions of each as
    /// [`point`](Integrator::point) gives them, one point directly after the
    /// other. Bytes after the last of them stay. It is refused as `point` is.
    ///
    /// Every call checks the whole work area, so that this takes far less time
    /// than a call for each point. A buffer of [`LARGEST_BLOCK`] times the axes
    /// has room for any block; a smaller one takes it in pieces:
    ///
    /// ```
    /// # use wihupya::{Integrator, Refusal, CELLS};
    /// # fn main() -> Result<(), Refusal> {
    /// # let (mut cells, mut store) = (vec![0; CELLS], vec![0; 64]);
    /// # let mut job = Integrator::new(&mut cells, &mut store);
    /// # job.start(2, 0, 64)?;
    /// let axes = 2;
    /// let (mut buffer, mut n) = ([0; 32], 0);
    /// loop {
    ///     let counts = job.points(n, &mut buffer)?;
    ///     for point in buffer.chunks_exact(axes).take(counts.written) {
    ///         println!("measure at {point:?}");
    ///     }
    ///     n += counts.written;
    ///     if n == counts.block {
    ///         break;
    ///     }
    /// }
    /// # assert_eq!((n, &buffer[..3]), (1, &[64, 64, 0][..]));
    /// # Ok(())
    /// # }
    /// ```
    pub fn points(&self, n: usize, buffer: &mut [u8]) -> Result<PointCounts, Refusal> {
        let mut words = [0; 2];
        let answer = exported::points(&self.job, n, &mut words, self.cells, self.store, buffer);
        Refusal::judge(answer)?;
        let [written, block] = words.map(|word| word as usize);
        Ok(PointCounts { written, block })
    }

    /// The points of the first wanted block, one after the other, by few calls
    /// of [`points`](Integrator::points). It is refused if no block is wanted,
    /// and where the storage is too short or the area is not sound.
    ///
    /// ```
    /// # use wihupya::{Integrator, Refusal, CELLS};
    /// # fn main() -> Result<(), Refusal> {
    /// # let (mut cells, mut store) = (vec![0; CELLS], vec![0; 64]);
    /// # let mut job = Integrator::new(&mut cells, &mut store);
    /// job.start(3, 0, 64)?;
    /// let points = job.wanted_block()?;
    /// assert_eq!(points.len(), 1);
    /// for point in points {
    ///     // The first block of a job is the centre.
    ///     assert_eq!(*point, [64, 64, 64]);
    /// }
    /// # Ok(())
    /// # }
    /// ```
    pub fn wanted_block(&self) -> Result<WantedBlock<'_>, Refusal> {
        WantedBlock::new(self)
    }

    /// Delivers the first wanted block: its readings in the order of its
    /// points, and an indicator of how much it matters, in any unit.
    pub fn deliver(&mut self, readings: &[i32], indicator: u32) -> Result<(), Refusal> {
        let Integrator { job, cells, store } = self;
        Refusal::judge(exported::deliver(job, readings, indicator, cells, store))
    }

    /// Tells the place of the active index of largest indicator if the pending
    /// error is above the threshold, whatever is carried; else whether the job
    /// is met or capped. Changes nothing.
    pub fn choose(&self) -> Result<Choice, Refusal> {
        let mut choice = [u32::MAX; 2];
        Refusal::judge(exported::choose(&self.job, &mut choice, self.cells, self.store))?;
        Ok(match choice {
            [0, _] => Choice::Met,
            [3, _] => Choice::Capped,
            [4, place] => Choice::Place(place as usize),
            [other, _] => panic!("{other} is no answer of choose"),
        })
    }

    /// Refines the active index at a place, whatever the threshold is: the one
    /// that [`choose`](Integrator::choose) tells, or any other. Where the job is
    /// spent, it changes nothing.
    ///
    /// Refining takes the index's indicator out of the pending error; where the
    /// index is at a ceiling, the indicator joins the carried error.
    ///
    /// An index keeps its place, from 0, in the order in which the blocks are
    /// wanted. Here the first axis is known to be the trouble, so it is refined
    /// first, whatever the indicators say:
    ///
    /// ```
    /// # use wihupya::{Choice, Integrator, Promotion, Refusal, CELLS};
    /// # fn main() -> Result<(), Refusal> {
    /// # let (mut cells, mut store) = (vec![0; CELLS], vec![0; 64]);
    /// # let mut job = Integrator::new(&mut cells, &mut store);
    /// job.start(2, 0, 64)?;
    /// job.deliver(&[10], 1)?;
    /// assert_eq!(job.promote(0)?, Promotion::Promoted);
    /// // Place 1 has (2,1), place 2 has (1,2).
    /// job.deliver(&[10, 10], 3)?;
    /// job.deliver(&[20, 20], 5)?;
    /// assert_eq!(job.choose()?, Choice::Place(2));
    /// assert_eq!(job.promote(1)?, Promotion::Promoted);
    /// // It is refined now, and no longer active.
    /// job.deliver(&[10, 10], 0)?;
    /// assert_eq!(job.promote(1), Err(Refusal::NotActive));
    /// # Ok(())
    /// # }
    /// ```
    pub fn promote(&mut self, place: usize) -> Result<Promotion, Refusal> {
        let mut outcome = [u32::MAX];
        let Integrator { job, cells, store } = self;
        Refusal::judge(exported::promote(job, place, &mut outcome, cells, store))?;
        Ok(match outcome {
            [1] => Promotion::Spent,
            [2] => Promotion::Promoted,
            [other] => panic!("{other} is no outcome of promote"),
        })
    }

    /// The counts, and pending error, carried error and mean as they are
    /// recorded.
    pub fn result(&self) -> Result<Counts, Refusal> {
        let mut counts = [0; 11];
        Refusal::judge(exported::result(&self.job, &mut counts, self.cells, self.store))?;
        Ok(Counts {
            pending_error: job::wide(counts[0], counts[1]),
            carried_error: job::wide(counts[9], counts[10]),
            scaled_mean: job::signed(counts[2], counts[3]),
            old: counts[4],
            active: counts[5],
            wanted: counts[6],
            reserved: counts[7],
            ceiling: counts[8],
        })
    }

    /// Mean, pending error and largest delivered difference as doubles; with
    /// nothing delivered all three are 0. Mean and pending error are as they
    /// are recorded, the difference is worked out from the readings. The mean
    /// is still judged by [`result`](Integrator::result), and this is refused
    /// where that is.
    ///
    /// ```
    /// # use wihupya::{Doubles, Integrator, Refusal, CELLS, SCALE};
    /// # fn main() -> Result<(), Refusal> {
    /// # let (mut cells, mut store) = (vec![0; CELLS], vec![0; 64]);
    /// # let mut job = Integrator::new(&mut cells, &mut store);
    /// job.start(1, 0, 64)?;
    /// job.deliver(&[0], 1)?;
    /// job.promote(0)?;
    /// job.deliver(&[-3, -4], 7)?;
    /// let doubles = job.doubles()?;
    /// // The second block brings a quarter of -3 - 2 * 0 - 4.
    /// let expected = Doubles { mean: -1.75, pending_error: 7.0, largest_difference: -1.75 };
    /// assert_eq!(doubles, expected);
    /// assert_eq!(doubles.mean * SCALE as f64, job.result()?.scaled_mean as f64);
    /// # Ok(())
    /// # }
    /// ```
    pub fn doubles(&self) -> Result<Doubles, Refusal> {
        let mut report = [0.0; 3];
        Refusal::judge(exported::doubles(&self.job, &mut report, self.cells, self.store))?;
        let [mean, pending_error, largest_difference] = report;
        Ok(Doubles { mean, pending_error, largest_difference })
    }

    /// The scaled mean worked out anew, from the readings and by another
    /// formula. In a work area that only calls have written it is that of
    /// [`result`](Integrator::result).
    pub fn cross_total(&self) -> Result<i64, Refusal> {
        let mut total = [0; 2];
        Refusal::judge(exported::cross_total(&self.job, &mut total, self.cells, self.store))?;
        let [low, high] = total;
        Ok(job::signed(low, high))
    }

    /// Whether the work area is sound and its storage long enough. It cannot
    /// be refused: short storage is a no.
    pub fn check(&self) -> bool {
        exported::check(&self.job, self.cells, self.store)
    }
}
