//! The two sides of the comparison, each with its own storage and its own
//! calls.

use bench::area::{IndexRecord, JobRecord, BUDGET_LIMIT, HELD_LIMIT};
use bench::calls;
use bench::steps::{Choice, PointCounts};
use std::hint::black_box;
use wihupya_sys::{self as proved, JobWords, JOB_WORDS};

/// Words in an index record of the proved library.
const WORDS: usize = 27;

/// Choose's first word where it tells a place.
const CHOSEN: u32 = 4;

/// Room for the points of any block.
pub const ANY_BLOCK: usize = 16_384;

/// A side's calls. Each is accepted; what it gives is kept from being left out
/// by the compiler.
pub trait Side: Clone {
    const NAME: &'static str;

    fn new() -> Self;
    fn start(&mut self, axes: u32, threshold: u64, budget: u32);
    fn point(&self, n: usize, buffer: &mut [u8]);
    /// All points of the wanted block, and how many they are.
    fn points(&self, buffer: &mut [u8; ANY_BLOCK]) -> u32;
    fn deliver(&mut self, readings: &[i32], indicator: u32);
    /// The place that is chosen; no job that is measured is met or capped.
    fn choose(&self) -> usize;
    fn promote(&mut self, place: usize);
    fn result(&self);
    fn doubles(&self);
    fn cross_total(&self);
    fn check(&self);
    fn held(&self) -> u32;

    fn promote_chosen(&mut self) {
        let place = self.choose();
        self.promote(place);
    }
}

#[derive(Clone)]
pub struct Proved {
    pub job: JobWords,
    pub cells: Vec<u32>,
    pub store: Vec<i32>,
}

#[derive(Clone)]
pub struct Idiomatic {
    pub job: JobRecord,
    pub records: Vec<IndexRecord>,
    pub store: Vec<i32>,
}

fn accepted(number: u32) {
    assert_eq!(number, 0, "a call was refused");
}

fn whole(written: u32, block: u32) -> u32 {
    assert_eq!(written, block, "the buffer has room for the block");
    written
}

impl Side for Proved {
    const NAME: &'static str = "proved";

    fn new() -> Proved {
        let cells = vec![0; HELD_LIMIT * WORDS];
        Proved { job: [0; JOB_WORDS], cells, store: vec![0; BUDGET_LIMIT as usize] }
    }

    fn start(&mut self, axes: u32, threshold: u64, budget: u32) {
        let Proved { job, cells, store } = self;
        accepted(proved::start(job, axes, threshold, budget, cells, store));
    }

    fn point(&self, n: usize, buffer: &mut [u8]) {
        accepted(proved::point(&self.job, n, &self.cells, &self.store, buffer));
        black_box(buffer);
    }

    fn points(&self, buffer: &mut [u8; ANY_BLOCK]) -> u32 {
        let mut counts = [0; 2];
        accepted(proved::points(&self.job, 0, &mut counts, &self.cells, &self.store, buffer));
        black_box(buffer);
        whole(counts[0], counts[1])
    }

    fn deliver(&mut self, readings: &[i32], indicator: u32) {
        let Proved { job, cells, store } = self;
        accepted(proved::deliver(job, readings, indicator, cells, store));
    }

    fn choose(&self) -> usize {
        let mut choice = [0; 2];
        accepted(proved::choose(&self.job, &mut choice, &self.cells, &self.store));
        assert_eq!(choice[0], CHOSEN, "the job goes on");
        choice[1] as usize
    }

    fn promote(&mut self, place: usize) {
        let Proved { job, cells, store } = self;
        let mut outcome = [0];
        accepted(proved::promote(job, place, &mut outcome, cells, store));
        black_box(outcome);
    }

    fn result(&self) {
        let mut counts = [0; 11];
        accepted(proved::result(&self.job, &mut counts, &self.cells, &self.store));
        black_box(counts);
    }

    fn doubles(&self) {
        let mut report = [0.0; 3];
        accepted(proved::doubles(&self.job, &mut report, &self.cells, &self.store));
        black_box(report);
    }

    fn cross_total(&self) {
        let mut total = [0; 2];
        accepted(proved::cross_total(&self.job, &mut total, &self.cells, &self.store));
        black_box(total);
    }

    fn check(&self) {
        assert!(proved::check(&self.job, &self.cells, &self.store), "the area is sound");
    }

    fn held(&self) -> u32 {
        self.job[8]
    }
}

impl Side for Idiomatic {
    const NAME: &'static str = "idiomatic";

    fn new() -> Idiomatic {
        let records = vec![IndexRecord::default(); HELD_LIMIT];
        Idiomatic { job: JobRecord::default(), records, store: vec![0; BUDGET_LIMIT as usize] }
    }

    fn start(&mut self, axes: u32, threshold: u64, budget: u32) {
        let Idiomatic { job, records, store } = self;
        calls::start(job, records, store, axes, threshold, budget).expect("accepted");
    }

    fn point(&self, n: usize, buffer: &mut [u8]) {
        calls::point(&self.job, &self.records, &self.store, n, buffer).expect("accepted");
        black_box(buffer);
    }

    fn points(&self, buffer: &mut [u8; ANY_BLOCK]) -> u32 {
        let counts = calls::points(&self.job, &self.records, &self.store, 0, buffer);
        black_box(buffer);
        let PointCounts { written, block } = counts.expect("accepted");
        whole(written, block)
    }

    fn deliver(&mut self, readings: &[i32], indicator: u32) {
        let Idiomatic { job, records, store } = self;
        calls::deliver(job, records, store, readings, indicator).expect("accepted");
    }

    fn choose(&self) -> usize {
        match calls::choose(&self.job, &self.records, &self.store).expect("accepted") {
            Choice::Place(place) => place,
            end => panic!("the job goes on, and is not {end:?}"),
        }
    }

    fn promote(&mut self, place: usize) {
        let Idiomatic { job, records, store } = self;
        black_box(calls::promote(job, records, store, place).expect("accepted"));
    }

    fn result(&self) {
        black_box(calls::result(&self.job, &self.records, &self.store).expect("accepted"));
    }

    fn doubles(&self) {
        black_box(calls::doubles(&self.job, &self.records, &self.store).expect("accepted"));
    }

    fn cross_total(&self) {
        black_box(calls::cross_total(&self.job, &self.records, &self.store).expect("accepted"));
    }

    fn check(&self) {
        assert!(calls::check(&self.job, &self.records, &self.store), "the area is sound");
    }

    fn held(&self) -> u32 {
        self.job.held
    }
}

/// The job record of the idiomatic side as the proved side's words.
#[cfg(test)]
pub fn words_of(job: &JobRecord) -> JobWords {
    let halves = |wide: u64| [wide as u32, (wide >> 32) as u32];
    let [threshold, pending, mean, carried] =
        [job.threshold, job.pending, job.mean as u64, job.carried].map(halves);
    let narrow = [job.axes, job.budget, job.held, job.reserved];
    let words = [&threshold[..], &pending, &mean, &narrow, &carried].concat();
    words.try_into().expect("each word of a job record")
}

/// The records of the idiomatic side as the proved side's cells.
#[cfg(test)]
pub fn cells_of(records: &[IndexRecord]) -> Vec<u32> {
    let words = |record: &IndexRecord| {
        let head = [record.state, record.indicator, record.first_reading];
        [&record.levels[..], &head, &record.forward, &record.backward].concat()
    };
    records.iter().flat_map(words).collect()
}
