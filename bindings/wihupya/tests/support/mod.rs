//! Storage to lend, and calls that must be refused.

// Each file of tests uses its own part of this.
#![allow(dead_code)]

use std::fmt::Debug;
use wihupya::{
    Choice, Integrator, JobRecord, Promotion, Refusal, CELLS, JOB_WORDS, LARGEST_BUDGET,
    RECORD_CELLS,
};
use wihupya_sys::{ChoiceWords, OutcomeWord};

pub const MARK: u32 = 0xa5a5_a5a5;

/// A work area of the test's own, so that it can be altered and lent in part.
#[derive(Clone, Debug, PartialEq, Eq)]
pub struct Storage {
    pub job: JobRecord,
    pub cells: Vec<u32>,
    pub store: Vec<i32>,
}

impl Storage {
    /// Full of marks: 512 records, a part of another, a store of 100 readings.
    pub fn marked() -> Storage {
        let job = JobRecord::from_words([MARK; JOB_WORDS]);
        Storage { job, cells: vec![MARK; CELLS + 5], store: vec![MARK as i32; 100] }
    }

    pub fn started(axes: u32, threshold: u64, budget: u32) -> Storage {
        let mut storage = Storage::marked();
        storage.call(|job| job.start(axes, threshold, budget)).unwrap();
        storage
    }

    /// Two axes, budget 64, threshold 0; (2,1) and (1,2) are wanted, two
    /// readings each.
    pub fn wanting_two() -> Storage {
        let mut storage = Storage::started(2, 0, 64);
        storage.call(|job| job.deliver(&[4_160], 100)).unwrap();
        assert_eq!(storage.call(|job| job.promote(0)), Ok(Promotion::Promoted));
        storage
    }

    /// The same job when both have come.
    pub fn wanting_nothing() -> Storage {
        let mut storage = Storage::wanting_two();
        storage.call(|job| job.deliver(&[64, 16_448], 50)).unwrap();
        storage.call(|job| job.deliver(&[4_096, 4_224], 0)).unwrap();
        storage
    }

    /// A call on all of the storage.
    pub fn call<T>(&mut self, call: impl FnOnce(&mut Integrator) -> T) -> T {
        let whole = (self.cells.len(), self.store.len());
        self.call_in(whole, call)
    }

    /// A call on so many cells and readings of it.
    pub fn call_in<T>(
        &mut self,
        (cells, store): (usize, usize),
        call: impl FnOnce(&mut Integrator) -> T,
    ) -> T {
        let (cells, store) = (&mut self.cells[..cells], &mut self.store[..store]);
        let mut job = Integrator::resume(self.job, cells, store);
        let answer = call(&mut job);
        self.job = job.job();
        answer
    }

    /// Choose's number, and its words, which held marks before.
    pub fn choice_words(&self) -> (u32, ChoiceWords) {
        let mut choice = [MARK; 2];
        let Storage { job, cells, store } = self;
        (wihupya_sys::choose(&job.to_words(), &mut choice, cells, store), choice)
    }

    /// Promote's number, and its word, which held a mark before.
    pub fn outcome_word(&mut self, place: usize) -> (u32, OutcomeWord) {
        let (mut words, mut outcome) = (self.job.to_words(), [MARK]);
        let Storage { cells, store, .. } = self;
        let number = wihupya_sys::promote(&mut words, place, &mut outcome, cells, store);
        self.job = JobRecord::from_words(words);
        (number, outcome)
    }
}

/// Chooses, and promotes the place that is chosen.
pub fn promote_chosen(job: &mut Integrator) -> Choice {
    let choice = job.choose().unwrap();
    if let Choice::Place(place) = choice {
        assert_eq!(job.promote(place), Ok(Promotion::Promoted));
    }
    choice
}

/// A job that goes straight to an index: it refines those of no level above the
/// target's and ends when the target's own block is wanted. Looks at the job
/// whenever a block is.
pub fn grow(axes: u32, target: &[u32], mut look: impl FnMut(&Integrator)) -> Storage {
    let mut storage = Storage::marked();
    storage.store.resize(LARGEST_BUDGET as usize, 0);
    storage.call(|job| {
        job.start(axes, 0, LARGEST_BUDGET).unwrap();
        let mut delivered = 0;
        loop {
            if delivered == job.job().held as usize {
                assert!(matches!(promote_chosen(job), Choice::Place(_)));
                continue;
            }
            look(job);
            let levels = levels(job, delivered);
            if levels == target {
                break;
            }
            let toward = levels.iter().zip(target).all(|(level, most)| level <= most);
            let readings = vec![1; job.wanted_block().unwrap().len()];
            job.deliver(&readings, u32::from(toward)).unwrap();
            delivered += 1;
        }
    });
    storage
}

/// A job that promotes what is chosen until it is met or capped, and which of
/// them it is. All readings are this one; a block's indicator comes from its
/// levels.
pub fn run(
    (axes, threshold, budget): (u32, u64, u32),
    reading: i32,
    indicator: impl Fn(&[u32]) -> u32,
) -> (Storage, Choice) {
    let mut storage = Storage::marked();
    storage.store.resize(budget as usize, 0);
    let end = storage.call(|job| {
        job.start(axes, threshold, budget).unwrap();
        let mut delivered = 0;
        loop {
            if delivered == job.job().held as usize {
                match promote_chosen(job) {
                    Choice::Place(_) => continue,
                    end => break end,
                }
            }
            let readings = vec![reading; job.wanted_block().unwrap().len()];
            job.deliver(&readings, indicator(&levels(job, delivered))).unwrap();
            delivered += 1;
        }
    });
    (storage, end)
}

/// The levels of a held index. Blocks are wanted in the order of the places.
pub fn levels(job: &Integrator, place: usize) -> Vec<u32> {
    let record = &job.cells()[place * RECORD_CELLS..];
    record[..job.job().axes as usize].to_vec()
}

/// The call is refused for this cause, and all storage is as it was.
pub fn refused<T: Debug + PartialEq>(
    storage: &mut Storage,
    cause: Refusal,
    call: impl FnOnce(&mut Integrator) -> Result<T, Refusal>,
) {
    let whole = (storage.cells.len(), storage.store.len());
    refused_in(storage, whole, cause, call);
}

/// The same in a part of the storage.
pub fn refused_in<T: Debug + PartialEq>(
    storage: &mut Storage,
    part: (usize, usize),
    cause: Refusal,
    call: impl FnOnce(&mut Integrator) -> Result<T, Refusal>,
) {
    let before = storage.clone();
    assert_eq!(storage.call_in(part, call), Err(cause));
    assert!(*storage == before, "a refusal changes nothing");
}
