//! An area as the exported calls take it: the job record as twelve words, the
//! index records as one run of cells, and the reading store.

use reference::area::{self, Area, IndexRecord};
use wihupya_sys::JobWords;

/// The job record in the order in which a caller's struct has it: there are 48
/// bytes, and none of them is padding.
#[repr(C)]
#[derive(Clone, Copy, Debug, PartialEq, Eq)]
pub struct JobRecord {
    pub threshold: u64,
    pub pending: u64,
    pub mean: i64,
    pub axes: u32,
    pub budget: u32,
    pub held: u32,
    pub reserved: u32,
    pub carried: u64,
}

impl From<area::JobRecord> for JobRecord {
    fn from(job: area::JobRecord) -> JobRecord {
        let area::JobRecord { axes, threshold, budget, held, reserved, pending, mean, carried } =
            job;
        JobRecord { threshold, pending, mean, axes, budget, held, reserved, carried }
    }
}

impl JobRecord {
    /// The same 48 bytes as words, a wide number's low word first.
    pub fn words(self) -> JobWords {
        let low = |wide: u64| wide as u32;
        let high = |wide: u64| (wide >> 32) as u32;
        let (threshold, pending, mean) = (self.threshold, self.pending, self.mean as u64);
        [
            low(threshold),
            high(threshold),
            low(pending),
            high(pending),
            low(mean),
            high(mean),
            self.axes,
            self.budget,
            self.held,
            self.reserved,
            low(self.carried),
            high(self.carried),
        ]
    }
}

/// The storage that a caller has.
#[derive(Clone, Debug, PartialEq, Eq)]
pub struct Lent {
    pub job: JobWords,
    pub cells: Vec<u32>,
    pub store: Vec<i32>,
}

/// How many cells and readings of the storage, from the first on.
#[derive(Clone, Copy, Debug, PartialEq, Eq)]
pub struct Part {
    pub cells: usize,
    pub store: usize,
}

/// What one call is lent of it. The rest lies right behind, so that a
/// write past its end is detected.
pub struct Loan<'a> {
    pub job: &'a mut JobWords,
    pub cells: &'a mut [u32],
    pub store: &'a mut [i32],
}

impl Lent {
    pub fn whole(&self) -> Part {
        Part { cells: self.cells.len(), store: self.store.len() }
    }

    pub fn all(&mut self) -> Loan<'_> {
        self.part(self.whole())
    }

    pub fn part(&mut self, part: Part) -> Loan<'_> {
        let Lent { job, cells, store } = self;
        Loan { job, cells: &mut cells[..part.cells], store: &mut store[..part.store] }
    }

    pub fn of(area: &Area) -> Lent {
        Lent {
            job: JobRecord::from(area.job).words(),
            cells: area.records.iter().flat_map(IndexRecord::to_words).collect(),
            store: area.store.clone(),
        }
    }
}

#[cfg(test)]
mod tests {
    use super::*;
    use reference::area::WORDS;
    use reference::rng::Rng;

    const SIZE: usize = std::mem::size_of::<JobRecord>();

    /// A job record whose 48 bytes are all different.
    fn distinct_bytes_job() -> JobRecord {
        JobRecord {
            threshold: 0x0807_0605_0403_0201,
            pending: 0x1817_1615_1413_1211,
            mean: -0x0708_090a_0b0c_0d0f,
            axes: 0x3433_3231,
            budget: 0x4443_4241,
            held: 0x5453_5251,
            reserved: 0x6463_6261,
            carried: 0x7877_7675_7473_7271,
        }
    }

    #[test]
    fn the_words_are_the_bytes_of_the_struct() {
        let mut rng = Rng::new(1);
        for round in 0..1_000 {
            let job = match round {
                0 => distinct_bytes_job(),
                _ => JobRecord {
                    threshold: rng.number(),
                    pending: rng.number(),
                    mean: rng.number() as i64,
                    axes: rng.number() as u32,
                    budget: rng.number() as u32,
                    held: rng.number() as u32,
                    reserved: rng.number() as u32,
                    carried: rng.number(),
                },
            };
            // No padding: the fields' sizes add up to the struct's.
            assert_eq!(SIZE, 4 * 8 + 4 * 4);
            let bytes: [u8; SIZE] = unsafe { std::mem::transmute(job) };
            let words = job.words();
            let words: Vec<u8> = words.iter().flat_map(|word| word.to_ne_bytes()).collect();
            assert_eq!(words, bytes);
        }
    }

    #[test]
    fn every_field_of_the_reference_keeps_its_name() {
        let job = distinct_bytes_job();
        let same = area::JobRecord {
            axes: job.axes,
            threshold: job.threshold,
            budget: job.budget,
            held: job.held,
            reserved: job.reserved,
            pending: job.pending,
            mean: job.mean,
            carried: job.carried,
        };
        assert_eq!(JobRecord::from(same), job);
    }

    #[test]
    fn cells_hold_the_records_in_order() {
        let mut area = Area::empty(3, 2);
        for (place, record) in area.records.iter_mut().enumerate() {
            let from = (place * WORDS) as u32;
            *record = IndexRecord::from_words(&std::array::from_fn(|word| from + word as u32));
        }
        area.store = vec![-5, 7];
        let lent = Lent::of(&area);
        assert_eq!(lent.cells, (0..3 * WORDS as u32).collect::<Vec<u32>>());
        assert_eq!(lent.store, [-5, 7]);
    }
}
