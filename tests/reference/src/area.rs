//! The area: the job record, the lent run of index records and the lent
//! reading store. Every field is a plain number, so any content whatever,
//! damaged content included, can be written down.

use crate::grid::{Levels, MOST_AXES, ROOT};

pub const WANTED: u32 = 0;
pub const ACTIVE: u32 = 1;
pub const OLD: u32 = 2;
/// The link that names no place.
pub const NONE: u32 = u32::MAX;
/// A record is 27 words of 32 bits.
pub const WORDS: usize = 27;
const JOB_BYTES: usize = 48;
const COUNT_BYTES: usize = 8;

#[derive(Clone, Copy, Debug, PartialEq, Eq)]
pub struct JobRecord {
    pub axes: u32,
    pub threshold: u64,
    pub budget: u32,
    pub held: u32,
    pub reserved: u32,
    pub pending: u64,
    pub mean: i64,
    /// The carried error.
    pub carried: u64,
}

#[derive(Clone, Copy, Debug, PartialEq, Eq)]
pub struct IndexRecord {
    pub levels: Levels,
    pub state: u32,
    pub indicator: u32,
    pub first_reading: u32,
    pub forward: [u32; MOST_AXES],
    pub backward: [u32; MOST_AXES],
}

#[derive(Clone, Debug, PartialEq, Eq)]
pub struct Area {
    pub job: JobRecord,
    pub records: Vec<IndexRecord>,
    pub store: Vec<i32>,
}

impl IndexRecord {
    /// A wanted record without links.
    pub fn wanted(levels: Levels, first_reading: u32) -> IndexRecord {
        IndexRecord {
            levels,
            state: WANTED,
            indicator: 0,
            first_reading,
            forward: [NONE; MOST_AXES],
            backward: [NONE; MOST_AXES],
        }
    }

    pub fn is_delivered(&self) -> bool {
        self.state == ACTIVE || self.state == OLD
    }

    /// Levels of axes 1 to 8; state; indicator; first reading; forward links
    /// of axes 1 to 8; backward links of axes 1 to 8.
    pub fn to_words(&self) -> [u32; WORDS] {
        let mut words = [0; WORDS];
        words[0..8].copy_from_slice(&self.levels);
        words[8] = self.state;
        words[9] = self.indicator;
        words[10] = self.first_reading;
        words[11..19].copy_from_slice(&self.forward);
        words[19..27].copy_from_slice(&self.backward);
        words
    }

    pub fn from_words(words: &[u32; WORDS]) -> IndexRecord {
        let eight = |from: usize| std::array::from_fn(|axis| words[from + axis]);
        IndexRecord {
            levels: eight(0),
            state: words[8],
            indicator: words[9],
            first_reading: words[10],
            forward: eight(11),
            backward: eight(19),
        }
    }
}

impl JobRecord {
    fn to_bytes(self) -> Vec<u8> {
        let mut bytes = Vec::with_capacity(JOB_BYTES);
        bytes.extend(self.axes.to_le_bytes());
        bytes.extend(self.threshold.to_le_bytes());
        bytes.extend(self.budget.to_le_bytes());
        bytes.extend(self.held.to_le_bytes());
        bytes.extend(self.reserved.to_le_bytes());
        bytes.extend(self.pending.to_le_bytes());
        bytes.extend(self.mean.to_le_bytes());
        bytes.extend(self.carried.to_le_bytes());
        bytes
    }

    fn from_bytes(bytes: &[u8]) -> JobRecord {
        JobRecord {
            axes: u32_at(bytes, 0),
            threshold: u64_at(bytes, 4),
            budget: u32_at(bytes, 12),
            held: u32_at(bytes, 16),
            reserved: u32_at(bytes, 20),
            pending: u64_at(bytes, 24),
            mean: u64_at(bytes, 32) as i64,
            carried: u64_at(bytes, 40),
        }
    }
}

fn u32_at(bytes: &[u8], at: usize) -> u32 {
    u32::from_le_bytes(std::array::from_fn(|byte| bytes[at + byte]))
}

fn u64_at(bytes: &[u8], at: usize) -> u64 {
    u64::from_le_bytes(std::array::from_fn(|byte| bytes[at + byte]))
}

impl Area {
    /// An area of the given lengths with nothing in it yet.
    pub fn empty(records: usize, store: usize) -> Area {
        Area {
            job: JobRecord {
                axes: 0,
                threshold: 0,
                budget: 0,
                held: 0,
                reserved: 0,
                pending: 0,
                mean: 0,
                carried: 0,
            },
            records: vec![IndexRecord::wanted(ROOT, 0); records],
            store: vec![0; store],
        }
    }

    /// The held records; never more than are there, whatever `held` says.
    pub fn held(&self) -> &[IndexRecord] {
        let count = self.records.len().min(self.job.held as usize);
        &self.records[..count]
    }

    /// Little-endian: the job record of 48 bytes, the number of records, the
    /// number of readings in the store, the records, the readings.
    pub fn to_bytes(&self) -> Vec<u8> {
        let mut bytes = self.job.to_bytes();
        bytes.extend((self.records.len() as u32).to_le_bytes());
        bytes.extend((self.store.len() as u32).to_le_bytes());
        for record in &self.records {
            for word in record.to_words() {
                bytes.extend(word.to_le_bytes());
            }
        }
        for reading in &self.store {
            bytes.extend(reading.to_le_bytes());
        }
        bytes
    }

    /// The inverse of [`Area::to_bytes`]; refuses wrong lengths.
    pub fn from_bytes(bytes: &[u8]) -> Result<Area, String> {
        let head = JOB_BYTES + COUNT_BYTES;
        if bytes.len() < head {
            return Err(format!("an area has at least {head} bytes, this has {}", bytes.len()));
        }
        let records = u32_at(bytes, JOB_BYTES) as u64;
        let readings = u32_at(bytes, JOB_BYTES + 4) as u64;
        let length = head as u64 + records * (4 * WORDS as u64) + readings * 4;
        if bytes.len() as u64 != length {
            return Err(format!(
                "{records} records and {readings} readings make {length} bytes, this has {}",
                bytes.len()
            ));
        }
        let store_at = head + records as usize * 4 * WORDS;
        let record = |place: usize| {
            let at = head + place * 4 * WORDS;
            IndexRecord::from_words(&std::array::from_fn(|word| u32_at(bytes, at + 4 * word)))
        };
        Ok(Area {
            job: JobRecord::from_bytes(bytes),
            records: (0..records as usize).map(record).collect(),
            store: (0..readings as usize)
                .map(|number| u32_at(bytes, store_at + 4 * number) as i32)
                .collect(),
        })
    }
}
