//! The job record, and 64-bit numbers as two words.

use wihupya_sys::JobWords;

/// A job's own numbers: one part of its work area, beside the index records
/// and the reading store. The default one is no job's.
#[derive(Clone, Copy, Debug, Default, PartialEq, Eq, Hash)]
pub struct JobRecord {
    /// The job is met if pending and carried error together are at most this.
    pub threshold: u64,
    /// The sum of the active indices' indicators.
    pub pending_error: u64,
    /// The sum of the indicators of old indices at a ceiling, each once.
    pub carried_error: u64,
    /// The mean times [`SCALE`](crate::SCALE).
    pub scaled_mean: i64,
    /// The number of axes.
    pub axes: u32,
    /// The most readings that the job may ask for.
    pub budget: u32,
    /// The number of indices: old, active and wanted.
    pub held: u32,
    /// The readings that their blocks take together.
    pub reserved: u32,
}

impl JobRecord {
    /// The job record that twelve words are, in the order of
    /// `include/wihupya.h`. Every twelve words are one.
    pub fn from_words(words: JobWords) -> JobRecord {
        JobRecord {
            threshold: wide(words[0], words[1]),
            pending_error: wide(words[2], words[3]),
            carried_error: wide(words[10], words[11]),
            scaled_mean: signed(words[4], words[5]),
            axes: words[6],
            budget: words[7],
            held: words[8],
            reserved: words[9],
        }
    }

    /// The twelve words of this job record.
    pub fn to_words(self) -> JobWords {
        let [threshold, pending, carried] =
            [self.threshold, self.pending_error, self.carried_error].map(halves);
        // The same 64 bits.
        let mean = halves(self.scaled_mean as u64);
        [
            threshold[0],
            threshold[1],
            pending[0],
            pending[1],
            mean[0],
            mean[1],
            self.axes,
            self.budget,
            self.held,
            self.reserved,
            carried[0],
            carried[1],
        ]
    }
}

/// The number of a low and a high word.
pub fn wide(low: u32, high: u32) -> u64 {
    u64::from(low) | u64::from(high) << 32
}

/// The same in two's complement.
pub fn signed(low: u32, high: u32) -> i64 {
    wide(low, high) as i64
}

/// The low and the high word of a number.
fn halves(number: u64) -> [u32; 2] {
    [number as u32, (number >> 32) as u32]
}
