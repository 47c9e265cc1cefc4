//! The job file: its form, tested field by field in byte order, and writing. The
//! module `form` tells the form in another way.
//!
//! Little-endian. Header of 24 bytes: axes, budget, threshold (8 bytes), entry
//! count, entry table offset. Entries of 12 bytes: indicator, reading count,
//! offset of the first reading. Then the readings, without gaps, an entry's in the
//! order of its block's points. "Files in the old order must be written anew": they
//! have the same form, so nothing tells them apart.

use crate::grid::BUDGET_LIMIT;

pub const HEADER_BYTES: usize = 24;
pub const ENTRY_BYTES: usize = 12;
pub const MOST_ENTRIES: u32 = 512;
pub const MOST_READINGS: u32 = BUDGET_LIMIT;
/// The longest well-formed file and one byte more: so many bytes of input
/// decide every file.
pub const DECIDING_BYTES: usize =
    HEADER_BYTES + ENTRY_BYTES * MOST_ENTRIES as usize + 4 * MOST_READINGS as usize + 1;

#[derive(Clone, Debug, PartialEq, Eq)]
pub struct Entry {
    pub indicator: u32,
    pub readings: Vec<i32>,
}

/// What a well-formed job file says.
#[derive(Clone, Debug, PartialEq, Eq)]
pub struct JobFile {
    pub axes: u32,
    pub budget: u32,
    pub threshold: u64,
    pub entries: Vec<Entry>,
}

/// The part of the file in which a rule of form is broken. An early end belongs to the
/// part in which something was still due, so that a file which ends right after its
/// header or its table breaks the next part. Bytes past the last reading count as a
/// fault of the readings, with no entries too.
#[derive(Clone, Copy, Debug, PartialEq, Eq, Hash, PartialOrd, Ord)]
pub enum Part {
    Header,
    EntryTable,
    Readings,
}

/// "The byte named is the first of the field that breaks a rule, the file's
/// length where it ends early, or the first byte too many."
#[derive(Clone, Copy, Debug, PartialEq, Eq)]
pub struct Fault {
    pub part: Part,
    pub byte: usize,
}

/// Takes field after field; a field that is cut off names the file's length.
struct Fields<'a> {
    bytes: &'a [u8],
    at: usize,
    part: Part,
}

impl Fields<'_> {
    fn take<const N: usize>(&mut self) -> Result<[u8; N], Fault> {
        if self.bytes.len() - self.at < N {
            return Err(Fault { part: self.part, byte: self.bytes.len() });
        }
        let field = std::array::from_fn(|byte| self.bytes[self.at + byte]);
        self.at += N;
        Ok(field)
    }

    /// A four-byte field without a rule.
    fn free(&mut self) -> Result<u32, Fault> {
        Ok(u32::from_le_bytes(self.take()?))
    }

    /// A four-byte field with a rule; one that breaks it names its first byte.
    fn ruled(&mut self, rule: impl FnOnce(u32) -> bool) -> Result<u32, Fault> {
        let first = self.at;
        let field = self.free()?;
        if rule(field) {
            Ok(field)
        } else {
            Err(Fault { part: self.part, byte: first })
        }
    }
}

/// Tests the whole form in byte order.
pub fn parse(bytes: &[u8]) -> Result<JobFile, Fault> {
    let mut fields = Fields { bytes, at: 0, part: Part::Header };
    let axes = fields.free()?;
    let budget = fields.free()?;
    let threshold = u64::from_le_bytes(fields.take()?);
    let count = fields.ruled(|count| count <= MOST_ENTRIES)?;
    fields.ruled(|offset| offset as usize == HEADER_BYTES)?;

    fields.part = Part::EntryTable;
    let readings_at = HEADER_BYTES as u32 + ENTRY_BYTES as u32 * count;
    let mut table: Vec<(u32, u32)> = Vec::new();
    let mut total = 0;
    for _ in 0..count {
        let indicator = fields.free()?;
        let own = fields
            .ruled(|own| (1..=MOST_READINGS).contains(&own) && total + own <= MOST_READINGS)?;
        fields.ruled(|offset| offset == readings_at + 4 * total)?;
        total += own;
        table.push((indicator, own));
    }

    fields.part = Part::Readings;
    let mut entries = Vec::new();
    for (indicator, own) in table {
        let mut readings = Vec::new();
        for _ in 0..own {
            readings.push(i32::from_le_bytes(fields.take()?));
        }
        entries.push(Entry { indicator, readings });
    }
    if fields.at < bytes.len() {
        return Err(Fault { part: Part::Readings, byte: fields.at });
    }
    Ok(JobFile { axes, budget, threshold, entries })
}

/// The bytes of a job. Entries past the limits of the form are written all the
/// same, so that malformed files can be made too.
pub fn write(job: &JobFile) -> Vec<u8> {
    let mut bytes = Vec::new();
    bytes.extend(job.axes.to_le_bytes());
    bytes.extend(job.budget.to_le_bytes());
    bytes.extend(job.threshold.to_le_bytes());
    bytes.extend((job.entries.len() as u32).to_le_bytes());
    bytes.extend((HEADER_BYTES as u32).to_le_bytes());
    for (number, entry) in job.entries.iter().enumerate() {
        bytes.extend(entry.indicator.to_le_bytes());
        bytes.extend((entry.readings.len() as u32).to_le_bytes());
        bytes.extend((job.reading_byte(number, 0) as u32).to_le_bytes());
    }
    for reading in job.entries.iter().flat_map(|entry| &entry.readings) {
        bytes.extend(reading.to_le_bytes());
    }
    bytes
}

impl JobFile {
    /// The first byte of an entry's count field.
    pub fn count_byte(&self, entry: usize) -> usize {
        HEADER_BYTES + ENTRY_BYTES * entry + 4
    }

    /// The first byte of a reading of an entry.
    pub fn reading_byte(&self, entry: usize, reading: usize) -> usize {
        let before: usize = self.entries[..entry].iter().map(|e| e.readings.len()).sum();
        HEADER_BYTES + ENTRY_BYTES * self.entries.len() + 4 * (before + reading)
    }
}
