//! The job file: its form, tested in byte order, and what it says.

use crate::area::BUDGET_LIMIT;
use crate::calls::Cause;
use std::ops::Range;

pub const HEADER_BYTES: usize = 24;
pub const ENTRY_BYTES: usize = 12;
pub const MOST_ENTRIES: u32 = 512;
pub const MOST_READINGS: u32 = BUDGET_LIMIT;
/// One byte more than the longest file of the right form: so many bytes decide
/// every file.
pub const DECIDING_BYTES: usize =
    HEADER_BYTES + ENTRY_BYTES * MOST_ENTRIES as usize + 4 * MOST_READINGS as usize + 1;

pub struct JobFile {
    pub axes: u32,
    pub budget: u32,
    pub threshold: u64,
    pub entries: Vec<Entry>,
    /// Of all entries, in a row.
    pub readings: Vec<i32>,
}

pub struct Entry {
    pub indicator: u32,
    /// Which of the file's readings are its own.
    pub readings: Range<usize>,
}

/// The cause by which a malformed file is refused, one for each part of the
/// file, and the byte that it names.
#[derive(Debug)]
pub struct Malformed {
    pub cause: Cause,
    pub byte: usize,
}

/// Takes field after field; one that is cut off names the file's length.
struct Fields<'a> {
    bytes: &'a [u8],
    at: usize,
    /// Of the part that is read.
    cause: Cause,
}

impl Fields<'_> {
    fn take<const N: usize>(&mut self) -> Result<[u8; N], Malformed> {
        let field = self.bytes[self.at..].first_chunk().ok_or(self.fault(self.bytes.len()))?;
        self.at += N;
        Ok(*field)
    }

    fn fault(&self, byte: usize) -> Malformed {
        Malformed { cause: self.cause, byte }
    }

    fn number(&mut self) -> Result<u32, Malformed> {
        self.take().map(u32::from_le_bytes)
    }

    /// A number that breaks its rule names its own first byte.
    fn ruled(&mut self, rule: impl FnOnce(u32) -> bool) -> Result<u32, Malformed> {
        let first = self.at;
        let number = self.number()?;
        if rule(number) {
            Ok(number)
        } else {
            Err(self.fault(first))
        }
    }
}

impl JobFile {
    pub fn parse(bytes: &[u8]) -> Result<JobFile, Malformed> {
        let mut fields = Fields { bytes, at: 0, cause: Cause::HeaderMalformed };
        let axes = fields.number()?;
        let budget = fields.number()?;
        let threshold = u64::from_le_bytes(fields.take()?);
        let count = fields.ruled(|count| count <= MOST_ENTRIES)?;
        fields.ruled(|offset| offset as usize == HEADER_BYTES)?;
        fields.cause = Cause::EntryTableMalformed;
        let entries = parse_table(&mut fields, count)?;
        let total = entries.last().map_or(0, |entry| entry.readings.end);
        fields.cause = Cause::ReadingsMalformed;
        let readings = parse_readings(&fields, total)?;
        Ok(JobFile { axes, budget, threshold, entries, readings })
    }

    /// The first byte of an entry's count field.
    pub fn count_byte(&self, entry: usize) -> usize {
        HEADER_BYTES + ENTRY_BYTES * entry + 4
    }

    /// The first byte of a reading.
    pub fn reading_byte(&self, reading: usize) -> usize {
        HEADER_BYTES + ENTRY_BYTES * self.entries.len() + 4 * reading
    }
}

fn parse_table(fields: &mut Fields, count: u32) -> Result<Vec<Entry>, Malformed> {
    let readings_at = HEADER_BYTES + ENTRY_BYTES * count as usize;
    let mut total = 0;
    let mut entries = Vec::with_capacity(count as usize);
    for _ in 0..count {
        let indicator = fields.number()?;
        let room = MOST_READINGS - total as u32;
        let own = fields.ruled(|own| (1..=room).contains(&own))?;
        fields.ruled(|offset| offset as usize == readings_at + 4 * total)?;
        let end = total + own as usize;
        entries.push(Entry { indicator, readings: total..end });
        total = end;
    }
    Ok(entries)
}

/// The rest of the file; only its length can break a rule.
fn parse_readings(fields: &Fields, total: usize) -> Result<Vec<i32>, Malformed> {
    let (rest, _) = fields.bytes[fields.at..].as_chunks();
    let end = fields.at + 4 * total;
    if fields.bytes.len() != end {
        return Err(fields.fault(fields.bytes.len().min(end)));
    }
    Ok(rest.iter().map(|&reading| i32::from_le_bytes(reading)).collect())
}
