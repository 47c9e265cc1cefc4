//! Damaged job files: each way to break the form, with the refusal that the report
//! must be where the damage alone tells it. The number is said for each kind here: 10 if
//! the damage shows in the header, 12 in the entry table, 13 in the readings.

use crate::jobfile::{
    self, Entry, JobFile, DECIDING_BYTES, ENTRY_BYTES, HEADER_BYTES, MOST_READINGS,
};
use crate::rng::Rng;
use crate::spoil;

#[derive(Clone, Copy, Debug, PartialEq, Eq, Hash, PartialOrd, Ord)]
pub enum Damage {
    Empty,
    HeaderCut,
    /// An end at byte 24, where the table begins.
    CutAfterHeader,
    TableCut,
    /// An end where the table ends and the readings begin.
    CutAfterTable,
    ReadingsCut,
    ExtraBytes,
    /// No entries, and bytes after the header.
    NoEntriesAndMore,
    TableOffset,
    EntryCount513,
    EntryCountHuge,
    /// Another count of at most 512, the table left as it was.
    EntryCountOther,
    ReadingCount0,
    ReadingCount8193,
    TotalAbove8192,
    /// Another reading count in range, in an entry before the last: the next entry
    /// shows it.
    ReadingCountOther,
    /// Another reading count in range, in the last entry: the file's end shows it.
    LastReadingCountOther,
    ReadingOffset,
    /// A fault of the header in a file that start would refuse.
    HeaderBeforeStart,
    /// A fault of the table in such a file.
    TableBeforeStart,
    /// A fault of the readings in such a file.
    ReadingsBeforeStart,
    /// A fault of the table behind an entry that a delivery would refuse.
    TableBeforeDelivery,
    /// A fault of the readings in a file with such an entry.
    ReadingsBeforeDelivery,
    /// A single bit changed anywhere, which need not break the form.
    BitFlipped,
    ByteReplaced,
    /// Longer than any well-formed file, with a well-formed beginning.
    Long,
    /// The longest well-formed file and bytes after it.
    LongestAndMore,
}

pub const DAMAGES: [Damage; 27] = [
    Damage::Empty,
    Damage::HeaderCut,
    Damage::CutAfterHeader,
    Damage::TableCut,
    Damage::CutAfterTable,
    Damage::ReadingsCut,
    Damage::ExtraBytes,
    Damage::NoEntriesAndMore,
    Damage::TableOffset,
    Damage::EntryCount513,
    Damage::EntryCountHuge,
    Damage::EntryCountOther,
    Damage::ReadingCount0,
    Damage::ReadingCount8193,
    Damage::TotalAbove8192,
    Damage::ReadingCountOther,
    Damage::LastReadingCountOther,
    Damage::ReadingOffset,
    Damage::HeaderBeforeStart,
    Damage::TableBeforeStart,
    Damage::ReadingsBeforeStart,
    Damage::TableBeforeDelivery,
    Damage::ReadingsBeforeDelivery,
    Damage::BitFlipped,
    Damage::ByteReplaced,
    Damage::Long,
    Damage::LongestAndMore,
];

/// The faults of each part that a file may have which start would refuse.
const OF_HEADER: [Damage; 3] = [Damage::HeaderCut, Damage::TableOffset, Damage::EntryCount513];
const OF_TABLE: [Damage; 4] =
    [Damage::CutAfterHeader, Damage::TableCut, Damage::ReadingCount0, Damage::ReadingOffset];
const OF_READINGS: [Damage; 3] = [Damage::CutAfterTable, Damage::ReadingsCut, Damage::ExtraBytes];
/// Those that leave entries to deliver before them.
const BEHIND_ENTRIES: [Damage; 3] =
    [Damage::ReadingCount0, Damage::ReadingCount8193, Damage::ReadingOffset];
const BEHIND_READINGS: [Damage; 3] =
    [Damage::ReadingsCut, Damage::ExtraBytes, Damage::LastReadingCountOther];

const OTHER_THAN_24: [u32; 8] = [0, 20, 23, 25, 28, 36, 24 << 8, u32::MAX];
const ABOVE_513: [u32; 5] = [514, 8_192, 65_536, 1 << 31, u32::MAX];
const ABOVE_8192: [u32; 5] = [8_193, 8_194, 65_537, 1 << 30, u32::MAX];

/// The number and the byte of a report.
#[derive(Clone, Copy, Debug, PartialEq, Eq)]
pub struct Refusal {
    pub number: u32,
    pub byte: usize,
}

pub struct Damaged {
    pub bytes: Vec<u8>,
    /// What the report must be, where the damage alone tells it.
    pub refusal: Option<Refusal>,
}

pub fn any_damage(rng: &mut Rng) -> Damage {
    rng.pick(&DAMAGES)
}

/// The damaged file of a well-formed job with at least one entry.
pub fn damage(how: Damage, job: &JobFile, rng: &mut Rng) -> Damaged {
    let entry = rng.place(job.entries.len());
    damage_at(how, job, entry, rng)
}

/// Where the damage is of an entry, it is of this one.
fn damage_at(how: Damage, job: &JobFile, entry: usize, rng: &mut Rng) -> Damaged {
    let bytes = jobfile::write(job);
    let whole = bytes.len();
    let table_end = HEADER_BYTES + ENTRY_BYTES * job.entries.len();
    let count_at = job.count_byte(entry);
    match how {
        Damage::Empty => cut(bytes, 10, 0),
        Damage::HeaderCut => cut(bytes, 10, within(rng, 1, HEADER_BYTES)),
        Damage::CutAfterHeader => cut(bytes, 12, HEADER_BYTES),
        Damage::TableCut => cut(bytes, 12, within(rng, HEADER_BYTES + 1, table_end)),
        Damage::CutAfterTable => cut(bytes, 13, table_end),
        Damage::ReadingsCut => cut(bytes, 13, within(rng, table_end + 1, whole)),
        Damage::ExtraBytes => lengthen(bytes, within(rng, 1, 21), rng),
        Damage::NoEntriesAndMore => lengthen(filled(job, 0), within(rng, 1, 41), rng),
        Damage::TableOffset => put(bytes, 10, 20, rng.pick(&OTHER_THAN_24)),
        Damage::EntryCount513 => put(bytes, 10, 16, 513),
        Damage::EntryCountHuge => put(bytes, 10, 16, rng.pick(&ABOVE_513)),
        Damage::EntryCountOther => other_entry_count(job, rng),
        Damage::ReadingCount0 => put(bytes, 12, count_at, 0),
        Damage::ReadingCount8193 => put(bytes, 12, count_at, rng.pick(&ABOVE_8192)),
        Damage::TotalAbove8192 => total_passed(job),
        Damage::ReadingCountOther => other_reading_count(job, entry, rng),
        Damage::LastReadingCountOther => other_last_reading_count(job, rng),
        Damage::ReadingOffset => put(bytes, 12, count_at + 4, other_offset(job, entry, rng)),
        Damage::HeaderBeforeStart => before_start(&OF_HEADER, job, rng),
        Damage::TableBeforeStart => before_start(&OF_TABLE, job, rng),
        Damage::ReadingsBeforeStart => before_start(&OF_READINGS, job, rng),
        Damage::TableBeforeDelivery => before_delivery(&BEHIND_ENTRIES, job, rng),
        Damage::ReadingsBeforeDelivery => before_delivery(&BEHIND_READINGS, job, rng),
        Damage::BitFlipped => change(bytes, rng, |byte, rng| byte ^ 1 << rng.below(8)),
        Damage::ByteReplaced => change(bytes, rng, |_, rng| rng.number() as u8),
        Damage::Long => lengthen(bytes, DECIDING_BYTES - whole + rng.place(30_000), rng),
        Damage::LongestAndMore => lengthen(filled(job, 512), within(rng, 1, 20_001), rng),
    }
}

/// A number from `low` up to but not including `high`.
fn within(rng: &mut Rng, low: usize, high: usize) -> usize {
    low + rng.place(high - low)
}

fn refused(bytes: Vec<u8>, number: u32, byte: usize) -> Damaged {
    Damaged { bytes, refusal: Some(Refusal { number, byte }) }
}

/// An early end names the file's length.
fn cut(mut bytes: Vec<u8>, number: u32, length: usize) -> Damaged {
    bytes.truncate(length);
    refused(bytes, number, length)
}

/// A field that breaks a rule itself names its first byte.
fn put(mut bytes: Vec<u8>, number: u32, at: usize, field: u32) -> Damaged {
    put_field(&mut bytes, at, field);
    refused(bytes, number, at)
}

fn put_field(bytes: &mut [u8], at: usize, field: u32) {
    bytes[at..at + 4].copy_from_slice(&field.to_le_bytes());
}

/// The first byte too many is a fault of the readings.
fn lengthen(mut bytes: Vec<u8>, extra: usize, rng: &mut Rng) -> Damaged {
    let whole = bytes.len();
    bytes.extend((0..extra).map(|_| rng.number() as u8));
    refused(bytes, 13, whole)
}

/// A byte anywhere, of which the damage doesn't tell what it comes to.
fn change(mut bytes: Vec<u8>, rng: &mut Rng, to: impl Fn(u8, &mut Rng) -> u8) -> Damaged {
    let place = rng.place(bytes.len());
    bytes[place] = to(bytes[place], rng);
    Damaged { bytes, refusal: None }
}

/// With no entries the table's first byte is one too many; else the first entry's
/// offset no longer fits.
fn other_entry_count(job: &JobFile, rng: &mut Rng) -> Damaged {
    let mut bytes = jobfile::write(job);
    let other = (job.entries.len() as u32 + rng.between(1, 512) as u32) % 513;
    put_field(&mut bytes, 16, other);
    match other {
        0 => refused(bytes, 13, HEADER_BYTES),
        _ => refused(bytes, 12, HEADER_BYTES + 8),
    }
}

/// An offset that is not where the entry's readings lie.
fn other_offset(job: &JobFile, entry: usize, rng: &mut Rng) -> u32 {
    let right = job.reading_byte(entry, 0) as u32;
    rng.pick(&[0, right - 4, right - 1, right + 1, right + 4, u32::MAX])
}

/// The file with so many entries of 16 readings in place of its own.
fn filled(job: &JobFile, entries: usize) -> Vec<u8> {
    let entry = Entry { indicator: 0, readings: vec![0; 16] };
    jobfile::write(&JobFile { entries: vec![entry; entries], ..job.clone() })
}

/// The job with one entry more.
fn with_entry(job: &JobFile, readings: usize) -> JobFile {
    let mut longer = job.clone();
    longer.entries.push(Entry { indicator: 1, readings: vec![0; readings] });
    longer
}

/// The number of readings in the entries before this one.
fn readings_before(job: &JobFile, entry: usize) -> usize {
    job.entries[..entry].iter().map(|entry| entry.readings.len()).sum()
}

/// Two entries more, of which the second passes the total.
fn total_passed(job: &JobFile) -> Damaged {
    let total = readings_before(job, job.entries.len());
    let longer = with_entry(&with_entry(job, 1), MOST_READINGS as usize - total);
    let last = longer.count_byte(longer.entries.len() - 1);
    refused(jobfile::write(&longer), 12, last)
}

/// Another count that is in range at this entry: near the right one, or any, or all
/// that the total leaves.
fn other_count(job: &JobFile, entry: usize, rng: &mut Rng) -> usize {
    let right = job.entries[entry].readings.len();
    let room = MOST_READINGS as usize - readings_before(job, entry);
    let any = within(rng, 1, room + 1);
    match rng.pick(&[right - 1, right + 1, any, room]) {
        other if other == 0 || other == right => right + 1,
        other => other,
    }
}

/// The next entry's offset no longer fits, unless its count passes the total before. An
/// entry is added, so that each entry of the job has a next.
fn other_reading_count(job: &JobFile, entry: usize, rng: &mut Rng) -> Damaged {
    let other = other_count(job, entry, rng);
    let job = with_entry(job, 1);
    let mut bytes = jobfile::write(&job);
    put_field(&mut bytes, job.count_byte(entry), other as u32);
    let next = entry + 1;
    let total = readings_before(&job, entry) + other + job.entries[next].readings.len();
    let count_at = job.count_byte(next);
    match total > MOST_READINGS as usize {
        true => refused(bytes, 12, count_at),
        false => refused(bytes, 12, count_at + 4),
    }
}

/// The readings end too early or too late for the file.
fn other_last_reading_count(job: &JobFile, rng: &mut Rng) -> Damaged {
    let last = job.entries.len() - 1;
    let other = other_count(job, last, rng);
    let mut bytes = jobfile::write(job);
    put_field(&mut bytes, job.count_byte(last), other as u32);
    let byte = job.reading_byte(last, other).min(bytes.len());
    refused(bytes, 13, byte)
}

/// One of these faults in a file that start would refuse with 1 or 2.
fn before_start(faults: &[Damage], job: &JobFile, rng: &mut Rng) -> Damaged {
    let mut job = job.clone();
    let axes = rng.percent(50);
    if axes {
        spoil::axes(&mut job, rng);
    }
    if !axes || rng.percent(30) {
        spoil::budget(&mut job, rng);
    }
    damage(rng.pick(faults), &job, rng)
}

/// One of these faults, that of an entry in the last, in a file of which a delivery
/// before that would be refused with 7 or 8.
fn before_delivery(faults: &[Damage], job: &JobFile, rng: &mut Rng) -> Damaged {
    let mut job = with_entry(job, 1);
    let last = job.entries.len() - 1;
    let readings = &mut job.entries[rng.place(last)].readings;
    // Counts that are wrong for the block come up without this too.
    match rng.percent(30) {
        true => spoil::count(readings, rng),
        false => spoil::reading(readings, rng),
    }
    damage_at(rng.pick(faults), &job, last, rng)
}
