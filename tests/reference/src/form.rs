//! The form of a job file, told by places and lengths, and not field after field as
//! `jobfile` tests it. Each field is looked up at its place, an entry's readings are due
//! where those of the entry before end, and the file's end where the last entry's do. The
//! number of a refusal is told by its byte. The two ways hold each other.

use crate::calls::Cause;
use crate::jobfile::{Entry, JobFile};
use std::cmp::Ordering;

/// The byte that a refusal names, and what is wrong there, by name.
#[derive(Clone, Copy, Debug, PartialEq, Eq)]
pub struct Found {
    pub byte: usize,
    pub by: &'static str,
}

fn found(byte: usize, by: &'static str) -> Option<Found> {
    Some(Found { byte, by })
}

/// The part by the byte: the header below 24, the table below its end, the readings
/// from there on. From byte 24 on the header is right, so that it has its entry count.
pub fn cause(file: &[u8], byte: usize) -> Cause {
    let entries = field(file, 16).unwrap_or(0);
    match byte {
        0..=23 => Cause::HeaderMalformed,
        _ if byte < 24 + 12 * entries => Cause::EntryTableMalformed,
        _ => Cause::ReadingsMalformed,
    }
}

/// What breaks the form of a file: the first whole field that breaks a rule and, where
/// none does, the file's length.
pub fn find(file: &[u8]) -> Option<Found> {
    let entries = field(file, 16).unwrap_or(0);
    wrong_header(file)
        .or_else(|| (0..entries).find_map(|entry| wrong_entry(file, entries, entry)))
        .or_else(|| wrong_length(file, entries))
}

/// The number of four bytes at this byte, if the file has it whole.
fn field(file: &[u8], at: usize) -> Option<usize> {
    let bytes = file.get(at..at + 4)?;
    Some(bytes.iter().rev().fold(0, |number, &byte| number * 256 + usize::from(byte)))
}

fn wrong_header(file: &[u8]) -> Option<Found> {
    if field(file, 16)? > 512 {
        return found(16, "the entry count");
    }
    if field(file, 20)? != 24 {
        return found(20, "the table offset");
    }
    None
}

/// What is wrong with an entry where those before it are right.
fn wrong_entry(file: &[u8], entries: usize, entry: usize) -> Option<Found> {
    let at = 24 + 12 * entry;
    let due = readings_end(file, entries, entry)?;
    let before = (due - readings_end(file, entries, 0)?) / 4;
    match field(file, at + 4)? {
        0 => return found(at + 4, "a reading count of 0"),
        8_193.. => return found(at + 4, "a reading count above 8,192"),
        own if before + own > 8_192 => return found(at + 4, "a total above 8,192"),
        _ => {}
    }
    match field(file, at + 8)? == due {
        true => None,
        false => found(at + 8, "an offset"),
    }
}

/// Where the readings of the first so many entries end, by what the last of these says.
fn readings_end(file: &[u8], entries: usize, first: usize) -> Option<usize> {
    match first {
        0 => Some(24 + 12 * entries),
        _ => Some(field(file, 12 * first + 20)? + 4 * field(file, 12 * first + 16)?),
    }
}

/// The length against what is due, where no whole field breaks a rule.
fn wrong_length(file: &[u8], entries: usize) -> Option<Found> {
    let length = file.len();
    if length < 24 + 12 * entries {
        return found(length, "an early end");
    }
    let due = readings_end(file, entries, entries)?;
    match length.cmp(&due) {
        Ordering::Less => found(length, "too few readings"),
        Ordering::Equal => None,
        Ordering::Greater => found(due, "bytes too many"),
    }
}

/// The job as far as its form is right, all of it if the form is: what a program would
/// run that tested the form as it went. None where the file ends before its budget does.
pub fn job_so_far(file: &[u8]) -> Option<JobFile> {
    // Where the threshold is cut off there is nothing to compare with it either.
    let low = field(file, 8).unwrap_or(0) as u64;
    let high = field(file, 12).unwrap_or(0) as u64;
    Some(JobFile {
        axes: field(file, 0)? as u32,
        budget: field(file, 4)? as u32,
        threshold: high << 32 | low,
        entries: entries_so_far(file),
    })
}

/// The entries up to the first that is wrong or lacks readings; none where the header
/// is wrong.
fn entries_so_far(file: &[u8]) -> Vec<Entry> {
    let entries = match wrong_header(file) {
        Some(_) => 0,
        None => field(file, 16).unwrap_or(0),
    };
    (0..entries).map_while(|entry| right_entry(file, entries, entry)).collect()
}

/// An entry with its readings, where it is right and those before it are.
fn right_entry(file: &[u8], entries: usize, entry: usize) -> Option<Entry> {
    if wrong_entry(file, entries, entry).is_some() {
        return None;
    }
    let at = 24 + 12 * entry;
    let (own, first) = (field(file, at + 4)?, field(file, at + 8)?);
    let reading = |number: usize| field(file, first + 4 * number).map(|bits| bits as u32 as i32);
    let readings = (0..own).map(reading).collect::<Option<Vec<i32>>>()?;
    Some(Entry { indicator: field(file, at)? as u32, readings })
}
