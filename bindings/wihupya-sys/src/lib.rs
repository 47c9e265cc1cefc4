//! The library's ten functions, each behind a safe one that lends it slices.
//! `include/wihupya.h` says what a call does, which numbers it returns, and what
//! the words are.
//!
//! All unsafe code is here. That the functions below are safe rests on this:
//! - The library asks nothing of what it is handed: each of its contracts
//!   holds for every number, every length and every content of the storage.
//! - It reads and writes within the lengths that it is given, and writes only
//!   what it is lent as mutable. Both are proved.
//! - A slice reaches it as a pointer and a length, which come here from one
//!   borrow that lives as long as the call. Rust sees to it that no mutable
//!   borrow overlaps another borrow.

/// The number of words of a job record.
pub const JOB_WORDS: usize = 12;

/// A job record: threshold, pending error and scaled mean, the low word of
/// each first, then axes, budget, held and reserved, then the carried error,
/// its low word first.
pub type JobWords = [u32; JOB_WORDS];
/// Points' words: how many points it wrote, and how many the block has.
pub type PointsWords = [u32; 2];
/// Choose's words: 0 met, 3 capped or 4 chosen; and the place that is chosen,
/// else 0.
pub type ChoiceWords = [u32; 2];
/// Promote's word: 1 spent, 2 promoted.
pub type OutcomeWord = [u32; 1];
/// Result's words: pending error and scaled mean, the low word of each first,
/// then old, active, wanted, reserved and ceiling, then the carried error, its
/// low word first.
pub type CountWords = [u32; 11];
/// Doubles' report: mean, pending error and largest delivered difference.
pub type DoublesReport = [f64; 3];
/// Cross total's words, the low word first.
pub type TotalWords = [u32; 2];

// As include/wihupya.h declares them.
extern "C" {
    fn wihupya_start(
        job: *mut JobWords,
        axes: u32,
        threshold: u64,
        budget: u32,
        cells: *mut u32,
        words: usize,
        store: *const i32,
        readings: usize,
    ) -> u32;

    fn wihupya_point(
        job: *const JobWords,
        n: usize,
        cells: *const u32,
        words: usize,
        store: *const i32,
        readings: usize,
        buffer: *mut u8,
        bytes: usize,
    ) -> u32;

    fn wihupya_points(
        job: *const JobWords,
        n: usize,
        counts: *mut PointsWords,
        cells: *const u32,
        words: usize,
        store: *const i32,
        readings: usize,
        buffer: *mut u8,
        bytes: usize,
    ) -> u32;

    fn wihupya_deliver(
        job: *mut JobWords,
        block: *const i32,
        count: usize,
        indicator: u32,
        cells: *mut u32,
        words: usize,
        store: *mut i32,
        readings: usize,
    ) -> u32;

    fn wihupya_choose(
        job: *const JobWords,
        choice: *mut ChoiceWords,
        cells: *const u32,
        words: usize,
        store: *const i32,
        readings: usize,
    ) -> u32;

    fn wihupya_promote(
        job: *mut JobWords,
        place: usize,
        outcome: *mut OutcomeWord,
        cells: *mut u32,
        words: usize,
        store: *const i32,
        readings: usize,
    ) -> u32;

    fn wihupya_result(
        job: *const JobWords,
        counts: *mut CountWords,
        cells: *const u32,
        words: usize,
        store: *const i32,
        readings: usize,
    ) -> u32;

    fn wihupya_doubles(
        job: *const JobWords,
        report: *mut DoublesReport,
        cells: *const u32,
        words: usize,
        store: *const i32,
        readings: usize,
    ) -> u32;

    fn wihupya_cross_total(
        job: *const JobWords,
        total: *mut TotalWords,
        cells: *const u32,
        words: usize,
        store: *const i32,
        readings: usize,
    ) -> u32;

    fn wihupya_check(
        job: *const JobWords,
        cells: *const u32,
        words: usize,
        store: *const i32,
        readings: usize,
    ) -> bool;
}

/// 0 if accepted, else the number of the cause; so for every call but check.
pub fn start(
    job: &mut JobWords,
    axes: u32,
    threshold: u64,
    budget: u32,
    cells: &mut [u32],
    store: &[i32],
) -> u32 {
    let (words, readings) = (cells.len(), store.len());
    let (cells, store) = (cells.as_mut_ptr(), store.as_ptr());
    // SAFETY: each pointer is that of a borrowed slice and stands before its
    // length; start writes the job record and the cells, both borrowed mutably.
    unsafe { wihupya_start(job, axes, threshold, budget, cells, words, store, readings) }
}

pub fn point(job: &JobWords, n: usize, cells: &[u32], store: &[i32], buffer: &mut [u8]) -> u32 {
    let (words, readings, bytes) = (cells.len(), store.len(), buffer.len());
    let (cells, store, buffer) = (cells.as_ptr(), store.as_ptr(), buffer.as_mut_ptr());
    // SAFETY: each pointer is that of a borrowed slice and stands before its
    // length; point writes the buffer alone, which is borrowed mutably.
    unsafe { wihupya_point(job, n, cells, words, store, readings, buffer, bytes) }
}

pub fn points(
    job: &JobWords,
    n: usize,
    counts: &mut PointsWords,
    cells: &[u32],
    store: &[i32],
    buffer: &mut [u8],
) -> u32 {
    let (words, readings, bytes) = (cells.len(), store.len(), buffer.len());
    let (cells, store, buffer) = (cells.as_ptr(), store.as_ptr(), buffer.as_mut_ptr());
    // SAFETY: each pointer is that of a borrowed slice and stands before its
    // length; points writes the counts and the buffer, both borrowed mutably.
    unsafe { wihupya_points(job, n, counts, cells, words, store, readings, buffer, bytes) }
}

pub fn deliver(
    job: &mut JobWords,
    block: &[i32],
    indicator: u32,
    cells: &mut [u32],
    store: &mut [i32],
) -> u32 {
    let (count, words, readings) = (block.len(), cells.len(), store.len());
    let (block, cells, store) = (block.as_ptr(), cells.as_mut_ptr(), store.as_mut_ptr());
    // SAFETY: each pointer is that of a borrowed slice and stands before its
    // length; deliver writes the job record, the cells and the store, all
    // borrowed mutably, so the block lies in none of them.
    unsafe { wihupya_deliver(job, block, count, indicator, cells, words, store, readings) }
}

pub fn choose(job: &JobWords, choice: &mut ChoiceWords, cells: &[u32], store: &[i32]) -> u32 {
    let (words, readings) = (cells.len(), store.len());
    let (cells, store) = (cells.as_ptr(), store.as_ptr());
    // SAFETY: each pointer is that of a borrowed slice and stands before its
    // length; choose writes the choice alone, which is borrowed mutably.
    unsafe { wihupya_choose(job, choice, cells, words, store, readings) }
}

pub fn promote(
    job: &mut JobWords,
    place: usize,
    outcome: &mut OutcomeWord,
    cells: &mut [u32],
    store: &[i32],
) -> u32 {
    let (words, readings) = (cells.len(), store.len());
    let (cells, store) = (cells.as_mut_ptr(), store.as_ptr());
    // SAFETY: each pointer is that of a borrowed slice and stands before its
    // length; promote writes the job record, the outcome and the cells, all
    // borrowed mutably.
    unsafe { wihupya_promote(job, place, outcome, cells, words, store, readings) }
}

pub fn result(job: &JobWords, counts: &mut CountWords, cells: &[u32], store: &[i32]) -> u32 {
    let (words, readings) = (cells.len(), store.len());
    let (cells, store) = (cells.as_ptr(), store.as_ptr());
    // SAFETY: each pointer is that of a borrowed slice and stands before its
    // length; result writes the counts alone, which are borrowed mutably.
    unsafe { wihupya_result(job, counts, cells, words, store, readings) }
}

pub fn doubles(job: &JobWords, report: &mut DoublesReport, cells: &[u32], store: &[i32]) -> u32 {
    let (words, readings) = (cells.len(), store.len());
    let (cells, store) = (cells.as_ptr(), store.as_ptr());
    // SAFETY: each pointer is that of a borrowed slice and stands before its
    // length; doubles writes the report alone, which is borrowed mutably.
    unsafe { wihupya_doubles(job, report, cells, words, store, readings) }
}

pub fn cross_total(job: &JobWords, total: &mut TotalWords, cells: &[u32], store: &[i32]) -> u32 {
    let (words, readings) = (cells.len(), store.len());
    let (cells, store) = (cells.as_ptr(), store.as_ptr());
    // SAFETY: each pointer is that of a borrowed slice and stands before its
    // length; cross total writes the total alone, which is borrowed mutably.
    unsafe { wihupya_cross_total(job, total, cells, words, store, readings) }
}

/// Whether the area is sound and its storage long enough.
pub fn check(job: &JobWords, cells: &[u32], store: &[i32]) -> bool {
    let (words, readings) = (cells.len(), store.len());
    let (cells, store) = (cells.as_ptr(), store.as_ptr());
    // SAFETY: each pointer is that of a borrowed slice and stands before its
    // length; check writes nothing and answers 0 or 1, as a bool must be.
    unsafe { wihupya_check(job, cells, words, store, readings) }
}
