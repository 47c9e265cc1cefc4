//! Storage to run named cases in, and calls on it that must be accepted or
//! refused.

// Each file of tests uses its own part of this.
#![allow(dead_code)]

use harness::answers::{self, ReturnValue, Slots, BEHIND};
use harness::calls::{self, ChoiceWords, CountWords, PointsWords};
use harness::doubles::Bits;
use harness::lent::{Lent, Part};
use reference::area::WORDS;
use reference::call::Call;
use wihupya_sys::JOB_WORDS;

pub const MET: ChoiceWords = [0, 0];
pub const CAPPED: ChoiceWords = [3, 0];
pub const SPENT: u32 = 1;
pub const PROMOTED: u32 = 2;
pub const RECORDS: usize = 512;
/// The place of the pending error's low word in the job words.
pub const PENDING: usize = 2;
/// The place of the scaled mean's low word.
pub const MEAN: usize = 4;
/// The place of the carried error's low word.
pub const CARRIED: usize = 10;
const MARK: u32 = 0xa5a5_a5a5;
/// What lies in a buffer beforehand; no position is above 128.
pub const MARKED_BYTE: u8 = 0xa5;

/// What lies in the array of doubles beforehand: two that are no numbers, of
/// both kinds and with payloads, and -0.
pub const MARKED_DOUBLES: Bits =
    [0x7ff8_a5a5_a5a5_a5a5, 0xfff0_a5a5_a5a5_a5a5, 0x8000_0000_0000_0000];

/// Storage full of marks: 512 records, a part of another, a store of 100.
pub fn storage() -> Lent {
    let cells = vec![MARK; RECORDS * WORDS + 5];
    Lent { job: [MARK; JOB_WORDS], cells, store: vec![MARK as i32; 100] }
}

pub fn started(axes: u32, threshold: u64, budget: u32) -> Lent {
    let mut lent = storage();
    assert_eq!(calls::start(lent.all(), axes, threshold, budget), 0);
    lent
}

pub fn deliver(lent: &mut Lent, readings: &[i32], indicator: u32) {
    assert_eq!(calls::deliver(lent.all(), readings, indicator), 0);
}

/// What choose writes where it answers a place.
pub fn chosen(place: u32) -> ChoiceWords {
    [4, place]
}

pub fn choose(lent: &mut Lent) -> ChoiceWords {
    let mut choice = [MARK; 2];
    assert_eq!(calls::choose(lent.all(), &mut choice), 0);
    choice
}

pub fn promote(lent: &mut Lent, place: usize) -> u32 {
    let mut outcome = [MARK];
    assert_eq!(calls::promote(lent.all(), place, &mut outcome), 0);
    outcome[0]
}

/// A promotion of the chosen place.
pub fn promote_chosen(lent: &mut Lent) {
    let [answer, place] = choose(lent);
    assert_eq!([answer, place], chosen(place));
    assert_eq!(promote(lent, place as usize), PROMOTED);
}

pub fn counts(lent: &mut Lent) -> CountWords {
    let mut counts = [MARK; 11];
    assert_eq!(calls::result(lent.all(), &mut counts), 0);
    counts
}

/// Points from n on, with so many bytes lent: its words, and the buffer with
/// the bytes behind it.
pub fn points_in(lent: &mut Lent, n: u64, buffer: usize) -> (PointsWords, Vec<u8>) {
    let (whole, call) = (lent.whole(), Call::Points { n, buffer });
    let (return_value, _, after) = perform(lent, whole, &call);
    assert_eq!(return_value, ReturnValue::Number(0), "{call:?}");
    (after.points, after.buffer)
}

pub fn cross_total(lent: &mut Lent) -> i64 {
    let mut total = [MARK; 2];
    assert_eq!(calls::cross_total(lent.all(), &mut total), 0);
    let [low, high] = total.map(u64::from);
    (low | high << 32) as i64
}

/// A job of two axes, budget 64 and threshold 0 that wants (2,1) and (1,2): two
/// readings each.
pub fn wanting_two() -> Lent {
    let mut lent = started(2, 0, 64);
    deliver(&mut lent, &[4_160], 100);
    assert_eq!(promote(&mut lent, 0), PROMOTED);
    lent
}

/// The same job when the first of them has come: the index at place 0 is old, the
/// one at 1 active and the one at 2 wanted.
pub fn wanting_one() -> Lent {
    let mut lent = wanting_two();
    deliver(&mut lent, &[64, 16_448], 50);
    lent
}

/// The same job when both have come and nothing is wanted.
pub fn wanting_nothing() -> Lent {
    let mut lent = wanting_one();
    deliver(&mut lent, &[4_096, 4_224], 0);
    lent
}

/// The same storage with a pending error that isn't the active sum.
pub fn altered(mut lent: Lent) -> Lent {
    lent.job[PENDING] ^= 1;
    assert!(!calls::check_lent(&mut lent));
    lent
}

/// All cells but those that make the 512th record whole.
pub fn short_of_records(lent: &Lent) -> Part {
    Part { cells: RECORDS * WORDS - 1, ..lent.whole() }
}

/// A store one short of a budget.
pub fn short_of_readings(lent: &Lent, budget: usize) -> Part {
    Part { store: budget - 1, ..lent.whole() }
}

pub fn start(axes: u32, budget: u32) -> Call {
    Call::Start { axes, threshold: 7, budget }
}

pub fn point(n: u64) -> Call {
    Call::Point { n, buffer: 8 }
}

pub fn points(n: u64) -> Call {
    Call::Points { n, buffer: 24 }
}

pub fn promotion(place: u64) -> Call {
    Call::Promote { place }
}

pub fn delivery(readings: &[i32]) -> Call {
    Call::Deliver { readings: readings.to_vec(), indicator: 9 }
}

/// All marks, so that a word is seen to be written or left.
pub fn slots(buffer: usize) -> Slots {
    Slots {
        points: [MARK; 2],
        choice: [MARK; 2],
        outcome: [MARK],
        counts: [MARK; 11],
        total: [MARK; 2],
        doubles: MARKED_DOUBLES,
        buffer: vec![MARKED_BYTE; buffer + BEHIND],
    }
}

fn perform(lent: &mut Lent, part: Part, call: &Call) -> (ReturnValue, Slots, Slots) {
    let before = slots(call.buffer_length().unwrap_or(0));
    let mut after = before.clone();
    let return_value = answers::of_library(lent.part(part), call, &mut after);
    (return_value, before, after)
}

/// The call is refused with this number, and all that was lent is as it was.
pub fn refused_in(lent: &mut Lent, part: Part, call: &Call, number: u32) {
    let area = lent.clone();
    let (return_value, before, after) = perform(lent, part, call);
    assert_eq!(return_value, ReturnValue::Number(number), "{call:?}");
    assert_eq!(after, before, "{call:?} wrote into what it gives back");
    assert!(*lent == area, "{call:?} wrote into the area");
}

pub fn refused(lent: &mut Lent, call: &Call, number: u32) {
    refused_in(lent, lent.whole(), call, number);
}

/// The call is accepted in a copy of the storage, so that the next case finds
/// it as it was.
pub fn accepted_in(lent: &Lent, part: Part, call: &Call) {
    let (return_value, ..) = perform(&mut lent.clone(), part, call);
    assert_eq!(return_value, ReturnValue::Number(0), "{call:?}");
}

pub fn accepted(lent: &Lent, call: &Call) {
    accepted_in(lent, lent.whole(), call);
}
