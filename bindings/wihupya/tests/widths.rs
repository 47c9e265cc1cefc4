//! Nothing is narrowed on its way into the library or back.

mod support;

use support::{run, Storage};
use wihupya::{Choice, JobRecord, LARGEST_READING, SCALE};

#[test]
fn every_twelve_words_are_a_job_record() {
    let words = std::array::from_fn(|word| 0x8101_0101u32.wrapping_mul(word as u32 + 1));
    let job = JobRecord::from_words(words);
    assert_eq!(job.to_words(), words);
    assert_eq!(job.threshold, 0x0202_0202_8101_0101);
    assert_eq!(job.carried_error, 0x0c0c_0c0c_8b0b_0b0b);
    let distinct = JobRecord {
        threshold: u64::MAX - 1,
        pending_error: 1 << 63,
        carried_error: 1 << 63 | 1,
        scaled_mean: i64::MIN,
        axes: u32::MAX,
        budget: u32::MAX - 1,
        held: 1 << 31,
        reserved: 7,
    };
    assert_eq!(JobRecord::from_words(distinct.to_words()), distinct);
}

#[test]
fn a_threshold_keeps_its_64_bits() {
    for threshold in [u64::MAX, 1 << 32, 1 << 63, 0x0123_4567_89ab_cdef] {
        let mut storage = Storage::started(1, threshold, 64);
        assert_eq!(storage.job.threshold, threshold);
        storage.call(|job| job.deliver(&[0], u32::MAX)).unwrap();
        assert_eq!(storage.call(|job| job.choose()), Ok(Choice::Met));
    }
}

#[test]
fn a_pending_error_passes_32_bits() {
    let mut storage = Storage::wanting_two();
    for _ in 0..2 {
        storage.call(|job| job.deliver(&[0, 0], u32::MAX)).unwrap();
    }
    let counts = storage.call(|job| job.result()).unwrap();
    assert_eq!(counts.pending_error, 2 * u64::from(u32::MAX));
    assert_eq!(storage.job.pending_error, counts.pending_error);
}

/// Both axes are refined up to their highest level. (2,2) comes beside them, and
/// matters nothing.
#[test]
fn a_carried_error_passes_32_bits() {
    let indicator = |levels: &[u32]| if levels == [2, 2] { 0 } else { u32::MAX };
    let (mut storage, end) = run((2, 0, 261), 1, indicator);
    assert_eq!(end, Choice::Capped);
    let counts = storage.call(|job| job.result()).unwrap();
    assert_eq!((counts.old, counts.ceiling, counts.pending_error), (15, 2, 0));
    assert_eq!(counts.carried_error, 2 * u64::from(u32::MAX));
    assert_eq!(storage.job.carried_error, counts.carried_error);
}

#[test]
fn a_mean_keeps_its_sign_and_its_64_bits() {
    for reading in [LARGEST_READING, -LARGEST_READING, -1, 4_160] {
        let mut storage = Storage::started(8, 0, 64);
        storage.call(|job| job.deliver(&[reading], 1)).unwrap();
        let scaled_mean = i64::from(reading) * SCALE;
        assert_eq!(storage.call(|job| job.result()).unwrap().scaled_mean, scaled_mean);
        assert_eq!(storage.call(|job| job.cross_total()), Ok(scaled_mean));
        assert_eq!(storage.job.scaled_mean, scaled_mean);
    }
}
