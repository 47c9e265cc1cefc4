//! The report of doubles: what it says of named jobs, bit by bit, and that it
//! loses nothing of what result gives.

mod support;

use support::{promote_chosen, Storage};
use wihupya::{Doubles, Integrator, LARGEST_READING, SCALE};

/// Bit by bit, so that -0 is not taken for 0.
fn bits(doubles: Doubles) -> [u64; 3] {
    let Doubles { mean, pending_error, largest_difference } = doubles;
    [mean, pending_error, largest_difference].map(f64::to_bits)
}

/// Mean, pending error and largest difference are these, and nothing changes.
fn assert_doubles(storage: &mut Storage, expected: [f64; 3]) {
    let before = storage.clone();
    let doubles = storage.call(|job| job.doubles()).unwrap();
    assert_eq!(bits(doubles), expected.map(f64::to_bits), "{doubles:?}, {expected:?}");
    assert!(*storage == before, "doubles changes nothing");
}

/// One axis and threshold 0: the root with this reading and indicator 1,
/// refined, then both ends.
fn one_axis(root: i32, ends: [i32; 2], indicator: u32) -> Storage {
    let mut storage = Storage::started(1, 0, 64);
    storage.call(|job| {
        job.deliver(&[root], 1).unwrap();
        job.promote(0).unwrap();
        job.deliver(&ends, indicator).unwrap();
    });
    storage
}

/// The job of the scope document; its differences are 4160, 2048, 0 and -512.
#[test]
fn the_documents_job() {
    let mut storage = Storage::started(2, 40, 64);
    let deliveries: [(u32, &[i32], [f64; 3]); 4] = [
        (100, &[4_160], [4160.0, 100.0, 4160.0]),
        (50, &[64, 16_448], [6208.0, 50.0, 4160.0]),
        (0, &[4_096, 4_224], [6208.0, 50.0, 4160.0]),
        (10, &[1_088, 9_280], [5696.0, 10.0, 4160.0]),
    ];
    for (indicator, readings, expected) in deliveries {
        if storage.call(|job| job.wanted_block().is_err()) {
            storage.call(promote_chosen);
        }
        storage.call(|job| job.deliver(readings, indicator)).unwrap();
        assert_doubles(&mut storage, expected);
    }
}

#[test]
fn with_nothing_delivered_all_bits_are_0() {
    for axes in 1..=8 {
        let doubles = Storage::started(axes, 0, 64).call(|job| job.doubles()).unwrap();
        assert_eq!(bits(doubles), [0; 3]);
    }
}

#[test]
fn of_equal_sizes_the_one_of_the_lowest_place_is_given() {
    assert_doubles(&mut one_axis(4, [-4, -4], 0), [0.0, 0.0, 4.0]);
    assert_doubles(&mut one_axis(-4, [4, 4], 0), [0.0, 0.0, -4.0]);
}

#[test]
fn another_recorded_mean_moves_the_mean_alone() {
    let mut storage = one_axis(0, [-3, -4], 7);
    assert_doubles(&mut storage, [-1.75, 7.0, -1.75]);
    storage.job.scaled_mean = 12_345;
    assert!(storage.call(|job| job.check()));
    // 12345 is 2^13 and 4153: over 2^20 the exponent is -7.
    assert_doubles(&mut storage, [f64::from_bits(0x3f88_1c80_0000_0000), 7.0, -1.75]);
}

/// The largest numbers that one delivery can bring.
#[test]
fn full_width() {
    for reading in [LARGEST_READING, -LARGEST_READING] {
        let mut storage = Storage::started(8, 0, 64);
        storage.call(|job| job.deliver(&[reading], u32::MAX)).unwrap();
        let mean = f64::from(reading);
        assert_doubles(&mut storage, [mean, 4_294_967_295.0, mean]);
    }
}

/// Mean and pending error are exactly those of result.
fn assert_lossless(job: &Integrator) {
    let (counts, doubles) = (job.result().unwrap(), job.doubles().unwrap());
    assert_eq!((doubles.mean * SCALE as f64) as i64, counts.scaled_mean);
    assert_eq!(doubles.mean, counts.scaled_mean as f64 / SCALE as f64);
    assert_eq!(doubles.pending_error as u64, counts.pending_error);
}

/// All readings are 1, so that the root's difference is 1 and every other 0.
#[test]
fn the_figures_of_result_on_the_way_to_an_index() {
    for (axes, target) in [(1, &[8][..]), (3, &[3, 1, 4]), (8, &[2, 2, 2, 1, 1, 1, 1, 3])] {
        let mut storage = support::grow(axes, target, |job| {
            assert_lossless(job);
            let delivered = job.result().unwrap().wanted < job.job().held;
            let largest = if delivered { 1.0 } else { 0.0 };
            assert_eq!(job.doubles().unwrap().largest_difference, largest);
        });
        assert_eq!(storage.call(|job| job.doubles()).unwrap().mean, 1.0);
    }
}
