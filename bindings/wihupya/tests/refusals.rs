//! Each cause that a call can be refused for, provoked: its name, and that
//! everything lent is as it was.

mod support;

use support::{refused, refused_in, Storage};
use wihupya::{Integrator, JobRecord, Promotion, Refusal, CELLS};

/// Makes a call in a part of the storage, where it must be refused.
type Refused = fn(&mut Storage, (usize, usize), Refusal);

/// Every call but start and check, in storage where it is accepted.
fn calls_on_an_area() -> Vec<(Storage, Refused)> {
    vec![
        (Storage::wanting_two(), |storage, part, cause| {
            refused_in(storage, part, cause, |job| job.point(0, &mut [0; 2]))
        }),
        (Storage::wanting_two(), |storage, part, cause| {
            refused_in(storage, part, cause, |job| job.points(0, &mut [0; 4]))
        }),
        (Storage::wanting_two(), |storage, part, cause| {
            refused_in(storage, part, cause, |job| job.wanted_block().map(|block| block.len()))
        }),
        (Storage::wanting_two(), |storage, part, cause| {
            refused_in(storage, part, cause, |job| job.deliver(&[64, 16_448], 1))
        }),
        (Storage::wanting_nothing(), |storage, part, cause| {
            refused_in(storage, part, cause, |job| job.choose())
        }),
        (Storage::wanting_nothing(), |storage, part, cause| {
            refused_in(storage, part, cause, |job| job.promote(1))
        }),
        (Storage::wanting_two(), |storage, part, cause| {
            refused_in(storage, part, cause, |job| job.result())
        }),
        (Storage::wanting_two(), |storage, part, cause| {
            refused_in(storage, part, cause, |job| job.doubles())
        }),
        (Storage::wanting_two(), |storage, part, cause| {
            refused_in(storage, part, cause, |job| job.cross_total())
        }),
    ]
}

/// Point and points are refused for this cause, and leave a buffer of this
/// length.
fn refused_from(storage: &mut Storage, n: usize, length: usize, cause: Refusal) {
    let mut buffer = vec![7; length];
    refused(storage, cause, |job| job.point(n, &mut buffer));
    refused(storage, cause, |job| job.points(n, &mut buffer));
    assert_eq!(buffer, vec![7; length]);
}

#[test]
fn axes_out_of_range() {
    let mut storage = Storage::wanting_two();
    for axes in [0, 9, 1 << 31 | 2, u32::MAX] {
        refused(&mut storage, Refusal::AxesOutOfRange, |job| job.start(axes, 0, 64));
    }
    for axes in [1, 8] {
        assert_eq!(storage.call(|job| job.start(axes, 0, 64)), Ok(()));
    }
}

#[test]
fn budget_out_of_range() {
    let mut storage = Storage::wanting_two();
    storage.store.resize(8_192, 0);
    for budget in [0, 8_193, 1 << 31 | 64, u32::MAX] {
        refused(&mut storage, Refusal::BudgetOutOfRange, |job| job.start(2, 0, budget));
    }
    for budget in [1, 8_192] {
        assert_eq!(storage.call(|job| job.start(2, 0, budget)), Ok(()));
    }
}

#[test]
fn storage_too_short() {
    let short = [(CELLS - 1, 64), (0, 64), (CELLS, 63), (CELLS, 0), (0, 0)];
    for part in short {
        for (mut storage, refused_call) in calls_on_an_area() {
            refused_call(&mut storage, part, Refusal::TooShort);
        }
        let mut storage = Storage::wanting_two();
        refused_in(&mut storage, part, Refusal::TooShort, |job| job.start(2, 0, 64));
        assert!(!storage.call_in(part, |job| job.check()));
        assert!(storage.call_in((CELLS, 64), |job| job.check()));
    }
}

#[test]
fn point_buffer_too_short() {
    let mut storage = Storage::wanting_two();
    for length in [0, 1] {
        refused_from(&mut storage, 0, length, Refusal::TooShort);
    }
}

#[test]
fn area_not_sound() {
    let alterations: [fn(&mut JobRecord); 2] =
        [|job| job.pending_error += 1, |job| job.carried_error += 1];
    for alter in alterations {
        for (mut storage, refused_call) in calls_on_an_area() {
            alter(&mut storage.job);
            let whole = (storage.cells.len(), storage.store.len());
            refused_call(&mut storage, whole, Refusal::NotSound);
            assert!(!storage.call(|job| job.check()));
            assert_eq!(storage.call(|job| job.start(2, 0, 64)), Ok(()));
            assert!(storage.call(|job| job.check()));
        }
    }
}

#[test]
fn storage_in_which_nothing_was_started() {
    let (mut cells, mut store) = (vec![0; CELLS], vec![0; 64]);
    let job = Integrator::new(&mut cells, &mut store);
    assert!(!job.check());
    assert_eq!(job.result(), Err(Refusal::NotSound));
}

#[test]
fn no_block_wanted() {
    let mut storage = Storage::wanting_nothing();
    for length in [2, 100] {
        refused_from(&mut storage, 0, length, Refusal::NoBlockWanted);
    }
    refused(&mut storage, Refusal::NoBlockWanted, |job| {
        job.wanted_block().map(|block| block.len())
    });
    refused(&mut storage, Refusal::NoBlockWanted, |job| job.deliver(&[1, 2], 1));
}

#[test]
fn a_block_wanted() {
    for mut storage in [Storage::started(2, 0, 64), Storage::wanting_two()] {
        refused(&mut storage, Refusal::BlockWanted, |job| job.choose());
        refused(&mut storage, Refusal::BlockWanted, |job| job.promote(0));
    }
}

#[test]
fn wrong_count() {
    let mut storage = Storage::wanting_two();
    for readings in [&[][..], &[1], &[1, 2, 3]] {
        refused(&mut storage, Refusal::WrongCount, |job| job.deliver(readings, 1));
    }
}

#[test]
fn reading_out_of_range() {
    let mut storage = Storage::wanting_two();
    for reading in [1_048_577, -1_048_577, i32::MAX, i32::MIN] {
        refused(&mut storage, Refusal::ReadingOutOfRange, |job| job.deliver(&[0, reading], 1));
    }
    assert_eq!(storage.call(|job| job.deliver(&[1_048_576, -1_048_576], 1)), Ok(()));
}

#[test]
fn no_such_point() {
    let mut storage = Storage::wanting_two();
    // The third would be point 0 if it were cut to 32 bits.
    for n in [2, 3, 1 << 32, usize::MAX] {
        for length in [2, 100] {
            refused_from(&mut storage, n, length, Refusal::NoSuchPoint);
        }
    }
}

/// Place 0 is old; places 1 and 2 are active, and no more are held.
#[test]
fn not_active() {
    let mut storage = Storage::wanting_nothing();
    for place in [0, 3, 511, 512, usize::MAX] {
        refused(&mut storage, Refusal::NotActive, |job| job.promote(place));
    }
    assert_eq!(storage.call(|job| job.promote(2)), Ok(Promotion::Promoted));
}
