//! Areas by name, each with what doubles must answer there, worked out by hand.

use crate::area::{Area, WANTED};
use crate::calls::{self, Cause, Doubled};
use crate::cases;
use crate::doubles::Report;
use crate::examples::scope_job;
use crate::grid::{HELD_LIMIT, READING_LIMIT};
use crate::jobfile;
use crate::program;

pub struct Case {
    pub name: &'static str,
    pub area: Area,
    pub answer: Doubled,
}

/// The budget of every job here but one.
const BUDGET: u32 = 64;

pub fn cases() -> Vec<Case> {
    [deliveries(), equals(), altered(), refusals()].into_iter().flatten().collect()
}

fn reported(name: &'static str, area: Area, [mean, pending, largest]: [f64; 3]) -> Case {
    Case { name, area, answer: Ok(Report { mean, pending, largest }) }
}

/// Storage whose readings are as large as can be, so that one which is not
/// delivered is noticed if it counts.
fn storage() -> Area {
    let mut area = Area::empty(HELD_LIMIT, BUDGET as usize);
    area.store.fill(READING_LIMIT);
    area
}

/// The job of threshold 0 with these deliveries, an indicator and readings each,
/// and a choose and a promote before each that finds no block wanted.
fn job(axes: u32, deliveries: &[(u32, &[i32])]) -> Area {
    let mut area = storage();
    assert_eq!(calls::start(&mut area, axes, 0, BUDGET), Ok(()));
    for (indicator, readings) in deliveries {
        if calls::first_wanted(&area).is_none() {
            assert_eq!(program::choose_and_promote(&mut area), None);
        }
        assert_eq!(calls::deliver(&mut area, readings, *indicator), Ok(()));
    }
    area
}

/// The job of the scope document, with the differences 4160, 2048, 0 and -512.
fn scope_area() -> Area {
    let mut area = storage();
    program::run(&scope_job(), &mut area);
    area
}

/// Two axes, the first up to level 8, with readings of 1 throughout: 5 pending,
/// for (1,2), and 6 carried, for (8,1).
fn capped() -> Area {
    let file = cases::two_axes(9, 131);
    let mut area = Area::empty(HELD_LIMIT, 131);
    program::run(&jobfile::parse(&file).expect("well-formed"), &mut area);
    area
}

/// The differences 0 and (-3 - 4)/4.
fn quarters() -> Area {
    job(1, &[(1, &[0]), (7, &[-3, -4])])
}

fn with_mean(mut area: Area, mean: i64) -> Area {
    area.job.mean = mean;
    area
}

/// The root's block wanted again, its reading still in the store.
fn taken_back() -> Area {
    let mut area = job(2, &[(9, &[77])]);
    area.records[0].state = WANTED;
    area.records[0].indicator = 0;
    (area.job.pending, area.job.mean) = (0, 0);
    area
}

/// Areas as the calls leave them.
fn deliveries() -> Vec<Case> {
    vec![
        reported("the scope document's job", scope_area(), [5696.0, 10.0, 4160.0]),
        reported("three axes, nothing delivered", job(3, &[]), [0.0; 3]),
        reported("a root of 0", job(3, &[(0, &[0])]), [0.0; 3]),
        // The root's reading times 2^20 is -2^40; no difference is larger.
        reported(
            "the lowest reading, the highest indicator",
            job(1, &[(u32::MAX, &[-READING_LIMIT])]),
            [-1_048_576.0, 4_294_967_295.0, -1_048_576.0],
        ),
        reported("a largest below 0, of an active index", quarters(), [-1.75, 7.0, -1.75]),
        // (2,1) is (0 + 16 - 2*4)/4; (1,2), not delivered, would come to 524286.
        reported("a block wanted", job(2, &[(1, &[4]), (3, &[0, 16])]), [6.0, 3.0, 4.0]),
        // Three times 2^32 - 1. Equal readings leave the root's difference alone.
        reported(
            "a pending error of more than 32 bits",
            job(3, &[(1, &[5]), (u32::MAX, &[5, 5]), (u32::MAX, &[5, 5]), (u32::MAX, &[5, 5])]),
            [5.0, 12_884_901_885.0, 5.0],
        ),
        reported("a carried error", capped(), [1.0, 5.0, 1.0]),
    ]
}

/// Differences of equal size.
fn equals() -> Vec<Case> {
    let three = |first: i32, second: i32, third: i32| {
        job(3, &[(1, &[0]), (0, &[first; 2]), (0, &[second; 2]), (0, &[third; 2])])
    };
    vec![
        // The second is (-4 - 4 - 2*4)/4.
        reported("4, -4", job(1, &[(1, &[4]), (0, &[-4, -4])]), [0.0, 0.0, 4.0]),
        reported("-4, 4", job(1, &[(1, &[-4]), (0, &[4, 4])]), [0.0, 0.0, -4.0]),
        // With a root of 0 a block of two equal readings comes to their half.
        reported("0, 4, 0, -4", three(8, 0, -8), [0.0, 0.0, 4.0]),
        reported("0, -4, 0, 4", three(-8, 0, 8), [0.0, 0.0, -4.0]),
        reported("0, -4, 4, 4", three(-8, 8, 8), [4.0, 0.0, -4.0]),
        reported("0, 2, -4, 4", three(4, -8, 8), [2.0, 0.0, -4.0]),
        reported("0, -3.5, 4, -4", three(-7, 8, -8), [-3.5, 0.0, 4.0]),
        reported("0, -0.5, 0.5, 0.5", three(-1, 1, 1), [0.5, 0.0, -0.5]),
    ]
}

/// Areas altered and still sound: the mean is the recorded one, the largest
/// difference is still that of the readings.
fn altered() -> Vec<Case> {
    // 12345 is 2^13 and 4153: over 2^20 the exponent is -7, and the fraction
    // begins with the 13 bits of 4153.
    let of_12345 = f64::from_bits(0x3f88_1c80_0000_0000);
    let of_1 = f64::from_bits(0x3eb0_0000_0000_0000);
    let bound = 4 << 40;
    vec![
        reported("a mean of 12345", with_mean(quarters(), 12_345), [of_12345, 7.0, -1.75]),
        reported("a mean of 1", with_mean(quarters(), 1), [of_1, 7.0, -1.75]),
        reported("a mean of -1", with_mean(quarters(), -1), [-of_1, 7.0, -1.75]),
        reported("a mean of 0", with_mean(scope_area(), 0), [0.0, 10.0, 4160.0]),
        reported("the highest mean", with_mean(scope_area(), bound), [4_194_304.0, 10.0, 4160.0]),
        reported("the lowest mean", with_mean(scope_area(), -bound), [-4_194_304.0, 10.0, 4160.0]),
        reported("a delivery taken back", taken_back(), [0.0; 3]),
    ]
}

/// Cause 3 and then cause 4.
fn refusals() -> Vec<Case> {
    let refused = |name, area, cause| Case { name, area, answer: Err(cause) };
    let unsound = |mut area: Area| {
        area.job.pending += 1;
        area
    };
    let with_carried = |mut area: Area, carried: u64| {
        area.job.carried = carried;
        area
    };
    let short_of_records = |mut area: Area| {
        area.records.truncate(HELD_LIMIT - 1);
        area
    };
    let short_of_readings = |mut area: Area| {
        area.store.truncate(BUDGET as usize - 1);
        area
    };
    let (short, broken) = (Cause::StorageShort, Cause::AreaNotSound);
    vec![
        refused("511 records", short_of_records(scope_area()), short),
        refused("a store one short of the budget", short_of_readings(scope_area()), short),
        refused("511 records, not sound", short_of_records(unsound(scope_area())), short),
        refused("a store too short, not sound", short_of_readings(unsound(scope_area())), short),
        refused("a pending error off by one", unsound(scope_area()), broken),
        refused("a carried error without a ceiling", with_carried(scope_area(), 1), broken),
        refused("a carried error left out", with_carried(capped(), 0), broken),
        refused("a mean past its bound", with_mean(scope_area(), (4 << 40) + 1), broken),
        refused("nothing delivered, a mean of 1", with_mean(job(3, &[]), 1), broken),
    ]
}
