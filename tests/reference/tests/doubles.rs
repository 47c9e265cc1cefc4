//! The call doubles: what it reports of areas by name, what refuses it, and the
//! laws that tie it to result and the differences.

use reference::alter;
use reference::area::Area;
use reference::call::{self, Answer, Call};
use reference::calls::{self, Cause, Choice};
use reference::doubles::{self, ExactReport};
use reference::examples::scope_job;
use reference::laws;
use reference::log::Log;
use reference::program;
use reference::replay::LENT;
use reference::reports::{self, Case};
use reference::rng::Rng;
use reference::sample;

/// What lies in every array beforehand; one isn't a number, one is -0.
const CONTENT: [f64; 3] = [f64::NAN, -0.0, 7.5];

fn report(area: &Area) -> [f64; 3] {
    calls::doubles(area).unwrap().array()
}

fn bits(doubles: [f64; 3]) -> [u64; 3] {
    doubles.map(f64::to_bits)
}

fn started(axes: u32) -> Area {
    let mut area = Area::empty(512, 64);
    assert_eq!(calls::start(&mut area, axes, 0, 64), Ok(()));
    area
}

/// One axis and threshold 0: the root with this reading and indicator 1,
/// promoted, then the block of level 2.
fn one_axis(root: i32, ends: [i32; 2], indicator: u32) -> Area {
    let mut area = started(1);
    assert_eq!(calls::deliver(&mut area, &[root], 1), Ok(()));
    assert_eq!(program::choose_and_promote(&mut area), None);
    assert_eq!(calls::deliver(&mut area, &ends, indicator), Ok(()));
    area
}

#[test]
fn the_areas_by_name() {
    for Case { name, area, answer } in reports::cases() {
        assert_eq!(calls::doubles(&area), answer, "{name}");
        let mut lent = CONTENT;
        let (number, due) = match answer {
            Ok(report) => (0, report.array()),
            Err(cause) => (cause.number(), CONTENT),
        };
        assert_eq!(calls::doubles_into(&area, &mut lent), number, "{name}");
        assert_eq!(bits(lent), bits(due), "{name}");
        laws::assert_doubles(&area, CONTENT);
        let mut copy = area.clone();
        let expected = answer.map_or_else(Answer::Refused, Answer::Doubles);
        assert_eq!(call::perform(&mut copy, &Call::Doubles, &mut []), expected, "{name}");
        assert_eq!(copy, area, "{name}: the area is as it was");
    }
}

/// The scope document's deliveries: 5972688896 over 2^20, 10, and the root's
/// difference, which is its reading.
#[test]
fn the_scope_document_job_call_by_call() {
    let mut area = Area::empty(512, 64);
    let mut log = Log::default();
    let mut both = |area: &mut Area, call: Call| {
        let answer = call::perform(area, &call, &mut []);
        assert_eq!(log.expect(&call, LENT), answer, "{call:?}");
        answer
    };
    both(&mut area, Call::Start { axes: 2, threshold: 40, budget: 64 });
    let due = [
        [4160.0, 100.0, 4160.0],
        [6208.0, 50.0, 4160.0],
        [6208.0, 50.0, 4160.0],
        [5696.0, 10.0, 4160.0],
    ];
    for (entry, due) in scope_job().entries.into_iter().zip(due) {
        if calls::first_wanted(&area).is_none() {
            let Answer::Choice(Choice::Place(place)) = both(&mut area, Call::Choose) else {
                panic!("the job goes on");
            };
            both(&mut area, Call::Promote { place });
        }
        let (readings, indicator) = (entry.readings, entry.indicator);
        assert_eq!(both(&mut area, Call::Deliver { readings, indicator }), Answer::Delivered);
        assert!(matches!(both(&mut area, Call::Doubles), Answer::Doubles(_)));
        assert_eq!(bits(report(&area)), bits(due));
    }
    assert_eq!(calls::result(&area).unwrap().mean, 5_972_688_896);
}

#[test]
fn nothing_delivered_is_three_times_all_bits_0() {
    assert_eq!(bits(report(&started(3))), [0; 3]);
}

#[test]
fn of_4_and_minus_4_the_first_is_the_largest() {
    assert_eq!(bits(report(&one_axis(4, [-4, -4], 0))), bits([0.0, 0.0, 4.0]));
    assert_eq!(bits(report(&one_axis(-4, [4, 4], 0))), bits([0.0, 0.0, -4.0]));
}

#[test]
fn the_recorded_mean_is_given_and_the_largest_is_worked_out() {
    let mut area = one_axis(0, [-3, -4], 7);
    assert_eq!(bits(report(&area)), bits([-1.75, 7.0, -1.75]));
    area.job.mean = 12_345;
    assert!(calls::check(&area));
    let fraction = doubles::over_2_to_20(12_345);
    assert_eq!(fraction.to_bits(), 0x3f88_1c80_0000_0000);
    assert_eq!(bits(report(&area)), bits([fraction, 7.0, -1.75]));
    let exact = ExactReport { mean: 12_345, pending: 7 << 20, largest: -7 << 18 };
    assert_eq!(calls::exact_report(&area), Ok(exact));
}

/// A change of the readings, with the recorded mean left, moves the largest
/// difference alone.
#[test]
fn an_altered_reading_moves_the_largest_alone() {
    let mut area = one_axis(4, [-4, -4], 3);
    area.store[2] = 12;
    assert!(calls::check(&area));
    assert_eq!(bits(report(&area)), bits([0.0, 3.0, 4.0]), "(-4 + 12 - 8)/4 is 0");
    area.store[1] = -24;
    assert_eq!(bits(report(&area)), bits([0.0, 3.0, -5.0]), "(-24 + 12 - 8)/4");
}

#[test]
fn cause_3_comes_before_4_and_both_leave_the_array() {
    let sound = one_axis(4, [-4, -4], 3);
    let mut unsound = sound.clone();
    unsound.job.held = 1;
    for area in [&sound, &unsound] {
        for (records, store) in [(511, 64), (0, 64), (512, 63), (512, 0), (511, 63)] {
            let mut short = area.clone();
            short.records.truncate(records);
            short.store.truncate(store);
            let mut lent = CONTENT;
            assert_eq!(calls::doubles(&short), Err(Cause::StorageShort));
            assert_eq!(calls::doubles_into(&short, &mut lent), 3);
            assert_eq!(bits(lent), bits(CONTENT));
        }
    }
    let mut lent = CONTENT;
    assert_eq!(calls::doubles(&unsound), Err(Cause::AreaNotSound));
    assert_eq!(calls::doubles_into(&unsound, &mut lent), 4);
    assert_eq!(bits(lent), bits(CONTENT));
    assert_eq!(calls::doubles_into(&sound, &mut lent), 0);
    assert_eq!(bits(lent), bits([0.0, 3.0, 4.0]));
}

/// The laws on areas of all kinds, most of them altered since, some in short
/// storage, with any content of the array.
#[test]
fn the_laws_on_altered_areas_and_short_storage() {
    let mut rng = Rng::new(21);
    let (mut sound, mut other_mean, mut short, mut unsound) = (0, 0, 0, 0);
    for seed in 0..1_600 {
        let mut area = sample::area(seed);
        if rng.percent(70) {
            alter::alter(&mut area, &mut rng);
        }
        if rng.percent(15) {
            area.records.truncate(rng.between(510, 513) as usize);
            area.store.truncate((area.job.budget as usize + 1).saturating_sub(rng.place(3)));
        }
        laws::assert_doubles(&area, std::array::from_fn(|_| f64::from_bits(rng.number())));
        match calls::exact_report(&area) {
            Ok(exact) => {
                sound += 1;
                other_mean +=
                    u32::from(calls::cross_total(&area).map(i128::from) != Ok(exact.mean));
            }
            Err(Cause::StorageShort) => short += 1,
            Err(cause) => {
                assert_eq!(cause, Cause::AreaNotSound);
                unsound += 1;
            }
        }
    }
    assert!(sound > 300 && other_mean > 30, "{sound} sound, {other_mean} with another mean");
    assert!(short > 50 && unsound > 300, "{short} short, {unsound} not sound");
}

/// An area that holds 512, and one at the ceilings.
#[test]
fn the_laws_on_large_areas() {
    for area in [sample::full_area(7, 7), sample::ceiling_area(1)] {
        laws::assert_doubles(&area, CONTENT);
        let exact = calls::exact_report(&area).unwrap();
        assert_eq!(calls::doubles(&area), Ok(exact.report()));
    }
}
