//! What doubles reports, bit by bit: on areas by name, on jobs of named cases,
//! and on altered areas, where the mean is the recorded one and the largest
//! difference that of the readings.

mod support;

use harness::calls;
use harness::doubles::{self, Bits};
use harness::lent::Lent;
use reference::alter;
use reference::area::Area;
use reference::calls as reference_calls;
use reference::doubles::Report;
use reference::laws;
use reference::reports::{self, Case};
use reference::rng::Rng;
use reference::sample;
use support::*;

/// What doubles answers: its number, and the bits of the array after it, which
/// held the marks before.
fn doubled(lent: &mut Lent) -> (u32, Bits) {
    let mut bits = MARKED_DOUBLES;
    let number = doubles::call(lent.all(), &mut bits);
    (number, bits)
}

fn assert_reported(lent: &mut Lent, report: [f64; 3]) {
    assert_eq!(doubled(lent), (0, report.map(f64::to_bits)), "{report:?}");
}

/// Doubles answers on the area as the reference does, and what it reports breaks
/// no law. The laws take doubles by their bits and reckon in whole numbers.
fn assert_as_reference(area: &Area, what: &str) {
    let answer = reference_calls::doubles(area);
    let expected = match answer {
        Ok(report) => (0, report.bits()),
        Err(cause) => (cause.number(), MARKED_DOUBLES),
    };
    let (number, bits) = doubled(&mut Lent::of(area));
    assert_eq!((number, bits), expected, "{what}");
    if number == 0 {
        let [mean, pending, largest] = bits.map(f64::from_bits);
        let report = Report { mean, pending, largest };
        assert_eq!(laws::broken_by_doubles(area, &Ok(report)), None, "{what}");
    }
}

/// One axis and threshold 0: the root with this reading and indicator 1,
/// promoted, then the block of level 2.
fn one_axis(root: i32, ends: [i32; 2], indicator: u32) -> Lent {
    let mut lent = started(1, 0, 64);
    deliver(&mut lent, &[root], 1);
    assert_eq!(promote(&mut lent, 0), PROMOTED);
    deliver(&mut lent, &ends, indicator);
    lent
}

/// Answers worked out by hand; the refused leave the array.
#[test]
fn the_areas_by_name() {
    let cases = reports::cases();
    assert_eq!(cases.len(), 32);
    for Case { name, area, answer } in cases {
        let expected = match answer {
            Ok(report) => (0, report.bits()),
            Err(cause) => (cause.number(), MARKED_DOUBLES),
        };
        assert_eq!(doubled(&mut Lent::of(&area)), expected, "{name}");
        assert_as_reference(&area, name);
    }
}

/// After each delivery of the scope document's job.
#[test]
fn the_scope_document_job() {
    let mut lent = started(2, 40, 64);
    assert_reported(&mut lent, [0.0; 3]);
    deliver(&mut lent, &[4_160], 100);
    assert_reported(&mut lent, [4160.0, 100.0, 4160.0]);
    promote_chosen(&mut lent);
    deliver(&mut lent, &[64, 16_448], 50);
    deliver(&mut lent, &[4_096, 4_224], 0);
    assert_reported(&mut lent, [6208.0, 50.0, 4160.0]);
    promote_chosen(&mut lent);
    deliver(&mut lent, &[1_088, 9_280], 10);
    assert_eq!(choose(&mut lent), MET);
    assert_reported(&mut lent, [5696.0, 10.0, 4160.0]);
}

#[test]
fn with_nothing_delivered_all_bits_are_0() {
    for axes in 1..=8 {
        assert_eq!(doubled(&mut started(axes, 7, 64)), (0, [0; 3]));
    }
}

#[test]
fn of_equal_sizes_the_lowest_place_is_given() {
    assert_reported(&mut one_axis(4, [-4, -4], 0), [0.0, 0.0, 4.0]);
    assert_reported(&mut one_axis(-4, [4, 4], 0), [0.0, 0.0, -4.0]);
}

#[test]
fn the_recorded_mean_is_given_and_the_largest_is_worked_out() {
    let mut lent = one_axis(0, [-3, -4], 7);
    assert_reported(&mut lent, [-1.75, 7.0, -1.75]);
    (lent.job[MEAN], lent.job[MEAN + 1]) = (12_345, 0);
    assert!(calls::check_lent(&mut lent));
    assert_reported(&mut lent, [12_345.0 / 1_048_576.0, 7.0, -1.75]);
}

/// Means of all sizes up to both bounds, on areas made by calls.
#[test]
fn where_the_recorded_mean_is_altered_the_largest_is_not() {
    let (mut rng, mut others) = (Rng::new(8), 0);
    for seed in 0..200 {
        let before = sample::area(seed);
        let delivered = before.held().iter().filter(|record| record.is_delivered()).count() as i64;
        let (_, [_, pending, largest]) = doubled(&mut Lent::of(&before));
        let any = (rng.number() as i64 >> 14 >> rng.below(50)) % ((delivered << 40) + 1);
        for mean in [delivered << 40, -delivered << 40, before.job.mean / 2, 0, any] {
            let mut area = before.clone();
            area.job.mean = mean;
            assert_as_reference(&area, &format!("seed {seed}, mean {mean}"));
            let (number, bits) = doubled(&mut Lent::of(&area));
            assert_eq!((number, bits[1], bits[2]), (0, pending, largest), "seed {seed}");
            others += u32::from(mean != before.job.mean);
        }
    }
    assert!(others > 500, "{others}");
}

/// Areas altered in any way, in storage that is short at times.
#[test]
fn on_altered_areas_doubles_answers_as_the_reference_does() {
    let mut rng = Rng::new(9);
    let mut answers = [0; 5];
    for seed in 0..1_500 {
        let mut area = sample::area(seed);
        alter::alter(&mut area, &mut rng);
        if rng.percent(15) {
            area.records.truncate(rng.between(510, 513) as usize);
            area.store.truncate((area.job.budget as usize + 1).saturating_sub(rng.place(3)));
        }
        assert_as_reference(&area, &format!("seed {seed}"));
        answers[doubled(&mut Lent::of(&area)).0 as usize] += 1;
    }
    let [reported, _, _, short, unsound] = answers;
    assert!(reported > 100 && short > 50 && unsound > 500, "{answers:?}");
}

/// 512 held, and both ceilings.
#[test]
fn on_large_areas_doubles_answers_as_the_reference_does() {
    for area in [sample::full_area(7, 7), sample::ceiling_area(1)] {
        assert_as_reference(&area, "a large area");
    }
}
