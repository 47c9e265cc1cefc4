//! Areas made by the calls, by seed, for comparisons and for altering. The
//! storage is a little longer than it must be and starts as garbage that is
//! out of range as often as not.

use crate::area::Area;
use crate::calls::{self, Promotion};
use crate::corner::{self, Corner};
use crate::generate::ceiling_target;
use crate::grid::{self, BUDGET_LIMIT, HELD_LIMIT, ROOT};
use crate::places::Places;
use crate::rng::Rng;
use crate::style::{self, IndicatorStyle, ReadingStyle};

/// How far and in which shape a sample's job is run.
pub struct Shape {
    pub axes: usize,
    pub threshold: u64,
    pub budget: u32,
    pub indicators: IndicatorStyle,
    pub readings: ReadingStyle,
    pub deliveries: usize,
}

/// The area of a seed: mostly small, at times near a ceiling or past it, at times
/// by promotes of places that the rule doesn't select.
pub fn area(seed: u64) -> Area {
    let mut rng = Rng::new(seed);
    let axes = rng.between(1, 8) as usize;
    let mut shape = Shape {
        axes,
        threshold: rng.pick(&[0, 0, 10, 1 << 31]),
        budget: rng.between(1, 200) as u32,
        indicators: style::any_indicator_style(&mut rng, axes),
        readings: style::any_reading_style(&mut rng),
        deliveries: rng.place(40),
    };
    if rng.percent(10) {
        shape.indicators = IndicatorStyle::Toward(ceiling_target(&mut rng, axes));
        shape.threshold = 0;
        shape.budget = BUDGET_LIMIT;
        shape.deliveries = rng.between(8, 60) as usize;
    } else if rng.percent(10) {
        let Corner { indicators, threshold, budget } = corner::of_level(&mut rng, axes);
        (shape.indicators, shape.threshold, shape.budget) = (indicators, threshold, budget);
        shape.deliveries = rng.between(8, 60) as usize;
    }
    let own_way = match rng.percent(30) {
        true => rng.pick(&[10, 50, 100]),
        false => 0,
    };
    run_led(&shape, own_way, &mut rng)
}

/// An area with all 512 places held or nearly so.
pub fn full_area(seed: u64, axes: usize) -> Area {
    let shape = Shape {
        axes,
        threshold: 0,
        budget: BUDGET_LIMIT,
        indicators: IndicatorStyle::SmallBlocksFirst,
        readings: ReadingStyle::Smooth,
        deliveries: HELD_LIMIT,
    };
    run(&shape, &mut Rng::new(seed))
}

/// An area whose job has used two axes up to the excess of 12, so that a next
/// index past that ceiling has all its backward neighbours old.
pub fn ceiling_area(seed: u64) -> Area {
    let mut target = ROOT;
    (target[0], target[1]) = (8, 7);
    let shape = Shape {
        axes: 2,
        threshold: 0,
        budget: BUDGET_LIMIT,
        indicators: IndicatorStyle::Toward(target),
        readings: ReadingStyle::Smooth,
        deliveries: HELD_LIMIT,
    };
    run(&shape, &mut Rng::new(seed))
}

/// A job by the rule alone, up to its end or to so many deliveries.
pub fn run(shape: &Shape, rng: &mut Rng) -> Area {
    run_led(shape, 0, rng)
}

/// A job in which so many of a hundred promotes go to any active place, the end
/// that choose answers or not.
pub fn run_led(shape: &Shape, own_way: u64, rng: &mut Rng) -> Area {
    let mut area = Area::empty(HELD_LIMIT + 8, BUDGET_LIMIT as usize + 48);
    for reading in &mut area.store {
        *reading = rng.number() as i32 >> rng.below(24);
    }
    let started = calls::start(&mut area, shape.axes as u32, shape.threshold, shape.budget);
    assert_eq!(started, Ok(()));
    let mut deliveries = 0;
    loop {
        if let Some(place) = calls::first_wanted(&area) {
            if deliveries == shape.deliveries {
                return area;
            }
            let levels = area.records[place].levels;
            let indicator = style::indicator(shape.indicators, rng, &levels);
            let readings = style::readings(shape.readings, rng, shape.axes, &levels);
            assert!(readings.iter().all(|&reading| grid::reading_in_range(reading)));
            assert_eq!(calls::deliver(&mut area, &readings, indicator), Ok(()));
            deliveries += 1;
        } else if !goes_on(&mut area, own_way, rng) {
            return area;
        }
    }
}

/// Promotes the chosen place or any active one; false where that ends the job.
fn goes_on(area: &mut Area, own_way: u64, rng: &mut Rng) -> bool {
    let places = Places::of_area(area);
    let place = match places.active.is_empty() || !rng.percent(own_way) {
        true => places.chosen(),
        false => Some(rng.pick(&places.active)),
    };
    place.is_some_and(|place| calls::promote(area, place) == Ok(Promotion::Promoted))
}
