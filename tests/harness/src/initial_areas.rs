//! Where a list of calls begins: storage full of anything, in which a job has
//! to be started first, or an area that the reference's calls have made, some
//! of them near a ceiling, near 512 held or with a large block wanted.

use crate::check_cases;
use reference::area::{Area, IndexRecord, JobRecord, WORDS};
use reference::calls::{self, Promotion};
use reference::choice::{Chooser, Parameters};
use reference::grid::{self, BUDGET_LIMIT, HELD_LIMIT, MOST_AXES};
use reference::places::Places;
use reference::rng::Rng;
use reference::sample;
use reference::style::{self, IndicatorStyle, ReadingStyle};
use std::collections::BTreeMap;

pub struct InitialArea {
    pub area: Area,
    /// Cells past the last whole record, fewer than a record has.
    pub rest: Vec<u32>,
    /// How many calls the list has.
    pub calls: u64,
}

/// Jobs near 512 held take up to a second to make, so each is made once.
#[derive(Default)]
pub struct InitialAreas {
    nearly_full: BTreeMap<usize, Vec<Area>>,
}

impl InitialAreas {
    /// The beginning of a list; it depends on the numbers drawn alone.
    pub fn next(&mut self, chooser: &mut Chooser) -> InitialArea {
        let rng = &mut chooser.rng;
        let mut calls = rng.between(30, 240) as u64;
        let mut steps = rng.pick(&[60, 80, 90]);
        let mut area = match rng.below(1_000) {
            0..=29 => {
                calls = rng.between(20, 80) as u64;
                self.nearly_full(rng)
            }
            30..=69 => check_cases::near_ceiling(rng),
            70..=99 => {
                // The block is asked for rather than delivered.
                (calls, steps) = (20, 0);
                large_block(rng)
            }
            100..=199 => sample::area(rng.number()),
            _ => garbage(rng),
        };
        area.records.truncate(HELD_LIMIT + rng.pick(&[0, 0, 1, 3, 8]));
        area.store.truncate(BUDGET_LIMIT as usize + rng.pick(&[0, 1, 40]));
        let rest = (0..rng.place(WORDS)).map(|_| rng.number() as u32).collect();
        if calls::check(&area) {
            chooser.parameters.steps = steps;
            follow(&mut chooser.parameters, &area, rng);
        }
        InitialArea { area, rest, calls }
    }

    /// A job a few promotions before its end at 512 held, or at that end. Its
    /// budget may be any that it hasn't passed, for the calls so far have
    /// taken no notice of it.
    pub fn nearly_full(&mut self, rng: &mut Rng) -> Area {
        let axes = rng.between(5, MOST_AXES as i64) as usize;
        let areas = self.nearly_full.entry(axes).or_insert_with(|| grow(axes));
        let last = areas.len() - 1;
        let mut area = areas[if rng.percent(60) { last } else { rng.place(areas.len()) }].clone();
        let reserved = area.job.reserved;
        area.job.budget = rng.pick(&[BUDGET_LIMIT, BUDGET_LIMIT, reserved, reserved + 20]);
        area
    }
}

/// The job goes on as it came to be.
fn follow(parameters: &mut Parameters, area: &Area, rng: &mut Rng) {
    parameters.axes = area.job.axes;
    parameters.indicators = rng.pick(&[
        IndicatorStyle::SmallBlocksFirst,
        IndicatorStyle::LargeBlocksFirst,
        IndicatorStyle::Ties,
        IndicatorStyle::Any,
    ]);
}

/// The last areas of a job that takes small blocks first: after each promotion
/// from 470 held on, and before the promotion that is spent.
fn grow(axes: usize) -> Vec<Area> {
    let mut rng = Rng::new(axes as u64);
    let mut area = Area::empty(HELD_LIMIT + 8, BUDGET_LIMIT as usize + 40);
    let mut areas = Vec::new();
    assert_eq!(calls::start(&mut area, axes as u32, 0, BUDGET_LIMIT), Ok(()));
    loop {
        while let Some(place) = calls::first_wanted(&area) {
            let levels = area.records[place].levels;
            let indicator = style::indicator(IndicatorStyle::SmallBlocksFirst, &mut rng, &levels);
            let readings = style::readings(ReadingStyle::Any, &mut rng, axes, &levels);
            assert_eq!(calls::deliver(&mut area, &readings, indicator), Ok(()));
        }
        if promote_largest(&mut area) == Promotion::Spent {
            areas.push(area);
            return areas;
        }
        if area.job.held >= 470 {
            areas.push(area.clone());
        }
    }
}

/// Promotes where the rule does, the threshold being 0. Choose isn't asked, which
/// would look through the whole area once more.
fn promote_largest(area: &mut Area) -> Promotion {
    let largest = Places::of_area(area).largest.expect("an index is active");
    calls::promote(area, largest).expect("no block is wanted")
}

/// A job that goes straight for an index whose block has 1,024 points, the most
/// that a job can reach, up to where that block is the first wanted.
pub fn large_block(rng: &mut Rng) -> Area {
    let axes = rng.between(2, MOST_AXES as i64) as usize;
    let levels = rng.pick(&[(8, 6), (7, 7)]);
    let target = check_cases::on_two_axes(axes, levels, rng);
    let mut area = Area::empty(HELD_LIMIT + 8, BUDGET_LIMIT as usize + 40);
    assert_eq!(calls::start(&mut area, axes as u32, 0, BUDGET_LIMIT), Ok(()));
    loop {
        let Some(place) = calls::first_wanted(&area) else {
            assert_eq!(promote_largest(&mut area), Promotion::Promoted);
            continue;
        };
        let levels = area.records[place].levels;
        if levels == target {
            return area;
        }
        let indicator = u32::from(grid::nowhere_higher(&levels, &target));
        let readings = style::readings(ReadingStyle::Any, rng, axes, &levels);
        assert_eq!(calls::deliver(&mut area, &readings, indicator), Ok(()));
    }
}

/// Storage as it may be found: of sufficient length and full of anything.
pub fn garbage(rng: &mut Rng) -> Area {
    let mut record =
        || IndexRecord::from_words(&std::array::from_fn::<u32, WORDS, _>(|_| rng.number() as u32));
    let records = (0..HELD_LIMIT + 8).map(|_| record()).collect();
    let store = (0..BUDGET_LIMIT + 40).map(|_| rng.number() as i32).collect();
    let job = JobRecord {
        axes: rng.below(10) as u32,
        threshold: rng.number(),
        budget: rng.number() as u32 >> rng.below(32),
        held: rng.number() as u32 >> rng.below(32),
        reserved: rng.number() as u32,
        pending: rng.number(),
        mean: rng.number() as i64,
        carried: rng.number(),
    };
    Area { job, records, store }
}
