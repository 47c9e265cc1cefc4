//! Areas by seed. Most are made by calls of the reference and then altered in
//! one to three places; some lie in short storage or at the limits of held
//! records and lengths; some are garbage throughout.

use reference::alter;
use reference::area::{Area, IndexRecord, JobRecord, WORDS};
use reference::grid::{Levels, BUDGET_LIMIT, HELD_LIMIT, ROOT};
use reference::rng::Rng;
use reference::sample::{self, Shape};
use reference::style::{self, IndicatorStyle};
use std::collections::BTreeMap;

#[derive(Clone, Copy, Debug, PartialEq, Eq, PartialOrd, Ord)]
pub enum Kind {
    /// As the calls left it, or with other content where none matters.
    Unaltered,
    Altered,
    ShortStorage,
    AtLimits,
    Garbage,
}

/// An area to hold the answers against each other on.
#[derive(Clone, Debug, PartialEq, Eq)]
pub struct Case {
    pub kind: Kind,
    /// What was done to it, in words.
    pub done: Vec<String>,
    pub area: Area,
    /// Cells past the last whole record, fewer than a record has.
    pub rest: Vec<u32>,
}

/// Full areas take up to a second to make, so each is made once.
#[derive(Default)]
pub struct CheckCases {
    full: BTreeMap<usize, Area>,
}

impl CheckCases {
    /// The cases of a seed: an area as the calls left it and what became of
    /// it, or garbage. They depend on the seed alone.
    pub fn cases(&mut self, seed: u64) -> Vec<Case> {
        let mut rng = Rng::new(!seed);
        let (kind, change): (Kind, fn(&mut Case, &mut Rng)) = match rng.below(100) {
            0..=85 => (Kind::Altered, altered),
            86..=90 => (Kind::ShortStorage, short_storage),
            91..=96 => (Kind::AtLimits, at_limits),
            _ => (Kind::Garbage, garbage),
        };
        let area = match kind {
            Kind::Garbage => Area::empty(0, 0),
            Kind::AtLimits if rng.percent(10) => self.full(7),
            _ => self.base(seed, &mut rng),
        };
        let unaltered = Case { kind: Kind::Unaltered, done: Vec::new(), area, rest: Vec::new() };
        let mut changed = Case { kind, ..unaltered.clone() };
        change(&mut changed, &mut rng);
        match kind {
            Kind::Garbage => vec![changed],
            _ => vec![unaltered, changed],
        }
    }

    /// An area made by the calls.
    fn base(&mut self, seed: u64, rng: &mut Rng) -> Area {
        let mut area = match rng.below(100) {
            0 | 1 => self.full(rng.between(1, 8) as usize),
            2 => sample::ceiling_area(seed),
            3..=7 => near_ceiling(rng),
            _ => sample::area(seed),
        };
        if rng.percent(50) {
            fill_unused(&mut area, rng);
        }
        area
    }

    /// The full area of 7 axes has all 512 places held.
    fn full(&mut self, axes: usize) -> Area {
        let made = || sample::full_area(axes as u64, axes);
        self.full.entry(axes).or_insert_with(made).clone()
    }
}

/// A job on its way to an index past the excess of 12 on two of its axes,
/// stopped anywhere late on that way.
pub fn near_ceiling(rng: &mut Rng) -> Area {
    let axes = rng.between(2, 8) as usize;
    let target = on_two_axes(axes, (8, 7), rng);
    let shape = Shape {
        axes,
        threshold: 0,
        budget: BUDGET_LIMIT,
        indicators: IndicatorStyle::Toward(target),
        readings: style::any_reading_style(rng),
        // The indices of excess 12 come towards the end, at 45 to 65.
        deliveries: rng.between(40, 66) as usize,
    };
    sample::run(&shape, rng)
}

/// An index with these levels on two of its axes.
pub fn on_two_axes(axes: usize, levels: (u32, u32), rng: &mut Rng) -> Levels {
    let first = rng.place(axes);
    let second = (first + 1 + rng.place(axes - 1)) % axes;
    let mut index = ROOT;
    (index[first], index[second]) = levels;
    index
}

/// Anything in the records past the last held, where no clause looks.
fn fill_unused(area: &mut Area, rng: &mut Rng) {
    let held = area.held().len();
    for record in &mut area.records[held..] {
        *record = any_record(rng, any_word);
    }
}

fn altered(case: &mut Case, rng: &mut Rng) {
    case.done = alter::alter(&mut case.area, rng);
}

/// Too few records, too few readings, or both; at times altered besides.
fn short_storage(case: &mut Case, rng: &mut Rng) {
    if rng.percent(20) {
        altered(case, rng);
    }
    let which = rng.below(5);
    if which < 3 {
        let held = case.area.held().len();
        let any = rng.place(HELD_LIMIT);
        let records = rng.pick(&[HELD_LIMIT - 1, HELD_LIMIT - 1, held, 0, any]);
        lend_records(case, records.min(HELD_LIMIT - 1), rng);
    }
    if which > 1 {
        let budget = case.area.job.budget.clamp(1, BUDGET_LIMIT) as usize;
        let any = rng.place(budget);
        let readings = rng.pick(&[budget - 1, budget - 1, any]);
        lend_readings(case, readings);
    }
}

/// Lengths that are just enough, and held counts at both ends of their range
/// and past them.
fn at_limits(case: &mut Case, rng: &mut Rng) {
    if case.area.job.held == HELD_LIMIT as u32 && rng.percent(40) {
        case.done.extend(alter::promote_past_limits(&mut case.area, rng));
        return;
    }
    if rng.percent(60) {
        lend_records(case, HELD_LIMIT, rng);
    }
    if rng.percent(50) {
        let budget = case.area.job.budget as usize;
        lend_readings(case, budget);
    }
    let records = case.area.records.len() as u32;
    let job = &mut case.area.job;
    match rng.below(4) {
        0 => job.held = rng.pick(&[0, 1, 2, 511, 512, 513, records, u32::MAX]),
        1 => job.held = records + 1,
        // Nothing held, and every sum over the held what it then is.
        2 => *job = JobRecord { held: 0, reserved: 0, pending: 0, mean: 0, carried: 0, ..*job },
        _ => return,
    }
    case.done.push(format!("held became {} of {records} records", job.held));
}

/// So many records and, half the time, a part of another.
fn lend_records(case: &mut Case, records: usize, rng: &mut Rng) {
    case.area.records.truncate(records);
    if rng.percent(50) {
        case.rest = (0..rng.between(1, WORDS as i64 - 1)).map(|_| any_word(rng)).collect();
    }
    let rest = case.rest.len();
    case.done.push(format!("{records} records and {rest} cells more were lent"));
}

fn lend_readings(case: &mut Case, readings: usize) {
    case.area.store.truncate(readings);
    case.done.push(format!("{} readings were lent", case.area.store.len()));
}

/// Any words everywhere, or such as a field may have.
fn garbage(case: &mut Case, rng: &mut Rng) {
    let word = rng.pick(&[any_word as fn(&mut Rng) -> u32, small_word, edge_word]);
    let records = rng.pick(&[0, 1, HELD_LIMIT - 1, HELD_LIMIT, HELD_LIMIT, HELD_LIMIT + 8]);
    let readings = rng.pick(&[0, BUDGET_LIMIT - 1, BUDGET_LIMIT, BUDGET_LIMIT, BUDGET_LIMIT + 48]);
    let wide = |rng: &mut Rng| u64::from(word(rng)) << 32 | u64::from(word(rng));
    case.area = Area {
        job: JobRecord {
            axes: word(rng),
            threshold: wide(rng),
            budget: word(rng),
            held: word(rng),
            reserved: word(rng),
            pending: wide(rng),
            mean: wide(rng) as i64,
            carried: wide(rng),
        },
        records: (0..records).map(|_| any_record(rng, word)).collect(),
        store: (0..readings).map(|_| any_word(rng) as i32).collect(),
    };
    let job = &mut case.area.job;
    if rng.percent(50) {
        job.axes = rng.between(1, 8) as u32;
        job.budget = rng.between(1, i64::from(BUDGET_LIMIT)) as u32;
        job.held = rng.between(1, HELD_LIMIT as i64) as u32;
    }
    if rng.percent(50) {
        case.rest = (0..rng.between(1, WORDS as i64 - 1)).map(|_| word(rng)).collect();
    }
    case.done.push("garbage throughout".to_string());
}

fn any_record(rng: &mut Rng, word: fn(&mut Rng) -> u32) -> IndexRecord {
    IndexRecord::from_words(&std::array::from_fn(|_| word(rng)))
}

fn any_word(rng: &mut Rng) -> u32 {
    rng.number() as u32
}

fn small_word(rng: &mut Rng) -> u32 {
    rng.below(10) as u32
}

fn edge_word(rng: &mut Rng) -> u32 {
    rng.pick(&[0, 1, 2, 3, 8, 9, 511, 512, 513, 8_192, 1 << 31, u32::MAX - 1, u32::MAX])
}

#[cfg(test)]
mod tests {
    use super::*;

    /// So a seed that a long run names can be had again alone.
    #[test]
    fn a_seed_gives_the_same_cases_alone_as_in_a_run() {
        let mut used = CheckCases::default();
        for seed in 0..80 {
            assert_eq!(used.cases(seed), CheckCases::default().cases(seed), "seed {seed}");
        }
    }
}
