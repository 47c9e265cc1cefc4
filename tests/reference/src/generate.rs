//! Job files by seed: small jobs and jobs near the limits, every ending, every
//! refusal, and damaged files. A well-formed job is made by working its run on
//! the log, which tells the size of each block that comes to be wanted.

use crate::call::{Answer, Call};
use crate::corner::{self, Corner};
use crate::damage::{self, Damage, Damaged, Refusal};
use crate::grid::{Levels, BUDGET_LIMIT, ROOT};
use crate::jobfile::{self, Entry, JobFile, MOST_ENTRIES, MOST_READINGS};
use crate::log::{Job, Log};
use crate::replay::{self, LENT};
use crate::rng::Rng;
use crate::spoil;
use crate::style::{self, IndicatorStyle, ReadingStyle};

#[derive(Clone, Copy, Debug, PartialEq, Eq, Hash, PartialOrd, Ord)]
pub enum Kind {
    /// A job of a few promotes and any style.
    Small,
    /// Five axes or more and small blocks first: runs into the 512 held.
    HeldLimit,
    /// A budget near 8,192 used as far as it goes.
    FullBudget,
    /// A budget that a promote uses to the last reading, or misses by one.
    ExactBudget,
    /// Drawn toward an index at a ceiling: levels of 8, excess of 12.
    Ceilings,
    /// Drawn toward an index at a ceiling, with a threshold near what is left
    /// pending beside it.
    Corner,
    /// A threshold equal to a pending error on the way, or one below it.
    ThresholdMet,
    /// Entries cut off before the job's end.
    TooFewEntries,
    /// More entries than are used; the rest may be nonsense.
    LeftOver,
    /// Filled up with unused entries to the longest file of all.
    Longest,
    /// An entry with another count than its block's.
    CountWrong,
    /// A reading outside the range.
    ReadingOutside,
    AxesOutside,
    BudgetOutside,
    Damaged(Damage),
}

pub struct Generated {
    pub kind: Kind,
    pub bytes: Vec<u8>,
    /// For damaged files, what the report must be, where the damage alone tells it.
    pub refusal: Option<Refusal>,
}

/// How a job is to run.
struct Shape {
    axes: usize,
    threshold: u64,
    budget: u32,
    indicators: IndicatorStyle,
    readings: ReadingStyle,
    most_promotes: usize,
}

/// A run on the log: the entries it took, and the pending error and reserved
/// readings at each promote.
struct History {
    entries: Vec<Entry>,
    pending: Vec<u64>,
    reserved: Vec<u64>,
}

fn run(shape: &Shape, rng: &mut Rng) -> History {
    let mut log = Log::default();
    let start =
        Call::Start { axes: shape.axes as u32, threshold: shape.threshold, budget: shape.budget };
    assert_eq!(log.expect(&start, LENT), Answer::Started);
    let mut history = History { entries: Vec::new(), pending: Vec::new(), reserved: Vec::new() };
    loop {
        let job = log.job.as_ref().expect("the start was accepted");
        if let Some(wanted) = job.first_wanted() {
            let levels = job.entries[wanted].levels;
            let indicator = style::indicator(shape.indicators, rng, &levels);
            let readings = style::readings(shape.readings, rng, shape.axes, &levels);
            let call = Call::Deliver { readings: readings.clone(), indicator };
            assert_eq!(log.expect(&call, LENT), Answer::Delivered);
            history.entries.push(Entry { indicator, readings });
            continue;
        }
        note_promote(&mut history, job);
        let over = history.pending.len() > shape.most_promotes;
        if over || replay::choose_and_promote(&mut log).is_some() {
            return history;
        }
    }
}

fn note_promote(history: &mut History, job: &Job) {
    history.pending.push(job.pending());
    history.reserved.push(job.reserved());
}

fn any_shape(rng: &mut Rng) -> Shape {
    let axes = rng.between(1, 8) as usize;
    Shape {
        axes,
        threshold: rng.pick(&[0, 0, 1, 25, 100, 1 << 20, u64::MAX, 1 << 40]),
        budget: match rng.below(3) {
            0 => rng.between(1, 30) as u32,
            1 => rng.between(20, 300) as u32,
            _ => rng.between(100, 1_000) as u32,
        },
        indicators: style::any_indicator_style(rng, axes),
        readings: style::any_reading_style(rng),
        most_promotes: rng.between(1, 40) as usize,
    }
}

/// A shape whose run goes on for some promotes unless it is spent.
fn lasting_shape(rng: &mut Rng) -> Shape {
    let mut shape = any_shape(rng);
    shape.threshold = 0;
    shape.budget = shape.budget.max(60);
    if shape.indicators == IndicatorStyle::Zero {
        shape.indicators = IndicatorStyle::Equal;
    }
    shape
}

/// An index with a level of 8 or an excess of 12 on a few of the axes.
pub fn ceiling_target(rng: &mut Rng, axes: usize) -> Levels {
    let mut target = ROOT;
    let first = rng.place(axes);
    target[first] = 8;
    if axes > 1 {
        let second = (first + 1) % axes;
        target[second] = rng.between(1, 6) as u32;
        if rng.percent(25) {
            target[first] = 7;
            target[second] = 7;
        }
    }
    target
}

fn job_of(shape: &Shape, entries: Vec<Entry>) -> JobFile {
    let (axes, budget, threshold) = (shape.axes as u32, shape.budget, shape.threshold);
    JobFile { axes, budget, threshold, entries }
}

fn choose_kind(rng: &mut Rng) -> Kind {
    match rng.below(1_000) {
        0..=189 => Kind::Small,
        190..=249 => Kind::Corner,
        250..=264 => Kind::HeldLimit,
        265..=289 => Kind::FullBudget,
        290..=369 => Kind::ExactBudget,
        370..=409 => Kind::Ceilings,
        410..=489 => Kind::ThresholdMet,
        490..=549 => Kind::TooFewEntries,
        550..=599 => Kind::LeftOver,
        600..=609 => Kind::Longest,
        610..=659 => Kind::CountWrong,
        660..=709 => Kind::ReadingOutside,
        710..=729 => Kind::AxesOutside,
        730..=749 => Kind::BudgetOutside,
        _ => Kind::Damaged(damage::any_damage(rng)),
    }
}

/// The job file of a seed.
pub fn generate(seed: u64) -> Generated {
    let mut rng = Rng::new(seed);
    let kind = choose_kind(&mut rng);
    let job = job_of_kind(kind, &mut rng);
    let Damaged { bytes, refusal } = match kind {
        Kind::Damaged(how) => damage::damage(how, &job, &mut rng),
        _ => Damaged { bytes: jobfile::write(&job), refusal: None },
    };
    Generated { kind, bytes, refusal }
}

fn job_of_kind(kind: Kind, rng: &mut Rng) -> JobFile {
    match kind {
        Kind::Small | Kind::Damaged(_) => {
            let shape = any_shape(rng);
            let history = run(&shape, rng);
            job_of(&shape, history.entries)
        }
        Kind::HeldLimit | Kind::FullBudget | Kind::Ceilings => {
            let shape = shape_near_limits(kind, rng);
            let history = run(&shape, rng);
            job_of(&shape, history.entries)
        }
        Kind::Corner => corner_job(rng),
        Kind::ExactBudget | Kind::ThresholdMet => {
            let mut shape = lasting_shape(rng);
            let history = run(&shape, rng);
            let promote = rng.place(history.pending.len());
            if kind == Kind::ExactBudget {
                let missed = rng.below(2);
                shape.budget = (history.reserved[promote] - missed).max(1) as u32;
            } else {
                shape.threshold = history.pending[promote].saturating_sub(rng.below(2));
            }
            job_of(&shape, history.entries)
        }
        Kind::TooFewEntries => {
            let shape = lasting_shape(rng);
            let mut entries = run(&shape, rng).entries;
            entries.truncate(rng.place(entries.len()));
            job_of(&shape, entries)
        }
        Kind::LeftOver => {
            let shape = any_shape(rng);
            let mut entries = run(&shape, rng).entries;
            add_nonsense(&mut entries, rng);
            job_of(&shape, entries)
        }
        Kind::Longest => {
            let shape = lasting_shape(rng);
            let mut entries = run(&shape, rng).entries;
            fill_up(&mut entries);
            job_of(&shape, entries)
        }
        Kind::CountWrong | Kind::ReadingOutside => {
            let shape = lasting_shape(rng);
            let mut entries = run(&shape, rng).entries;
            let place = rng.place(entries.len());
            let readings = &mut entries[place].readings;
            match kind {
                Kind::CountWrong => spoil::count(readings, rng),
                _ => spoil::reading(readings, rng),
            }
            if rng.percent(30) {
                // A second fault in the same entry: 7 comes before 8, and 8
                // names the first bad reading.
                spoil::reading(readings, rng);
            }
            job_of(&shape, entries)
        }
        Kind::AxesOutside | Kind::BudgetOutside => {
            let shape = any_shape(rng);
            let mut job = job_of(&shape, run(&shape, rng).entries);
            if kind == Kind::AxesOutside {
                spoil::axes(&mut job, rng);
            }
            if kind == Kind::BudgetOutside || rng.percent(30) {
                spoil::budget(&mut job, rng);
            }
            job
        }
    }
}

fn shape_near_limits(kind: Kind, rng: &mut Rng) -> Shape {
    let axes = rng.between(if kind == Kind::HeldLimit { 5 } else { 1 }, 8) as usize;
    let indicators = match kind {
        Kind::HeldLimit => IndicatorStyle::SmallBlocksFirst,
        Kind::Ceilings => IndicatorStyle::Toward(ceiling_target(rng, axes)),
        _ => rng.pick(&[
            IndicatorStyle::LargeBlocksFirst,
            IndicatorStyle::Any,
            IndicatorStyle::Equal,
            IndicatorStyle::Paced([0, 1, 2, 3, 4, 5, 5, 5]),
        ]),
    };
    Shape {
        axes,
        threshold: 0,
        budget: if rng.percent(60) { BUDGET_LIMIT } else { rng.between(8_000, 8_192) as u32 },
        indicators,
        readings: style::any_reading_style(rng),
        most_promotes: usize::MAX,
    }
}

/// A job with a hard corner, that of excess in one of five where there are axes
/// for it; at times without its last blocks, so that it may carry and end short.
fn corner_job(rng: &mut Rng) -> JobFile {
    let axes = rng.between(1, 8) as usize;
    let Corner { indicators, threshold, budget } = match axes > 1 && rng.percent(20) {
        true => corner::of_excess(rng, axes),
        false => corner::of_level(rng, axes),
    };
    let readings = style::any_reading_style(rng);
    let most_promotes = usize::MAX;
    let shape = Shape { axes, threshold, budget, indicators, readings, most_promotes };
    let mut entries = run(&shape, rng).entries;
    if rng.percent(35) {
        let last = rng.place(1 + entries.len() / 3);
        entries.truncate(entries.len() - last);
    }
    job_of(&shape, entries)
}

/// Entries that a job may leave unused, with readings of any kind.
fn add_nonsense(entries: &mut Vec<Entry>, rng: &mut Rng) {
    let mut total: usize = entries.iter().map(|entry| entry.readings.len()).sum();
    for _ in 0..rng.between(1, 20) {
        let own = rng.between(1, 9) as usize;
        if entries.len() < MOST_ENTRIES as usize && total + own <= MOST_READINGS as usize {
            let readings = (0..own).map(|_| rng.number() as i32).collect();
            entries.push(Entry { indicator: rng.number() as u32, readings });
            total += own;
        }
    }
}

/// Unused entries until the file has 512 entries and 8,192 readings. A run
/// whose own entries leave no room stays as it is.
fn fill_up(entries: &mut Vec<Entry>) {
    let total: usize = entries.iter().map(|entry| entry.readings.len()).sum();
    let missing_entries = MOST_ENTRIES as usize - entries.len();
    let missing_readings = MOST_READINGS as usize - total;
    if missing_entries == 0 || missing_readings < missing_entries {
        return;
    }
    for filler in 0..missing_entries {
        let own = match filler {
            0 => missing_readings - (missing_entries - 1),
            _ => 1,
        };
        entries.push(Entry { indicator: 7, readings: vec![i32::MIN; own] });
    }
}
