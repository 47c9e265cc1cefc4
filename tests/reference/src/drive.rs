//! Random lists of calls on one area by seed. After every call the area and
//! the answer are held against the log and against Fig. 1, and what must not change
//! is compared with what was there before.

use crate::area::{Area, IndexRecord, JobRecord, WORDS};
use crate::beside::Beside;
use crate::call::{self, Answer, Call, Lengths};
use crate::calls::{self, Choice, Promotion};
use crate::choice::{Block, Chooser};
use crate::demand;
use crate::grid::{self, BUDGET_LIMIT};
use crate::laws;
use crate::log::Log;
use crate::places::Places;
use crate::promotes;
use crate::rng::Rng;
use std::collections::BTreeMap;

mod notes;

/// How often each thing was seen, by name.
pub type Counts = BTreeMap<String, u64>;

/// So many calls of one list see everything that is due.
pub const ENOUGH: u64 = 40_000;

struct Driver {
    chooser: Chooser,
    area: Area,
    log: Log,
    beside: Beside,
    /// Set when the job is met, capped or spent: a new one is due soon.
    ended: bool,
    /// Whether each index made old since the last accepted start was the one that
    /// choose would have answered.
    by_rule: bool,
    log_changes: u64,
    counts: Counts,
}

/// Performs so many calls from a seed, asserting the third demand after each.
pub fn drive(seed: u64, calls: u64) -> Counts {
    let mut rng = Rng::new(seed);
    let area = garbage_area(&mut rng);
    let chooser = Chooser::new(rng);
    let mut driver = Driver {
        chooser,
        area,
        log: Log::default(),
        beside: Beside::default(),
        ended: false,
        by_rule: true,
        log_changes: 0,
        counts: Counts::new(),
    };
    for _ in 0..calls {
        driver.step();
    }
    driver.counts
}

/// What a long list has to see of choose and promote and didn't.
pub fn missing(counts: &Counts) -> Vec<&'static str> {
    promotes::DUE.into_iter().filter(|what| !counts.contains_key(*what)).collect()
}

/// Storage as it may be found: of sufficient length and full of anything.
fn garbage_area(rng: &mut Rng) -> Area {
    let mut record =
        || IndexRecord::from_words(&std::array::from_fn::<u32, WORDS, _>(|_| rng.number() as u32));
    let records = (0..520).map(|_| record()).collect();
    let store = (0..BUDGET_LIMIT + 40).map(|_| rng.number() as i32).collect();
    let job = JobRecord {
        axes: rng.number() as u32,
        threshold: rng.number(),
        budget: rng.number() as u32,
        held: rng.number() as u32,
        reserved: rng.number() as u32,
        pending: rng.number(),
        mean: rng.number() as i64,
        carried: rng.number(),
    };
    Area { job, records, store }
}

impl Driver {
    fn step(&mut self) {
        let call = self.next_call();
        let lengths = self.lend(&call);
        self.note_names(&call, lengths);
        let choice = self.choice();
        let before = self.area.clone();
        let held_before = self.log.job.as_ref().map(|job| job.entries.len());
        let expected = self.log.expect(&call, lengths);

        // Lend the storage at these lengths; the rest isn't there to be touched.
        let records_kept = self.area.records.split_off(lengths.records);
        let store_kept = self.area.store.split_off(lengths.store);
        let buffer_before: Vec<u8> = (0..call.buffer_length().unwrap_or(0))
            .map(|_| self.chooser.rng.number() as u8)
            .collect();
        let mut buffer = buffer_before.clone();
        match call {
            Call::Choose => laws::assert_choose(&self.area),
            Call::Promote { place } => laws::assert_promote(&self.area, place),
            _ => {}
        }
        let answer = call::perform(&mut self.area, &call, &mut buffer);
        match call {
            Call::Point { n, .. } => laws::assert_point(&self.area, n),
            Call::Points { n, .. } => laws::assert_points(&self.area, n, &buffer_before),
            Call::Doubles => {
                let rng = &mut self.chooser.rng;
                let content = std::array::from_fn(|_| f64::from_bits(rng.number()));
                laws::assert_doubles(&self.area, content);
            }
            _ => {}
        }
        self.area.records.extend(records_kept);
        self.area.store.extend(store_kept);

        assert_eq!(answer, expected, "the answer of {call:?}");
        self.assert_buffer(&answer, &buffer_before, &buffer);
        let changed = self.assert_untouched(&call, &answer, &before, held_before);
        self.assert_demand(changed);
        self.assert_figure(&call, &answer, changed);
        self.assert_not_met(&call, &answer, choice);
        self.note_answer(&call, &answer);
    }

    /// What choose would answer by the log, where nothing is wanted.
    fn choice(&self) -> Option<Choice> {
        let job = self.log.job.as_ref()?;
        job.first_wanted().is_none().then(|| job.choice())
    }

    /// The buffer begins with the positions of the points written; all else in
    /// it, and all of it on a refusal, is as it was.
    fn assert_buffer(&self, answer: &Answer, before: &[u8], after: &[u8]) {
        let written = match answer {
            Answer::Point(positions) | Answer::Points { positions, .. } => positions.as_slice(),
            _ => &[],
        };
        assert_eq!(&after[..written.len()], written);
        assert_eq!(after[written.len()..], before[written.len()..], "later bytes untouched");
    }

    /// "No call writes a record past the last then held, or a store element
    /// outside the block being delivered." Gives whether the log changed.
    fn assert_untouched(
        &mut self,
        call: &Call,
        answer: &Answer,
        before: &Area,
        held_before: Option<usize>,
    ) -> bool {
        let promoted = *answer == Answer::Promotion(Promotion::Promoted);
        if !promoted && !matches!(answer, Answer::Started | Answer::Delivered) {
            assert_eq!(self.area, *before, "{call:?} changed the area");
            return false;
        }
        let held = self.area.job.held as usize;
        assert_eq!(self.area.records[held..], before.records[held..], "records past the last held");
        if let Call::Deliver { readings, .. } = call {
            let job = self.log.job.as_ref().expect("delivered");
            let last = job.entries.iter().rposition(|entry| entry.is_delivered());
            let last = last.expect("a block was delivered");
            let blocks = job.entries[..last].iter();
            let first: usize = blocks.map(|entry| grid::block_size(&entry.levels)).sum();
            let end = first + readings.len();
            assert_eq!(self.area.store[..first], before.store[..first], "store before the block");
            assert_eq!(self.area.store[end..], before.store[end..], "store after the block");
            assert_eq!(held_before, Some(held));
        } else {
            assert_eq!(self.area.store, before.store, "the store");
        }
        true
    }

    /// The structure after every call; the two sums when the log changed, for
    /// else both sides are as they were.
    fn assert_demand(&mut self, changed: bool) {
        let Some(job) = self.log.job.as_ref() else {
            return;
        };
        let literally = changed && (job.axes <= 3 || self.log_changes.is_multiple_of(50));
        demand::assert_structure(&self.area, job, literally);
        if changed {
            self.log_changes += 1;
            let mean = job.mean();
            assert_eq!(job.tensor_sum(), mean, "the log's two sums");
            assert_eq!(self.area.job.mean, mean, "the recorded mean");
            assert_eq!(calls::result(&self.area).map(|totals| totals.mean), Ok(mean), "result");
            assert_eq!(calls::cross_total(&self.area), Ok(mean), "cross total");
            assert_eq!(calls::doubles(&self.area), Ok(job.exact_report().report()), "doubles");
        }
    }

    /// Fig. 1 after every call, the whole of it at times, and what choose answers
    /// wherever nothing is wanted any more.
    fn assert_figure(&mut self, call: &Call, answer: &Answer, changed: bool) {
        let Some(job) = self.log.job.as_ref() else {
            return;
        };
        self.beside.follow(call, answer, job);
        self.beside.assert_same(&self.area);
        if changed && job.first_wanted().is_none() {
            assert_eq!(calls::choose(&self.area), Ok(job.choice()), "choose");
            self.beside.assert_choice(job.choice(), job);
        }
        if changed && self.log_changes.is_multiple_of(20) {
            self.beside.assert_led(job);
        }
    }

    /// By the rule alone a job that carries is never met.
    fn assert_not_met(&mut self, call: &Call, answer: &Answer, choice: Option<Choice>) {
        match (call, answer) {
            (_, Answer::Started) => self.by_rule = true,
            (Call::Promote { place }, Answer::Promotion(Promotion::Promoted)) => {
                self.by_rule &= choice == Some(Choice::Place(*place));
            }
            (_, Answer::Choice(Choice::Met)) => {
                assert!(!self.by_rule || self.area.job.carried == 0, "met by the rule");
            }
            _ => {}
        }
    }

    /// The lengths to lend: mostly all there is, at times just enough or less.
    fn lend(&mut self, call: &Call) -> Lengths {
        let all = Lengths { records: self.area.records.len(), store: self.area.store.len() };
        let budget = match (call, &self.log.job) {
            (Call::Start { budget, .. }, _) => *budget as usize,
            (_, Some(job)) => job.budget as usize,
            (_, None) => 1,
        };
        let enough = Lengths { records: 512, store: budget.min(all.store) };
        match self.chooser.rng.below(100) {
            0..=9 => enough,
            10 => Lengths { records: self.chooser.rng.pick(&[0, 1, 511, 300]), ..all },
            11 if enough.store > 0 => Lengths { store: enough.store - 1, ..all },
            12 if enough.store > 0 => {
                Lengths { store: self.chooser.rng.place(enough.store), ..enough }
            }
            _ => all,
        }
    }

    /// The next call of the list.
    fn next_call(&mut self) -> Call {
        let Some(job) = self.log.job.as_ref() else {
            let chooser = &mut self.chooser;
            return if chooser.rng.percent(50) { chooser.start() } else { chooser.damaged_start() };
        };
        let (wanted, places) = (Block::of_job(job), Places::of_job(job));
        let chooser = &mut self.chooser;
        if self.ended && chooser.rng.percent(40) {
            chooser.draw_parameters();
            return chooser.start();
        }
        if chooser.rng.percent(chooser.parameters.steps) {
            return chooser.carry_on(wanted, &places);
        }
        match chooser.rng.below(100) {
            0..=7 => chooser.point(wanted),
            8..=12 => chooser.damaged_point(wanted),
            13..=21 => chooser.points(wanted),
            22..=27 => chooser.damaged_points(wanted),
            28..=36 => chooser.damaged_deliver(wanted),
            37..=43 => chooser.carry_on(wanted, &places),
            44..=48 => Call::Choose,
            49..=52 => chooser.promote(&places),
            53..=62 => chooser.damaged_promote(&places),
            63..=69 => Call::Result,
            70..=76 => Call::CrossTotal,
            77..=84 => Call::Doubles,
            85..=90 => Call::Check,
            91..=96 => chooser.damaged_start(),
            97 if chooser.parameters.steps < 95 => {
                chooser.draw_parameters();
                chooser.start()
            }
            _ => chooser.point(wanted),
        }
    }
}
