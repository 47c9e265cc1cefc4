//! The log of the third demand: what the calls' arguments say is held, worked
//! from arguments and lengths alone and never from an area. It predicts the
//! answer of every call, refusals included.
//!
//! The rules of selection and admission are written out here once more on the
//! log's entries; only indices and sums are shared with the calls.

use crate::call::{Answer, Call, Lengths};
use crate::calls::{Cause, Choice, PointCounts, Promotion, Totals};
use crate::doubles::ExactReport;
use crate::grid::{self, Levels, ROOT};
use crate::sums::{self, Readings};
use std::cell::OnceCell;

#[derive(Clone, Copy, Debug, PartialEq, Eq)]
pub enum State {
    Wanted,
    Active,
    Old,
}

#[derive(Clone, Debug, PartialEq, Eq)]
pub struct Entry {
    pub levels: Levels,
    pub state: State,
    /// As it came with the block; 0 while wanted.
    pub indicator: u32,
    /// Empty while wanted.
    pub readings: Vec<i32>,
}

#[derive(Clone, Debug)]
pub struct Job {
    pub axes: usize,
    pub threshold: u64,
    pub budget: u32,
    pub entries: Vec<Entry>,
    /// The figures below, once worked out; cleared when a block is delivered.
    sums: OnceCell<Sums>,
}

/// What is worked out from the delivered readings, times 2^20.
#[derive(Clone, Copy, Debug)]
struct Sums {
    mean: i64,
    tensor_sum: i64,
    largest: i128,
}

/// What promote has to do by the log at the place of an active entry.
#[derive(Clone, Debug, PartialEq, Eq)]
pub enum Plan {
    /// Which of the two limits the admitted would pass; both may be.
    Spent {
        past_held: bool,
        past_budget: bool,
    },
    Promoted {
        promoted: usize,
        admitted: Vec<Levels>,
    },
}

/// The log; without a job until a start is accepted.
#[derive(Clone, Debug, Default)]
pub struct Log {
    pub job: Option<Job>,
}

impl Entry {
    fn wanted(levels: Levels) -> Entry {
        Entry { levels, state: State::Wanted, indicator: 0, readings: Vec::new() }
    }

    pub fn is_delivered(&self) -> bool {
        self.state != State::Wanted
    }
}

impl Job {
    pub fn new(axes: usize, threshold: u64, budget: u32, entries: Vec<Entry>) -> Job {
        Job { axes, threshold, budget, entries, sums: OnceCell::new() }
    }

    pub fn first_wanted(&self) -> Option<usize> {
        self.entries.iter().position(|entry| entry.state == State::Wanted)
    }

    fn count(&self, state: State) -> u32 {
        self.entries.iter().filter(|entry| entry.state == state).count() as u32
    }

    pub fn reserved(&self) -> u64 {
        self.entries.iter().map(|entry| grid::block_size(&entry.levels) as u64).sum()
    }

    pub fn pending(&self) -> u64 {
        let active = self.entries.iter().filter(|entry| entry.state == State::Active);
        active.map(|entry| u64::from(entry.indicator)).sum()
    }

    pub fn readings(&self) -> Readings<'_> {
        let delivered = self.entries.iter().filter(|entry| entry.is_delivered());
        Readings::new(delivered.map(|entry| (entry.levels, entry.readings.as_slice())))
    }

    fn sums(&self) -> Sums {
        *self.sums.get_or_init(|| {
            let readings = self.readings();
            let reading = |index: &Levels, number: usize| readings.at(index, number);
            let delivered = self.entries.iter().filter(|entry| entry.is_delivered());
            let differences: Vec<i128> = delivered
                .map(|entry| sums::difference(self.axes, &entry.levels, &reading))
                .collect();
            let narrow = |sum: i128| i64::try_from(sum).expect("at most 512 times 2^40");
            Sums {
                mean: narrow(differences.iter().sum()),
                tensor_sum: narrow(sums::cross_total(self.axes, &readings)),
                largest: largest_in_size(&differences),
            }
        })
    }

    /// The scaled mean: the sum of the delivered indices' differences.
    pub fn mean(&self) -> i64 {
        self.sums().mean
    }

    /// The same from coefficients and full tensor rules.
    pub fn tensor_sum(&self) -> i64 {
        self.sums().tensor_sum
    }

    /// What doubles reports by the log, as exact fractions.
    pub fn exact_report(&self) -> ExactReport {
        ExactReport {
            mean: self.mean().into(),
            pending: i128::from(self.pending()) << sums::SCALE,
            largest: self.sums().largest,
        }
    }

    /// On how many axes an index cannot be raised any more: all of them at an
    /// excess of 12, else those of level 8.
    fn axes_used_up(&self, levels: &Levels) -> u32 {
        let excess: u32 = levels.iter().map(|level| level - 1).sum();
        let used_up = |level: &&u32| **level == 8 || excess == 12;
        levels[..self.axes].iter().filter(used_up).count() as u32
    }

    pub fn ceiling(&self) -> u32 {
        let old = self.entries.iter().filter(|entry| entry.state == State::Old);
        old.map(|entry| self.axes_used_up(&entry.levels)).sum()
    }

    /// The carried error, worked out from the entries alone.
    pub fn carried(&self) -> u64 {
        let old = self.entries.iter().filter(|entry| entry.state == State::Old);
        let at_a_ceiling = old.filter(|entry| self.axes_used_up(&entry.levels) > 0);
        at_a_ceiling.map(|entry| u64::from(entry.indicator)).sum()
    }

    /// The n-th point of a block, worked out from n alone, where the calls take it
    /// from the list by ranks.
    fn point(&self, levels: &Levels, n: u64) -> Vec<u8> {
        grid::nth_point(self.axes, levels, n as usize)[..self.axes].to_vec()
    }

    /// The index of the block that point and points ask about and its size, or
    /// what refuses them by the log.
    fn block_asked(&self, n: u64) -> Result<(Levels, u64), Cause> {
        let wanted = self.first_wanted().ok_or(Cause::NoBlockWanted)?;
        let levels = self.entries[wanted].levels;
        let size = grid::block_size(&levels) as u64;
        if n >= size {
            return Err(Cause::PointNumberTooLarge);
        }
        Ok((levels, size))
    }

    /// The points from the n-th on, as many as are left and as a buffer of this
    /// length has whole room for, worked out before the first is.
    fn points(&self, n: u64, buffer: usize) -> Result<Answer, Cause> {
        let (levels, size) = self.block_asked(n)?;
        let written = (size - n).min((buffer / self.axes) as u64);
        let positions = (n..n + written).flat_map(|number| self.point(&levels, number)).collect();
        let counts = PointCounts { written: written as u32, block: size as u32 };
        Ok(Answer::Points { counts, positions })
    }

    /// Choose's rule worked on the log, when no block is wanted.
    pub fn choice(&self) -> Choice {
        // Met leaves room below the threshold for what is carried.
        match self.threshold.checked_sub(self.pending()) {
            Some(room) if self.carried() <= room => return Choice::Met,
            Some(_) => return Choice::Capped,
            None => {}
        }
        // From the last to the first, so that the lowest place wins a tie.
        let mut selected = u64::MAX;
        let mut largest = 0;
        for (place, entry) in self.entries.iter().enumerate().rev() {
            if entry.state == State::Active && entry.indicator >= largest {
                selected = place as u64;
                largest = entry.indicator;
            }
        }
        Choice::Place(selected)
    }

    /// The active entry of a place, any number; none where no entry or another is.
    fn active_entry(&self, place: u64) -> Option<usize> {
        let place = usize::try_from(place).ok()?;
        let entry = self.entries.get(place)?;
        (entry.state == State::Active).then_some(place)
    }

    /// Promote's rule worked on the log, when no block is wanted; none where no
    /// active index is at the place.
    pub fn plan(&self, place: u64) -> Option<Plan> {
        let promoted = self.active_entry(place)?;
        let admitted: Vec<Levels> =
            (0..self.axes).filter_map(|axis| self.admitted(promoted, axis)).collect();
        let sizes: u64 = admitted.iter().map(|levels| grid::block_size(levels) as u64).sum();
        let past_held = self.entries.len() + admitted.len() > 512;
        let past_budget = self.reserved() + sizes > u64::from(self.budget);
        Some(match past_held || past_budget {
            true => Plan::Spent { past_held, past_budget },
            false => Plan::Promoted { promoted, admitted },
        })
    }

    /// The promoted index raised on one axis, if it is admitted: within the
    /// ceilings and every index just below it is old or the promoted one.
    fn admitted(&self, promoted: usize, axis: usize) -> Option<Levels> {
        let mut raised = self.entries[promoted].levels;
        raised[axis] += 1;
        if raised[axis] > 8 || raised.iter().sum::<u32>() - 8 > 12 {
            return None;
        }
        let all_old = (0..self.axes).filter(|&other| raised[other] > 1).all(|other| {
            let mut lowered = raised;
            lowered[other] -= 1;
            self.entries.iter().enumerate().any(|(place, entry)| {
                entry.levels == lowered && (entry.state == State::Old || place == promoted)
            })
        });
        all_old.then_some(raised)
    }

    pub fn promoted(&mut self, promoted: usize, admitted: &[Levels]) {
        self.entries[promoted].state = State::Old;
        self.entries.extend(admitted.iter().map(|levels| Entry::wanted(*levels)));
    }

    /// Cause 6 by the log, of choose and promote.
    fn refuse_while_wanted(&self) -> Result<(), Cause> {
        match self.first_wanted() {
            Some(_) => Err(Cause::BlockWanted),
            None => Ok(()),
        }
    }

    /// An accepted promote that is promoted "makes that active index old" and
    /// appends the admitted, wanted; a spent one leaves the log.
    fn promote(&mut self, place: u64) -> Result<Promotion, Cause> {
        self.refuse_while_wanted()?;
        match self.plan(place).ok_or(Cause::PlaceNotActive)? {
            Plan::Spent { .. } => Ok(Promotion::Spent),
            Plan::Promoted { promoted, admitted } => {
                self.promoted(promoted, &admitted);
                Ok(Promotion::Promoted)
            }
        }
    }

    fn deliver(&mut self, readings: &[i32], indicator: u32) -> Result<Answer, Cause> {
        let wanted = self.first_wanted().ok_or(Cause::NoBlockWanted)?;
        let entry = &mut self.entries[wanted];
        if readings.len() != grid::block_size(&entry.levels) {
            return Err(Cause::ReadingCountWrong);
        }
        if readings.iter().any(|reading| reading.unsigned_abs() > 1 << 20) {
            return Err(Cause::ReadingOutOfRange);
        }
        entry.state = State::Active;
        entry.indicator = indicator;
        entry.readings = readings.to_vec();
        self.sums = OnceCell::new();
        Ok(Answer::Delivered)
    }

    fn totals(&self) -> Totals {
        Totals {
            old: self.count(State::Old),
            active: self.count(State::Active),
            wanted: self.count(State::Wanted),
            reserved: self.reserved() as u32,
            pending: self.pending(),
            carried: self.carried(),
            mean: self.mean(),
            ceiling: self.ceiling(),
        }
    }
}

/// The difference of largest size, 0 if there is none. From the last to the
/// first, so that the lowest place wins a tie.
fn largest_in_size(differences: &[i128]) -> i128 {
    let mut largest = 0i128;
    for &difference in differences.iter().rev() {
        if difference.abs() >= largest.abs() {
            largest = difference;
        }
    }
    largest
}

impl Log {
    /// The answer that a call on storage of these lengths must give; makes the
    /// log's entries follow an accepted call. Before the first accepted start
    /// only start has a predicted answer.
    pub fn expect(&mut self, call: &Call, lengths: Lengths) -> Answer {
        match self.judge(call, lengths) {
            Ok(answer) => answer,
            Err(cause) => Answer::Refused(cause),
        }
    }

    fn judge(&mut self, call: &Call, lengths: Lengths) -> Result<Answer, Cause> {
        if let Call::Start { axes, threshold, budget } = *call {
            return self.judge_start(axes, threshold, budget, lengths);
        }
        let job = self.job.as_mut().expect("a start was accepted before");
        let short = lengths.records < 512 || (lengths.store as u64) < u64::from(job.budget);
        let buffer_short = call.buffer_length().is_some_and(|length| length < job.axes);
        if *call == Call::Check {
            return Ok(Answer::Sound(!short));
        }
        if short || buffer_short {
            return Err(Cause::StorageShort);
        }
        match call {
            Call::Start { .. } | Call::Check => unreachable!("judged above"),
            Call::Point { n, .. } => {
                let (levels, _) = job.block_asked(*n)?;
                Ok(Answer::Point(job.point(&levels, *n)))
            }
            Call::Points { n, buffer } => job.points(*n, *buffer),
            Call::Deliver { readings, indicator } => job.deliver(readings, *indicator),
            Call::Choose => {
                job.refuse_while_wanted()?;
                Ok(Answer::Choice(job.choice()))
            }
            Call::Promote { place } => job.promote(*place).map(Answer::Promotion),
            Call::Result => Ok(Answer::Totals(job.totals())),
            Call::CrossTotal => Ok(Answer::CrossTotal(job.tensor_sum())),
            // Put together from bits, where the call divides.
            Call::Doubles => Ok(Answer::Doubles(job.exact_report().report())),
        }
    }

    fn judge_start(
        &mut self,
        axes: u32,
        threshold: u64,
        budget: u32,
        lengths: Lengths,
    ) -> Result<Answer, Cause> {
        if !(1..=8).contains(&axes) {
            return Err(Cause::AxesOutOfRange);
        }
        if !(1..=8192).contains(&budget) {
            return Err(Cause::BudgetOutOfRange);
        }
        if lengths.records < 512 || lengths.store < budget as usize {
            return Err(Cause::StorageShort);
        }
        let entries = vec![Entry::wanted(ROOT)];
        self.job = Some(Job::new(axes as usize, threshold, budget, entries));
        Ok(Answer::Started)
    }
}
