//! Fig. 1 of the published algorithm, written out over sets of indices, and led:
//! its loop's body takes any active index in place of the selected one.
//!
//! The body moves an index from the active to the old set and scans its forward
//! neighbours; those that are admitted come in one after the other, each with its
//! error indicator and its difference. Its sets are kept in the order in which
//! indices come in, so that the active ones are in the order of their places.

use crate::area::{Area, ACTIVE, OLD, WANTED};
use crate::grid::{self, Levels, HELD_LIMIT, ROOT};
use std::collections::HashSet;

#[derive(Clone, Debug, PartialEq, Eq)]
pub struct Figure {
    axes: usize,
    tolerance: u64,
    /// In the order in which they were moved.
    old: Vec<Levels>,
    /// With their error indicators.
    active: Vec<(Levels, u32)>,
    /// Admitted by the scan and not yet come in.
    coming: Vec<Levels>,
    error: u64,
    /// The indicators of what was moved and has a neighbour past a ceiling.
    carried: u64,
    /// The sum of the differences, times 2^20.
    sum: i128,
}

impl Figure {
    /// "i := (1, ..., 1), O := {}, A := {i}"; the root is still to come in.
    pub fn new(axes: usize, tolerance: u64) -> Figure {
        let (old, active, coming) = (Vec::new(), Vec::new(), vec![ROOT]);
        Figure { axes, tolerance, old, active, coming, error: 0, carried: 0, sum: 0 }
    }

    /// The sets of a sound area, made by calls or not, with its recorded mean. In
    /// which order the old ones were moved it doesn't say.
    pub fn of(area: &Area) -> Figure {
        let in_state = |state: u32| area.held().iter().filter(move |held| held.state == state);
        let mut figure = Figure::new(area.job.axes as usize, area.job.threshold);
        figure.coming = in_state(WANTED).map(|held| held.levels).collect();
        for held in in_state(ACTIVE) {
            figure.active.push((held.levels, held.indicator));
            figure.error += u64::from(held.indicator);
        }
        for held in in_state(OLD) {
            figure.old.push(held.levels);
            if figure.raised(&held.levels).iter().any(|next| !grid::within_ceilings(next)) {
                figure.carried += u64::from(held.indicator);
            }
        }
        figure.sum = area.job.mean.into();
        figure
    }

    /// The whole figure led by the indices made old, in order. The source gives
    /// the indicator and the difference of an index.
    pub fn led(
        axes: usize,
        tolerance: u64,
        made_old: &[Levels],
        source: impl Fn(&Levels) -> (u32, i128),
    ) -> Figure {
        let mut figure = Figure::new(axes, tolerance);
        figure.add_all(&source);
        for index in made_old {
            figure.refine(index);
            figure.add_all(&source);
        }
        figure
    }

    fn add_all(&mut self, source: impl Fn(&Levels) -> (u32, i128)) {
        while let Some(index) = self.coming.first().copied() {
            let (indicator, difference) = source(&index);
            self.add(&index, indicator, difference);
        }
    }

    /// The next that comes in.
    pub fn add(&mut self, index: &Levels, indicator: u32, difference: i128) {
        assert_eq!(self.coming.first(), Some(index), "what comes in next");
        self.coming.remove(0);
        self.active.push((*index, indicator));
        self.error += u64::from(indicator);
        self.sum += difference;
    }

    /// "while (error > TOL) do"
    pub fn goes_on(&self) -> bool {
        self.error > self.tolerance
    }

    /// Whether the loop's end is met: the tolerance takes what is carried too.
    pub fn is_met(&self) -> bool {
        let both = u128::from(self.error) + u128::from(self.carried);
        both <= u128::from(self.tolerance)
    }

    /// The active index of largest error, the first among equals.
    pub fn selected(&self) -> Option<Levels> {
        let largest = self.active.iter().map(|(_, indicator)| *indicator).max()?;
        self.active.iter().find(|(_, indicator)| *indicator == largest).map(|(levels, _)| *levels)
    }

    /// The body up to where its neighbours come in: the index becomes old, and each
    /// forward neighbour within the ceilings whose backward neighbours are old is
    /// admitted.
    pub fn refine(&mut self, index: &Levels) {
        let place = self.active.iter().position(|(levels, _)| levels == index);
        let (index, indicator) = self.active.remove(place.expect("an active index is led to"));
        self.old.push(index);
        self.error -= u64::from(indicator);
        let raised = self.raised(&index);
        let within: Vec<Levels> =
            raised.iter().filter(|next| grid::within_ceilings(next)).copied().collect();
        if within.len() < raised.len() {
            self.carried += u64::from(indicator);
        }
        let admitted: Vec<Levels> =
            within.into_iter().filter(|next| self.backward_old(next)).collect();
        self.coming.extend(admitted);
    }

    /// The forward neighbours, in axis order.
    fn raised(&self, index: &Levels) -> Vec<Levels> {
        let raise = |axis: usize| {
            let mut next = *index;
            next[axis] += 1;
            next
        };
        (0..self.axes).map(raise).collect()
    }

    fn backward_old(&self, index: &Levels) -> bool {
        (0..self.axes).all(|axis| {
            let mut behind = *index;
            behind[axis] -= 1;
            behind[axis] == 0 || self.old.contains(&behind)
        })
    }

    /// Whether the old and active indices, those to come in counted, are more than
    /// 512, or their blocks have more readings than the budget.
    pub fn passes_a_limit(&self, budget: u32) -> bool {
        let active = self.active.iter().map(|(levels, _)| levels);
        let all = || self.old.iter().chain(active.clone()).chain(&self.coming);
        let readings: usize = all().map(grid::block_size).sum();
        all().count() > HELD_LIMIT || readings > budget as usize
    }

    /// The indices made old, in the order in which they were.
    pub fn made_old(&self) -> &[Levels] {
        &self.old
    }

    pub fn is_complete(&self) -> bool {
        self.coming.is_empty()
    }

    /// What a sound area has that is not the figure's: its sets, the active indices
    /// and those to come in order, both errors, and the sum as its mean.
    pub fn differs_in(&self, area: &Area) -> Option<&'static str> {
        let other = Figure::of(area);
        let set = |levels: &[Levels]| levels.iter().copied().collect::<HashSet<Levels>>();
        let same = [
            ("old set", set(&self.old) == set(&other.old)),
            ("number of old indices", self.old.len() == other.old.len()),
            ("active set in order", self.active == other.active),
            ("admitted in order", self.coming == other.coming),
            ("pending error", self.error == area.job.pending),
            ("carried error", self.carried == area.job.carried),
            ("mean", self.sum == i128::from(area.job.mean)),
        ];
        same.into_iter().find(|(_, same)| !same).map(|(what, _)| what)
    }
}
