//! The places of a job as a list of calls needs them to choose where to promote:
//! which state is at which place. They can be had of the log and of any area,
//! altered ones included.

use crate::area::{Area, ACTIVE, OLD, WANTED};
use crate::calls::Choice;
use crate::log::{Job, State};
use crate::rng::Rng;

#[derive(Clone, Debug, Default, PartialEq, Eq)]
pub struct Places {
    /// Whether the pending error is above the threshold.
    pub goes_on: bool,
    /// The active place of largest indicator, the lowest among equals: the one that
    /// the rule selects where it goes on.
    pub largest: Option<u64>,
    pub active: Vec<u64>,
    pub old: Vec<u64>,
    pub wanted: Vec<u64>,
    /// How many are held.
    pub held: u64,
}

impl Places {
    /// From the held records' states and indicators in the order of places. A state
    /// of no kind is held and no more.
    pub fn new(goes_on: bool, held: impl Iterator<Item = (u32, u32)>) -> Places {
        let mut places = Places { goes_on, ..Places::default() };
        let mut largest = 0;
        for (state, indicator) in held {
            let place = places.held;
            places.held += 1;
            match state {
                ACTIVE => {
                    if places.largest.is_none() || indicator > largest {
                        (places.largest, largest) = (Some(place), indicator);
                    }
                    places.active.push(place);
                }
                OLD => places.old.push(place),
                WANTED => places.wanted.push(place),
                _ => {}
            }
        }
        places
    }

    pub fn of_job(job: &Job) -> Places {
        let held = job.entries.iter().map(|entry| match entry.state {
            State::Wanted => (WANTED, 0),
            State::Active => (ACTIVE, entry.indicator),
            State::Old => (OLD, entry.indicator),
        });
        Places::new(job.pending() > job.threshold, held)
    }

    /// By what an area records, sound or not.
    pub fn of_area(area: &Area) -> Places {
        let held = area.held().iter().map(|record| (record.state, record.indicator));
        Places::new(area.job.pending > area.job.threshold, held)
    }

    /// The place that choose answers where nothing is wanted; none where it answers
    /// met or capped.
    pub fn chosen(&self) -> Option<u64> {
        self.largest.filter(|_| self.goes_on)
    }

    /// Whether a choice is the one of these places, as far as they tell.
    pub fn agree_with(&self, choice: Choice) -> bool {
        match choice {
            Choice::Place(place) => self.chosen() == Some(place),
            Choice::Met | Choice::Capped => self.chosen().is_none(),
        }
    }

    /// A place of one state or another, `held` or next to it, the last places of a
    /// full job, a held place past 32 or 63 bits, or any number.
    pub fn any(&self, rng: &mut Rng) -> u64 {
        let kinds: [&[u64]; 6] =
            [&self.active, &self.old, &self.old, &self.old, &self.wanted, &self.wanted];
        let kind = rng.pick(&kinds);
        if !kind.is_empty() && rng.percent(40) {
            return rng.pick(kind);
        }
        let near = match self.active.is_empty() || rng.percent(40) {
            true => rng.below(self.held + 1),
            false => rng.pick(&self.active),
        };
        let number = rng.number();
        let last = self.held.saturating_sub(1);
        rng.pick(&[
            self.held,
            self.held,
            last,
            self.held + 1,
            511,
            512,
            near + (1 << 32),
            near + (1 << 32),
            near + (1 << 16),
            near + (1 << 63),
            u64::from(u32::MAX),
            1 << 32,
            1 << 63,
            u64::MAX,
            u64::MAX,
            u64::MAX - near,
            number,
        ])
    }
}
