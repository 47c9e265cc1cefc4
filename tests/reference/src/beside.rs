//! Fig. 1 beside a list of calls, led by the indices that the calls made old since
//! the last accepted start. After each call it has the area's sets, errors and
//! mean, and its loop's test says what choose answers. It goes by the calls'
//! arguments and answers and by the log, never by the area.

use crate::algorithm::Figure;
use crate::area::Area;
use crate::call::{Answer, Call};
use crate::calls::{Choice, Promotion};
use crate::grid::Levels;
use crate::log::Job;
use crate::sums::{self, Readings};

/// The figure; none until a start is accepted.
#[derive(Default)]
pub struct Beside {
    figure: Option<Figure>,
}

impl Beside {
    /// Follows a call with its answer, given the log after it.
    pub fn follow(&mut self, call: &Call, answer: &Answer, job: &Job) {
        match (call, answer) {
            (Call::Start { .. }, Answer::Started) => {
                self.figure = Some(Figure::new(job.axes, job.threshold));
            }
            (Call::Deliver { indicator, .. }, Answer::Delivered) => {
                let last = job.entries.iter().rposition(|entry| entry.is_delivered());
                let index = job.entries[last.expect("a block was delivered")].levels;
                let difference = difference(job, &job.readings(), &index);
                self.figure().add(&index, *indicator, difference);
            }
            (Call::Choose, Answer::Choice(choice)) => self.assert_choice(*choice, job),
            (Call::Promote { place }, Answer::Promotion(promotion)) => {
                self.promote(&job.entries[*place as usize].levels, *promotion, job.budget);
            }
            _ => {}
        }
    }

    fn figure(&mut self) -> &mut Figure {
        self.figure.as_mut().expect("a start was accepted")
    }

    /// Choose answers a place exactly where the loop's test holds, and that place
    /// has the selected index; else it answers met or capped.
    pub fn assert_choice(&self, choice: Choice, job: &Job) {
        let figure = self.figure.as_ref().expect("a start was accepted");
        match choice {
            Choice::Place(place) => {
                assert!(figure.goes_on(), "the loop's test fails, and choose answers {place}");
                let index = job.entries[place as usize].levels;
                assert_eq!(figure.selected(), Some(index), "the index at place {place}");
            }
            Choice::Met | Choice::Capped => {
                assert!(!figure.goes_on(), "the loop's test holds, and choose answers {choice:?}");
                assert_eq!(figure.is_met(), choice == Choice::Met, "{choice:?}");
            }
        }
    }

    /// Spent exactly if the body with this index passes a limit, whatever the
    /// loop's test says.
    fn promote(&mut self, index: &Levels, promotion: Promotion, budget: u32) {
        let figure = self.figure();
        let mut after = figure.clone();
        after.refine(index);
        let passes = after.passes_a_limit(budget);
        assert_eq!(promotion == Promotion::Spent, passes, "the body with {index:?}");
        if promotion == Promotion::Promoted {
            *figure = after;
        }
    }

    /// Asserts that the area is the figure's, between a promotion and its
    /// deliveries too.
    pub fn assert_same(&self, area: &Area) {
        if let Some(figure) = &self.figure {
            assert_eq!(figure.differs_in(area), None, "beside Fig. 1: {figure:?}");
        }
    }

    /// Where nothing is wanted: runs the whole figure led by the list of indices
    /// made old, and asserts that it comes out as it did step by step.
    pub fn assert_led(&self, job: &Job) {
        let Some(figure) = self.figure.as_ref().filter(|figure| figure.is_complete()) else {
            return;
        };
        let readings = job.readings();
        let whole = Figure::led(job.axes, job.threshold, figure.made_old(), |index| {
            let entry = job.entries.iter().find(|entry| entry.levels == *index);
            (entry.expect("the log has it").indicator, difference(job, &readings, index))
        });
        assert_eq!(*figure, whole, "Fig. 1 led by the list of indices made old");
    }
}

/// The difference of an index, from the log's readings.
fn difference(job: &Job, readings: &Readings, index: &Levels) -> i128 {
    sums::difference(job.axes, index, &|index: &Levels, n: usize| readings.at(index, n))
}
