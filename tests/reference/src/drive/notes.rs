//! Counts of what a list of calls saw.

use super::Driver;
use crate::area::ACTIVE;
use crate::call::{Answer, Call, Lengths};
use crate::calls::{self, Choice, PointCounts, Promotion};
use crate::promotes;
use crate::sums::SCALE;

impl Driver {
    fn count(&mut self, what: String) {
        *self.counts.entry(what).or_insert(0) += 1;
    }

    fn highest(&mut self, what: &str, value: u64) {
        let slot = self.counts.entry(format!("highest {what}")).or_insert(0);
        *slot = value.max(*slot);
    }

    /// What choose and promote are like is known only to the log before them.
    pub(super) fn note_names(&mut self, call: &Call, lengths: Lengths) {
        let Some(job) = self.log.job.as_ref() else {
            return;
        };
        for name in promotes::names(job, call, lengths) {
            self.count(name.to_string());
        }
    }

    pub(super) fn note_answer(&mut self, call: &Call, answer: &Answer) {
        let name = call.name();
        self.count(format!("call {name}"));
        match answer {
            Answer::Refused(cause) => {
                self.count(format!("refused {} by {name}", cause.number()));
                self.count(format!("refusal {}", cause.number()));
            }
            Answer::Sound(sound) => self.count(format!("check answered {sound}")),
            _ => self.count(format!("accepted {name}")),
        }
        match answer {
            Answer::Started => {
                self.ended = false;
                self.count(format!("jobs of {} axes", self.chooser.parameters.axes));
            }
            Answer::Choice(choice) => self.note_choice(*choice),
            Answer::Promotion(promotion) => self.ended = *promotion != Promotion::Promoted,
            Answer::Totals(totals) => self.highest("ceiling count", u64::from(totals.ceiling)),
            Answer::Points { counts, positions } => self.note_points(call, *counts, positions),
            Answer::Doubles(_) => self.note_doubles(),
            _ => {}
        }
        if self.log.job.is_some() {
            self.highest("held", u64::from(self.area.job.held));
            self.highest("reserved", u64::from(self.area.job.reserved));
            self.highest("carried error", self.area.job.carried);
        }
    }

    /// A job that goes on past its end does so while an index is active.
    fn note_choice(&mut self, choice: Choice) {
        let mut held = self.area.held().iter();
        let goes_on = self.chooser.parameters.past_the_end && held.any(|r| r.state == ACTIVE);
        if matches!(choice, Choice::Met | Choice::Capped) && !goes_on {
            self.ended = true;
        }
    }

    /// What ended the writing, where it began, and along which axes it went.
    fn note_points(&mut self, call: &Call, counts: PointCounts, positions: &[u8]) {
        let Call::Points { n, buffer } = *call else {
            unreachable!("only points answers so");
        };
        let PointCounts { written, block } = counts;
        let axes = self.area.job.axes as usize;
        let last = n + u64::from(written) == u64::from(block);
        let over = buffer - written as usize * axes;
        let moves = |axis: &usize| positions.chunks(axes).any(|p| p[*axis] != positions[*axis]);
        let moving = (0..axes).filter(moves).count();
        let so = [
            ("went on to another row", moving >= 2),
            ("went on along three axes", moving >= 3),
            ("wrote a block whole", written == block),
            ("wrote the rest of a block", last && n > 0),
            ("wrote one point of several left", !last && written == 1),
            ("left points for want of room", !last),
            ("left points with room for a part of one", !last && over > 0),
            ("wrote just what there was room for", last && over == 0),
            ("wrote all with room for a part of one", last && over > 0 && over < axes),
            ("wrote all with room for more", last && over >= axes),
        ];
        for (what, _) in so.into_iter().filter(|(_, seen)| *seen) {
            self.count(format!("points {what}"));
        }
        self.highest("points written", u64::from(written));
    }

    /// What the largest delivered difference was, and what came near it.
    fn note_doubles(&mut self) {
        let Some((place, largest)) = calls::largest_difference(&self.area) else {
            return self.count("doubles of nothing delivered".to_string());
        };
        let differences = calls::delivered_differences(&self.area);
        let others = || differences.iter().filter(|(other, _)| *other != place);
        let so = [
            ("of a largest above 0", largest > 0),
            ("of a largest below 0", largest < 0),
            ("of differences that are all 0", largest == 0),
            ("of a largest that is not the root's", place > 0),
            ("of a largest that is not whole", largest % (1 << SCALE) != 0),
            ("of a largest that a later one equals", others().any(|(_, d)| *d == largest)),
            (
                "of a largest that a later one has with the other sign",
                largest != 0 && others().any(|(_, d)| *d == -largest),
            ),
            ("while a block is wanted", calls::first_wanted(&self.area).is_some()),
        ];
        for (what, _) in so.into_iter().filter(|(_, seen)| *seen) {
            self.count(format!("doubles {what}"));
        }
    }
}
