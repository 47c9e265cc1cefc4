//! A job file worked on the log alone, without an area: the report it must
//! print, predicted from arguments. Its form and its readings are tested here
//! separately, the form by `form`.

use crate::call::{Answer, Call, Lengths};
use crate::calls::{Cause, Choice, Promotion};
use crate::form;
use crate::jobfile::{Entry, JobFile};
use crate::log::{Job, Log};
use crate::program::{Ending, Outcome};
use crate::promotes;
use std::collections::BTreeSet;

/// The storage that a run is lent.
pub const LENT: Lengths = Lengths { records: 512, store: 8192 };

#[derive(Clone, Debug, PartialEq, Eq)]
pub struct Prediction {
    pub outcome: Outcome,
    /// What breaks the form of a malformed file, by name.
    pub broken_by: Option<&'static str>,
    /// The refusal over which that of a malformed file goes: the one that what is right
    /// in the file would come to.
    pub before: Option<Cause>,
    /// What the chooses and promotes of a run that ended were like, by name.
    pub promotes: BTreeSet<&'static str>,
}

impl Prediction {
    fn refused(cause: Cause, byte: usize) -> Prediction {
        Prediction::of(Outcome::Refused { cause, byte })
    }

    fn of(outcome: Outcome) -> Prediction {
        Prediction { outcome, broken_by: None, before: None, promotes: BTreeSet::new() }
    }

    fn refusal(&self) -> Option<Cause> {
        match self.outcome {
            Outcome::Refused { cause, .. } => Some(cause),
            Outcome::Ended { .. } => None,
        }
    }
}

pub fn predict(input: &[u8]) -> Prediction {
    let so_far = form::job_so_far(input).map(|job| predict_job(&job));
    let Some(found) = form::find(input) else {
        return so_far.expect("a file of the right form is a job");
    };
    Prediction {
        broken_by: Some(found.by),
        before: so_far.and_then(|prediction| prediction.refusal()),
        ..Prediction::refused(form::cause(input, found.byte), found.byte)
    }
}

fn predict_job(file: &JobFile) -> Prediction {
    let mut log = Log::default();
    let start = Call::Start { axes: file.axes, threshold: file.threshold, budget: file.budget };
    match log.expect(&start, LENT) {
        Answer::Refused(Cause::AxesOutOfRange) => {
            return Prediction::refused(Cause::AxesOutOfRange, 0)
        }
        Answer::Refused(cause) => return Prediction::refused(cause, 4),
        _ => {}
    }
    let mut replay = Replay {
        log,
        entries: file.entries.iter(),
        count_byte: 28,
        reading_byte: 24 + 12 * file.entries.len(),
        promotes: BTreeSet::new(),
    };
    loop {
        if let Some(prediction) = replay.step() {
            return prediction;
        }
    }
}

/// A run on the log whose start was accepted.
struct Replay<'a> {
    log: Log,
    entries: std::slice::Iter<'a, Entry>,
    /// The bytes of the count field and the first reading of the next entry.
    count_byte: usize,
    reading_byte: usize,
    promotes: BTreeSet<&'static str>,
}

impl Replay<'_> {
    fn job(&self) -> &Job {
        self.log.job.as_ref().expect("the start was accepted")
    }

    /// The next call, and what the run comes to if that ends it.
    fn step(&mut self) -> Option<Prediction> {
        if self.job().first_wanted().is_none() {
            return self.promote();
        }
        match self.entries.next() {
            Some(entry) => self.deliver(entry),
            None => Some(self.ended(Ending::Short)),
        }
    }

    fn deliver(&mut self, entry: &Entry) -> Option<Prediction> {
        let call = Call::Deliver { readings: entry.readings.clone(), indicator: entry.indicator };
        if let Answer::Refused(cause) = self.log.expect(&call, LENT) {
            let good = entry.readings.iter().take_while(|r| r.unsigned_abs() <= 1_048_576);
            return Some(match cause {
                Cause::ReadingCountWrong => Prediction::refused(cause, self.count_byte),
                _ => Prediction::refused(cause, self.reading_byte + 4 * good.count()),
            });
        }
        self.count_byte += 12;
        self.reading_byte += 4 * entry.readings.len();
        None
    }

    fn promote(&mut self) -> Option<Prediction> {
        let job = self.job();
        let mut seen = promotes::names(job, &Call::Choose, LENT);
        if let Choice::Place(place) = job.choice() {
            seen.extend(promotes::names(job, &Call::Promote { place }, LENT));
        }
        self.promotes.extend(seen);
        choose_and_promote(&mut self.log).map(|ending| self.ended(ending))
    }

    fn ended(&mut self, ending: Ending) -> Prediction {
        let Answer::Totals(totals) = self.log.expect(&Call::Result, LENT) else {
            unreachable!("result is not refused in a run");
        };
        let (axes, unused) = (self.job().axes as u32, self.entries.len());
        let promotes = std::mem::take(&mut self.promotes);
        Prediction { promotes, ..Prediction::of(Outcome::Ended { axes, totals, unused, ending }) }
    }
}

/// Choose and promote in turn on the log, where no block is wanted: the ending, or
/// none where the chosen index was promoted.
pub fn choose_and_promote(log: &mut Log) -> Option<Ending> {
    let place = match log.expect(&Call::Choose, LENT) {
        Answer::Choice(Choice::Met) => return Some(Ending::Met),
        Answer::Choice(Choice::Capped) => return Some(Ending::Capped),
        Answer::Choice(Choice::Place(place)) => place,
        answer => unreachable!("no block is wanted: {answer:?}"),
    };
    match log.expect(&Call::Promote { place }, LENT) {
        Answer::Promotion(Promotion::Spent) => Some(Ending::Spent),
        Answer::Promotion(Promotion::Promoted) => None,
        answer => unreachable!("an active index was chosen: {answer:?}"),
    }
}
