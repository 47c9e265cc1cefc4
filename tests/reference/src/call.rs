//! A call with its arguments and its answer as values, so that lists of calls
//! can be made, performed and predicted.

use crate::area::Area;
use crate::calls::{self, Cause, Choice, PointCounts, Promotion, Totals};
use crate::doubles::Report;

#[derive(Clone, Debug, PartialEq, Eq)]
pub enum Call {
    Start { axes: u32, threshold: u64, budget: u32 },
    Point { n: u64, buffer: usize },
    Points { n: u64, buffer: usize },
    Deliver { readings: Vec<i32>, indicator: u32 },
    Choose,
    Promote { place: u64 },
    Result,
    CrossTotal,
    Doubles,
    Check,
}

#[derive(Clone, Debug, PartialEq, Eq)]
pub enum Answer {
    Started,
    /// Point's d positions.
    Point(Vec<u8>),
    /// The counts, and d positions for each point written.
    Points {
        counts: PointCounts,
        positions: Vec<u8>,
    },
    Delivered,
    Choice(Choice),
    Promotion(Promotion),
    Totals(Totals),
    CrossTotal(i64),
    Doubles(Report),
    Sound(bool),
    Refused(Cause),
}

/// The lengths of the lent storage.
#[derive(Clone, Copy, Debug, PartialEq, Eq)]
pub struct Lengths {
    pub records: usize,
    pub store: usize,
}

impl Call {
    pub fn name(&self) -> &'static str {
        match self {
            Call::Start { .. } => "start",
            Call::Point { .. } => "point",
            Call::Points { .. } => "points",
            Call::Deliver { .. } => "deliver",
            Call::Choose => "choose",
            Call::Promote { .. } => "promote",
            Call::Result => "result",
            Call::CrossTotal => "cross total",
            Call::Doubles => "doubles",
            Call::Check => "check",
        }
    }

    /// The length of the buffer that point and points are lent.
    pub fn buffer_length(&self) -> Option<usize> {
        match self {
            Call::Point { buffer, .. } | Call::Points { buffer, .. } => Some(*buffer),
            _ => None,
        }
    }
}

/// Performs a call on an area. A call of point or points gets the buffer, which
/// must be as long as the call says; it comes back as the call left it.
pub fn perform(area: &mut Area, call: &Call, buffer: &mut [u8]) -> Answer {
    match call {
        Call::Start { axes, threshold, budget } => {
            answer(calls::start(area, *axes, *threshold, *budget), |()| Answer::Started)
        }
        Call::Point { n, buffer: length } => {
            assert_eq!(buffer.len(), *length);
            let axes = area.job.axes as usize;
            let outcome = calls::point(area, *n, buffer);
            answer(outcome, |()| Answer::Point(buffer[..axes].to_vec()))
        }
        Call::Points { n, buffer: length } => {
            assert_eq!(buffer.len(), *length);
            let axes = area.job.axes as usize;
            let outcome = calls::points(area, *n, buffer);
            answer(outcome, |counts| {
                let positions = buffer[..counts.written as usize * axes].to_vec();
                Answer::Points { counts, positions }
            })
        }
        Call::Deliver { readings, indicator } => {
            answer(calls::deliver(area, readings, *indicator), |()| Answer::Delivered)
        }
        Call::Choose => answer(calls::choose(area), Answer::Choice),
        Call::Promote { place } => answer(calls::promote(area, *place), Answer::Promotion),
        Call::Result => answer(calls::result(area), Answer::Totals),
        Call::CrossTotal => answer(calls::cross_total(area), Answer::CrossTotal),
        Call::Doubles => answer(calls::doubles(area), Answer::Doubles),
        Call::Check => Answer::Sound(calls::check(area)),
    }
}

fn answer<T>(outcome: Result<T, Cause>, accepted: impl FnOnce(T) -> Answer) -> Answer {
    match outcome {
        Ok(value) => accepted(value),
        Err(cause) => Answer::Refused(cause),
    }
}
