//! What the lists of calls have seen, and what a long run has to have seen: a
//! comparison in which a cause is never returned says nothing of that cause.

use crate::choosing;
use crate::doubles;
use crate::lent::Part;
use reference::area::{Area, WORDS};
use reference::call::{Answer, Call};
use reference::calls::{Cause, PointCounts};
use reference::grid::HELD_LIMIT;
use std::collections::BTreeMap;
use std::fmt::{self, Display, Formatter};

/// From so many calls on, everything has to be seen.
pub const LONG_RUN: u64 = 200_000;

/// Every number that a call can be refused with.
pub const REFUSALS: [(&str, &[u32]); 9] = [
    ("start", &[1, 2, 3]),
    ("point", &[3, 4, 5, 9]),
    ("points", &[3, 4, 5, 9]),
    ("deliver", &[3, 4, 5, 7, 8]),
    ("choose", &[3, 4, 6]),
    ("promote", &[3, 4, 6, 11]),
    ("result", &[3, 4]),
    ("cross total", &[3, 4]),
    ("doubles", &[3, 4]),
];

/// Accepted calls on storage that is just enough, or goes on a little; the
/// buffers are those of point.
const LENT: [&str; 5] = [
    "lent 512 records exactly",
    "lent a part of a record at the end",
    "lent a store as long as the budget",
    "lent a buffer of just d bytes",
    "lent a buffer longer than d",
];

/// What points wrote, as the block or the buffer ended first. A block of one
/// point doesn't count as whole, nor its point as the last: there is no other.
const POINTS: [&str; 5] = [
    "points wrote a whole block",
    "points wrote the last point alone",
    "points wrote several from a later one on",
    "points left a part for lack of room",
    "points left a part, with room for a part of a point",
];

/// The buffers of points, accepted or refused.
const BUFFERS: [&str; 2] = ["points lent no byte", "points lent more than the largest block takes"];
/// By the ceilings a block has at most 2,048 points, here of 8 axes; one that a
/// job can reach has at most 1,024, since those below it are within the budget.
const LARGEST_BLOCK: usize = 16_384;
const MOST_POINTS: u64 = 1_024;

/// One other than the recorded mean takes an altered area.
const CROSS_TOTALS: [&str; 2] =
    ["cross totals other than the recorded mean", "cross totals below 0"];

/// What a call was made on; the area is as the call left it.
pub struct Circumstances<'a> {
    pub area: &'a Area,
    pub part: Part,
    /// Whether the area is sound and was altered since the job was started.
    pub altered: bool,
    /// Whether an alteration broke the area of a job.
    pub broken: bool,
    /// The names of a choose or a promote, by the area before it.
    pub names: Vec<&'static str>,
}

#[derive(Default)]
pub struct Coverage {
    counts: BTreeMap<String, u64>,
    highest: BTreeMap<&'static str, u64>,
}

impl Coverage {
    fn count(&mut self, what: impl Into<String>) {
        *self.counts.entry(what.into()).or_insert(0) += 1;
    }

    /// Counts those of a list that were seen.
    fn count_seen<const N: usize>(&mut self, list: [&str; N], seen: [bool; N]) {
        for (what, _) in list.into_iter().zip(seen).filter(|(_, seen)| *seen) {
            self.count(what);
        }
    }

    fn number(&self, what: &str) -> u64 {
        self.counts.get(what).copied().unwrap_or(0)
    }

    fn highest(&mut self, what: &'static str, value: u32) {
        let slot = self.highest.entry(what).or_insert(0);
        *slot = u64::from(value).max(*slot);
    }

    pub fn note_alteration(&mut self, sound: bool) {
        self.count("areas altered");
        if sound {
            self.count("areas altered and still sound");
        }
    }

    pub fn note(&mut self, call: &Call, answer: &Answer, on: &Circumstances) {
        self.count("calls");
        self.count(format!("calls of {}", call.name()));
        if let Call::Points { buffer, .. } = call {
            self.count_seen(BUFFERS, [*buffer == 0, *buffer > LARGEST_BLOCK]);
        }
        on.names.iter().for_each(|&name| self.count(name));
        match answer {
            Answer::Refused(cause) => {
                self.count(format!("refused {} by {}", cause.number(), call.name()));
                if on.broken && *cause == Cause::AreaNotSound {
                    self.count(broken(call.name()));
                }
                return;
            }
            Answer::Sound(sound) => self.count(if *sound { "check yes" } else { "check no" }),
            _ => self.note_accepted(call, on),
        }
        match answer {
            Answer::Started => self.count(format!("jobs of {} axes", on.area.job.axes)),
            Answer::Points { counts, .. } => self.note_points(call, *counts, on.area),
            Answer::Totals(totals) => self.highest("ceiling count", totals.ceiling),
            Answer::CrossTotal(total) => self.note_cross_total(*total, on.area),
            Answer::Doubles(report) => {
                self.count_seen(doubles::SEEN, doubles::seen(on.area, report));
            }
            _ => {}
        }
        if on.altered {
            self.count("accepted calls on altered sound areas");
        }
    }

    fn note_accepted(&mut self, call: &Call, on: &Circumstances) {
        self.count(format!("accepted {}", call.name()));
        self.highest("held", on.area.job.held);
        self.highest("reserved", on.area.job.reserved);
        let buffer = match call {
            Call::Point { buffer, .. } => Some(*buffer),
            _ => None,
        };
        let axes = on.area.job.axes as usize;
        let seen = [
            on.part.cells / WORDS == HELD_LIMIT,
            !on.part.cells.is_multiple_of(WORDS),
            on.part.store == on.area.job.budget as usize,
            buffer == Some(axes),
            buffer > Some(axes),
        ];
        self.count_seen(LENT, seen);
    }

    fn note_points(&mut self, call: &Call, counts: PointCounts, area: &Area) {
        let Call::Points { n, buffer } = *call else {
            unreachable!("only points answers so");
        };
        let (written, block) = (u64::from(counts.written), u64::from(counts.block));
        let part = n + written < block;
        let room = buffer as u64 > written * u64::from(area.job.axes);
        let seen = [
            block > 1 && written == block,
            block > 1 && n + 1 == block,
            n > 0 && written > 1,
            part,
            part && room,
        ];
        self.count_seen(POINTS, seen);
        self.highest("points written", counts.written);
    }

    fn note_cross_total(&mut self, total: i64, area: &Area) {
        self.count_seen(CROSS_TOTALS, [total != area.job.mean, total < 0]);
        let delivered = area.held().iter().filter(|record| record.is_delivered()).count();
        self.highest("delivered at a cross total", delivered as u32);
    }

    /// What a long run has to see and this one didn't.
    pub fn missing(&self) -> Vec<String> {
        let lists = [&LENT[..], &POINTS, &BUFFERS, &CROSS_TOTALS, &doubles::SEEN].concat();
        let names = lists.into_iter().chain(choosing::due());
        let mut due: Vec<String> = names.map(String::from).collect();
        for (call, numbers) in REFUSALS {
            due.push(format!("accepted {call}"));
            due.extend(numbers.iter().map(|number| format!("refused {number} by {call}")));
            due.extend(numbers.contains(&4).then(|| broken(call)));
        }
        due.extend((1..=8).map(|axes| format!("jobs of {axes} axes")));
        due.extend(
            ["check yes", "check no", "accepted calls on altered sound areas"].map(Into::into),
        );
        due.retain(|what| self.number(what) == 0);
        if self.highest.get("held") != Some(&(HELD_LIMIT as u64)) {
            due.push("512 held".to_string());
        }
        if self.highest.get("points written") != Some(&MOST_POINTS) {
            due.push("1,024 points written".to_string());
        }
        if self.highest.get("ceiling count").is_none_or(|&count| count == 0) {
            due.push("a ceiling".to_string());
        }
        due
    }
}

/// A call that is refused for what was done to the area of a job; in storage full of
/// anything cause 4 comes of itself.
fn broken(call: &str) -> String {
    format!("refused 4 by {call} on an altered area")
}

impl Display for Coverage {
    fn fmt(&self, out: &mut Formatter) -> fmt::Result {
        for (what, count) in &self.counts {
            writeln!(out, "{what}: {count}")?;
        }
        for (what, value) in &self.highest {
            writeln!(out, "highest {what}: {value}")?;
        }
        Ok(())
    }
}

#[cfg(test)]
mod tests {
    use super::*;

    #[test]
    fn a_run_that_saw_nothing_lacks_everything() {
        let refusals: usize = REFUSALS.iter().map(|(_, numbers)| 1 + numbers.len()).sum();
        let altered = REFUSALS.len() - 1;
        let points = POINTS.len() + BUFFERS.len();
        let figures = CROSS_TOTALS.len() + doubles::SEEN.len();
        let lists = choosing::due().count() + LENT.len() + points + figures;
        assert_eq!(Coverage::default().missing().len(), lists + refusals + altered + 8 + 3 + 3);
    }
}
