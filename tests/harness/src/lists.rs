//! Lists of calls by seed, each on one work area: accepted and refused calls,
//! on storage lent whole or in part, with alterations of the area in between.

use crate::answers::{Slots, BEHIND};
use crate::choosing;
use crate::coverage::{Circumstances, Coverage};
use crate::doubles;
use crate::initial_areas::{InitialArea, InitialAreas};
use crate::lent::Part;
use crate::pair::Pair;
use reference::alter;
use reference::area::{Area, ACTIVE, WORDS};
use reference::call::{Answer, Call};
use reference::calls::{self, Choice, Promotion};
use reference::choice::{Block, Chooser};
use reference::grid::HELD_LIMIT;
use reference::places::Places;
use reference::rng::Rng;

struct List {
    chooser: Chooser,
    pair: Pair,
    /// Whether the area is sound, and so carries a job that can go on.
    sound: bool,
    /// Whether a sound area was altered since the job was started.
    altered: bool,
    /// The sound area from before an alteration that broke it.
    kept: Option<Area>,
    /// Set when the job is met, capped or spent: a new one is due soon.
    ended: bool,
}

/// Performs the list of a seed on both sides and gives how many calls it had;
/// or says at which call the sides differ.
pub fn run(
    seed: u64,
    initial_areas: &mut InitialAreas,
    coverage: &mut Coverage,
) -> Result<u64, String> {
    let mut chooser = Chooser::new(Rng::new(seed));
    let InitialArea { area, rest, calls } = initial_areas.next(&mut chooser);
    let sound = calls::check(&area);
    let pair = Pair::new(area, rest);
    let mut list = List { chooser, pair, sound, altered: false, kept: None, ended: false };
    for number in 1..=calls {
        list.step(coverage).map_err(|fault| format!("seed {seed}, call {number}: {fault}"))?;
    }
    Ok(calls)
}

impl List {
    fn step(&mut self, coverage: &mut Coverage) -> Result<(), String> {
        self.alter(coverage);
        let call = self.next_call();
        let part = self.lend(&call);
        let slots = self.slots(&call);
        let (altered, broken) = (self.sound && self.altered, self.kept.is_some());
        let names = match self.sound {
            true => choosing::names(self.pair.area(), &call, part),
            false => Vec::new(),
        };
        let answer = self.pair.call(&call, part, &slots).map_err(|fault| {
            format!("{} lent {part:?} of {:?}: {fault}", described(&call), self.pair.whole())
        })?;
        self.note(&answer);
        let area = self.pair.area();
        coverage.note(&call, &answer, &Circumstances { area, part, altered, broken, names });
        self.cross(&answer)
    }

    /// In a job that only the calls have carried on, the recorded mean is the
    /// one that is worked from the readings.
    fn cross(&self, answer: &Answer) -> Result<(), String> {
        let mean = self.pair.area().job.mean;
        match answer {
            Answer::CrossTotal(total) if !self.altered && *total != mean => {
                Err(format!("the cross total is {total} where the calls have recorded {mean}"))
            }
            _ => Ok(()),
        }
    }

    /// Alters a sound area now and then. One that is broken by it may be
    /// put back later, as by a caller that keeps a copy.
    fn alter(&mut self, coverage: &mut Coverage) {
        let rng = &mut self.chooser.rng;
        if self.sound && rng.percent(4) {
            let before = self.pair.area().clone();
            // Most alterations break the area, so half the time a few are tried.
            let mut tries = rng.pick(&[1, 8]);
            let after = loop {
                let mut after = before.clone();
                alter::alter(&mut after, rng);
                tries -= 1;
                if tries == 0 || (after != before && calls::check(&after)) {
                    break after;
                }
            };
            self.sound = calls::check(&after);
            match self.sound {
                true => self.altered |= after != before,
                false => self.kept = Some(before),
            }
            coverage.note_alteration(self.sound);
            self.pair.replace(after);
        } else if !self.sound && rng.percent(20) {
            if let Some(before) = self.kept.take() {
                self.pair.replace(before);
                self.sound = true;
            }
        }
    }

    fn next_call(&mut self) -> Call {
        let area = self.pair.area();
        let (wanted, places) = (Block::of_area(area), Places::of_area(area));
        let chooser = &mut self.chooser;
        let due = match (self.sound, self.ended) {
            (false, _) => 12,
            (true, true) => 30,
            (true, false) => 1,
        };
        if chooser.rng.percent(due) {
            chooser.draw_parameters();
            return chooser.start();
        }
        if self.sound && chooser.rng.percent(chooser.parameters.steps) {
            return chooser.carry_on(wanted, &places);
        }
        match chooser.rng.below(100) {
            0..=9 => chooser.point(wanted),
            10..=15 => chooser.damaged_point(wanted),
            16..=25 => chooser.points(wanted),
            26..=32 => chooser.damaged_points(wanted),
            33..=42 => chooser.damaged_deliver(wanted),
            43..=50 => self.deliver_or_any(wanted, &places),
            51..=56 => Call::Choose,
            57..=60 => chooser.promote(&places),
            61..=70 => chooser.damaged_promote(&places),
            71..=76 => Call::Result,
            77..=82 => Call::CrossTotal,
            83..=89 => Call::Doubles,
            90..=95 => Call::Check,
            _ => chooser.damaged_start(),
        }
    }

    /// The wanted block, or a delivery where nothing is wanted.
    fn deliver_or_any(&mut self, wanted: Option<Block>, places: &Places) -> Call {
        match wanted {
            Some(_) => self.chooser.carry_on(wanted, places),
            None => {
                let readings = vec![5; self.chooser.rng.pick(&[0, 1, 2, 4])];
                Call::Deliver { readings, indicator: self.chooser.rng.number() as u32 }
            }
        }
    }

    /// How much to lend: mostly all there is, at times just enough or less.
    fn lend(&mut self, call: &Call) -> Part {
        let all = self.pair.whole();
        let budget = match call {
            Call::Start { budget, .. } => *budget,
            _ => self.pair.area().job.budget,
        };
        let store = all.store.min(budget as usize);
        let cells = HELD_LIMIT * WORDS;
        let rng = &mut self.chooser.rng;
        let short_cells = [cells - 1, cells - WORDS, 300 * WORDS, WORDS, 0];
        let short_store = [store.saturating_sub(1), rng.place(store + 1).min(store / 2)];
        match rng.below(100) {
            0..=5 => Part { cells, store },
            6..=9 => Part { cells: (cells + rng.place(WORDS)).min(all.cells), store },
            10 | 11 => Part { cells: rng.pick(&short_cells), ..all },
            12 | 13 => Part { store: rng.pick(&short_store), ..all },
            14 => Part { cells: rng.pick(&short_cells), store: rng.pick(&short_store) },
            _ => all,
        }
    }

    /// Anything, so that a word is seen to be written or left.
    fn slots(&mut self, call: &Call) -> Slots {
        let rng = &mut self.chooser.rng;
        let length = call.buffer_length().unwrap_or(0) + BEHIND;
        Slots {
            points: std::array::from_fn(|_| rng.number() as u32),
            choice: std::array::from_fn(|_| rng.number() as u32),
            outcome: [rng.number() as u32],
            counts: std::array::from_fn(|_| rng.number() as u32),
            total: std::array::from_fn(|_| rng.number() as u32),
            doubles: doubles::any_bits(rng),
            buffer: (0..length).map(|_| rng.number() as u8).collect(),
        }
    }

    /// What an answer says of the job.
    fn note(&mut self, answer: &Answer) {
        match answer {
            Answer::Started => {
                (self.sound, self.altered, self.ended, self.kept) = (true, false, false, None);
            }
            Answer::Choice(Choice::Met | Choice::Capped) => self.ended |= !self.goes_on(),
            Answer::Promotion(promotion) => self.ended = *promotion != Promotion::Promoted,
            _ => {}
        }
    }

    /// Whether a job that is met or capped is meant to go on, and has where to.
    fn goes_on(&self) -> bool {
        let mut held = self.pair.area().held().iter();
        self.chooser.parameters.past_the_end && held.any(|record| record.state == ACTIVE)
    }
}

/// A call in words, with no more readings than can be read.
fn described(call: &Call) -> String {
    match call {
        Call::Deliver { readings, indicator } if readings.len() > 16 => format!(
            "Deliver {{ {} readings, the first {:?}, indicator: {indicator} }}",
            readings.len(),
            &readings[..16]
        ),
        _ => format!("{call:?}"),
    }
}

#[cfg(test)]
mod tests {
    use super::*;

    /// So a list that a long run names can be had again alone.
    #[test]
    fn a_seed_gives_the_same_list_alone_as_in_a_run() {
        let mut used = InitialAreas::default();
        for seed in 0..60 {
            let (mut one, mut other) = (Coverage::default(), Coverage::default());
            let alone = run(seed, &mut InitialAreas::default(), &mut one);
            assert_eq!(run(seed, &mut used, &mut other), alone, "seed {seed}");
            assert!(alone.is_ok(), "{alone:?}");
            assert_eq!(one.to_string(), other.to_string(), "seed {seed}");
        }
    }
}
