//! What a run has seen, and what a long one has to have seen: a comparison in
//! which some clause is never broken says nothing of that clause.

use crate::check_cases::{Case, Kind};
use crate::doubles;
use crate::verdict::Verdict;
use reference::area::Area;
use reference::calls::{Cause, Doubled};
use reference::grid::HELD_LIMIT;
use reference::soundness::{Clause, CLAUSES};
use std::collections::BTreeMap;
use std::fmt::{self, Display, Formatter};

/// From so many areas on, everything has to be seen.
pub const LONG_RUN: u64 = 50_000;

/// The one clause that can't be broken alone is the excess of at most 12. Say
/// that no other clause is broken and an index of excess 13 or more is held.
/// Its backward neighbours are held, and theirs, so every index nowhere higher
/// is; among them is one of excess 13. The blocks nowhere higher than that one
/// are all the points of its full grid, which are the product of 2^(k-1) + 1
/// over its levels k above 1. That is least for (8,7): 129 times 65, so 8,385
/// readings are reserved, and a budget has at most 8,192. (The reference's tests
/// work out that least number.) What comes nearest is an excess of 13 with the
/// reserved readings past the budget, see `CONDITIONS`.
///
/// Every other clause can be broken alone, though three not at their lower end:
/// a budget of 0 is under the root's one reading, a level of 0 has no block
/// whose size could be added up, and with nothing held the root isn't first.
pub const NEVER_ALONE: [Clause; 1] = [Clause::ExcessInRange];

type Condition = fn(&Case, &Verdict) -> bool;

/// What else has to be seen, besides every clause.
const CONDITIONS: [(&str, Condition); 11] = [
    ("excess above 12 and nothing else but the budget passed", |_, verdict| {
        verdict.broken == [Clause::ExcessInRange, Clause::ReservedWithinBudget]
    }),
    ("nothing held", |case, _| case.area.job.held == 0),
    ("513 held and nothing else broken", |case, verdict| {
        held_count_alone(verdict) && case.area.job.held == 513 && case.area.records.len() > 512
    }),
    ("more held claimed than the 512 records, nothing else broken", |case, verdict| {
        held_count_alone(verdict) && case.area.records.len() == HELD_LIMIT
    }),
    ("yes with 512 held", |case, verdict| verdict.says_yes() && case.area.job.held == 512),
    ("yes in 512 records, no more", |case, verdict| {
        verdict.says_yes() && case.area.records.len() == HELD_LIMIT
    }),
    ("yes in a store as long as the budget", |case, verdict| {
        verdict.says_yes() && case.area.store.len() == case.area.job.budget as usize
    }),
    ("yes with a part of a record at the end", |case, verdict| {
        verdict.says_yes() && !case.rest.is_empty()
    }),
    ("511 records, no part of another, else sound", |case, verdict| {
        short_alone(verdict) && case.area.records.len() == 511 && case.rest.is_empty()
    }),
    ("511 records and a part of another, else sound", |case, verdict| {
        short_alone(verdict) && case.area.records.len() == 511 && !case.rest.is_empty()
    }),
    ("a store one reading under the budget, else sound", |case, verdict| {
        short_alone(verdict) && case.area.store.len() + 1 == case.area.job.budget as usize
    }),
];

/// How doubles was answered.
const DOUBLES: [&str; 3] = ["doubles refused with 3", "doubles refused with 4", "doubles reported"];

fn held_count_alone(verdict: &Verdict) -> bool {
    verdict.broken == [Clause::HeldCountInRange]
}

/// Short of one of the two and sound but for that.
fn short_alone(verdict: &Verdict) -> bool {
    verdict.short_of_records != verdict.short_of_readings && verdict.broken.is_empty()
}

#[derive(Default)]
pub struct Tally {
    unaltered: u64,
    kinds: BTreeMap<Kind, u64>,
    yes: u64,
    no: u64,
    short_of_records: u64,
    short_of_readings: u64,
    short_of_both: u64,
    /// In storage that is long enough.
    broken: BTreeMap<Clause, u64>,
    alone: BTreeMap<Clause, u64>,
    conditions: BTreeMap<&'static str, u64>,
    /// On every area, unaltered ones too.
    doubles: BTreeMap<&'static str, u64>,
}

impl Tally {
    /// How many areas were altered or made otherwise than by the calls.
    pub fn areas(&self) -> u64 {
        self.yes + self.no
    }

    pub fn note(&mut self, case: &Case, verdict: &Verdict) {
        if case.kind == Kind::Unaltered {
            self.unaltered += 1;
            return;
        }
        *self.kinds.entry(case.kind).or_default() += 1;
        match verdict.says_yes() {
            true => self.yes += 1,
            false => self.no += 1,
        }
        match (verdict.short_of_records, verdict.short_of_readings) {
            (true, true) => self.short_of_both += 1,
            (true, false) => self.short_of_records += 1,
            (false, true) => self.short_of_readings += 1,
            (false, false) => self.note_clauses(&verdict.broken),
        }
        for (name, seen) in CONDITIONS {
            *self.conditions.entry(name).or_default() += u64::from(seen(case, verdict));
        }
    }

    pub fn note_doubles(&mut self, area: &Area, doubled: &Doubled) {
        let of = |cause: Cause| *doubled == Err(cause);
        let answered = [of(Cause::StorageShort), of(Cause::AreaNotSound), doubled.is_ok()];
        let shown = doubled.map_or([false; 5], |report| doubles::seen(area, &report));
        let seen = DOUBLES.into_iter().zip(answered).chain(doubles::SEEN.into_iter().zip(shown));
        for (what, seen) in seen {
            *self.doubles.entry(what).or_default() += u64::from(seen);
        }
    }

    fn note_clauses(&mut self, broken: &[Clause]) {
        for clause in broken {
            *self.broken.entry(*clause).or_default() += 1;
        }
        if let [only] = broken {
            *self.alone.entry(*only).or_default() += 1;
        }
    }

    fn broken(&self, clause: Clause) -> u64 {
        self.broken.get(&clause).copied().unwrap_or(0)
    }

    fn alone(&self, clause: Clause) -> u64 {
        self.alone.get(&clause).copied().unwrap_or(0)
    }

    fn condition(&self, name: &str) -> u64 {
        self.conditions.get(name).copied().unwrap_or(0)
    }

    /// What doubles has to show, and how often it did.
    fn doubles(&self) -> impl Iterator<Item = (&'static str, u64)> + '_ {
        let due = DOUBLES.into_iter().chain(doubles::SEEN);
        due.map(|what| (what, self.doubles.get(what).copied().unwrap_or(0)))
    }

    /// What a long run has to see and this one didn't, or saw and can't be.
    pub fn failures(&self) -> Vec<String> {
        let mut failures = Vec::new();
        for (clause, _) in CLAUSES {
            let may = !NEVER_ALONE.contains(&clause);
            match (self.broken(clause), self.alone(clause)) {
                (0, _) => failures.push(format!("{clause:?} was never broken")),
                (_, 0) if may => failures.push(format!("{clause:?} was never broken alone")),
                (_, alone) if alone > 0 && !may => {
                    failures.push(format!("{clause:?} was broken alone, which can't be"));
                }
                _ => {}
            }
        }
        let unseen = CONDITIONS.iter().filter(|(name, _)| self.condition(name) == 0);
        failures.extend(unseen.map(|(name, _)| format!("never seen: {name}")));
        let unseen = self.doubles().filter(|(_, count)| *count == 0);
        failures.extend(unseen.map(|(what, _)| format!("never seen: {what}")));
        failures
    }
}

impl Display for Tally {
    fn fmt(&self, out: &mut Formatter) -> fmt::Result {
        writeln!(out, "areas {}: yes {}, no {}", self.areas(), self.yes, self.no)?;
        let kinds: Vec<String> =
            self.kinds.iter().map(|(kind, count)| format!("{kind:?} {count}")).collect();
        writeln!(out, "of these {}", kinds.join(", "))?;
        writeln!(out, "besides {} unaltered areas, all yes", self.unaltered)?;
        writeln!(
            out,
            "short of records {}, of readings {}, of both {}",
            self.short_of_records, self.short_of_readings, self.short_of_both
        )?;
        writeln!(out, "clause: broken in storage long enough, broken alone")?;
        for (clause, _) in CLAUSES {
            let name = format!("{clause:?}");
            writeln!(out, "  {name:<26}{:>8}{:>8}", self.broken(clause), self.alone(clause))?;
        }
        for (name, _) in CONDITIONS {
            writeln!(out, "{name}: {}", self.condition(name))?;
        }
        for (what, count) in self.doubles() {
            writeln!(out, "{what}: {count}")?;
        }
        Ok(())
    }
}

#[cfg(test)]
mod tests {
    use super::*;
    use reference::area::Area;

    fn note(tally: &mut Tally, broken: &[Clause]) {
        let area = Area::empty(HELD_LIMIT, 0);
        let case = Case { kind: Kind::Altered, done: Vec::new(), area, rest: Vec::new() };
        let broken = broken.to_vec();
        tally.note(&case, &Verdict { short_of_records: false, short_of_readings: false, broken });
    }

    #[test]
    fn a_run_that_saw_nothing_lacks_everything() {
        let doubles = DOUBLES.len() + doubles::SEEN.len();
        assert_eq!(Tally::default().failures().len(), CLAUSES.len() + CONDITIONS.len() + doubles);
    }

    #[test]
    fn a_clause_has_to_be_broken_alone_unless_it_never_is() {
        let mut tally = Tally::default();
        let all: Vec<Clause> = CLAUSES.iter().map(|(clause, _)| *clause).collect();
        note(&mut tally, &all);
        let lacks = |tally: &Tally, clause: Clause| {
            tally.failures().iter().any(|what| what.starts_with(&format!("{clause:?} ")))
        };
        for &clause in &all {
            assert_eq!(lacks(&tally, clause), !NEVER_ALONE.contains(&clause));
        }
        for &clause in &all {
            note(&mut tally, &[clause]);
            assert_eq!(lacks(&tally, clause), NEVER_ALONE.contains(&clause));
        }
    }
}
