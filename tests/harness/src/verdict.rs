//! What the reference answers to check, and why.

use reference::area::Area;
use reference::grid::HELD_LIMIT;
use reference::soundness::{self, Clause};

#[derive(Clone, Debug, PartialEq, Eq)]
pub struct Verdict {
    /// "Records under 512".
    pub short_of_records: bool,
    /// "Reading store under the budget", the recorded one.
    pub short_of_readings: bool,
    /// In the order of the clauses.
    pub broken: Vec<Clause>,
}

impl Verdict {
    pub fn of(area: &Area) -> Verdict {
        Verdict {
            short_of_records: area.records.len() < HELD_LIMIT,
            short_of_readings: (area.store.len() as u64) < u64::from(area.job.budget),
            broken: soundness::broken_clauses(area),
        }
    }

    pub fn is_short(&self) -> bool {
        self.short_of_records || self.short_of_readings
    }

    /// "Check answers yes exactly if the area is sound", and "no to short
    /// storage".
    pub fn says_yes(&self) -> bool {
        !self.is_short() && self.broken.is_empty()
    }
}

#[cfg(test)]
mod tests {
    use super::*;
    use reference::rng::Rng;
    use reference::{alter, calls, sample};

    #[test]
    fn it_is_the_answer_of_the_references_own_check() {
        let mut answers = [0, 0];
        for seed in 0..500 {
            let mut area = sample::area(seed);
            let mut rng = Rng::new(!seed);
            if rng.percent(70) {
                alter::alter(&mut area, &mut rng);
            }
            if rng.percent(30) {
                area.records.truncate(rng.between(510, 513) as usize);
            }
            if rng.percent(30) {
                let budget = area.job.budget as usize;
                area.store.truncate((budget + 1).saturating_sub(rng.place(3)));
            }
            let yes = Verdict::of(&area).says_yes();
            assert_eq!(yes, calls::check(&area), "seed {seed}");
            answers[usize::from(yes)] += 1;
        }
        assert!(answers.iter().all(|&count| count > 50), "{answers:?}");
    }
}
