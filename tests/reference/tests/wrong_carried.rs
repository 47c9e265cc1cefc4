//! Wrong programs for the carried error, each with one slip, and the job files by
//! name that tell them from a right one. Altered areas by seed notice each slip
//! too.

use reference::alter;
use reference::area::{Area, IndexRecord, JobRecord, ACTIVE, OLD};
use reference::calls::{self, Cause, Choice, Promotion};
use reference::cases::{self, Case};
use reference::grid::{self, Levels};
use reference::jobfile;
use reference::laws;
use reference::places::Places;
use reference::program::{self, Ending, Outcome};
use reference::rng::Rng;
use reference::sample;
use reference::soundness;

/// What concerns the carried error, in parts that a slip can change one at a time.
/// All else is as the reference has it.
#[derive(Clone, Copy)]
struct Program {
    /// How often a record's indicator counts in the sum that soundness asks for.
    counts: fn(usize, &IndexRecord) -> u64,
    /// How often an indicator joins the recorded sum when its block is delivered.
    delivered: fn(usize, &Levels) -> u64,
    /// How often when its index is promoted.
    promoted: fn(usize, &Levels) -> u64,
    /// The recorded sum as it is kept.
    kept: fn(u64) -> u64,
    /// Whether choose looks for met or capped.
    ends: fn(&JobRecord) -> bool,
    met: fn(&JobRecord) -> bool,
}

/// Once if the index is at a ceiling.
fn at(axes: usize, levels: &Levels) -> u64 {
    grid::at_a_ceiling(axes, levels).into()
}

/// Once for each axis whose forward neighbour is past a ceiling.
fn pairs(axes: usize, levels: &Levels) -> u64 {
    let neighbours = (0..axes).filter_map(|axis| grid::forward_neighbour(levels, axis));
    neighbours.filter(grid::past_a_ceiling).count() as u64
}

/// Once if the index is at the ceiling of level.
fn at_level(axes: usize, levels: &Levels) -> u64 {
    levels[..axes].contains(&8).into()
}

/// Once if the index is at the ceiling of excess.
fn at_excess(_: usize, levels: &Levels) -> u64 {
    (grid::excess(levels) == grid::EXCESS_CEILING).into()
}

const RIGHT: Program = Program {
    counts: |axes, record| u64::from(record.state == OLD) * at(axes, &record.levels),
    delivered: |_, _| 0,
    promoted: at,
    kept: |sum| sum,
    ends: |job| job.pending <= job.threshold,
    met: |job| job.pending + job.carried <= job.threshold,
};

impl Program {
    /// The same area with the carried error that the reference asks for.
    fn righted(area: &Area) -> Area {
        let mut right = area.clone();
        right.job.carried = soundness::ceiling_sum(area) as u64;
        right
    }

    fn carried_is_sum(&self, area: &Area) -> bool {
        let axes = grid::MOST_AXES.min(area.job.axes as usize);
        let own = |record: &IndexRecord| {
            u128::from((self.counts)(axes, record)) * u128::from(record.indicator)
        };
        let sum: u128 = area.held().iter().map(own).sum();
        u64::try_from(sum).map(self.kept) == Ok(area.job.carried)
    }

    fn check(&self, area: &Area) -> bool {
        calls::check(&Program::righted(area)) && self.carried_is_sum(area)
    }

    /// Cause 4 where the carried error alone is at fault.
    fn judged<T>(&self, area: &Area, answer: Result<T, Cause>) -> Result<T, Cause> {
        match answer {
            Err(cause @ (Cause::StorageShort | Cause::AreaNotSound)) => Err(cause),
            _ if !self.carried_is_sum(area) => Err(Cause::AreaNotSound),
            other => other,
        }
    }

    /// The place whose state changed from this one, and what it adds.
    fn raise(&self, area: &mut Area, mut right: Area, from: u32, times: fn(usize, &Levels) -> u64) {
        let held = area.held().iter().zip(right.held());
        let changed =
            |(one, other): &(&IndexRecord, &IndexRecord)| one.state == from && other.state != from;
        let mut added = held.filter(changed).map(|(_, record)| {
            times(right.job.axes as usize, &record.levels) * u64::from(record.indicator)
        });
        let added = added.next().expect("a record changed its state");
        right.job.carried = (self.kept)(area.job.carried + added);
        *area = right;
    }

    fn deliver(&self, area: &mut Area, readings: &[i32], indicator: u32) -> Result<(), Cause> {
        let mut right = Program::righted(area);
        let answer = calls::deliver(&mut right, readings, indicator);
        self.judged(area, answer)?;
        self.raise(area, right, reference::area::WANTED, self.delivered);
        Ok(())
    }

    fn choose(&self, area: &Area) -> Result<Choice, Cause> {
        let mut right = Program::righted(area);
        // Where this program goes on, the reference has to.
        right.job.threshold = if (self.ends)(&area.job) { right.job.pending } else { 0 };
        let choice = self.judged(area, calls::choose(&right))?;
        match (self.ends)(&area.job) {
            true if (self.met)(&area.job) => Ok(Choice::Met),
            true => Ok(Choice::Capped),
            false => Ok(choice),
        }
    }

    fn promote(&self, area: &mut Area, place: u64) -> Result<Promotion, Cause> {
        let mut right = Program::righted(area);
        let answer = calls::promote(&mut right, place);
        let answer = self.judged(area, answer)?;
        if answer == Promotion::Promoted {
            self.raise(area, right, ACTIVE, self.promoted);
        }
        Ok(answer)
    }

    /// Choose and promote in turn; none where the job goes on.
    fn choose_and_promote(&self, area: &mut Area) -> Result<Option<Ending>, Cause> {
        let place = match self.choose(area)? {
            Choice::Met => return Ok(Some(Ending::Met)),
            Choice::Capped => return Ok(Some(Ending::Capped)),
            Choice::Place(place) => place,
        };
        let spent = self.promote(area, place)? == Promotion::Spent;
        Ok(spent.then_some(Ending::Spent))
    }

    /// The report of a well-formed file whose blocks all fit; refused by the
    /// program's own soundness, it names byte 0.
    fn report(&self, file: &[u8]) -> String {
        let job = jobfile::parse(file).expect("well-formed");
        let mut area = Area::empty(grid::HELD_LIMIT, grid::BUDGET_LIMIT as usize);
        calls::start(&mut area, job.axes, job.threshold, job.budget).expect("in range");
        let mut entries = job.entries.iter();
        let ended = loop {
            let answer = match calls::first_wanted(&area).map(|_| entries.next()) {
                Some(Some(entry)) => {
                    self.deliver(&mut area, &entry.readings, entry.indicator).map(|()| None)
                }
                Some(None) => break Ok(Ending::Short),
                None => self.choose_and_promote(&mut area),
            };
            match answer {
                Ok(None) => {}
                Ok(Some(ending)) => break Ok(ending),
                Err(cause) => break Err(cause),
            }
        };
        let outcome = match ended {
            Ok(ending) if self.carried_is_sum(&area) => {
                let mut totals = calls::result(&Program::righted(&area)).expect("sound");
                totals.carried = area.job.carried;
                Outcome::Ended { axes: job.axes, totals, unused: entries.len(), ending }
            }
            Ok(_) => Outcome::Refused { cause: Cause::AreaNotSound, byte: 0 },
            Err(cause) => Outcome::Refused { cause, byte: 0 },
        };
        program::text(&outcome)
    }
}

/// A slip, the job file that tells it from the right program, and a part of what
/// it prints there and the right one does not.
struct Slip {
    name: &'static str,
    told_by: &'static str,
    prints: &'static str,
    program: Program,
}

const LAST_OLD: &str = "the last level old, its indicator carried";
const LAST_ACTIVE: &str = "the last level active, its indicator pending";
const FIVE_AND_SIX: &str = "pending 5 and carried 6, threshold 9";
const EXCESS: &str = "all up to (7,7) old";
const BOTH: &str = "all up to (8,6) old";
const REFUSED: &str = "refused 4 at 0\n";

/// The same number of times in the sum and at a promotion.
fn times(counts: fn(usize, &IndexRecord) -> u64, promoted: fn(usize, &Levels) -> u64) -> Program {
    Program { counts, promoted, ..RIGHT }
}

fn slip(name: &'static str, told_by: &'static str, prints: &'static str, program: Program) -> Slip {
    Slip { name, told_by, prints, program }
}

/// Slips in what is compared with the threshold.
fn wrong_endings() -> Vec<Slip> {
    let alone = |job: &JobRecord| job.carried <= job.threshold;
    let below = |job: &JobRecord| job.pending + job.carried < job.threshold;
    let early = |job: &JobRecord| job.pending <= job.threshold || job.carried > job.threshold;
    let equal = "threshold equal to the pending error";
    vec![
        slip("capped_as_met", LAST_OLD, "end met\n", Program { met: RIGHT.ends, ..RIGHT }),
        slip("carried_alone", FIVE_AND_SIX, "end met\n", Program { met: alone, ..RIGHT }),
        slip("met_below_both_alone", equal, "end capped\n", Program { met: below, ..RIGHT }),
        slip("capped_before_pending", BOTH, "old 28\n", Program { ends: early, ..RIGHT }),
    ]
}

/// Slips in the sum.
fn wrong_sums() -> Vec<Slip> {
    let of_active = Program {
        counts: |axes, record| u64::from(record.is_delivered()) * at(axes, &record.levels),
        delivered: at,
        promoted: |_, _| 0,
        ..RIGHT
    };
    let by_pairs = times(|axes, r| u64::from(r.state == OLD) * pairs(axes, &r.levels), pairs);
    let by_level = times(|axes, r| u64::from(r.state == OLD) * at_level(axes, &r.levels), at_level);
    let by_excess =
        times(|axes, r| u64::from(r.state == OLD) * at_excess(axes, &r.levels), at_excess);
    let all_old = times(|_, r| u64::from(r.state == OLD), |_, _| 1);
    let not_raised = Program { promoted: |_, _| 0, ..RIGHT };
    let never = times(|_, _| 0, |_, _| 0);
    let of_32_bits = Program { kept: |sum| sum as u32 as u64, ..RIGHT };
    vec![
        slip("carried_of_active", LAST_ACTIVE, "carried 10\n", of_active),
        slip("pairs_carried", EXCESS, "carried 20\n", by_pairs),
        slip("excess_ceiling_not_carried", EXCESS, "carried 0\n", by_level),
        slip("level_ceiling_not_carried", LAST_OLD, "carried 0\n", by_excess),
        slip("all_old_carried", FIVE_AND_SIX, "carried 706\n", all_old),
        slip("carried_not_raised", LAST_OLD, REFUSED, not_raised),
        slip("nothing_carried", LAST_OLD, "carried 0\n", never),
        slip(
            "carried_of_32_bits",
            "carried of more than 32 bits",
            "carried 4294967294\n",
            of_32_bits,
        ),
    ]
}

fn slips() -> Vec<Slip> {
    wrong_endings().into_iter().chain(wrong_sums()).collect()
}

/// The job files by name that run to an end.
fn files() -> Vec<Case> {
    let ended = |case: &Case| program::report(&case.bytes).starts_with("axes");
    cases::cases().into_iter().filter(ended).collect()
}

#[test]
fn without_a_slip_the_program_is_right() {
    for Case { name, bytes, .. } in files() {
        assert_eq!(RIGHT.report(&bytes), program::report(&bytes), "{name}");
    }
}

#[test]
fn each_slip_is_told_by_a_named_file() {
    let files = files();
    for Slip { name, told_by, prints, program } in slips() {
        let case = files.iter().find(|case| case.name == told_by).expect("a file of that name");
        let (report, right) = (program.report(&case.bytes), program::report(&case.bytes));
        assert!(report.contains(prints) && !right.contains(prints), "{name}: {report}");
    }
}

/// Areas as lists have them, the altered ones above all, notice each slip, so that
/// a comparison over lists would without any file by name.
#[test]
fn each_slip_is_told_by_areas_by_seed() {
    let slips = slips();
    let mut told = vec![(0, 0); slips.len()];
    let mut rng = Rng::new(43);
    for seed in 0..6_000 {
        let mut area = match seed % 60 {
            0 => sample::ceiling_area(seed),
            _ => sample::area(seed),
        };
        if rng.percent(70) {
            alter::alter(&mut area, &mut rng);
        }
        let mut after = area.clone();
        // Any place where none is active.
        let place = Places::of_area(&area).largest.unwrap_or(0);
        let right = (calls::check(&area), calls::choose(&area), calls::promote(&mut after, place));
        assert_eq!(laws::broken_by_choose(&area, &right.1, &area), None, "seed {seed}");
        assert_eq!(laws::broken_by_promote(&area, place, &right.2, &after), None, "seed {seed}");
        let seen = |program: &Program| {
            let mut after = area.clone();
            let (check, choice) = (program.check(&area), program.choose(&area));
            ((check, choice, program.promote(&mut after, place)), after)
        };
        assert_eq!(seen(&RIGHT), (right, after.clone()), "seed {seed}");
        for ((checks, steps), slip) in told.iter_mut().zip(&slips) {
            let (answers, left) = seen(&slip.program);
            *checks += u32::from(answers.0 != right.0);
            let others = (answers.1, answers.2) != (right.1, right.2);
            *steps += u32::from(others || left != after);
        }
    }
    for ((checks, steps), slip) in told.iter().zip(&slips) {
        println!("{}: {checks} checks, {steps} chooses and promotes", slip.name);
        assert!(checks + steps > 5, "{}: {checks}, {steps}", slip.name);
    }
}
