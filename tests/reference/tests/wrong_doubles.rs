//! Wrong programs for doubles, each with one slip, and the areas by name that
//! tell them from a right one. The laws and areas by seed notice each slip too.

use reference::alter;
use reference::area::{Area, IndexRecord, ACTIVE, OLD};
use reference::calls::{self, Doubled};
use reference::doubles::Report;
use reference::grid::{self, Levels, READING_LIMIT, ROOT};
use reference::laws;
use reference::reports::{self, Case};
use reference::rng::Rng;
use reference::sample;
use reference::sums::{self, Readings};

/// What lies in every array beforehand.
const CONTENT: [f64; 3] = [f64::NAN, -0.0, 7.5];

/// Doubles as it is exported, in parts that a slip can change one at a time.
#[derive(Clone, Copy)]
struct Program {
    /// Whether a record's difference counts.
    counts: fn(&IndexRecord) -> bool,
    /// The index whose difference is taken for a record's.
    index: fn(&IndexRecord) -> Levels,
    /// Whether the next difference takes the place of the largest so far.
    replaces: fn(i128, i128) -> bool,
    /// The scaled mean, given the area and the largest difference.
    mean: fn(&Area, i128) -> i128,
    pending: fn(&Area) -> f64,
    /// The double of a scaled number.
    double: fn(i128) -> f64,
    on_refusal: fn(&mut [f64; 3]),
}

const RIGHT: Program = Program {
    counts: |record| record.is_delivered(),
    index: |record| record.levels,
    replaces: |so_far, next| so_far.abs() < next.abs(),
    mean: |area, _| area.job.mean.into(),
    pending: |area| area.job.pending as f64,
    double: |scaled| scaled as f64 / 1_048_576.0,
    on_refusal: |_| {},
};

/// All held readings, as they lie in the store.
fn held_readings(area: &Area) -> Readings<'_> {
    Readings::new(area.held().iter().map(|record| {
        let first = record.first_reading as usize;
        (record.levels, &area.store[first..first + grid::block_size(&record.levels)])
    }))
}

impl Program {
    fn call(&self, area: &Area, lent: &mut [f64; 3]) -> u32 {
        if let Err(cause) = calls::result(area) {
            (self.on_refusal)(lent);
            return cause.number();
        }
        let known = held_readings(area);
        // Where no block is delivered lies anything; the sums take what is in range.
        let reading = |index: &Levels, number: usize| {
            known.at(index, number).clamp(-READING_LIMIT, READING_LIMIT)
        };
        let mut largest: Option<i128> = None;
        for record in area.held().iter().filter(|record| (self.counts)(record)) {
            let index = (self.index)(record);
            let next = sums::difference(area.job.axes as usize, &index, &reading);
            if largest.is_none_or(|so_far| (self.replaces)(so_far, next)) {
                largest = Some(next);
            }
        }
        let largest = largest.unwrap_or(0);
        let mean = (self.mean)(area, largest);
        *lent = [(self.double)(mean), (self.pending)(area), (self.double)(largest)];
        0
    }

    /// What it answers, and the array's bits after it.
    fn seen(&self, area: &Area) -> (u32, [u64; 3]) {
        let mut lent = CONTENT;
        (self.call(area, &mut lent), lent.map(f64::to_bits))
    }
}

/// A slip, and the area that tells it from the right program.
struct Slip {
    name: &'static str,
    program: Program,
    told_by: &'static str,
}

fn slip(name: &'static str, told_by: &'static str, program: Program) -> Slip {
    Slip { name, program, told_by }
}

const SCOPE: &str = "the scope document's job";
const BELOW_0: &str = "a largest below 0, of an active index";

fn slips() -> Vec<Slip> {
    vec![
        slip(
            "later_of_equals",
            "4, -4",
            Program { replaces: |so_far, next| so_far.abs() <= next.abs(), ..RIGHT },
        ),
        slip(
            "largest_with_sign",
            BELOW_0,
            Program { replaces: |so_far, next| so_far < next, ..RIGHT },
        ),
        slip("difference_of_the_root", BELOW_0, Program { index: |_| ROOT, ..RIGHT }),
        slip(
            "over_two_to_21",
            SCOPE,
            Program { double: |scaled| scaled as f64 / 2_097_152.0, ..RIGHT },
        ),
        slip("largest_for_mean", SCOPE, Program { mean: |_, largest| largest, ..RIGHT }),
        slip(
            "doubles_cleared_on_refusal",
            "a pending error off by one",
            Program { on_refusal: |lent| lent.fill(0.0), ..RIGHT },
        ),
    ]
}

/// Slips besides, in what counts and in what is recorded.
fn more_slips() -> Vec<Slip> {
    vec![
        slip(
            "mean_worked_out",
            "a mean of 12345",
            Program { mean: |area, _| calls::cross_total(area).unwrap().into(), ..RIGHT },
        ),
        slip(
            "pending_over_two_to_20",
            SCOPE,
            Program { pending: |area| area.job.pending as f64 / 1_048_576.0, ..RIGHT },
        ),
        slip(
            "pending_of_32_bits",
            "a pending error of more than 32 bits",
            Program { pending: |area| (area.job.pending as u32).into(), ..RIGHT },
        ),
        slip(
            "minus_zero",
            "three axes, nothing delivered",
            Program { double: |scaled| -(-scaled as f64 / 1_048_576.0), ..RIGHT },
        ),
        slip(
            "whole_part_alone",
            BELOW_0,
            Program { double: |scaled| (scaled / 1_048_576) as f64, ..RIGHT },
        ),
        slip(
            "single_precision",
            "a pending error of more than 32 bits",
            Program { pending: |area| (area.job.pending as f32).into(), ..RIGHT },
        ),
        slip(
            "pending_with_carried",
            "a carried error",
            Program { pending: |area| (area.job.pending + area.job.carried) as f64, ..RIGHT },
        ),
        slip("wanted_counted", "a block wanted", Program { counts: |_| true, ..RIGHT }),
        slip("active_alone", SCOPE, Program { counts: |record| record.state == ACTIVE, ..RIGHT }),
        slip("old_alone", BELOW_0, Program { counts: |record| record.state == OLD, ..RIGHT }),
    ]
}

fn all_slips() -> Vec<Slip> {
    slips().into_iter().chain(more_slips()).collect()
}

/// What the exported call has to leave.
fn due(answer: &Doubled) -> (u32, [u64; 3]) {
    match answer {
        Ok(report) => (0, report.bits()),
        Err(cause) => (cause.number(), CONTENT.map(f64::to_bits)),
    }
}

#[test]
fn without_a_slip_the_program_is_right() {
    for Case { name, area, answer } in reports::cases() {
        assert_eq!(RIGHT.seen(&area), due(&answer), "{name}");
    }
}

#[test]
fn each_slip_is_told_by_a_named_area() {
    let cases = reports::cases();
    for Slip { name, program, told_by } in all_slips() {
        let Case { area, answer, .. } =
            cases.iter().find(|case| case.name == told_by).expect("an area of that name");
        assert_ne!(program.seen(area), due(answer), "{name} by {told_by}");
    }
}

/// A right report keeps the laws on each area by name, and each slip that can be
/// seen in a report breaks one on the area that tells it.
#[test]
fn the_laws_are_broken_by_each_slip() {
    let broken = |program: &Program, area: &Area| {
        let mut lent = CONTENT;
        assert_eq!(program.call(area, &mut lent), 0);
        let [mean, pending, largest] = lent;
        laws::broken_by_doubles(area, &Ok(Report { mean, pending, largest }))
    };
    let accepted: Vec<Case> =
        reports::cases().into_iter().filter(|case| case.answer.is_ok()).collect();
    for case in &accepted {
        assert_eq!(broken(&RIGHT, &case.area), None, "{}", case.name);
    }
    for Slip { name, program, told_by } in all_slips() {
        match accepted.iter().find(|case| case.name == told_by) {
            Some(case) => assert!(broken(&program, &case.area).is_some(), "{name}"),
            None => assert_eq!(name, "doubles_cleared_on_refusal"),
        }
    }
}

/// A refusal for another cause, or of what is accepted, or the reverse.
#[test]
fn the_laws_are_broken_by_a_wrong_refusal() {
    let cases = reports::cases();
    for one in &cases {
        for other in &cases {
            let kept = laws::broken_by_doubles(&one.area, &other.answer).is_none();
            assert_eq!(kept, one.answer == other.answer, "{} on {}", other.name, one.name);
        }
    }
}

/// Areas as lists have them notice each slip, so that a comparison over lists
/// would without any area by name.
#[test]
fn each_slip_is_told_by_areas_by_seed() {
    let slips = all_slips();
    let mut told = vec![0; slips.len()];
    let mut rng = Rng::new(31);
    for seed in 0..1_500 {
        let mut area = sample::area(seed);
        if rng.percent(30) {
            alter::alter(&mut area, &mut rng);
        }
        let right = due(&calls::doubles(&area));
        assert_eq!(RIGHT.seen(&area), right, "seed {seed}");
        for (count, slip) in told.iter_mut().zip(&slips) {
            *count += u32::from(slip.program.seen(&area) != right);
        }
    }
    for (count, slip) in told.iter().zip(&slips) {
        assert!(*count > 5, "{}: {count}", slip.name);
    }
}
