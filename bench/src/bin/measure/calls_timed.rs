//! Timings of the calls: a full job in its parts, and single calls.

use crate::job::{Asking, Job, Part};
use crate::rounds::{print_growth, print_head, repeats, timed, Row};
use crate::sides::{Idiomatic, Proved, Side};

const JOB_ROUNDS: usize = 15;
const CALL_ROUNDS: usize = 61;

pub fn print(job: &Job) {
    for (asking, call) in [(Asking::ByPoint, "point"), (Asking::ByPoints, "points")] {
        let (held, readings) = (job.held(), job.readings());
        print_head(&format!("full job by {call}: {held} held, {readings} readings"));
        full_job(job, asking, call).iter().for_each(Row::print);
        println!();
    }
    print_head("one call");
    let singles = [
        Single::new(job, 32, "check", Side::check, Side::check),
        Single::new(job, 128, "check", Side::check, Side::check),
        Single::new(job, 512, "check", Side::check, Side::check),
        Single::new(job, 512, "result", Side::result, Side::result),
        Single::new(job, 512, "doubles", Side::doubles, Side::doubles),
        Single::new(job, 512, "cross total", Side::cross_total, Side::cross_total),
    ];
    let rows = take_rounds(singles);
    rows.iter().for_each(Row::print);
    println!();
    print_growth("growth of check from 128 to 512 held", &rows[1], &rows[2]);
}

/// The whole job, and its parts; by `call` it asks for points. Choose and
/// promote are one step of a job, so they come together first.
fn full_job(job: &Job, asking: Asking, call: &str) -> [Row; 6] {
    let asked = format!("{call} calls");
    let together = "choose and promote calls";
    let names = ["all calls", &asked, "deliver calls", together, "choose calls", "promote calls"];
    let mut rows = names.map(Row::new);
    let mut note = |times: [f64; 4], pick: fn(&mut Row) -> &mut Vec<f64>| {
        let [points, delivers, chooses, promotes] = times;
        let all = times.iter().sum();
        let times = [all, points, delivers, chooses + promotes, chooses, promotes];
        for (row, time) in rows.iter_mut().zip(times) {
            pick(row).push(time);
        }
    };
    for round in 0..JOB_ROUNDS {
        let proved_first = round % 2 == 0;
        if proved_first {
            note(parts::<Proved>(job, asking), |row| &mut row.proved);
        }
        note(parts::<Idiomatic>(job, asking), |row| &mut row.idiomatic);
        if !proved_first {
            note(parts::<Proved>(job, asking), |row| &mut row.proved);
        }
    }
    rows
}

/// What points, delivers, chooses and promotes of the job took.
fn parts<S: Side>(job: &Job, asking: Asking) -> [f64; 4] {
    let mut times = [0.0; 4];
    job.go_through::<S>(asking, |part, work| {
        let slot = match part {
            Part::Points => 0,
            Part::Delivers => 1,
            Part::Chooses => 2,
            Part::Promotes => 3,
        };
        times[slot] += timed(work);
    });
    times
}

/// One call on one area, for each side.
struct Single {
    row: Row,
    times: usize,
    proved: Box<dyn Fn()>,
    idiomatic: Box<dyn Fn()>,
}

impl Single {
    fn new(
        job: &Job,
        held: u32,
        name: &str,
        proved: fn(&Proved),
        idiomatic: fn(&Idiomatic),
    ) -> Single {
        let (one, other) = (job.area::<Proved>(held), job.area::<Idiomatic>(held));
        assert_eq!((one.held(), other.held()), (held, held));
        Single {
            row: Row::new(format!("{name}, {held} held")),
            times: repeats(|| idiomatic(&other)),
            proved: Box::new(move || proved(&one)),
            idiomatic: Box::new(move || idiomatic(&other)),
        }
    }

    fn take_round(&mut self) {
        let times = self.times;
        let each = |work: &dyn Fn()| timed(|| (0..times).for_each(|_| work())) / times as f64;
        self.row.take_round(|| each(&self.proved), || each(&self.idiomatic));
    }
}

/// Every call in every round, so that one row can be held against another.
fn take_rounds<const N: usize>(mut singles: [Single; N]) -> [Row; N] {
    for _ in 0..CALL_ROUNDS {
        singles.iter_mut().for_each(Single::take_round);
    }
    singles.map(|single| single.row)
}
