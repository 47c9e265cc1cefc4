//! Counts of instructions by callgrind, which do not depend on what else the
//! machine does, and of the branches that its model of a processor mispredicts.
//! This program runs itself under it, one subject at a time.

use crate::files::Files;
use crate::job::{Asking, Job, Part};
use crate::sides::{Idiomatic, Proved, Side};
use std::fs::File;
use std::path::Path;
use std::process::{Command, Stdio};

/// What callgrind counts of one side.
#[derive(Clone, Copy)]
struct Counts {
    instructions: u64,
    mispredicted: u64,
}

impl Counts {
    fn and(self, other: Counts) -> Counts {
        Counts {
            instructions: self.instructions + other.instructions,
            mispredicted: self.mispredicted + other.mispredicted,
        }
    }
}

/// The parts of the full job; its points are asked for in two ways.
const PARTS: [(&str, &str); 5] = [
    ("point", "full job: point calls"),
    ("points", "full job: points calls"),
    ("delivers", "full job: deliver calls"),
    ("chooses", "full job: choose calls"),
    ("promotes", "full job: promote calls"),
];

const SINGLES: [(&str, &str); 6] = [
    ("check-32", "check, 32 held"),
    ("check-128", "check, 128 held"),
    ("check-512", "check, 512 held"),
    ("result-512", "result, 512 held"),
    ("doubles-512", "doubles, 512 held"),
    ("cross-512", "cross total, 512 held"),
];

/// Nothing but what is called from here is counted, by this function's name.
#[inline(never)]
fn counted_part(work: &mut dyn FnMut()) {
    work();
}

/// Does one subject on one side, the part that is meant by way of the function
/// above.
pub fn once(side: &str, subject: &str) -> Result<(), String> {
    match side {
        Proved::NAME => perform::<Proved>(subject),
        Idiomatic::NAME => perform::<Idiomatic>(subject),
        _ => Err(format!("no side is called {side}")),
    }
}

fn perform<S: Side>(subject: &str) -> Result<(), String> {
    let job = Job::of_512_held();
    let part = match subject {
        "point" => Some((Asking::ByPoint, Part::Points)),
        "points" => Some((Asking::ByPoints, Part::Points)),
        "delivers" => Some((Asking::ByPoints, Part::Delivers)),
        "chooses" => Some((Asking::ByPoints, Part::Chooses)),
        "promotes" => Some((Asking::ByPoints, Part::Promotes)),
        _ => None,
    };
    if let Some((asking, meant)) = part {
        job.go_through::<S>(asking, |part, work| match part == meant {
            true => counted_part(work),
            // The areas are the same without the points, which change nothing.
            false if part == Part::Points => {}
            false => work(),
        });
        return Ok(());
    }
    let (call, held) = subject.split_once('-').ok_or(format!("no subject {subject}"))?;
    let held = held.parse().map_err(|_| format!("no number of held: {held}"))?;
    let area = job.area::<S>(held);
    match call {
        "check" => counted_part(&mut || area.check()),
        "result" => counted_part(&mut || area.result()),
        "doubles" => counted_part(&mut || area.doubles()),
        "cross" => counted_part(&mut || area.cross_total()),
        _ => return Err(format!("no subject {subject}")),
    }
    Ok(())
}

pub fn print_calls() {
    print_head("instructions of the calls");
    let [point, points, delivers, chooses, promotes] = PARTS.map(print_subject);
    let refining = together(chooses, promotes);
    print_row("full job: choose and promote calls", refining);
    let rest = together(delivers, refining);
    print_row("full job by point: all calls", together(point, rest));
    print_row("full job by points: all calls", together(points, rest));
    for single in SINGLES {
        print_subject(single);
    }
    println!();
}

/// On each side, what both take.
fn together(one: [Counts; 2], other: [Counts; 2]) -> [Counts; 2] {
    std::array::from_fn(|side| one[side].and(other[side]))
}

/// Counts a subject on both sides and prints its row.
fn print_subject((subject, name): (&str, &str)) -> [Counts; 2] {
    let this = std::env::current_exe().expect("a program knows its path");
    let counts = [Proved::NAME, Idiomatic::NAME].map(|side| {
        let mut valgrind = callgrind();
        valgrind.arg("--toggle-collect=*counted_part*").arg(&this);
        counted(valgrind.args(["once", side, subject]))
    });
    print_row(name, counts);
    counts
}

pub fn print_programs(proved: &Path, idiomatic: &Path, files: &Files) {
    print_head("instructions of the programs");
    for (name, path) in files.named() {
        let counts = [proved, idiomatic].map(|program| {
            let input = File::open(path).expect("the file was written");
            counted(callgrind().arg(program).stdin(Stdio::from(input)))
        });
        print_row(name, counts);
    }
    println!();
}

fn callgrind() -> Command {
    let mut valgrind = Command::new("valgrind");
    valgrind.args(["--tool=callgrind", "--branch-sim=yes", "--callgrind-out-file=/dev/null"]);
    valgrind
}

/// Callgrind says at its end `Collected :` and the instructions, the branches
/// on a condition and those of them that were mispredicted, and then two
/// numbers for other branches.
fn counted(valgrind: &mut Command) -> Counts {
    let output = valgrind.output().expect("valgrind is installed");
    let said = String::from_utf8_lossy(&output.stderr);
    let counts = said.lines().find_map(|line| line.split_once("Collected : "));
    let (_, counts) = counts.unwrap_or_else(|| panic!("callgrind gave no counts: {said}"));
    let number = |word: &str| word.parse().expect("a count is a number");
    let counts: Vec<u64> = counts.split_whitespace().map(number).collect();
    Counts { instructions: counts[0], mispredicted: counts[2] }
}

fn print_head(title: &str) {
    println!(
        "{:<42} {:>14} {:>14} {:>8} {:>14} {:>14}",
        title, "proved", "idiomatic", "ratio", "mispredicted", "idiomatic"
    );
}

fn print_row(name: &str, [proved, idiomatic]: [Counts; 2]) {
    println!(
        "{name:<42} {:>14} {:>14} {:>8.2} {:>14} {:>14}",
        proved.instructions,
        idiomatic.instructions,
        proved.instructions as f64 / idiomatic.instructions as f64,
        proved.mispredicted,
        idiomatic.mispredicted
    );
}
