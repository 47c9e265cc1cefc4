//! The two programs on the same files: wall time from the start of a process
//! to its end.

use crate::files::Files;
use crate::rounds::{print_head, Row, Summary};
use std::fs::File;
use std::path::Path;
use std::process::{Command, Stdio};
use std::time::Instant;

const ROUNDS: usize = 15;
/// Processes of each program in a round; the round's time is their median.
const SPAWNS: usize = 15;

pub fn print(proved: &Path, idiomatic: &Path, files: &Files) {
    print_head("program, wall time of a process");
    for (name, path) in files.named() {
        assert_eq!(output(proved, path), output(idiomatic, path), "the reports of {name}");
        let mut row = Row::new(name);
        for _ in 0..ROUNDS {
            // The programs take turns process by process.
            let times = [(); SPAWNS].map(|()| [proved, idiomatic].map(|it| wall(it, path)));
            row.proved.push(Summary::of(times.map(|[time, _]| time)).median);
            row.idiomatic.push(Summary::of(times.map(|[_, time]| time)).median);
        }
        row.print();
    }
}

fn wall(program: &Path, file: &Path) -> f64 {
    let begun = Instant::now();
    output(program, file);
    begun.elapsed().as_secs_f64()
}

fn output(program: &Path, file: &Path) -> Vec<u8> {
    let input = File::open(file).expect("the file was written");
    let output = Command::new(program)
        .stdin(Stdio::from(input))
        .output()
        .unwrap_or_else(|fault| panic!("{} doesn't run: {fault}", program.display()));
    output.stdout
}
