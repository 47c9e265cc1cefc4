//! What the example prints, against sources that share no code with it: the
//! reference run on what it delivered, and the four-axis pump in `examples/`,
//! a job that the reference wrote from a pump formula and indicators of its own.

use reference::{jobfile, jobtext, program};
use std::process::Command;

const JOB: &str = include_str!("../../four-axis-pump.txt");
const REPORT: &str = include_str!("../../four-axis-pump.report");

fn printed(arguments: &[&str]) -> String {
    let ran = Command::new(env!("CARGO_BIN_EXE_pump-in-rust")).args(arguments).output().unwrap();
    assert!(ran.status.success(), "{}", String::from_utf8_lossy(&ran.stderr));
    String::from_utf8(ran.stdout).unwrap()
}

#[test]
fn the_reference_reports_the_same_of_what_was_delivered() {
    let job = jobtext::parse(&printed(&["--job"])).expect("a job text");
    assert_eq!(program::report(&jobfile::write(&job)), printed(&[]));
}

#[test]
fn the_job_is_the_four_axis_pump() {
    let said: Vec<&str> = JOB.lines().filter(|line| !line.starts_with('#')).collect();
    assert_eq!(printed(&["--job"]).lines().collect::<Vec<_>>(), said);
    assert_eq!(printed(&[]), REPORT);
}
