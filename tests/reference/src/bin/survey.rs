//! `survey FIRST_SEED FILES`: runs generated job files through the program,
//! compares each report with the one predicted from the log, prints how often
//! each thing was seen, and fails if something due wasn't.

use reference::survey;
use std::process::ExitCode;

fn main() -> ExitCode {
    let arguments: Vec<Option<u64>> = std::env::args().skip(1).map(|a| a.parse().ok()).collect();
    let [Some(first), Some(files)] = arguments[..] else {
        eprintln!("say `survey FIRST_SEED FILES`");
        return ExitCode::FAILURE;
    };
    let counts = survey::survey(first, files);
    for (what, count) in &counts {
        println!("{what}: {count}");
    }
    let missing = survey::missing(&counts);
    for what in &missing {
        println!("not seen: {what}");
    }
    if missing.is_empty() {
        ExitCode::SUCCESS
    } else {
        ExitCode::FAILURE
    }
}
