//! `drive SEED CALLS`: a random list of calls on one area, each held against
//! the log and against Fig. 1; prints how often each thing was seen. Ends with a
//! panic at the first disagreement, and fails if something due wasn't seen where
//! there were calls enough for it.

use reference::drive::{self, ENOUGH};
use std::process::ExitCode;

fn main() -> ExitCode {
    let arguments: Vec<Option<u64>> = std::env::args().skip(1).map(|a| a.parse().ok()).collect();
    let [Some(seed), Some(calls)] = arguments[..] else {
        eprintln!("say `drive SEED CALLS`");
        return ExitCode::FAILURE;
    };
    let counts = drive::drive(seed, calls);
    for (what, count) in &counts {
        println!("{what}: {count}");
    }
    let missing = match calls < ENOUGH {
        true => Vec::new(),
        false => drive::missing(&counts),
    };
    for what in &missing {
        println!("not seen: {what}");
    }
    match missing.is_empty() {
        true => ExitCode::SUCCESS,
        false => ExitCode::FAILURE,
    }
}
