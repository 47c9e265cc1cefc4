//! `compare_calls SEED COUNT`: performs random lists of calls side by side on the
//! library and on the reference, the lists of the seeds from the first on until
//! there are so many calls, and prints what was seen. It fails at the first
//! call after which anything differs; `compare_calls` with that seed and a count of 1
//! has the list again. A long run fails also if some cause or some outcome was
//! never seen.

use harness::coverage::{Coverage, LONG_RUN};
use harness::initial_areas::InitialAreas;
use harness::lists;
use std::process::ExitCode;
use std::sync::atomic::{AtomicU64, Ordering};

/// The seed of the list that is being performed, for a panic's message.
static SEED: AtomicU64 = AtomicU64::new(0);

fn run(first: u64, count: u64) -> Result<Coverage, String> {
    let (mut initial_areas, mut coverage) = (InitialAreas::default(), Coverage::default());
    let (mut seed, mut calls) = (first, 0);
    while calls < count {
        SEED.store(seed, Ordering::Relaxed);
        let before = |fault| format!("{fault}\nafter {calls} calls in the lists before");
        calls += lists::run(seed, &mut initial_areas, &mut coverage).map_err(before)?;
        seed = seed.wrapping_add(1);
    }
    Ok(coverage)
}

fn main() -> ExitCode {
    let arguments: Vec<Option<u64>> = std::env::args().skip(1).map(|a| a.parse().ok()).collect();
    let [Some(first), Some(count)] = arguments[..] else {
        eprintln!("say `compare_calls SEED COUNT`");
        return ExitCode::FAILURE;
    };
    std::panic::set_hook(Box::new(|panic| {
        eprintln!("compare_calls: seed {}: {panic}", SEED.load(Ordering::Relaxed));
    }));
    let coverage = match run(first, count) {
        Ok(coverage) => coverage,
        Err(fault) => {
            eprintln!("compare_calls: {fault}");
            return ExitCode::FAILURE;
        }
    };
    print!("{coverage}");
    let missing = if count < LONG_RUN { Vec::new() } else { coverage.missing() };
    for what in &missing {
        eprintln!("compare_calls: never seen: {what}");
    }
    match missing.is_empty() {
        true => ExitCode::SUCCESS,
        false => ExitCode::FAILURE,
    }
}
