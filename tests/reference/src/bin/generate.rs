//! `generate FIRST_SEED FILES DIRECTORY` writes one job file for each seed;
//! `generate FIRST_SEED FILES --stats` prints how many there are of each kind.

use reference::{generate, survey};
use std::collections::BTreeMap;
use std::process::ExitCode;

fn main() -> ExitCode {
    let arguments: Vec<String> = std::env::args().skip(1).collect();
    let numbers: Vec<Option<u64>> = arguments.iter().take(2).map(|a| a.parse().ok()).collect();
    let ([Some(first), Some(files)], Some(target)) = (&numbers[..], arguments.get(2)) else {
        eprintln!("say `generate FIRST_SEED FILES DIRECTORY` or `... --stats`");
        return ExitCode::FAILURE;
    };
    let mut counts: BTreeMap<String, u64> = BTreeMap::new();
    for seed in *first..first + files {
        let generated = generate::generate(seed);
        *counts.entry(survey::kind_name(generated.kind)).or_insert(0) += 1;
        if target != "--stats" {
            let path = std::path::Path::new(target).join(format!("job-{seed:08}.job"));
            if let Err(fault) = std::fs::write(&path, &generated.bytes) {
                eprintln!("{}: {fault}", path.display());
                return ExitCode::FAILURE;
            }
        }
    }
    if target == "--stats" {
        for (kind, count) in counts {
            println!("{kind}: {count}");
        }
    }
    ExitCode::SUCCESS
}
