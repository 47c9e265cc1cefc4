//! `areas FIRST_SEED COUNT DIRECTORY [full] [altered]`: writes for each seed an
//! area made by the calls as bytes (`area-SEED.bytes`) and its figures as text
//! (`area-SEED.figures`, in the form that the `figures` module describes).
//! With `full` the areas hold as many indices as the limit of 512 lets them.
//! With `altered` each area is altered first, and a third file says how.

use reference::rng::Rng;
use reference::{alter, figures, sample};
use std::path::Path;
use std::process::ExitCode;

fn write(directory: &str, seed: u64, full: bool, altered: bool) -> std::io::Result<()> {
    let mut area = match full {
        true => sample::full_area(seed, 5 + (seed % 4) as usize),
        false => sample::area(seed),
    };
    let path = |ending: &str| Path::new(directory).join(format!("area-{seed:08}.{ending}"));
    if altered {
        let done = alter::alter(&mut area, &mut Rng::new(!seed));
        std::fs::write(path("changes"), done.join("\n") + "\n")?;
    }
    std::fs::write(path("bytes"), area.to_bytes())?;
    std::fs::write(path("figures"), figures::figures(&area))
}

fn main() -> ExitCode {
    let arguments: Vec<String> = std::env::args().skip(1).collect();
    let numbers: Vec<Option<u64>> = arguments.iter().take(2).map(|a| a.parse().ok()).collect();
    let ([Some(first), Some(count)], Some(directory)) = (&numbers[..], arguments.get(2)) else {
        eprintln!("say `areas FIRST_SEED COUNT DIRECTORY [full] [altered]`");
        return ExitCode::FAILURE;
    };
    let said = |word: &str| arguments[3..].iter().any(|argument| argument == word);
    for seed in *first..first + count {
        if let Err(fault) = write(directory, seed, said("full"), said("altered")) {
            eprintln!("{directory}: {fault}");
            return ExitCode::FAILURE;
        }
    }
    ExitCode::SUCCESS
}
