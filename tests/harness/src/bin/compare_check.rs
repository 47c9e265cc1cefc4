//! `compare_check SEED COUNT`: holds the exported check and the exported doubles
//! against the reference's on the areas of so many seeds from the first on, and
//! prints what was seen. It fails at the first area on which the two differ;
//! `compare_check` with that seed and a count of 1 has it again. A long run fails
//! also if some clause was never broken, or never alone, or if doubles was never
//! refused or never reported what it has to.

use harness::calls;
use harness::check_cases::{Case, CheckCases, Kind};
use harness::doubles::{self, Bits};
use harness::lent::Lent;
use harness::tally::{Tally, LONG_RUN};
use harness::verdict::Verdict;
use reference::calls::Doubled;
use reference::rng::Rng;
use std::process::ExitCode;
use std::sync::atomic::{AtomicU64, Ordering};

/// The seed that is being looked at, for a panic's message.
static SEED: AtomicU64 = AtomicU64::new(0);

/// Compares the answers on one area; says what was done to it if they differ.
fn compare(case: &Case, content: Bits) -> Result<(Verdict, Doubled), String> {
    let Case { kind, done, area, rest } = case;
    let mut lent = Lent::of(area);
    lent.cells.extend(rest);
    let described = |fault| format!("{fault}\n{kind:?}: {}\n{:?}", done.join("; "), area.job);
    let verdict = compare_check(case, &mut lent).map_err(described)?;
    let doubled = compare_doubles(case, &mut lent, content).map_err(described)?;
    Ok((verdict, doubled))
}

fn compare_check(case: &Case, lent: &mut Lent) -> Result<Verdict, String> {
    let verdict = Verdict::of(&case.area);
    let answer = calls::check_lent(lent);
    if answer != verdict.says_yes() {
        let said = |yes: bool| if yes { "yes" } else { "no" };
        let (one, other) = (said(answer), said(verdict.says_yes()));
        return Err(format!("check says {one}, the reference {other}\n{verdict:?}"));
    }
    if case.kind == Kind::Unaltered && !answer {
        return Err(format!("an area made by the calls is not sound: {verdict:?}"));
    }
    Ok(verdict)
}

/// The numbers and the bits, with this content of the array beforehand.
fn compare_doubles(case: &Case, lent: &mut Lent, content: Bits) -> Result<Doubled, String> {
    let doubled = reference::calls::doubles(&case.area);
    let due = match doubled {
        Ok(report) => (0, report.bits()),
        Err(cause) => (cause.number(), content),
    };
    let mut bits = content;
    let number = doubles::call(lent.all(), &mut bits);
    match (number, bits) == due {
        true => Ok(doubled),
        false => Err(format!("doubles gives {number}, {bits:x?}, the reference {due:x?}")),
    }
}

fn run(first: u64, count: u64) -> Result<Tally, String> {
    let mut cases = CheckCases::default();
    let mut tally = Tally::default();
    for number in 0..count {
        let seed = first.wrapping_add(number);
        SEED.store(seed, Ordering::Relaxed);
        let mut rng = Rng::new(seed);
        for case in cases.cases(seed) {
            let (verdict, doubled) = compare(&case, doubles::any_bits(&mut rng))
                .map_err(|fault| format!("seed {seed}, area {} of the run: {fault}", number + 1))?;
            tally.note(&case, &verdict);
            tally.note_doubles(&case.area, &doubled);
        }
    }
    Ok(tally)
}

fn main() -> ExitCode {
    let arguments: Vec<Option<u64>> = std::env::args().skip(1).map(|a| a.parse().ok()).collect();
    let [Some(first), Some(count)] = arguments[..] else {
        eprintln!("say `compare_check SEED COUNT`");
        return ExitCode::FAILURE;
    };
    std::panic::set_hook(Box::new(|panic| {
        eprintln!("compare_check: seed {}: {panic}", SEED.load(Ordering::Relaxed));
    }));
    let tally = match run(first, count) {
        Ok(tally) => tally,
        Err(fault) => {
            eprintln!("compare_check: {fault}");
            return ExitCode::FAILURE;
        }
    };
    print!("{tally}");
    let failures = if count < LONG_RUN { Vec::new() } else { tally.failures() };
    for what in &failures {
        eprintln!("compare_check: {what}");
    }
    match failures.is_empty() {
        true => ExitCode::SUCCESS,
        false => ExitCode::FAILURE,
    }
}
