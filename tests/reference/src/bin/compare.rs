//! `compare PROGRAM FIRST_SEED FILES`: runs another program on generated job
//! files, one for each seed, and compares every byte that it prints with the
//! reference's report. Files of even seeds are its standard input itself, those
//! of odd seeds come through a pipe in pieces. Prints how often each thing was
//! seen, and fails at a difference or, from 2,000 files on, if something due
//! wasn't seen.

use reference::rng::Rng;
use reference::survey::{self, Counts};
use reference::{generate, program};
use std::fs::File;
use std::io::{ErrorKind, Result, Write};
use std::path::Path;
use std::process::{ChildStdin, Command, ExitCode, Output, Stdio};

const ENOUGH: u64 = 2_000;

fn main() -> ExitCode {
    let arguments: Vec<String> = std::env::args().skip(1).collect();
    let numbers: Vec<Option<u64>> = arguments.iter().skip(1).map(|a| a.parse().ok()).collect();
    let (Some(other), [Some(first), Some(files)]) = (arguments.first(), &numbers[..]) else {
        eprintln!("say `compare PROGRAM FIRST_SEED FILES`");
        return ExitCode::FAILURE;
    };
    match compare(other, *first, *files) {
        Ok(true) => ExitCode::SUCCESS,
        Ok(false) => ExitCode::FAILURE,
        Err(fault) => {
            eprintln!("{other}: {fault}");
            ExitCode::FAILURE
        }
    }
}

fn compare(other: &str, first: u64, files: u64) -> Result<bool> {
    let place = std::env::temp_dir().join(format!("compared-{}.job", std::process::id()));
    let mut counts = Counts::new();
    let mut differences = 0;
    for seed in first..first + files {
        let generated = generate::generate(seed);
        let expected = program::text(&survey::checked_outcome(seed, &generated, &mut counts));
        let output = match seed % 2 {
            0 => run_on_file(other, &place, &generated.bytes)?,
            _ => run_on_pipe(other, seed, &generated.bytes)?,
        };
        let same = output.stdout == expected.as_bytes() && output.stderr.is_empty();
        if !same || !output.status.success() {
            differences += 1;
            println!("seed {seed} differs: {output:?}, and not {expected:?}");
        }
    }
    if Path::new(&place).exists() {
        std::fs::remove_file(&place)?;
    }
    Ok(print_summary(&counts, files, differences))
}

/// The counts, what is missing, and whether all is well.
fn print_summary(counts: &Counts, files: u64, differences: u64) -> bool {
    for (what, count) in counts {
        println!("{what}: {count}");
    }
    let missing = match files < ENOUGH {
        true => Vec::new(),
        false => survey::missing(counts),
    };
    for what in &missing {
        println!("not seen: {what}");
    }
    println!("{files} job files compared, {differences} differ");
    differences == 0 && missing.is_empty()
}

fn run_on_file(other: &str, place: &Path, bytes: &[u8]) -> Result<Output> {
    std::fs::write(place, bytes)?;
    Command::new(other).stdin(File::open(place)?).output()
}

fn run_on_pipe(other: &str, seed: u64, bytes: &[u8]) -> Result<Output> {
    let mut child = Command::new(other)
        .stdin(Stdio::piped())
        .stdout(Stdio::piped())
        .stderr(Stdio::piped())
        .spawn()?;
    let input = child.stdin.take().expect("a pipe was asked for");
    send(input, &mut Rng::new(seed), bytes)?;
    child.wait_with_output()
}

/// Writes the bytes in pieces. A program need not read past what decides.
fn send(mut input: ChildStdin, rng: &mut Rng, bytes: &[u8]) -> Result<()> {
    let mut rest = bytes;
    while !rest.is_empty() {
        let length = rest.len().min(rng.between(1, 9_000) as usize);
        match input.write_all(&rest[..length]) {
            Err(fault) if fault.kind() == ErrorKind::BrokenPipe => return Ok(()),
            written => written?,
        }
        rest = &rest[length..];
    }
    Ok(())
}
