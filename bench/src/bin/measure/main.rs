//! Measures the proved integrator beside the idiomatic one.
//!
//! - `measure [PROGRAM]`: times, both sides in turn on the same inputs. The
//!   proved program is PROGRAM, or `target/bin/integrator` of the repository.
//! - `measure instructions [PROGRAM]`: counts of instructions by callgrind.
//! - `measure once SIDE SUBJECT`: what such a count is taken of.

mod calls_timed;
mod clock;
mod files;
mod instructions;
mod job;
mod programs;
mod rounds;
mod sides;

use files::Files;
use job::Job;
use std::path::PathBuf;
use std::process::ExitCode;

fn main() -> ExitCode {
    let arguments: Vec<String> = std::env::args().skip(1).collect();
    let words: Vec<&str> = arguments.iter().map(String::as_str).collect();
    match words[..] {
        ["once", side, subject] => {
            if let Err(fault) = instructions::once(side, subject) {
                eprintln!("{fault}");
                return ExitCode::FAILURE;
            }
        }
        ["instructions", ref program @ ..] if program.len() <= 1 => {
            instructions::print_calls();
            with_programs(program.first(), |proved, idiomatic, files| {
                instructions::print_programs(&proved, &idiomatic, files);
            });
        }
        ref program if program.len() <= 1 => {
            calls_timed::print(&Job::of_512_held());
            println!();
            with_programs(program.first(), |proved, idiomatic, files| {
                programs::print(&proved, &idiomatic, files);
            });
        }
        _ => {
            eprintln!("say `measure [PROGRAM]` or `measure instructions [PROGRAM]`");
            return ExitCode::FAILURE;
        }
    }
    ExitCode::SUCCESS
}

/// Compares the programs if both have been built.
fn with_programs(proved: Option<&&str>, compare: impl FnOnce(PathBuf, PathBuf, &Files)) {
    let built = concat!(env!("CARGO_MANIFEST_DIR"), "/../target/bin/integrator");
    let proved = PathBuf::from(proved.copied().unwrap_or(built));
    let this = std::env::current_exe().expect("a program knows its path");
    let idiomatic = this.with_file_name("idiomatic");
    for program in [&proved, &idiomatic] {
        if !program.is_file() {
            println!("The programs are left out: there is no {}.", program.display());
            return;
        }
    }
    compare(proved, idiomatic, &Files::write());
}
