//! `vectors DIRECTORY`: writes the bundle of named job files as the file `stdin` and
//! what running it must print as the file `stdout`.

use reference::vectors;
use std::path::Path;
use std::process::ExitCode;

fn main() -> ExitCode {
    let Some(directory) = std::env::args().nth(1) else {
        eprintln!("say `vectors DIRECTORY`");
        return ExitCode::FAILURE;
    };
    let files = vectors::files();
    let directory = Path::new(&directory);
    let written = std::fs::write(directory.join("stdin"), vectors::write(&files))
        .and_then(|()| std::fs::write(directory.join("stdout"), vectors::reports(&files)));
    if let Err(fault) = written {
        eprintln!("{}: {fault}", directory.display());
        return ExitCode::FAILURE;
    }
    println!("{} job files", files.len());
    ExitCode::SUCCESS
}
