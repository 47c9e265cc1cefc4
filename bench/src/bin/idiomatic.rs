//! Reads a job file from standard input and prints its report.

use bench::jobfile::DECIDING_BYTES;
use bench::program;
use std::io::{self, Read, Write};

fn main() -> io::Result<()> {
    let mut bytes = Vec::with_capacity(DECIDING_BYTES);
    io::stdin().lock().take(DECIDING_BYTES as u64).read_to_end(&mut bytes)?;
    io::stdout().write_all(program::report(&bytes).as_bytes())
}
