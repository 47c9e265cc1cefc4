//! `jobtext pack < text > job` and `jobtext unpack < job > text`.

use reference::{jobfile, jobtext};
use std::io::{Read, Write};
use std::process::ExitCode;

fn convert(direction: Option<&str>, input: &[u8]) -> Result<Vec<u8>, String> {
    match direction {
        Some("pack") => {
            let text = std::str::from_utf8(input).map_err(|fault| format!("no text: {fault}"))?;
            Ok(jobfile::write(&jobtext::parse(text)?))
        }
        Some("unpack") => match jobfile::parse(input) {
            Ok(job) => Ok(jobtext::write(&job).into_bytes()),
            Err(fault) => {
                Err(format!("no job file: {:?} breaks its form at byte {}", fault.part, fault.byte))
            }
        },
        _ => Err("say `jobtext pack` or `jobtext unpack`".to_string()),
    }
}

fn main() -> ExitCode {
    let direction = std::env::args().nth(1);
    let mut input = Vec::new();
    let outcome = std::io::stdin()
        .lock()
        .read_to_end(&mut input)
        .map_err(|fault| fault.to_string())
        .and_then(|_| convert(direction.as_deref(), &input))
        .and_then(|output| std::io::stdout().write_all(&output).map_err(|fault| fault.to_string()));
    match outcome {
        Ok(()) => ExitCode::SUCCESS,
        Err(fault) => {
            eprintln!("{fault}");
            ExitCode::FAILURE
        }
    }
}
