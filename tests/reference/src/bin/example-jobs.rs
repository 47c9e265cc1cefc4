//! `example-jobs DIRECTORY`: writes the three example jobs, each as a text, as
//! a job file and with its report.

use std::path::Path;
use std::process::ExitCode;

fn main() -> ExitCode {
    let Some(directory) = std::env::args().nth(1) else {
        eprintln!("say `example-jobs DIRECTORY`");
        return ExitCode::FAILURE;
    };
    for example in reference::examples::examples() {
        let path = |ending: &str| Path::new(&directory).join(format!("{}.{ending}", example.name));
        let written = std::fs::write(path("txt"), &example.text)
            .and_then(|()| std::fs::write(path("job"), &example.job))
            .and_then(|()| std::fs::write(path("report"), &example.report));
        if let Err(fault) = written {
            eprintln!("{directory}: {fault}");
            return ExitCode::FAILURE;
        }
    }
    ExitCode::SUCCESS
}
