//! `lent_records FOLDER SEED short|long`: writes lists of calls over lent record
//! structs as the input of the program of tests/records, and what it must print,
//! into a folder, as `stdin` and `stdout`. Long lists fail if some answer never
//! comes.

use harness::records::Lists;
use std::path::Path;
use std::process::ExitCode;

/// Of each call every cause and accepted, what choose and promote answer, and check's
/// no and yes.
const DUE: [(&str, &[u64]); 10] = [
    ("start", &[0, 1, 2, 3]),
    ("point", &[0, 3, 4, 5, 9]),
    ("points", &[0, 3, 4, 5, 9]),
    ("deliver", &[0, 3, 4, 5, 7, 8]),
    ("choose", &[3, 4, 6, 20, 23, 24]),
    ("promote", &[3, 4, 6, 11, 21, 22]),
    ("result", &[0, 3, 4]),
    ("cross total", &[0, 3, 4]),
    ("doubles", &[0, 3, 4]),
    ("check", &[30, 31]),
];

fn long_lists(seed: u64) -> Result<Lists, String> {
    let mut lists = Lists::default();
    for number in 0..6 {
        lists.from_garbage(seed + number, 40);
    }
    for number in 0..4 {
        lists.from_nearly_full(seed + number, 12);
        lists.from_near_ceiling(seed + number, 12);
        lists.from_large_block(seed + number, 12);
    }
    lists.reports_by_name();
    lists.steps_by_name();
    let due = DUE.iter().flat_map(|(call, numbers)| numbers.iter().map(|&number| (*call, number)));
    let missing: Vec<_> = due.filter(|answer| !lists.seen.contains_key(answer)).collect();
    match missing.is_empty() {
        true => Ok(lists),
        false => Err(format!("never answered: {missing:?}")),
    }
}

fn short_list() -> Lists {
    let mut lists = Lists::default();
    lists.each_call();
    lists
}

fn write(folder: &Path, mut lists: Lists) -> Result<usize, String> {
    lists.end();
    std::fs::write(folder.join("stdin"), &lists.input)
        .and_then(|()| std::fs::write(folder.join("stdout"), &lists.output))
        .map_err(|fault| format!("{}: {fault}", folder.display()))?;
    Ok(lists.output.lines().count())
}

fn main() -> ExitCode {
    let arguments: Vec<String> = std::env::args().skip(1).collect();
    let [folder, seed, length] = &arguments[..] else {
        eprintln!("say `lent_records FOLDER SEED short|long`");
        return ExitCode::FAILURE;
    };
    let lists = match (length.as_str(), seed.parse()) {
        ("short", _) => Ok(short_list()),
        ("long", Ok(seed)) => long_lists(seed),
        _ => Err(format!("{length} lists of seed {seed}: there are none")),
    };
    match lists.and_then(|lists| write(Path::new(folder), lists)) {
        Ok(lines) => {
            println!("lent_records: {lines} lines, {length}");
            ExitCode::SUCCESS
        }
        Err(fault) => {
            eprintln!("lent_records: {fault}");
            ExitCode::FAILURE
        }
    }
}
