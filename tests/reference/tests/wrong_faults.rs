//! Wrong programs for the numbers of a job file's parts, each with one slip, and the
//! job files by name that tell them from a right one. Files by seed notice each slip
//! too.

use reference::area::Area;
use reference::calls::Cause;
use reference::cases::{self, Case};
use reference::form;
use reference::generate::generate;
use reference::grid::{BUDGET_LIMIT, HELD_LIMIT};
use reference::jobfile::{self, Fault, JobFile, Part};
use reference::program::{self, Outcome};

/// What concerns the form, in parts that a slip can change one at a time. All else is
/// as the reference has it.
#[derive(Clone, Copy)]
struct Program {
    /// The causes that it looks for before the form, in the job as far as it can be read.
    first: &'static [Cause],
    /// The part in which it tells a fault of the file to be.
    part: fn(&[u8], Fault) -> Part,
    number: fn(Part) -> u32,
}

const RIGHT: Program = Program {
    first: &[],
    part: |_, fault| fault.part,
    number: |part| match part {
        Part::Header => 10,
        Part::EntryTable => 12,
        Part::Readings => 13,
    },
};

fn run(job: &JobFile) -> Outcome {
    program::run(job, &mut Area::empty(HELD_LIMIT, BUDGET_LIMIT as usize))
}

impl Program {
    fn report(&self, file: &[u8]) -> String {
        let fault = match jobfile::parse(file) {
            Ok(job) => return program::text(&run(&job)),
            Err(fault) => fault,
        };
        if let Some(outcome) = form::job_so_far(file).map(|job| run(&job)) {
            if matches!(outcome, Outcome::Refused { cause, .. } if self.first.contains(&cause)) {
                return program::text(&outcome);
            }
        }
        let number = (self.number)((self.part)(file, fault));
        format!("refused {number} at {}\n", fault.byte)
    }
}

/// A slip, the job file that tells it from the right program, and what it prints there.
struct Slip {
    name: &'static str,
    told_by: &'static str,
    prints: &'static str,
    program: Program,
}

fn slip(name: &'static str, told_by: &'static str, prints: &'static str, program: Program) -> Slip {
    Slip { name, told_by, prints, program }
}

const COUNT_0: &str = "an entry of 0 readings";
const AFTER_HEADER: &str = "ends after the header";
const AFTER_TABLE: &str = "ends after the table";

/// Slips in the number of a part.
fn wrong_numbers() -> Vec<Slip> {
    let numbered = |number: fn(Part) -> u32| Program { number, ..RIGHT };
    let entry_as_header = numbered(|part| match part {
        Part::Header | Part::EntryTable => 10,
        Part::Readings => 13,
    });
    let readings_as_entry = numbered(|part| match part {
        Part::Header => 10,
        Part::EntryTable | Part::Readings => 12,
    });
    let swapped = numbered(|part| match part {
        Part::Header => 10,
        Part::EntryTable => 13,
        Part::Readings => 12,
    });
    let too_many = "the first byte too many";
    vec![
        slip("entry_fault_as_header", COUNT_0, "refused 10 at 40\n", entry_as_header),
        slip("readings_fault_as_entry", too_many, "refused 12 at 100\n", readings_as_entry),
        slip("numbers_swapped", AFTER_TABLE, "refused 12 at 72\n", swapped),
    ]
}

fn ends_early(file: &[u8], fault: Fault) -> bool {
    fault.byte == file.len()
}

fn is_table_end(file: &[u8], byte: usize) -> bool {
    byte == 24 + 12 * usize::from(u16::from_le_bytes([file[16], file[17]]))
}

/// Slips in what belongs to a part.
fn wrong_parts() -> Vec<Slip> {
    let told = |part: fn(&[u8], Fault) -> Part| Program { part, ..RIGHT };
    let table_end = told(|file, fault| match fault.part {
        Part::EntryTable if ends_early(file, fault) => Part::Readings,
        part => part,
    });
    let at_24 = told(|file, fault| match fault.byte {
        24 if ends_early(file, fault) => Part::Header,
        _ => fault.part,
    });
    let at_table_end = told(|file, fault| match fault.part {
        Part::Readings if ends_early(file, fault) && is_table_end(file, fault.byte) => {
            Part::EntryTable
        }
        part => part,
    });
    let no_entries = told(|file, fault| match fault.part {
        Part::Readings if file[16..20] == [0; 4] => Part::Header,
        part => part,
    });
    let total = told(|file, fault| match form::find(file).map(|found| found.by) {
        Some("a total above 8,192") => Part::Readings,
        _ => fault.part,
    });
    let entry_count = told(|file, fault| match fault.byte {
        16 if !ends_early(file, fault) => Part::EntryTable,
        _ => fault.part,
    });
    let empty_table = "a byte after an empty table";
    vec![
        slip("table_end_as_readings", "ends in the table", "refused 13 at 71\n", table_end),
        slip("end_after_header_as_header", AFTER_HEADER, "refused 10 at 24\n", at_24),
        slip("end_after_table_as_entry", AFTER_TABLE, "refused 12 at 72\n", at_table_end),
        slip("after_no_entries_as_header", empty_table, "refused 10 at 24\n", no_entries),
        slip("total_as_readings", "8,193 readings in all", "refused 13 at 52\n", total),
        slip("entry_count_as_entry", "513 entries counted", "refused 12 at 16\n", entry_count),
    ]
}

/// Slips in what is tested first.
fn wrong_orders() -> Vec<Slip> {
    let start = Program { first: &[Cause::AxesOutOfRange, Cause::BudgetOutOfRange], ..RIGHT };
    let delivery =
        Program { first: &[Cause::ReadingCountWrong, Cause::ReadingOutOfRange], ..RIGHT };
    vec![
        slip("start_before_form", "12 before 1", "refused 1 at 0\n", start),
        slip("delivery_before_form", "12 before 7", "refused 7 at 40\n", delivery),
    ]
}

fn slips() -> Vec<Slip> {
    [wrong_numbers(), wrong_parts(), wrong_orders()].into_iter().flatten().collect()
}

#[test]
fn without_a_slip_the_program_is_right() {
    for Case { name, bytes, .. } in cases::cases() {
        assert_eq!(RIGHT.report(&bytes), program::report(&bytes), "{name}");
    }
}

#[test]
fn each_slip_is_told_by_a_named_file() {
    let cases = cases::cases();
    for Slip { name, told_by, prints, program } in slips() {
        let case = cases.iter().find(|case| case.name == told_by).expect("a file of that name");
        assert_eq!(program.report(&case.bytes), prints, "{name} by {told_by}");
        assert_ne!(program::report(&case.bytes), prints, "{name} by {told_by}");
    }
}

/// Files as a survey has them notice each slip, so that a comparison over seeds would
/// without any file by name.
#[test]
fn each_slip_is_told_by_files_by_seed() {
    let slips = slips();
    let mut told = vec![0; slips.len()];
    for seed in 1..=1_000 {
        let file = generate(seed).bytes;
        if jobfile::parse(&file).is_ok() {
            continue;
        }
        let right = program::report(&file);
        assert_eq!(RIGHT.report(&file), right, "seed {seed}");
        for (count, slip) in told.iter_mut().zip(&slips) {
            *count += u32::from(slip.program.report(&file) != right);
        }
    }
    for (count, slip) in told.iter().zip(&slips) {
        println!("{}: {count}", slip.name);
        assert!(*count > 3, "{}: {count}", slip.name);
    }
}
