//! The job file: the document's file byte for byte, every rule of form, and
//! the bytes that refusals name.

use reference::examples::scope_job;
use reference::grid::READING_LIMIT;
use reference::jobfile::{self, Entry, Fault, JobFile, Part, DECIDING_BYTES};
use reference::program::report;
use std::io::Write;
use std::process::{Command, Stdio};

/// The file of the document, written out by hand from its form.
const SCOPE_FILE: [u8; 100] = [
    2, 0, 0, 0, // axes
    64, 0, 0, 0, // budget
    40, 0, 0, 0, 0, 0, 0, 0, // threshold
    4, 0, 0, 0, // entry count
    24, 0, 0, 0, // entry table offset
    100, 0, 0, 0, 1, 0, 0, 0, 72, 0, 0, 0, // 100: one reading at byte 72
    50, 0, 0, 0, 2, 0, 0, 0, 76, 0, 0, 0, // 50: two at 76
    0, 0, 0, 0, 2, 0, 0, 0, 84, 0, 0, 0, // 0: two at 84
    10, 0, 0, 0, 2, 0, 0, 0, 92, 0, 0, 0, // 10: two at 92
    0x40, 0x10, 0, 0, // 4160
    0x40, 0, 0, 0, // 64
    0x40, 0x40, 0, 0, // 16448
    0, 0x10, 0, 0, // 4096
    0x80, 0x10, 0, 0, // 4224
    0x40, 0x04, 0, 0, // 1088
    0x40, 0x24, 0, 0, // 9280
];

const SCOPE_REPORT: &str = "axes 2\nold 2\nactive 2\nwanted 0\nreserved 7\npending 10\n\
                            carried 0\nceiling 0\nscaled 5972688896\nunused 0\nend met\n";

/// The document's file with one four-byte field replaced.
fn with_field(at: usize, field: u32) -> Vec<u8> {
    let mut bytes = SCOPE_FILE.to_vec();
    bytes[at..at + 4].copy_from_slice(&field.to_le_bytes());
    bytes
}

fn job(axes: u32, budget: u32, threshold: u64, entries: &[(u32, &[i32])]) -> JobFile {
    let entries = entries
        .iter()
        .map(|(indicator, readings)| Entry { indicator: *indicator, readings: readings.to_vec() })
        .collect();
    JobFile { axes, budget, threshold, entries }
}

fn report_of(job: &JobFile) -> String {
    report(&jobfile::write(job))
}

#[test]
fn the_document_file_and_its_report() {
    assert_eq!(jobfile::write(&scope_job()), SCOPE_FILE);
    assert_eq!(jobfile::parse(&SCOPE_FILE), Ok(scope_job()));
    assert_eq!(report(&SCOPE_FILE), SCOPE_REPORT);
}

#[test]
fn the_program_reads_standard_input() {
    let mut child = Command::new(env!("CARGO_BIN_EXE_integrator-reference"))
        .stdin(Stdio::piped())
        .stdout(Stdio::piped())
        .spawn()
        .unwrap();
    child.stdin.take().unwrap().write_all(&SCOPE_FILE).unwrap();
    let output = child.wait_with_output().unwrap();
    assert!(output.status.success());
    assert_eq!(String::from_utf8(output.stdout).unwrap(), SCOPE_REPORT);
}

#[test]
fn an_empty_file() {
    assert_eq!(report(&[]), "refused 10 at 0\n");
}

#[test]
fn a_file_cut_anywhere_names_its_length() {
    for length in 0..100 {
        let (part, number) = match length {
            0..=23 => (Part::Header, 10),
            24..=71 => (Part::EntryTable, 12),
            _ => (Part::Readings, 13),
        };
        assert_eq!(report(&SCOPE_FILE[..length]), format!("refused {number} at {length}\n"));
        assert_eq!(jobfile::parse(&SCOPE_FILE[..length]), Err(Fault { part, byte: length }));
    }
}

/// A file without entries has no table and no readings to end in.
#[test]
fn a_file_without_entries_cut_anywhere() {
    let none = jobfile::write(&job(2, 64, 40, &[]));
    for length in 0..24 {
        assert_eq!(report(&none[..length]), format!("refused 10 at {length}\n"));
    }
}

#[test]
fn the_first_byte_too_many() {
    for extra in [1, 4, 50_000] {
        let mut bytes = SCOPE_FILE.to_vec();
        bytes.resize(100 + extra, 0);
        assert_eq!(report(&bytes), "refused 13 at 100\n");
    }
    let none = jobfile::write(&job(2, 64, 40, &[]));
    assert_eq!(none.len(), 24);
    assert!(report(&none).ends_with("end short\n"), "no entries is right in form");
    for extra in [1, 12, 50_000] {
        let mut more = none.clone();
        more.resize(24 + extra, 0);
        assert_eq!(report(&more), "refused 13 at 24\n");
    }
}

#[test]
fn every_wrong_field_names_its_first_byte() {
    for (number, at, fields) in [
        (10, 16, vec![513, 514, 1 << 16, u32::MAX]),
        (10, 20, vec![0, 23, 25, 36, 24 << 8, u32::MAX]),
        (12, 28, vec![0, 8193, u32::MAX]),
        (12, 32, vec![0, 24, 71, 73, 76, u32::MAX]),
        (12, 40, vec![0, 8192, 8193, u32::MAX]),
        (12, 44, vec![72, 75, 77, 80]),
        (12, 68, vec![88, 91, 93, 96, 100]),
    ] {
        for field in fields {
            let refused = format!("refused {number} at {at}\n");
            assert_eq!(report(&with_field(at, field)), refused, "{field}");
        }
    }
}

/// A reading count that is in range but wrong breaks no rule of its own field.
#[test]
fn a_wrong_reading_count_shows_at_the_next_rule() {
    // The second entry's count brings the total to just 8,192: its own field is
    // right and the next entry's count passes the total.
    assert_eq!(report(&with_field(40, 8191)), "refused 12 at 52\n");
    assert_eq!(report(&with_field(40, 8190)), "refused 12 at 52\n");
    assert_eq!(report(&with_field(40, 8189)), "refused 12 at 56\n", "room for the third entry");
    assert_eq!(report(&with_field(40, 1)), "refused 12 at 56\n", "the third entry's offset");
    assert_eq!(report(&with_field(40, 3)), "refused 12 at 56\n", "the third entry's offset");
    assert_eq!(report(&with_field(64, 1)), "refused 13 at 96\n", "a reading too many");
    for count in [3, 4, 8187] {
        assert_eq!(report(&with_field(64, count)), "refused 13 at 100\n", "readings too few");
    }
    assert_eq!(report(&with_field(64, 8188)), "refused 12 at 64\n", "the total passed");
}

#[test]
fn counts_against_the_end_of_the_file() {
    for count in [1, 2, 3, 5, 512] {
        assert_eq!(report(&with_field(16, count)), "refused 12 at 32\n", "{count} entries");
    }
    assert_eq!(report(&with_field(16, 0)), "refused 13 at 24\n");
    assert_eq!(report(&with_field(16, 512)[..32]), "refused 12 at 32\n");
    let too_many = with_field(16, 513);
    assert_eq!(report(&too_many[..20]), "refused 10 at 16\n");
    assert_eq!(report(&too_many[..19]), "refused 10 at 19\n");
    assert_eq!(report(&with_field(20, 25)[..24]), "refused 10 at 20\n");
    assert_eq!(report(&with_field(20, 25)[..23]), "refused 10 at 23\n");
    assert_eq!(report(&with_field(28, 0)[..32]), "refused 12 at 28\n");
    assert_eq!(report(&with_field(28, 0)[..31]), "refused 12 at 31\n");
    assert_eq!(report(&with_field(68, 0)[..72]), "refused 12 at 68\n");
    assert_eq!(report(&with_field(68, 0)[..71]), "refused 12 at 71\n");
}

#[test]
fn form_comes_before_start_and_in_byte_order() {
    let mut bytes = with_field(0, 0);
    assert_eq!(report(&bytes), "refused 1 at 0\n");
    bytes[4..8].fill(0);
    assert_eq!(report(&bytes), "refused 1 at 0\n");
    bytes[96..100].copy_from_slice(&i32::MAX.to_le_bytes());
    assert_eq!(report(&bytes), "refused 1 at 0\n");
    assert_eq!(report(&bytes[..99]), "refused 13 at 99\n");
    bytes[68] = 0;
    assert_eq!(report(&bytes), "refused 12 at 68\n");
    assert_eq!(report(&bytes[..67]), "refused 12 at 67\n");
    bytes[20] = 0;
    assert_eq!(report(&bytes), "refused 10 at 20\n");
    bytes[17] = 2;
    bytes[16] = 1;
    assert_eq!(report(&bytes), "refused 10 at 16\n");
}

#[test]
fn axes_and_budget_are_judged_by_start() {
    for axes in [0, 9, 258, u32::MAX] {
        assert_eq!(report(&with_field(0, axes)), "refused 1 at 0\n");
    }
    for budget in [0, 8193, 65_600, u32::MAX] {
        assert_eq!(report(&with_field(4, budget)), "refused 2 at 4\n");
    }
}

#[test]
fn cause_7_names_the_count_field() {
    let entries: [(u32, &[i32]); 2] = [(100, &[4160]), (50, &[64])];
    assert_eq!(report_of(&job(2, 64, 40, &entries)), "refused 7 at 40\n");
    let entries: [(u32, &[i32]); 1] = [(100, &[4160, READING_LIMIT + 1])];
    assert_eq!(report_of(&job(2, 64, 40, &entries)), "refused 7 at 28\n", "7 before 8");
}

#[test]
fn cause_8_names_the_first_bad_reading() {
    assert_eq!(report(&with_field(76, READING_LIMIT as u32 + 1)), "refused 8 at 76\n");
    assert_eq!(report(&with_field(80, (-READING_LIMIT - 1) as u32)), "refused 8 at 80\n");
    let mut both = with_field(88, i32::MIN as u32);
    both[84..88].copy_from_slice(&i32::MAX.to_le_bytes());
    assert_eq!(report(&both), "refused 8 at 84\n");
}

#[test]
fn entries_never_delivered_are_never_judged() {
    let mut longer = scope_job();
    longer.entries.push(Entry { indicator: 1, readings: vec![i32::MIN; 77] });
    let expected = SCOPE_REPORT.replace("unused 0", "unused 1");
    assert_eq!(report_of(&longer), expected);
}

#[test]
fn the_endings_without_a_ceiling() {
    let mut fewer = scope_job();
    fewer.entries.pop();
    assert_eq!(
        report_of(&fewer),
        "axes 2\nold 2\nactive 1\nwanted 1\nreserved 7\npending 0\ncarried 0\nceiling 0\n\
         scaled 6509559808\nunused 0\nend short\n"
    );
    let mut poorer = scope_job();
    poorer.budget = 6;
    assert_eq!(
        report_of(&poorer),
        "axes 2\nold 1\nactive 2\nwanted 0\nreserved 5\npending 50\ncarried 0\nceiling 0\n\
         scaled 6509559808\nunused 1\nend spent\n"
    );
    assert_eq!(
        report_of(&job(2, 64, 40, &[])),
        "axes 2\nold 0\nactive 0\nwanted 1\nreserved 1\npending 0\ncarried 0\nceiling 0\n\
         scaled 0\nunused 0\nend short\n"
    );
    for (budget, ending) in [(4, "end spent\n"), (5, "end short\n")] {
        let text = report_of(&job(2, budget, 0, &[(1, &[9])]));
        assert!(text.ends_with(ending), "budget {budget}: {text}");
    }
}

#[test]
fn a_negative_mean_is_written_with_its_sign() {
    let text = report_of(&job(1, 1, 0, &[(0, &[-3])]));
    assert!(text.contains("\nscaled -3145728\n"), "{text}");
}

#[test]
fn so_many_bytes_decide_every_file() {
    assert_eq!(DECIDING_BYTES, 38_937);
    let full = Entry { indicator: 0, readings: vec![0; 16] };
    let longest = JobFile { axes: 1, budget: 1, threshold: 0, entries: vec![full; 512] };
    let mut bytes = jobfile::write(&longest);
    assert_eq!(bytes.len(), 38_936);
    assert_eq!(report(&bytes), "refused 7 at 28\n", "well-formed and as long as can be");
    bytes.extend([0; 1_000]);
    assert_eq!(report(&bytes), "refused 13 at 38936\n");
    assert_eq!(report(&bytes[..DECIDING_BYTES]), "refused 13 at 38936\n");
}
