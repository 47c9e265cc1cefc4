//! The form of a job file told in two ways, field after field and by places, and the
//! law that the byte of a refusal tells the part of the file.

use reference::calls::Cause;
use reference::examples::scope_job;
use reference::form::{self, Found};
use reference::generate::{generate, Kind};
use reference::jobfile::{self, Part};
use reference::program::{self, Outcome};
use reference::replay;

/// Both ways say the same of a file, the job of a right one too.
fn assert_agree(file: &[u8]) {
    match jobfile::parse(file) {
        Ok(job) => {
            assert_eq!(form::find(file), None, "{file:?}");
            assert_eq!(form::job_so_far(file), Some(job), "{file:?}");
        }
        Err(fault) => {
            let byte = form::find(file).map(|found| found.byte);
            assert_eq!(byte, Some(fault.byte), "{file:?}");
            let cause = match fault.part {
                Part::Header => Cause::HeaderMalformed,
                Part::EntryTable => Cause::EntryTableMalformed,
                Part::Readings => Cause::ReadingsMalformed,
            };
            assert_eq!(form::cause(file, fault.byte), cause, "{file:?}");
        }
    }
}

/// The document's file with any one byte replaced, whole, cut and longer.
#[test]
fn both_ways_agree_on_every_byte() {
    let right = jobfile::write(&scope_job());
    assert_agree(&right);
    for at in 0..right.len() {
        for byte in 0..=255 {
            let mut file = right.clone();
            file[at] = byte;
            assert_agree(&file);
            for length in [at, at + 1, at + 4, 24, 72] {
                assert_agree(&file[..length.min(100)]);
            }
            file.push(byte);
            assert_agree(&file);
        }
    }
}

/// The document's file with any field of four bytes replaced, cut anywhere.
#[test]
fn both_ways_agree_on_every_cut() {
    let right = jobfile::write(&scope_job());
    for at in (0..right.len()).step_by(4) {
        for field in [0, 1, 2, 3, 4, 5, 24, 25, 72, 76, 84, 512, 513, 8191, 8192, 8193, u32::MAX] {
            let mut file = right.clone();
            file[at..at + 4].copy_from_slice(&field.to_le_bytes());
            (0..=right.len()).for_each(|length| assert_agree(&file[..length]));
        }
    }
}

/// "The byte tells the part: for every broken file the number is 10 if the byte is below
/// 24, 12 if it is from 24 on and below 24 + 12 times the entry count, and 13 from there
/// on."
#[test]
fn the_byte_tells_the_part() {
    let mut seen = [0; 3];
    for seed in 1..=6_000 {
        let generated = generate(seed);
        if !matches!(generated.kind, Kind::Damaged(_)) {
            continue;
        }
        let file = &generated.bytes;
        assert_agree(file);
        let Outcome::Refused { cause, byte } = program::outcome(file) else { continue };
        let number = cause.number();
        if [1, 2, 7, 8].contains(&number) {
            assert_eq!(form::find(file), None, "seed {seed}");
            continue;
        }
        let entries = || u32::from_le_bytes(file[16..20].try_into().expect("four bytes")) as usize;
        let part = match byte {
            0..=23 => 0,
            _ if byte < 24 + 12 * entries() => 1,
            _ => 2,
        };
        assert_eq!(number, [10, 12, 13][part], "seed {seed}: byte {byte}");
        seen[part] += 1;
    }
    assert!(seen.iter().all(|&count| count > 200), "{seen:?}");
}

/// What is wrong, told from the file, for one file of each name.
#[test]
fn each_fault_has_its_name() {
    let right = jobfile::write(&scope_job());
    let with = |at: usize, field: u32| {
        let mut file = right.clone();
        file[at..at + 4].copy_from_slice(&field.to_le_bytes());
        file
    };
    let mut longer = right.clone();
    longer.push(0);
    for (file, byte, by) in [
        (Vec::new(), 0, "an early end"),
        (right[..24].to_vec(), 24, "an early end"),
        (with(16, 513), 16, "the entry count"),
        (with(20, 25), 20, "the table offset"),
        (with(40, 0), 40, "a reading count of 0"),
        (with(40, 8193), 40, "a reading count above 8,192"),
        (with(40, 8192), 40, "a total above 8,192"),
        (with(40, 1), 56, "an offset"),
        (right[..72].to_vec(), 72, "too few readings"),
        (longer, 100, "bytes too many"),
    ] {
        assert_eq!(form::find(&file), Some(Found { byte, by }));
        assert_eq!(replay::predict(&file).broken_by, Some(by));
    }
}

/// The refusal that the form goes before, told from what is right in the file.
#[test]
fn what_the_form_goes_before() {
    let mut file = jobfile::write(&scope_job());
    let before = |file: &[u8]| replay::predict(file).before.map(Cause::number);
    assert_eq!(before(&file[..99]), None);
    file[80..84].copy_from_slice(&i32::MAX.to_le_bytes());
    assert_eq!(before(&file), None, "the form is right");
    assert_eq!(before(&file[..99]), Some(8));
    assert_eq!(before(&file[..83]), None, "the reading is cut off");
    file[64] = 3;
    assert_eq!(before(&file), Some(8), "the last entry lacks a reading");
    file[40] = 1;
    assert_eq!(before(&file), Some(7), "the second entry has one reading");
    file[4..8].fill(0);
    assert_eq!(before(&file), Some(2));
    file[0] = 9;
    assert_eq!(before(&file), Some(1));
    assert_eq!(before(&file[..8]), Some(1));
    assert_eq!(before(&file[..7]), None, "the budget is cut off");
}
