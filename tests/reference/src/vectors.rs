//! Many named job files in one bundle, for a program that runs one after the
//! other, and what it must print.
//!
//! A bundle is the number of its files (4 bytes, as all numbers here), and for
//! each the length of its name, the name, the length of the file and its bytes,
//! at most as many as decide.

use crate::cases;
use crate::generate::{self, Generated};
use crate::jobfile::DECIDING_BYTES;
use crate::{program, survey};
use std::collections::BTreeMap;

pub struct Named {
    pub name: String,
    pub bytes: Vec<u8>,
}

/// Of each kind so many files, of which so many may be large, that is longer
/// than so many bytes.
const OF_A_KIND: usize = 12;
const LARGE_OF_A_KIND: usize = 2;
const LARGE: usize = 3_000;
/// By then every kind has its files.
const LAST_SEED: u64 = 4_000;

/// The scope document's cases, then generated files of every kind.
pub fn files() -> Vec<Named> {
    let cases = cases::cases().into_iter();
    let mut files: Vec<Named> =
        cases.map(|case| Named { name: case.name.to_string(), bytes: case.bytes }).collect();
    files.extend(generated());
    files
}

fn generated() -> Vec<Named> {
    let mut taken: BTreeMap<String, (usize, usize)> = BTreeMap::new();
    let mut files = Vec::new();
    for seed in 1..=LAST_SEED {
        let Generated { kind, bytes, .. } = generate::generate(seed);
        let kind = survey::kind_name(kind);
        let (count, larges) = taken.entry(kind.clone()).or_insert((0, 0));
        let large = bytes.len() > LARGE;
        if *count < OF_A_KIND && !(large && *larges == LARGE_OF_A_KIND) {
            *count += 1;
            *larges += usize::from(large);
            files.push(Named { name: format!("seed {seed}, {kind}"), bytes });
        }
    }
    files
}

/// The bundle's bytes.
pub fn write(files: &[Named]) -> Vec<u8> {
    let mut bundle = Vec::new();
    put(&mut bundle, files.len());
    for file in files {
        put(&mut bundle, file.name.len());
        bundle.extend(file.name.bytes());
        let deciding = &file.bytes[..file.bytes.len().min(DECIDING_BYTES)];
        put(&mut bundle, deciding.len());
        bundle.extend(deciding);
    }
    bundle
}

fn put(bundle: &mut Vec<u8>, number: usize) {
    let number = u32::try_from(number).expect("a bundle's numbers have 4 bytes");
    bundle.extend(number.to_le_bytes());
}

/// What running a bundle prints: each name as a line, then the report of the
/// whole file.
pub fn reports(files: &[Named]) -> String {
    files.iter().map(|file| format!("{}\n{}", file.name, program::report(&file.bytes))).collect()
}
