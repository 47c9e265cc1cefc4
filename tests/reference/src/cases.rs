//! The scope document's cases about job files, by name, each with the report
//! that its sentences ask for, written by hand.

use crate::call::{Answer, Call};
use crate::examples::scope_job;
use crate::grid::{self, READING_LIMIT, ROOT};
use crate::jobfile::{self, Entry, JobFile};
use crate::log::Log;
use crate::replay::{self, LENT};

pub struct Case {
    pub name: &'static str,
    pub bytes: Vec<u8>,
    /// The whole report, or its last lines where the rest is long.
    pub ends: &'static str,
}

fn case(name: &'static str, bytes: Vec<u8>, ends: &'static str) -> Case {
    Case { name, bytes, ends }
}

/// The document's file with four-byte fields replaced.
fn with(fields: &[(usize, u32)]) -> Vec<u8> {
    let mut bytes = jobfile::write(&scope_job());
    for (at, field) in fields {
        bytes[*at..*at + 4].copy_from_slice(&field.to_le_bytes());
    }
    bytes
}

fn cut(length: usize) -> Vec<u8> {
    with(&[])[..length].to_vec()
}

fn file(axes: u32, budget: u32, threshold: u64, entries: &[(u32, &[i32])]) -> Vec<u8> {
    let entry = |(indicator, readings): &(u32, &[i32])| Entry {
        indicator: *indicator,
        readings: readings.to_vec(),
    };
    let entries = entries.iter().map(entry).collect();
    jobfile::write(&JobFile { axes, budget, threshold, entries })
}

/// So many entries of so many readings each, and one of `last` more.
fn filled(entries: usize, own: usize, last: usize) -> Vec<u8> {
    let block = |count: usize| Entry { indicator: 0, readings: vec![0; count] };
    let mut entries = vec![block(own); entries];
    if last > 0 {
        entries.push(block(last));
    }
    jobfile::write(&JobFile { axes: 1, budget: 1, threshold: 0, entries })
}

fn longer(mut bytes: Vec<u8>, extra: usize) -> Vec<u8> {
    bytes.extend(vec![0; extra]);
    bytes
}

pub fn cases() -> Vec<Case> {
    let runs = [endings(), ceilings(), corners()];
    let refusals = [form(), wrong_counts(), early_ends(), order(), form_first()];
    runs.into_iter().chain(refusals).flatten().collect()
}

/// What a run of the right form prints.
fn endings() -> Vec<Case> {
    let scope = "axes 2\nold 2\nactive 2\nwanted 0\nreserved 7\npending 10\n\
                 carried 0\nceiling 0\nscaled 5972688896\nunused 0\nend met\n";
    let start = "axes 2\nold 0\nactive 0\nwanted 1\nreserved 1\npending 0\n\
                 carried 0\nceiling 0\nscaled 0\nunused 0\nend short\n";
    let fives: [(u32, &[i32]); 4] = [(9, &[5]), (8, &[5, 5]), (7, &[5, 5]), (0, &[5, 5])];
    vec![
        case("the scope document's file", with(&[]), scope),
        case("before the first delivery the mean is 0", file(2, 64, 40, &[]), start),
        case("threshold equal to the pending error", file(2, 64, 7, &[(7, &[9])]), "end met\n"),
        case("threshold one below the pending error", file(2, 64, 6, &[(7, &[9])]), "end short\n"),
        case("two axes, budget 4", file(2, 4, 0, &[(1, &[9])]), "end spent\n"),
        case("two axes, budget 5", file(2, 5, 0, &[(1, &[9])]), "end short\n"),
        case(
            "an unused entry, never judged",
            {
                let mut job = scope_job();
                job.entries.push(Entry { indicator: 1, readings: vec![i32::MIN; 77] });
                jobfile::write(&job)
            },
            "scaled 5972688896\nunused 1\nend met\n",
        ),
        case("readings all 5", file(2, 64, 0, &fives), "scaled 5242880\nunused 0\nend short\n"),
        case(
            "a mean below 0",
            file(1, 1, 0, &[(0, &[-3])]),
            "scaled -3145728\nunused 0\nend met\n",
        ),
    ]
}

/// One axis up to level 8, the readings all 3, with these indicators.
pub fn one_axis(threshold: u64, indicators: [u32; 8]) -> Vec<u8> {
    let sizes = [1, 2, 2, 4, 8, 16, 32, 64];
    let entry = |(indicator, size)| Entry { indicator, readings: vec![3; size] };
    let entries = indicators.into_iter().zip(sizes).map(entry).collect();
    jobfile::write(&JobFile { axes: 1, budget: 129, threshold, entries })
}

/// Two axes, the first up to level 8, the readings all 1 and the indicators 100,
/// but 5 for (1,2) and 6 for (8,1).
pub fn two_axes(threshold: u64, budget: u32) -> Vec<u8> {
    let blocks = [(100, 1), (100, 2), (5, 2), (100, 2), (100, 4), (100, 8), (100, 16)];
    let entry = |(indicator, size)| Entry { indicator, readings: vec![1; size] };
    let entries = blocks.into_iter().chain([(100, 32), (6, 64)]).map(entry).collect();
    jobfile::write(&JobFile { axes: 2, budget, threshold, entries })
}

/// Two axes with threshold 9, the readings all 1; this indicator for every index
/// nowhere higher than these levels, 0 for the others. All but those become old.
fn up_to(levels: [u32; 2], budget: u32, indicator: u32) -> Vec<u8> {
    let mut target = ROOT;
    target[..2].copy_from_slice(&levels);
    let mut log = Log::default();
    let start = Call::Start { axes: 2, threshold: 9, budget };
    assert_eq!(log.expect(&start, LENT), Answer::Started);
    let mut entries = Vec::new();
    loop {
        let job = log.job.as_ref().expect("the start was accepted");
        let Some(wanted) = job.first_wanted() else {
            if replay::choose_and_promote(&mut log).is_none() {
                continue;
            }
            return jobfile::write(&JobFile { axes: 2, budget, threshold: 9, entries });
        };
        let index = job.entries[wanted].levels;
        let indicator = if grid::nowhere_higher(&index, &target) { indicator } else { 0 };
        let readings = vec![1; grid::block_size(&index)];
        let call = Call::Deliver { readings: readings.clone(), indicator };
        assert_eq!(log.expect(&call, LENT), Answer::Delivered);
        entries.push(Entry { indicator, readings });
    }
}

/// Jobs up to both ceilings on two axes.
fn corners() -> Vec<Case> {
    // (7,7) alone is at a ceiling, by its excess, on both axes.
    let excess = "axes 2\nold 49\nactive 2\nwanted 0\nreserved 4353\npending 0\n\
                  carried 10\nceiling 2\nscaled 1048576\nunused 0\nend capped\n";
    // (8,1) to (8,6) are, by their level, and (8,6) by its excess too.
    let both = "axes 2\nold 48\nactive 1\nwanted 0\nreserved 4289\npending 0\n\
                carried 60\nceiling 7\nscaled 1048576\nunused 0\nend capped\n";
    let wide = "axes 2\nold 16\nactive 1\nwanted 0\nreserved 389\npending 0\n\
                carried 8589934590\nceiling 2\nscaled 1048576\nunused 0\nend capped\n";
    vec![
        case("all up to (7,7) old", up_to([7, 7], 8192, 10), excess),
        case("all up to (8,6) old", up_to([8, 6], 8192, 10), both),
        case("carried of more than 32 bits", up_to([8, 2], 389, u32::MAX), wide),
    ]
}

/// Jobs with old indices at a ceiling, whose error is carried.
fn ceilings() -> Vec<Case> {
    let capped = "axes 1\nold 8\nactive 0\nwanted 0\nreserved 129\npending 0\n\
                  carried 10\nceiling 1\nscaled 3145728\nunused 0\nend capped\n";
    let met = "axes 1\nold 7\nactive 1\nwanted 0\nreserved 129\npending 10\n\
               carried 0\nceiling 0\nscaled 3145728\nunused 0\nend met\n";
    let both = "axes 2\nold 8\nactive 1\nwanted 0\nreserved 131\npending 5\n\
                carried 6\nceiling 1\nscaled 1048576\nunused 0\nend capped\n";
    let spent = "pending 5\ncarried 6\nceiling 1\nscaled 1048576\nunused 0\nend spent\n";
    let short = "wanted 2\nreserved 137\npending 0\ncarried 6\nceiling 1\n\
                 scaled 1048576\nunused 0\nend short\n";
    let elevens = [11, 11, 11, 11, 11, 11, 11, 10];
    vec![
        case("the last level old, its indicator carried", one_axis(9, [10; 8]), capped),
        case("the last level active, its indicator pending", one_axis(10, elevens), met),
        case("pending 5 and carried 6, threshold 9", two_axes(9, 131), both),
        case("pending 5 and carried 6, threshold 10", two_axes(10, 131), both),
        case("pending 5 and carried 6, threshold 5", two_axes(5, 131), both),
        case("carried 6, spent at threshold 4", two_axes(4, 136), spent),
        case("carried 6, short at threshold 4", two_axes(4, 137), short),
    ]
}

/// Each rule of form, just met and just broken: the header's give 10, the table's 12,
/// bytes after the last reading 13.
fn form() -> Vec<Case> {
    vec![
        case("513 entries counted", with(&[(16, 513)]), "refused 10 at 16\n"),
        case("table offset 23", with(&[(20, 23)]), "refused 10 at 20\n"),
        case("table offset 25", with(&[(20, 25)]), "refused 10 at 20\n"),
        case("an entry of 0 readings", with(&[(40, 0)]), "refused 12 at 40\n"),
        case("an entry of 8,193 readings", with(&[(28, 8193)]), "refused 12 at 28\n"),
        case("8,193 readings in all", filled(2, 4096, 1), "refused 12 at 52\n"),
        case("8,192 readings in all", filled(2, 4096, 0), "refused 7 at 28\n"),
        case("a gap before an entry's readings", with(&[(44, 80)]), "refused 12 at 44\n"),
        case("an offset one byte too low", with(&[(44, 75)]), "refused 12 at 44\n"),
        case("an offset into the table", with(&[(32, 68)]), "refused 12 at 32\n"),
        case("512 entries, the longest file", filled(512, 16, 0), "refused 7 at 28\n"),
        case(
            "a byte after the longest file",
            longer(filled(512, 16, 0), 1),
            "refused 13 at 38936\n",
        ),
        case("the first byte too many", longer(with(&[]), 1), "refused 13 at 100\n"),
        case("a byte after an empty table", longer(file(2, 64, 40, &[]), 1), "refused 13 at 24\n"),
    ]
}

/// A count that is in range but wrong breaks no rule of its own field; it shows at the
/// next field with one, or at the file's end.
fn wrong_counts() -> Vec<Case> {
    vec![
        case("a reading count one too low", with(&[(40, 1)]), "refused 12 at 56\n"),
        case("a reading count one too high", with(&[(40, 3)]), "refused 12 at 56\n"),
        case("a reading count that takes all the rest", with(&[(40, 8191)]), "refused 12 at 52\n"),
        case("the last reading count one too low", with(&[(64, 1)]), "refused 13 at 96\n"),
        case("the last reading count one too high", with(&[(64, 3)]), "refused 13 at 100\n"),
        case("an entry count one too low", with(&[(16, 3)]), "refused 12 at 32\n"),
        case("an entry count one too high", with(&[(16, 5)]), "refused 12 at 32\n"),
        case("an entry count of 0 before a table", with(&[(16, 0)]), "refused 13 at 24\n"),
    ]
}

/// The file's length where it ends early, with the number of the part that was due.
fn early_ends() -> Vec<Case> {
    let broken_entry = with(&[(40, 0)]);
    vec![
        case("empty file", Vec::new(), "refused 10 at 0\n"),
        case("ends in the header", cut(23), "refused 10 at 23\n"),
        case("ends after the header", cut(24), "refused 12 at 24\n"),
        case("ends in the table", cut(71), "refused 12 at 71\n"),
        case("ends after the table", cut(72), "refused 13 at 72\n"),
        case("ends in the last reading", cut(99), "refused 13 at 99\n"),
        case(
            "a broken field before an early end",
            with(&[(16, 513)])[..20].to_vec(),
            "refused 10 at 16\n",
        ),
        case("a broken entry, then an end", broken_entry[..44].to_vec(), "refused 12 at 40\n"),
        case("an end in a broken field", broken_entry[..43].to_vec(), "refused 12 at 43\n"),
    ]
}

/// Which refusal of a file of the right form comes first, and the byte that it names.
fn order() -> Vec<Case> {
    let outside = READING_LIMIT as u32 + 1;
    let lowest = (-READING_LIMIT - 1) as u32;
    let both: [(u32, &[i32]); 1] = [(100, &[4160, READING_LIMIT + 1])];
    vec![
        case("0 axes", with(&[(0, 0)]), "refused 1 at 0\n"),
        case("9 axes", with(&[(0, 9)]), "refused 1 at 0\n"),
        case("budget 0", with(&[(4, 0)]), "refused 2 at 4\n"),
        case("budget 8,193", with(&[(4, 8193)]), "refused 2 at 4\n"),
        case("1 before 2", with(&[(0, 0), (4, 0)]), "refused 1 at 0\n"),
        case("2 before a reading out of range", with(&[(4, 0), (72, outside)]), "refused 2 at 4\n"),
        case("7 names the count field", file(2, 64, 40, &SEVEN), "refused 7 at 40\n"),
        case("7 before 8", file(2, 64, 40, &both), "refused 7 at 28\n"),
        case("8 names the reading", with(&[(80, outside)]), "refused 8 at 80\n"),
        case("8 names the first of two", with(&[(84, lowest), (88, outside)]), "refused 8 at 84\n"),
        case("the largest reading passes", with(&[(72, outside - 1)]), "end met\n"),
    ]
}

/// Entries of which the second is one reading short of its block.
const SEVEN: [(u32, &[i32]); 2] = [(100, &[4160]), (50, &[64])];

/// The whole form before start, and so before any delivery.
fn form_first() -> Vec<Case> {
    let outside = READING_LIMIT as u32 + 1;
    let mut seven = file(2, 64, 40, &[SEVEN[0], SEVEN[1], (0, &[4096, 4224])]);
    seven[56] = 0;
    vec![
        case("10 before 1", with(&[(0, 9)])[..23].to_vec(), "refused 10 at 23\n"),
        case("10 before 2", with(&[(4, 0), (20, 0)]), "refused 10 at 20\n"),
        case("12 before 1", with(&[(0, 9), (40, 0)]), "refused 12 at 40\n"),
        case("12 before 1, at the last offset", with(&[(0, 0), (68, 0)]), "refused 12 at 68\n"),
        case("12 before 2", with(&[(4, 0)])[..24].to_vec(), "refused 12 at 24\n"),
        case("13 before 1, at the last byte", with(&[(0, 0)])[..99].to_vec(), "refused 13 at 99\n"),
        case("13 before 2", longer(with(&[(4, 0)]), 1), "refused 13 at 100\n"),
        case("12 before 7", seven, "refused 12 at 56\n"),
        case("13 before 7", longer(file(2, 64, 40, &SEVEN), 1), "refused 13 at 56\n"),
        case("12 before 8", with(&[(72, outside), (68, 0)]), "refused 12 at 68\n"),
        case("13 before 8", with(&[(72, outside)])[..99].to_vec(), "refused 13 at 99\n"),
    ]
}
