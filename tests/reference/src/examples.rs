//! The three example jobs with their texts, files and reports.

use crate::call::{Answer, Call};
use crate::grid::{self, Levels};
use crate::jobfile::{self, Entry, JobFile};
use crate::jobtext;
use crate::log::Log;
use crate::program;
use crate::pump;
use crate::replay::{self, LENT};
use crate::sums;

pub struct Example {
    pub name: &'static str,
    pub text: String,
    pub job: Vec<u8>,
    pub report: String,
}

/// An indicator counts 1,024ths of a nanolitre: the size of the scaled
/// difference, of at most 2^40, without its last ten bits.
const INDICATOR_SHIFT: u32 = 10;

const TWO_AXES: &str = "\
# The job of the scope document, with two axes. Its readings, indicators and
# threshold are bare numbers without units; it ends met.
";

const FOUR_AXES: &str = "\
# A metering pump with four varying dimensions, run until the pending error is
# at most 16 nanolitres; it ends met.
# Axis 1: bore, 10.000 mm +- 0.128 mm.         Axis 2: stroke, 8.000 mm +- 0.256 mm.
# Axis 3: seal clearance, 12.00 um +- 7.04 um. Axis 4: spring rate, 2,000 +- 1,152 N/m.
# Readings: delivered volume of one stroke in nanolitres, in the order in which
# the rig walks a block, turning at the end of each row.
# Indicators and threshold: 1,024ths of a nanolitre, from the block's difference.
";

const EIGHT_AXES: &str = "\
# A metering pump with eight varying dimensions and more asked of the mean than
# 600 readings can give: 1 nanolitre. It ends spent.
# Axis 1: bore, 10.000 mm +- 0.128 mm.         Axis 2: stroke, 8.000 mm +- 0.256 mm.
# Axis 3: seal clearance, 12.00 um +- 7.04 um. Axis 4: spring rate, 2,000 +- 1,152 N/m.
# Axis 5: supply pressure, 400 +- 128 kPa.     Axis 6: viscosity, 1,000 +- 320 uPa s.
# Axis 7: valve lift, 600 um +- 256 um.        Axis 8: stroke rate, 120 +- 64 per minute.
# Readings: delivered volume of one stroke in nanolitres, in the order in which
# the rig walks a block, turning at the end of each row.
# Indicators and threshold: 1,024ths of a nanolitre, from the block's difference.
";

pub fn examples() -> [Example; 3] {
    let nanolitres = |count: u64| count << INDICATOR_SHIFT;
    [
        example("two-axes", TWO_AXES, scope_job()),
        example("four-axis-pump", FOUR_AXES, pump_job(4, nanolitres(16), 2_000)),
        example("eight-axis-pump", EIGHT_AXES, pump_job(8, nanolitres(1), 600)),
    ]
}

fn example(name: &'static str, heading: &str, file: JobFile) -> Example {
    let job = jobfile::write(&file);
    let report = program::report(&job);
    Example { name, text: heading.to_string() + &jobtext::write(&file), job, report }
}

/// The file of the scope document.
pub fn scope_job() -> JobFile {
    let entry = |indicator, readings: &[i32]| Entry { indicator, readings: readings.to_vec() };
    JobFile {
        axes: 2,
        budget: 64,
        threshold: 40,
        entries: vec![
            entry(100, &[4160]),
            entry(50, &[64, 16448]),
            entry(0, &[4096, 4224]),
            entry(10, &[1088, 9280]),
        ],
    }
}

/// Runs a job on the pump and keeps what was delivered.
fn pump_job(axes: u32, threshold: u64, budget: u32) -> JobFile {
    let mut log = Log::default();
    let start = Call::Start { axes, threshold, budget };
    assert_eq!(log.expect(&start, LENT), Answer::Started);
    let mut entries: Vec<Entry> = Vec::new();
    loop {
        let job = log.job.as_ref().expect("the start was accepted");
        if let Some(wanted) = job.first_wanted() {
            let levels = job.entries[wanted].levels;
            let block = grid::block(job.axes, &levels);
            let readings: Vec<i32> =
                block.iter().map(|point| pump::delivered_volume(&point[..job.axes])).collect();
            let indicator = indicator(&log, &levels, &readings);
            let call = Call::Deliver { readings: readings.clone(), indicator };
            assert_eq!(log.expect(&call, LENT), Answer::Delivered);
            entries.push(Entry { indicator, readings });
        } else if replay::choose_and_promote(&mut log).is_some() {
            return JobFile { axes, budget, threshold, entries };
        }
    }
}

/// The size of the difference that the block brings, in 1,024ths of a unit.
fn indicator(log: &Log, levels: &Levels, readings: &[i32]) -> u32 {
    let job = log.job.as_ref().expect("the start was accepted");
    let known = job.readings();
    let reading = |index: &Levels, number: usize| match index == levels {
        true => readings[number],
        false => known.at(index, number),
    };
    let difference = sums::difference(job.axes, levels, &reading);
    let size = difference.unsigned_abs() >> INDICATOR_SHIFT;
    u32::try_from(size).expect("2^40 without ten bits fits 32 bits")
}
