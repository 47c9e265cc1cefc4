//! A tolerance job run by calls: which volume does this metering pump deliver
//! on average, if four of its dimensions vary between their limits? The library
//! says where to measure; here a formula stands in for the rig. Prints the
//! report of the job, with `--doubles` its figures for a plotting package, or
//! with `--job` the job as a text, from which `jobtext pack` makes a job file.

use wihupya::{Choice, Counts, Doubles, Integrator, Point, Promotion, Refusal, CELLS};

const AXES: u32 = 4;
const BUDGET: u32 = 2_000;
/// Indicators count 1,024ths of a nanolitre. The job is done when at most 16
/// nanolitres are thought to be missing.
const THRESHOLD: u64 = 16 * 1_024;

/// A block as it was delivered.
struct Entry {
    indicator: u32,
    readings: Vec<i32>,
}

/// The value of a dimension at a position: 64 is the nominal value, each
/// position is one step away from the next.
fn dimension(nominal: i64, step: i64, position: u8) -> i64 {
    nominal + step * (i64::from(position) - 64)
}

/// The quotient rounded to the nearest whole number; the dividend is not below
/// 0, the divisor even.
fn rounded(dividend: i64, divisor: i64) -> i64 {
    (dividend + divisor / 2) / divisor
}

/// The volume that one stroke delivers, in nanolitres. The piston displaces a
/// cylinder of bore and stroke. Of that some leaks back past the seal, with the
/// cube of its clearance: one fiftieth if all is nominal. Some flows back
/// before the spring has closed the valve, the less the stiffer the spring:
/// three hundredths if all is nominal. Whole numbers throughout, in thousandths
/// of a nanolitre up to the last line, so that every machine and language gives
/// the same readings.
fn delivered_volume(position: Point) -> i32 {
    let bore = dimension(10_000, 2, position[0]); // micrometres: 10.000 mm +- 0.128 mm
    let stroke = dimension(8_000, 4, position[1]); // micrometres: 8.000 mm +- 0.256 mm
    let clearance = dimension(1_200, 11, position[2]); // hundredths of a um: 12.00 um +- 7.04 um
    let spring = dimension(2_000, 18, position[3]); // newtons for each metre: 2,000 +- 1,152

    // A quarter of pi is 355/452; a thousandth of a nanolitre is 1,000 cubic
    // micrometres.
    let displaced = rounded(355 * bore * bore * stroke, 452 * 1_000);
    let leaked = rounded(displaced * clearance.pow(3), 50 * 1_200i64.pow(3));
    let returned = rounded(displaced * 3 * 2_000, 100 * spring);
    let volume = rounded(displaced - leaked - returned, 1_000);
    i32::try_from(volume).expect("a stroke displaces less than a millilitre")
}

/// The readings of the block that is wanted; none if no block is.
fn measure(job: &Integrator) -> Result<Vec<i32>, Refusal> {
    match job.wanted_block() {
        Ok(points) => Ok(points.map(delivered_volume).collect()),
        Err(Refusal::NoBlockWanted) => Ok(Vec::new()),
        Err(refusal) => Err(refusal),
    }
}

/// How much a block matters: how far it moves the mean, which is the indicator
/// of the published algorithm. We let the library work that out and do no grid
/// arithmetic of our own: the block is delivered to a copy of the work area,
/// and the means are compared.
fn indicator(job: &Integrator, readings: &[i32]) -> Result<u32, Refusal> {
    let (mut cells, mut store) = (job.cells().to_vec(), job.store().to_vec());
    let mut trial = Integrator::resume(job.job(), &mut cells, &mut store);
    trial.deliver(readings, 0)?;
    let moved = trial.job().scaled_mean.abs_diff(job.job().scaled_mean);
    // The scaled mean counts 1,048,576ths of a nanolitre.
    Ok(u32::try_from(moved / 1_024).expect("a block moves the scaled mean by at most 2^40"))
}

/// Chooses and promotes: refines where the indicator is largest. Says how the
/// job ended, if it does not go on. Who knows better what to refine first
/// promotes another active place.
fn refine(job: &mut Integrator) -> Result<Option<&'static str>, Refusal> {
    Ok(match job.choose()? {
        Choice::Met => Some("met"),
        Choice::Capped => Some("capped"),
        Choice::Place(place) => match job.promote(place)? {
            Promotion::Spent => Some("spent"),
            Promotion::Promoted => None,
        },
    })
}

/// Runs the job to its end; says how it ended, and what was delivered.
fn run(job: &mut Integrator) -> Result<(&'static str, Vec<Entry>), Refusal> {
    let mut entries = Vec::new();
    job.start(AXES, THRESHOLD, BUDGET)?;
    loop {
        let readings = measure(job)?;
        if !readings.is_empty() {
            let indicator = indicator(job, &readings)?;
            job.deliver(&readings, indicator)?;
            entries.push(Entry { indicator, readings });
        } else if let Some(end) = refine(job)? {
            return Ok((end, entries));
        }
    }
}

/// The report, in the form that the program gives it for a job file.
fn print_report(counts: &Counts, end: &str) {
    println!("axes {AXES}");
    println!("old {}", counts.old);
    println!("active {}", counts.active);
    println!("wanted {}", counts.wanted);
    println!("reserved {}", counts.reserved);
    println!("pending {}", counts.pending_error);
    println!("carried {}", counts.carried_error);
    println!("ceiling {}", counts.ceiling);
    println!("scaled {}", counts.scaled_mean);
    println!("unused 0"); // no block is measured that is not wanted
    println!("end {end}");
}

/// The figures that a plotting package reads, in nanolitres but for the pending
/// error. Twenty digits show each of them whole.
fn print_doubles(doubles: &Doubles) {
    println!("mean {:.20}", doubles.mean);
    println!("pending {:.20}", doubles.pending_error);
    println!("largest {:.20}", doubles.largest_difference);
}

/// The job as a text: its numbers, and each delivered block after its
/// indicator.
fn print_job(entries: &[Entry]) {
    println!("axes {AXES}\nbudget {BUDGET}\nthreshold {THRESHOLD}");
    for Entry { indicator, readings } in entries {
        let readings: Vec<String> = readings.iter().map(i32::to_string).collect();
        println!("entry {indicator}: {}", readings.join(" "));
    }
}

fn main() -> Result<(), Refusal> {
    let (mut cells, mut store) = (vec![0; CELLS], vec![0; BUDGET as usize]);
    let mut job = Integrator::new(&mut cells, &mut store);
    let (end, entries) = run(&mut job)?;

    // The mean once more, worked out from the readings by another formula.
    let counts = job.result()?;
    assert_eq!(job.cross_total()?, counts.scaled_mean, "both ways give one mean");

    match std::env::args().nth(1).as_deref() {
        Some("--doubles") => print_doubles(&job.doubles()?),
        Some("--job") => print_job(&entries),
        _ => print_report(&counts, end),
    }
    Ok(())
}
