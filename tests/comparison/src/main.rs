//! Compares the proved figures with the reference's, on areas that the
//! reference writes as bytes: those that the example jobs and the generator's
//! jobs end with, samples by seed, and full areas; the points of every block of up
//! to four axes; and the search for levels, in those areas and among records with
//! levels of every size. One figure, one point or one place apart fails.

use comparison::{proved, search as packed, words};
use reference::area::{Area, WORDS};
use reference::grid::{self, Levels, BUDGET_LIMIT, HELD_LIMIT, MOST_AXES};
use reference::{calls, examples, generate, jobfile, program, sample, search, soundness, sums};
use std::process::ExitCode;

/// The most axes of the blocks that are compared point by point, each of them.
const WALKED_AXES: usize = 4;

/// What was compared.
#[derive(Default)]
struct Tally {
    areas: usize,
    unsound: usize,
    indices: usize,
    blocks: usize,
    points: usize,
    searches: usize,
    found: usize,
    pairs: usize,
    equal: usize,
    faults: usize,
}

impl Tally {
    fn expect(&mut self, what: &str, proved: i64, reference: i128) {
        if i128::from(proved) != reference {
            self.faults += 1;
            eprintln!("{what}: proved {proved}, reference {reference}");
        }
    }

    fn compare(&mut self, name: &str, area: &Area) {
        if !soundness::broken_clauses(area).is_empty() {
            self.unsound += 1;
            return;
        }
        self.areas += 1;
        let (cells, store) = words(&area.to_bytes());
        let (axes, held) = (area.job.axes as usize, area.job.held as usize);
        let readings = calls::delivered_readings(area);
        let reading = |index: &Levels, number: usize| readings.at(index, number);
        let delivered = |index: &Levels| readings.is_delivered(index);
        for (place, record) in area.held().iter().enumerate() {
            let what = |figure: &str| format!("{name}, place {place}, {figure}");
            let coefficient = unsafe { proved::figures_coefficient(axes, held, place, &cells) };
            let expected = sums::coefficient(axes, &record.levels, &delivered);
            self.expect(&what("coefficient"), coefficient, expected);
            if record.is_delivered() {
                self.indices += 1;
                let tensor = unsafe { proved::figures_tensor_rule(axes, place, &cells, &store) };
                let expected = sums::full_tensor_rule(axes, &record.levels, &reading);
                self.expect(&what("tensor rule"), tensor, expected);
                let difference = unsafe { proved::figures_difference(axes, place, &cells, &store) };
                let expected = sums::difference(axes, &record.levels, &reading);
                self.expect(&what("difference"), difference, expected);
            }
        }
        let total = unsafe { proved::figures_difference_total(axes, held, &cells, &store) };
        let expected = sums::sum_of_differences(axes, &readings);
        self.expect(&format!("{name}, sum of differences"), total, expected);
    }

    /// Compares the points of one block by their numbers. As cells the index is
    /// the first words of a record.
    fn compare_block(&mut self, axes: usize, levels: &Levels) {
        let mut cells = [0; WORDS];
        cells[..MOST_AXES].copy_from_slice(levels);
        let block = grid::block(axes, levels);
        self.blocks += 1;
        self.points += block.len();
        for (n, expected) in block.iter().enumerate() {
            let mut point = [0; MOST_AXES];
            unsafe { proved::figures_point(0, n, &mut point, &cells) };
            if point != *expected {
                self.faults += 1;
                eprintln!("block {levels:?}, point {n}: proved {point:?}, reference {expected:?}");
            }
        }
    }

    /// Compares each search among the held records, and each pair of the sought list
    /// and the one found, or the one at a place by turns.
    fn compare_search(&mut self, name: &str, held: &[Levels], sought: &[Levels], cells: &[u32]) {
        for (turn, levels) in sought.iter().enumerate() {
            let place = packed::found(held.len(), levels, cells);
            let expected = search::first_with(held, levels);
            self.searches += 1;
            self.found += usize::from(expected.is_some());
            if place != expected {
                self.faults += 1;
                eprintln!(
                    "{name}, search for {levels:?}: proved {place:?}, reference {expected:?}"
                );
            }
            if let Some(other) = expected.or(turn.checked_rem(held.len())).map(|at| &held[at]) {
                self.compare_pair(name, levels, other);
            }
        }
    }

    fn compare_pair(&mut self, name: &str, left: &Levels, right: &Levels) {
        let proved = packed::same_word(left, right);
        let expected = search::same_packed(left, right);
        self.pairs += 1;
        self.equal += usize::from(expected == search::Comparison::Equal);
        if proved != expected {
            self.faults += 1;
            eprintln!("{name}, {left:?} and {right:?}: proved {proved:?}, reference {expected:?}");
        }
    }

    /// The searches that a promotion and a check could make in an area, among its own
    /// cells.
    fn search_area(&mut self, name: &str, area: &Area) {
        let (cells, _) = words(&area.to_bytes());
        self.compare_search(name, &search::held_in(area), &search::sought_in(area), &cells);
    }

    fn compare_job(&mut self, name: &str, bytes: &[u8]) {
        if let Ok(job) = jobfile::parse(bytes) {
            let mut area = Area::empty(HELD_LIMIT, BUDGET_LIMIT as usize);
            program::run(&job, &mut area);
            self.compare(name, &area);
        }
    }
}

fn main() -> ExitCode {
    let mut tally = Tally::default();
    for axes in 1..=WALKED_AXES {
        grid::for_each_within_ceilings(axes, |levels| tally.compare_block(axes, levels));
    }
    for example in examples::examples() {
        tally.compare_job(example.name, &example.job);
    }
    for seed in 0..300 {
        tally.compare_job(&format!("generated job {seed}"), &generate::generate(seed).bytes);
    }
    for seed in 0..1000 {
        let (name, area) = (format!("sample {seed}"), sample::area(seed));
        tally.compare(&name, &area);
        tally.search_area(&name, &area);
    }
    for seed in 0..8 {
        let axes = 1 + seed as usize;
        let (name, area) = (format!("full area {seed}"), sample::full_area(seed, axes));
        tally.compare(&name, &area);
        tally.search_area(&name, &area);
    }
    for seed in 0..1000 {
        let (held, sought) = search::held_lists(seed);
        tally.compare_search(&format!("lists {seed}"), &held, &sought, &packed::cells(&held));
    }
    let Tally { areas, unsound, indices, blocks, points, .. } = tally;
    let Tally { searches, found, pairs, equal, faults, .. } = tally;
    println!("comparison: {areas} areas, {indices} delivered indices");
    println!("comparison: {blocks} blocks of one to four axes, {points} points by number");
    println!(
        "comparison: {searches} searches, {found} of them found; {pairs} pairs, {equal} equal"
    );
    println!("comparison: {faults} figures, points or places apart");
    println!("comparison: {unsound} areas left out, whose jobs were refused and are not sound");
    match faults == 0 && areas > 1000 && blocks > 1000 && found > 1000 && searches > found {
        true => ExitCode::SUCCESS,
        false => ExitCode::FAILURE,
    }
}
