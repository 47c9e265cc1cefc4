//! Rounds of timings, both sides in turn, and the table of their ratios.

use crate::clock;
use std::time::Duration;

/// A row of the table: what each side took, round by round.
pub struct Row {
    pub name: String,
    pub proved: Vec<f64>,
    pub idiomatic: Vec<f64>,
}

/// Median, lowest and highest of some figures.
#[derive(Clone, Copy)]
pub struct Summary {
    pub median: f64,
    pub lowest: f64,
    pub highest: f64,
}

/// How long this thread runs for some work.
pub fn timed(work: impl FnOnce()) -> f64 {
    let begun = clock::thread_seconds();
    work();
    clock::thread_seconds() - begun
}

/// How often to repeat some work so that a timing isn't lost in the clock's
/// own steps.
pub fn repeats(mut work: impl FnMut()) -> usize {
    const ENOUGH: Duration = Duration::from_millis(4);
    work();
    let once = timed(&mut work).max(1e-9);
    ((ENOUGH.as_secs_f64() / once) as usize).clamp(1, 100_000)
}

impl Summary {
    pub fn of(figures: impl IntoIterator<Item = f64>) -> Summary {
        let mut figures: Vec<f64> = figures.into_iter().collect();
        figures.sort_by(f64::total_cmp);
        let median = figures[figures.len() / 2];
        Summary { median, lowest: figures[0], highest: figures[figures.len() - 1] }
    }
}

impl Row {
    pub fn new(name: impl Into<String>) -> Row {
        Row { name: name.into(), proved: Vec::new(), idiomatic: Vec::new() }
    }

    /// Takes a round of both sides; they begin in turn.
    pub fn take_round(&mut self, proved: impl FnOnce() -> f64, idiomatic: impl FnOnce() -> f64) {
        if self.proved.len().is_multiple_of(2) {
            self.proved.push(proved());
            self.idiomatic.push(idiomatic());
        } else {
            self.idiomatic.push(idiomatic());
            self.proved.push(proved());
        }
    }

    /// The rounds' ratios of proved to idiomatic.
    pub fn ratio(&self) -> Summary {
        Summary::of(self.proved.iter().zip(&self.idiomatic).map(|(one, other)| one / other))
    }

    pub fn print(&self) {
        let proved = Summary::of(self.proved.iter().copied());
        let idiomatic = Summary::of(self.idiomatic.iter().copied());
        let ratio = self.ratio();
        println!(
            "{:<42} {:>12} {:>12} {:>8.2} {:>8.2} {:>8.2} {:>8.2}",
            self.name,
            readable(proved.median),
            readable(idiomatic.median),
            ratio.median,
            ratio.lowest,
            ratio.highest,
            proved.lowest / idiomatic.lowest
        );
    }
}

pub fn print_head(title: &str) {
    println!(
        "{:<42} {:>12} {:>12} {:>8} {:>8} {:>8} {:>8}",
        title, "proved", "idiomatic", "ratio", "lowest", "highest", "fastest"
    );
}

/// How much more a side takes for the larger of two areas.
pub fn print_growth(name: &str, small: &Row, large: &Row) {
    let growth = |large: &[f64], small: &[f64]| {
        Summary::of(large.iter().zip(small).map(|(large, small)| large / small))
    };
    for (side, growth) in [
        ("proved", growth(&large.proved, &small.proved)),
        ("idiomatic", growth(&large.idiomatic, &small.idiomatic)),
    ] {
        println!(
            "{:<68} {:>8.2} {:>8.2} {:>8.2}",
            format!("{name}, {side}"),
            growth.median,
            growth.lowest,
            growth.highest
        );
    }
}

fn readable(seconds: f64) -> String {
    match seconds {
        s if s >= 1.0 => format!("{s:.2} s"),
        s if s >= 1e-3 => format!("{:.2} ms", s * 1e3),
        s => format!("{:.2} us", s * 1e6),
    }
}
