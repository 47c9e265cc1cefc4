//! The steps beside Fig. 1 of the published algorithm. By the rule its loop goes on
//! exactly where choose answers a place, that of its selected index, and ends exactly
//! where choose answers met or capped. Led, its body is a promote with the deliveries
//! of what that admits, and its limits say which promote is spent.

use reference::algorithm::Figure;
use reference::area::Area;
use reference::calls::{self, Choice, Promotion};
use reference::corner::{self, Corner};
use reference::grid::{self, Levels, ROOT};
use reference::places::Places;
use reference::program::Ending;
use reference::rng::Rng;
use reference::style::{self, IndicatorStyle};
use reference::sums;
use std::collections::BTreeMap;

/// A rig and an indicator, each from an index or a point alone.
struct Source {
    axes: usize,
    indicators: IndicatorStyle,
    seed: u64,
}

impl Source {
    fn indicator(&self, index: &Levels) -> u32 {
        let own = index.iter().fold(self.seed, |seed, &level| seed * 31 + u64::from(level));
        style::indicator(self.indicators, &mut Rng::new(own), index)
    }

    fn reading(&self, index: &Levels, number: usize) -> i32 {
        let point = grid::nth_point(self.axes, index, number);
        point[..self.axes]
            .iter()
            .fold(7, |sum, &position| (sum * 129 + i32::from(position)) % 5_003)
    }

    fn readings(&self, index: &Levels) -> Vec<i32> {
        (0..grid::block_size(index)).map(|number| self.reading(index, number)).collect()
    }

    fn difference(&self, index: &Levels) -> i128 {
        sums::difference(self.axes, index, &|index: &Levels, n: usize| self.reading(index, n))
    }
}

/// A job by calls and the figure beside it.
struct Pair<'a> {
    source: &'a Source,
    area: Area,
    figure: Figure,
    budget: u32,
    threshold: u64,
}

impl Pair<'_> {
    fn new(source: &Source, threshold: u64, budget: u32) -> Pair<'_> {
        let mut area = Area::empty(512, 8192);
        assert_eq!(calls::start(&mut area, source.axes as u32, threshold, budget), Ok(()));
        let figure = Figure::new(source.axes, threshold);
        Pair { source, area, figure, budget, threshold }
    }

    fn assert_same(&self) {
        assert_eq!(self.figure.differs_in(&self.area), None, "{:?}", self.figure);
    }

    /// Delivers what is wanted, and lets it come in.
    fn deliver(&mut self) {
        self.assert_same();
        while let Some(place) = calls::first_wanted(&self.area) {
            let index = self.area.records[place].levels;
            let (readings, indicator) =
                (self.source.readings(&index), self.source.indicator(&index));
            assert_eq!(calls::deliver(&mut self.area, &readings, indicator), Ok(()));
            self.figure.add(&index, indicator, self.source.difference(&index));
            self.assert_same();
        }
    }

    /// Choose beside the loop's test.
    fn choose(&self) -> Choice {
        let choice = calls::choose(&self.area).expect("no block is wanted");
        match choice {
            Choice::Place(place) => {
                assert!(self.figure.goes_on());
                let index = self.area.records[place as usize].levels;
                assert_eq!(self.figure.selected(), Some(index));
            }
            Choice::Met | Choice::Capped => {
                assert!(!self.figure.goes_on());
                assert_eq!(self.figure.is_met(), choice == Choice::Met);
            }
        }
        choice
    }

    /// Promote beside the loop's body, whatever the loop's test says.
    fn promote(&mut self, place: u64) -> Promotion {
        let mut after = self.figure.clone();
        after.refine(&self.area.records[place as usize].levels);
        let promotion = calls::promote(&mut self.area, place).expect("an active index");
        assert_eq!(promotion == Promotion::Spent, after.passes_a_limit(self.budget));
        if promotion == Promotion::Promoted {
            self.figure = after;
        }
        promotion
    }

    /// The whole figure led by the list of indices made old is the one step by step.
    fn assert_led(&self) {
        let source = |index: &Levels| (self.source.indicator(index), self.source.difference(index));
        let (axes, made_old) = (self.source.axes, self.figure.made_old());
        assert_eq!(Figure::led(axes, self.threshold, made_old, source), self.figure);
    }
}

/// Runs a job by the rule, and gives its end.
fn by_the_rule(source: &Source, threshold: u64, budget: u32) -> Ending {
    let mut pair = Pair::new(source, threshold, budget);
    loop {
        pair.deliver();
        let place = match pair.choose() {
            Choice::Met => return Ending::Met,
            Choice::Capped => return Ending::Capped,
            Choice::Place(place) => place,
        };
        if pair.promote(place) == Promotion::Spent {
            pair.assert_led();
            return Ending::Spent;
        }
    }
}

fn any_job(seed: u64, rng: &mut Rng) -> (Source, u64, u32) {
    let axes = rng.between(1, 5) as usize;
    let (indicators, threshold, budget) = match seed % 4 {
        0 => {
            let Corner { indicators, threshold, budget } = corner::of_level(rng, axes);
            (indicators, threshold, budget)
        }
        _ => (
            style::any_indicator_style(rng, axes),
            rng.pick(&[0, 25, 1_000, 1 << 32]),
            rng.between(20, 300) as u32,
        ),
    };
    (Source { axes, indicators, seed }, threshold, budget)
}

#[test]
fn the_steps_are_the_figures() {
    let mut rng = Rng::new(5);
    let mut ends: BTreeMap<Ending, u32> = BTreeMap::new();
    for seed in 0..400 {
        let (source, threshold, budget) = any_job(seed, &mut rng);
        *ends.entry(by_the_rule(&source, threshold, budget)).or_default() += 1;
    }
    println!("{ends:?}");
    for end in [Ending::Met, Ending::Capped, Ending::Spent] {
        assert!(ends.get(&end).is_some_and(|&count| count > 20), "{ends:?}");
    }
}

/// Two axes up to the ceiling of excess, and both ceilings.
#[test]
fn the_steps_are_the_figures_up_to_the_ceilings() {
    for levels in [[7, 7], [8, 6]] {
        let mut target = ROOT;
        target[..2].copy_from_slice(&levels);
        let source =
            Source { axes: 2, indicators: IndicatorStyle::Corner { target, toward: 75 }, seed: 1 };
        assert_eq!(by_the_rule(&source, 60, 8_192), Ending::Capped);
    }
}

/// An engineer promotes whatever active place he likes, until none is left or every
/// one is spent. Where the loop would have ended he goes on.
#[test]
fn any_places_are_the_figures_led() {
    let mut rng = Rng::new(6);
    let mut seen: BTreeMap<&str, u32> = BTreeMap::new();
    for seed in 0..400 {
        let (source, threshold, budget) = any_job(seed, &mut rng);
        let mut pair = Pair::new(&source, threshold, budget);
        let mut tries = 0;
        while tries < 12 {
            pair.deliver();
            let choice = pair.choose();
            let places = Places::of_area(&pair.area);
            let Some(largest) = places.largest else {
                *seen.entry("none is active").or_default() += 1;
                break;
            };
            // Toward a corner he mostly goes on as the rule would.
            let place = match seed % 4 == 0 && rng.percent(90) {
                true => largest,
                false => rng.pick(&places.active),
            };
            let what = match (pair.promote(place), choice) {
                (Promotion::Promoted, Choice::Place(chosen)) if chosen == place => "the chosen",
                (Promotion::Promoted, Choice::Place(_)) => "another",
                (Promotion::Promoted, Choice::Met) => "promoted though met",
                (Promotion::Promoted, Choice::Capped) => "promoted though capped",
                (Promotion::Spent, Choice::Place(_)) => "spent",
                (Promotion::Spent, Choice::Met) => "spent though met",
                (Promotion::Spent, Choice::Capped) => "spent though capped",
            };
            *seen.entry(what).or_default() += 1;
            tries = if what.starts_with("spent") { tries + 1 } else { 0 };
        }
        pair.deliver();
        pair.assert_led();
    }
    println!("{seen:?}");
    assert!(seen.len() == 8 && seen.values().all(|&count| count > 20), "{seen:?}");
}
