//! Choose and promote on areas altered in every way: the laws, the log made from a
//! sound one, Fig. 1, and lists of calls whose places are those of the area.

use reference::algorithm::Figure;
use reference::alter;
use reference::area::{Area, IndexRecord, ACTIVE, OLD};
use reference::call::{self, Answer, Call, Lengths};
use reference::calls::{self, Cause, Choice, Promotion};
use reference::choice::{Block, Chooser};
use reference::grid;
use reference::laws;
use reference::log::{Entry, Job, Log, State};
use reference::places::Places;
use reference::promotes;
use reference::rng::Rng;
use reference::sample;
use reference::soundness;
use std::collections::BTreeMap;

type Seen = BTreeMap<&'static str, u32>;

/// The log that a sound area would have.
fn log_of(area: &Area) -> Log {
    let entry = |record: &IndexRecord| {
        let first = record.first_reading as usize;
        let block = &area.store[first..first + grid::block_size(&record.levels)];
        let (state, readings) = match record.state {
            OLD => (State::Old, block),
            ACTIVE => (State::Active, block),
            _ => (State::Wanted, &block[..0]),
        };
        let (levels, indicator) = (record.levels, record.indicator);
        Entry { levels, state, indicator, readings: readings.to_vec() }
    };
    let entries = area.held().iter().map(entry).collect();
    let (axes, threshold) = (area.job.axes as usize, area.job.threshold);
    Log { job: Some(Job::new(axes, threshold, area.job.budget, entries)) }
}

fn lengths(area: &Area) -> Lengths {
    Lengths { records: area.records.len(), store: area.store.len() }
}

/// What a call must answer: cause 3 or 4, or what the log says.
fn due(area: &Area, call: &Call) -> Answer {
    match calls::result(area) {
        Err(cause) => Answer::Refused(cause),
        Ok(_) => log_of(area).expect(call, lengths(area)),
    }
}

/// Performs choose or promote with the laws and the log beside it, and Fig. 1 where
/// it is answered.
fn perform(area: &mut Area, call: &Call) -> Answer {
    let (before, expected) = (area.clone(), due(area, call));
    match call {
        Call::Choose => laws::assert_choose(area),
        Call::Promote { place } => laws::assert_promote(area, *place),
        _ => unreachable!("another call: {call:?}"),
    }
    let answer = call::perform(area, call, &mut []);
    assert_eq!(answer, expected, "{call:?}");
    match answer {
        Answer::Choice(choice) => assert_figure(&before, choice),
        Answer::Promotion(Promotion::Promoted) => assert!(calls::check(area)),
        _ => assert_eq!(*area, before, "{call:?}"),
    }
    answer
}

/// Choose answers a place exactly where the loop's test holds, that of Fig. 1's
/// selected index.
fn assert_figure(area: &Area, choice: Choice) {
    let figure = Figure::of(area);
    assert!(Places::of_area(area).agree_with(choice));
    match choice {
        Choice::Place(place) => {
            assert!(figure.goes_on());
            assert_eq!(figure.selected(), Some(area.records[place as usize].levels));
        }
        Choice::Met | Choice::Capped => {
            assert!(!figure.goes_on());
            assert_eq!(figure.is_met(), choice == Choice::Met);
        }
    }
}

/// The names of what was seen: those that lists have, where the area is sound.
fn note(seen: &mut Seen, area: &Area, call: &Call) {
    let names = match calls::result(area) {
        Ok(_) => {
            let log = log_of(area);
            promotes::names(log.job.as_ref().expect("a job"), call, lengths(area))
        }
        Err(Cause::StorageShort) => vec!["storage short"],
        Err(_) => vec!["not sound"],
    };
    for name in names {
        *seen.entry(name).or_default() += 1;
    }
}

/// A sample, altered more often than not, in storage that is at times too short.
fn altered(seed: u64, rng: &mut Rng) -> Area {
    let mut area = sample::area(seed);
    if rng.percent(80) {
        alter::alter(&mut area, rng);
    }
    if rng.percent(3) {
        area.records.truncate(rng.between(510, 513) as usize);
    }
    area
}

const DUE: [&str; 32] = [
    "not sound",
    "storage short",
    "choose met",
    "choose met with carried above 0",
    "choose met with the threshold equal to the pending error",
    "choose capped",
    "choose capped with pending above 0",
    "choose capped with the threshold equal to the pending error",
    "choose a place",
    "choose a place before an equal one",
    "choose refused 6",
    "promote promoted at the chosen place",
    "promote promoted at another active place",
    "promote promoted though choose says met",
    "promote promoted though choose says capped",
    "promote promoted with nothing admitted",
    "promote promoted with carried above 0",
    "promote promoted at the last of several places",
    "promote spent at the chosen place",
    "promote spent at another active place",
    "promote spent though choose says met",
    "promote spent though choose says capped",
    "promote spent with carried above 0",
    "promote refused 11 at an old place",
    "promote refused 11 at held",
    "promote refused 11 at 511 or 512",
    "promote refused 11 at 2^32 + an active place",
    "promote refused 11 at 2^32 + another held place",
    "promote refused 11 at 2^64 - 1",
    "promote refused 6 at an active place",
    "promote refused 6 at a wanted place",
    "promote refused 6 before 11",
];

/// Both calls on each area, promote at the chosen place, at another and at any.
#[test]
fn both_calls_on_altered_areas() {
    let mut rng = Rng::new(47);
    let mut seen = Seen::new();
    for seed in 0..6_000 {
        let area = altered(seed, &mut rng);
        let places = Places::of_area(&area);
        let mut calls = vec![Call::Choose];
        calls.extend(places.largest.map(|place| Call::Promote { place }));
        if !places.active.is_empty() {
            calls.push(Call::Promote { place: rng.pick(&places.active) });
        }
        for _ in 0..2 {
            calls.push(Call::Promote { place: places.any(&mut rng) });
        }
        for call in calls {
            note(&mut seen, &area, &call);
            perform(&mut area.clone(), &call);
        }
    }
    println!("{seen:#?}");
    for name in DUE {
        assert!(seen.get(name).is_some_and(|&count| count >= 5), "{name}: {seen:#?}");
    }
}

/// Lists that go on from an altered area, with the blocks and places that it says it
/// has; a sound one stays sound.
#[test]
fn lists_from_altered_areas() {
    let mut rng = Rng::new(53);
    let mut seen = Seen::new();
    for seed in 0..1_200 {
        let mut area = altered(seed, &mut rng);
        let sound = calls::check(&area);
        let mut chooser = Chooser::new(Rng::new(seed));
        for _ in 0..12 {
            let (wanted, places) = (Block::of_area(&area), Places::of_area(&area));
            let call = match chooser.rng.below(10) {
                0 => Call::Choose,
                1 => chooser.damaged_promote(&places),
                2 => chooser.promote(&places),
                _ => chooser.carry_on(wanted, &places),
            };
            if let Call::Deliver { .. } = call {
                call::perform(&mut area, &call, &mut []);
            } else {
                note(&mut seen, &area, &call);
                perform(&mut area, &call);
            }
            assert_eq!(calls::check(&area), sound, "seed {seed}: {call:?}");
        }
    }
    for name in ["promote promoted", "promote spent", "promote refused 11", "choose a place"] {
        assert!(seen.get(name).is_some_and(|&count| count >= 50), "{name}: {seen:#?}");
    }
}

/// An old place, a wanted one and one past the held are what the area says they are,
/// even where it is not sound.
#[test]
fn places_of_any_area() {
    let mut rng = Rng::new(59);
    for seed in 0..2_000 {
        let mut area = sample::area(seed);
        alter::alter(&mut area, &mut rng);
        let places = Places::of_area(&area);
        assert_eq!(places.held as usize, area.held().len());
        let all = places.active.len() + places.old.len() + places.wanted.len();
        assert!(all as u64 <= places.held);
        if soundness::sound(&area) {
            let job = log_of(&area).job.expect("a job");
            assert_eq!(places, Places::of_job(&job), "seed {seed}");
            assert_eq!(all as u64, places.held);
        }
        let place = places.any(&mut rng);
        laws::assert_promote(&area, place);
    }
}
