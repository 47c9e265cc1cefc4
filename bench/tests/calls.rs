//! The calls held to the reference's: lists of calls by seed, accepted and
//! refused, on storage lent whole or in part, with the area altered in
//! between; and check on altered areas.

mod support;

use reference::alter;
use reference::area::{Area, IndexRecord, JobRecord, WORDS};
use reference::call::{Answer, Call, Lengths};
use reference::calls::{self, Choice};
use reference::choice::{Block, Chooser};
use reference::grid::{BUDGET_LIMIT, HELD_LIMIT, MOST_AXES};
use reference::places::Places;
use reference::reports;
use reference::rng::Rng;
use reference::sample;
use reference::steps;
use std::collections::BTreeMap;
use support::{Lent, Pair};

/// How often each call was answered how.
type Seen = BTreeMap<String, u64>;

/// Storage as it may be found: of sufficient length and full of anything.
fn garbage(rng: &mut Rng) -> Area {
    let mut record =
        || IndexRecord::from_words(&std::array::from_fn::<u32, WORDS, _>(|_| rng.number() as u32));
    let records = (0..HELD_LIMIT + 8).map(|_| record()).collect();
    let store = (0..BUDGET_LIMIT + 40).map(|_| rng.number() as i32).collect();
    let job = JobRecord {
        axes: rng.below(10) as u32,
        threshold: rng.number(),
        budget: rng.number() as u32 >> rng.below(32),
        held: rng.number() as u32 >> rng.below(32),
        reserved: rng.number() as u32,
        pending: rng.number(),
        carried: rng.number(),
        mean: rng.number() as i64,
    };
    Area { job, records, store }
}

struct List {
    chooser: Chooser,
    pair: Pair,
    seen: Seen,
}

impl List {
    fn new(seed: u64) -> List {
        let mut chooser = Chooser::new(Rng::new(seed));
        let area = match chooser.rng.below(10) {
            0..=4 => garbage(&mut chooser.rng),
            5 => sample::ceiling_area(seed),
            _ => sample::area(seed),
        };
        List { chooser, pair: Pair::new(area), seen: Seen::new() }
    }

    fn step(&mut self) {
        let sound = calls::check(self.pair.area());
        if sound && self.chooser.rng.percent(4) {
            let mut area = self.pair.area().clone();
            alter::alter(&mut area, &mut self.chooser.rng);
            self.pair = Pair::new(area);
        }
        let call = self.next_call(sound);
        let lengths = self.lend(&call);
        let length = call.buffer_length().unwrap_or(0);
        let buffer: Vec<u8> = (0..length).map(|_| self.chooser.rng.number() as u8).collect();
        let answer = self.pair.call(&call, lengths, &buffer);
        let said = match answer {
            Answer::Refused(cause) => format!("{} refused {}", call.name(), cause.number()),
            Answer::Choice(Choice::Place(_)) => "choose Place".to_string(),
            Answer::Choice(end) => format!("choose {end:?}"),
            Answer::Promotion(promotion) => format!("promote {promotion:?}"),
            Answer::Sound(sound) => format!("check {sound}"),
            _ => format!("{} accepted", call.name()),
        };
        *self.seen.entry(said).or_insert(0) += 1;
    }

    fn next_call(&mut self, sound: bool) -> Call {
        let area = self.pair.area();
        let (wanted, places) = (Block::of_area(area), Places::of_area(area));
        let chooser = &mut self.chooser;
        if chooser.rng.percent(if sound { 2 } else { 15 }) {
            chooser.draw_parameters();
            return chooser.start();
        }
        if sound && chooser.rng.percent(chooser.parameters.steps) {
            return chooser.carry_on(wanted, &places);
        }
        match chooser.rng.below(100) {
            0..=7 => chooser.point(wanted),
            8..=15 => chooser.points(wanted),
            16..=20 => chooser.damaged_point(wanted),
            21..=25 => chooser.damaged_points(wanted),
            26..=39 => chooser.damaged_deliver(wanted),
            40..=49 => chooser.carry_on(wanted, &places),
            50..=56 => Call::Choose,
            57..=65 => chooser.damaged_promote(&places),
            66..=72 => Call::Result,
            73..=79 => Call::CrossTotal,
            80..=86 => Call::Doubles,
            87..=93 => Call::Check,
            _ => chooser.damaged_start(),
        }
    }

    /// How much to lend: mostly all there is, at times just enough or less.
    fn lend(&mut self, call: &Call) -> Lengths {
        let area = self.pair.area();
        let all = Lengths { records: area.records.len(), store: area.store.len() };
        let budget = match call {
            Call::Start { budget, .. } => *budget,
            _ => area.job.budget,
        };
        let store = all.store.min(budget as usize);
        let rng = &mut self.chooser.rng;
        match rng.below(100) {
            0..=9 => Lengths { records: HELD_LIMIT, store },
            10 | 11 => Lengths { records: rng.pick(&[0, 1, 300, HELD_LIMIT - 1]), ..all },
            12 | 13 => Lengths { store: store.saturating_sub(1), ..all },
            _ => all,
        }
    }
}

#[test]
fn lists_of_calls_leave_what_the_reference_leaves() {
    let mut seen = Seen::new();
    for seed in 0..400 {
        let mut list = List::new(seed);
        for _ in 0..120 {
            list.step();
        }
        for (what, count) in list.seen {
            *seen.entry(what).or_insert(0) += count;
        }
    }
    let every = [
        "start accepted",
        "start refused 1",
        "start refused 2",
        "start refused 3",
        "point accepted",
        "point refused 3",
        "point refused 4",
        "point refused 5",
        "point refused 9",
        "points accepted",
        "points refused 3",
        "points refused 4",
        "points refused 5",
        "points refused 9",
        "deliver accepted",
        "deliver refused 3",
        "deliver refused 4",
        "deliver refused 5",
        "deliver refused 7",
        "deliver refused 8",
        "choose Met",
        "choose Capped",
        "choose Place",
        "choose refused 3",
        "choose refused 4",
        "choose refused 6",
        "promote Spent",
        "promote Promoted",
        "promote refused 3",
        "promote refused 4",
        "promote refused 6",
        "promote refused 11",
        "result accepted",
        "result refused 3",
        "result refused 4",
        "doubles accepted",
        "doubles refused 3",
        "doubles refused 4",
        "cross total accepted",
        "cross total refused 3",
        "cross total refused 4",
        "check true",
        "check false",
    ];
    for what in every {
        assert!(
            seen.get(what).is_some_and(|&count| count >= 5),
            "{what} was hardly seen: {seen:?}"
        );
    }
}

/// The answer of both sides to a call on all of an area.
fn answered(area: Area, call: &Call) -> Answer {
    let lengths = Lengths { records: area.records.len(), store: area.store.len() };
    Pair::new(area).call(call, lengths, &[])
}

/// Answers worked out by hand, among them some to differences of equal size and
/// to recorded means that are not those of the readings.
#[test]
fn doubles_says_of_the_areas_by_name_what_it_must() {
    for reports::Case { name, area, answer } in reports::cases() {
        let expected = answer.map_or_else(Answer::Refused, Answer::Doubles);
        assert_eq!(answered(area, &Call::Doubles), expected, "{name}");
    }
}

/// Answers worked out by hand, among them promotions though the job is met, and
/// places that are not active.
#[test]
fn choose_and_promote_say_of_the_areas_by_name_what_they_must() {
    for steps::Case { name, area, call, answer, .. } in steps::cases() {
        assert_eq!(answered(area, &call), answer, "{name}");
    }
}

#[test]
fn check_says_of_altered_areas_what_the_reference_says() {
    let mut answers = [0, 0];
    for seed in 0..8_000 {
        let mut rng = Rng::new(!seed);
        let mut area = match seed % 40 {
            0 => sample::ceiling_area(seed),
            1 => garbage(&mut rng),
            _ => sample::area(seed),
        };
        if rng.percent(90) {
            alter::alter(&mut area, &mut rng);
        }
        if rng.percent(5) {
            area.records.truncate(rng.between(510, 513) as usize);
        }
        if rng.percent(5) {
            let budget = area.job.budget.min(BUDGET_LIMIT) as usize;
            area.store.truncate((budget + 1).saturating_sub(rng.place(3)));
        }
        let sound = calls::check(&area);
        assert_eq!(Lent::of(&area).check(), sound, "seed {seed}");
        answers[usize::from(sound)] += 1;
    }
    assert!(answers.iter().all(|&count| count > 800), "{answers:?}");
}

/// Few seeds, for the reference's check of a full area is slow.
#[test]
fn check_says_of_full_areas_what_the_reference_says() {
    for axes in 5..=MOST_AXES {
        let full = sample::full_area(axes as u64, axes);
        assert!(Lent::of(&full).check());
        for seed in 0..60 {
            let mut area = full.clone();
            alter::alter(&mut area, &mut Rng::new(seed));
            assert_eq!(Lent::of(&area).check(), calls::check(&area), "axes {axes}, seed {seed}");
        }
    }
}
