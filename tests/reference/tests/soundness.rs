//! The clauses of soundness: each can break, also alone; all are total.

use reference::alter;
use reference::area::{Area, IndexRecord, ACTIVE, OLD};
use reference::calls;
use reference::laws;
use reference::rng::Rng;
use reference::sample;
use reference::soundness::*;
use std::collections::BTreeMap;

/// How often each clause was among the broken ones, and was the only one.
///
/// The excess alone can't be passed: an index of excess 13 whose backward
/// neighbours are all old brings with it every point nowhere higher, of which
/// there are at least 129 times 65, for (8,7); that is 8,385 and so more than
/// any budget.
#[derive(Default)]
struct Tally {
    excess_and_budget: u32,
    hit: BTreeMap<Clause, u32>,
    alone: BTreeMap<Clause, u32>,
    sound: u32,
    compared: u32,
}

impl Tally {
    fn note(&mut self, area: &Area, compare: bool) {
        let broken = broken_clauses(area);
        assert_eq!(first_broken_clause(area), broken.first().copied());
        assert_eq!(sound(area), broken.is_empty());
        assert_eq!(calls::result(area).is_ok(), calls::check(area));
        if broken.is_empty() {
            self.sound += 1;
        }
        for clause in &broken {
            *self.hit.entry(*clause).or_default() += 1;
        }
        if let [only] = broken[..] {
            *self.alone.entry(only).or_default() += 1;
        }
        if broken == [Clause::ExcessInRange, Clause::ReservedWithinBudget] {
            self.excess_and_budget += 1;
        }
        if compare {
            self.compared += 1;
            assert_eq!(admissible_are_held(area), admissible_are_held_literally(area));
        }
    }
}

#[test]
fn every_clause_is_hit_and_also_alone() {
    let mut tally = Tally::default();
    let mut rng = Rng::new(2);
    let mut bases: Vec<(Area, u32)> = (0..1_200).map(|seed| (sample::area(seed), 8)).collect();
    bases.push((sample::ceiling_area(1), 400));
    bases.push((sample::full_area(1, 8), 300));
    for (base, times) in &bases {
        assert!(sound(base));
        for time in 0..*times {
            let mut altered = base.clone();
            let done = alter::alter(&mut altered, &mut rng);
            assert!((1..=3).contains(&done.len()));
            let compare = altered.job.axes <= 4 || (time == 0 && base.job.held % 20 == 0);
            tally.note(&altered, compare && base.job.held < 100);
        }
    }
    for (clause, _) in CLAUSES {
        assert!(tally.hit.contains_key(&clause), "{clause:?} is never hit");
        let alone = tally.alone.contains_key(&clause);
        assert_eq!(alone, clause != Clause::ExcessInRange, "{clause:?} is hit alone");
    }
    assert!(tally.excess_and_budget > 0, "the excess and the budget are passed together");
    assert!(tally.sound > 500, "altered areas may be sound: {}", tally.sound);
    assert!(tally.compared > 1_000, "{}", tally.compared);
    println!("hit {:?}\nalone {:?}\nsound {}", tally.hit, tally.alone, tally.sound);
}

#[test]
fn an_index_of_excess_13_needs_more_readings_than_any_budget() {
    fn fewest(axes: u32, excess: u32) -> u64 {
        let most = excess.min(7);
        if axes == 0 {
            return if excess == 0 { 1 } else { u64::MAX };
        }
        (0..=most)
            .map(|own| {
                let points = if own == 0 { 1 } else { (1 << own) + 1 };
                fewest(axes - 1, excess - own).saturating_mul(points)
            })
            .min()
            .unwrap()
    }
    assert_eq!(fewest(8, 13), 129 * 65);
    assert_eq!(fewest(8, 12), 65 * 65);
}

#[test]
fn areas_made_by_calls_are_sound_by_both_forms() {
    for seed in 5_000..5_300 {
        let area = sample::area(seed);
        assert_eq!(broken_clauses(&area), []);
        assert!(area.job.axes > 5 || admissible_are_held_literally(&area));
    }
}

/// Any content whatever gets an answer from every clause and every call.
#[test]
fn everything_is_total_on_garbage() {
    let mut rng = Rng::new(9);
    for round in 0..3_000 {
        let narrow = round % 3;
        let mut word = || match narrow {
            0 => rng.number() as u32,
            1 => rng.below(10) as u32,
            _ => rng.pick(&[0, 1, 2, 3, 8, 9, 511, 512, 513, u32::MAX, u32::MAX - 1]),
        };
        let mut area = Area::empty(512 + (round % 4), 8192);
        for record in area.records.iter_mut().take(20) {
            *record = IndexRecord::from_words(&std::array::from_fn(|_| word()));
        }
        area.job.axes = word();
        area.job.budget = word();
        area.job.held = if round % 2 == 0 { word() % 21 } else { word() };
        area.job.reserved = word();
        area.job.pending = u64::from(word());
        area.job.mean = i64::from(word() as i32);
        area.job.carried = u64::from(word() % 3);
        if round % 5 == 0 {
            area.records.truncate(word() as usize % 600);
            area.store.truncate(word() as usize % 9_000);
            area.job.mean = i64::MIN;
        }
        let before = area.clone();
        assert_eq!(broken_clauses(&area).is_empty(), sound(&area));
        let mut buffer = [0u8; 8];
        let _ = calls::check(&area);
        let _ = calls::point(&area, 0, &mut buffer);
        laws::assert_points(&area, 0, &[0; 20]);
        laws::assert_choose(&area);
        let place = rng.pick(&[0, 1, u64::MAX]);
        laws::assert_promote(&area, place);
        let _ = calls::result(&area);
        let _ = calls::cross_total(&area);
        let promoted = calls::promote(&mut area, place).is_err();
        let delivered = calls::deliver(&mut area, &[1], 1).is_err();
        assert!(!(promoted && delivered) || area == before, "a refusal changes nothing");
    }
}

/// What soundness says nothing of: the threshold, the indicators of old records
/// that are at no ceiling, records past the last held, the store outside delivered
/// blocks.
#[test]
fn what_soundness_leaves_free() {
    let mut area = sample::area(3);
    let mut seed = 3;
    while area.held().iter().all(|record| record.state != OLD) || area.held().len() > 200 {
        seed += 1;
        area = sample::area(seed);
    }
    assert!(sound(&area));
    area.job.threshold = u64::MAX;
    let held = area.job.held as usize;
    for record in &mut area.records[held..] {
        *record = IndexRecord::from_words(&[u32::MAX; 27]);
    }
    let reserved = area.job.reserved as usize;
    area.store[reserved..].fill(i32::MIN);
    let old = area.held().iter().position(|record| record.state == OLD).unwrap();
    area.records[old].indicator = 12_345;
    assert!(sound(&area));
    // An active record's indicator isn't free.
    let mut other = area.clone();
    if let Some(active) = other.held().iter().position(|record| record.state == ACTIVE) {
        other.records[active].indicator ^= 1;
        assert_eq!(broken_clauses(&other), [Clause::PendingIsActiveSum]);
    }
}

/// The document's job with the root old, (2,1) active and (1,2) wanted.
fn scope_area() -> Area {
    let mut area = Area::empty(512, 8192);
    assert_eq!(calls::start(&mut area, 2, 40, 64), Ok(()));
    assert_eq!(calls::deliver(&mut area, &[4160], 100), Ok(()));
    assert_eq!(calls::promote(&mut area, 0), Ok(calls::Promotion::Promoted));
    assert_eq!(calls::deliver(&mut area, &[64, 16448], 50), Ok(()));
    area
}

type Edit = fn(&mut Area);

/// Single changes at the edge of a clause and the clauses they break.
#[test]
fn each_clause_at_its_edge() {
    use Clause::*;
    let cases: [(Edit, &[Clause]); 48] = [
        (|_| {}, &[]),
        (|a| a.job.axes = 3, &[AdmissibleAreHeld]),
        (|a| a.job.budget = 8_192, &[]),
        (|a| a.job.budget = 8_193, &[BudgetInRange]),
        (|a| a.job.budget = 5, &[]),
        (|a| a.job.budget = 4, &[ReservedWithinBudget]),
        (|a| a.job.budget = 0, &[BudgetInRange, ReservedWithinBudget]),
        (|a| a.job.threshold = u64::MAX, &[]),
        (|a| a.job.reserved = 6, &[ReservedIsSum]),
        (|a| a.job.reserved = 4, &[ReservedIsSum]),
        (|a| a.job.pending = 51, &[PendingIsActiveSum]),
        (|a| a.job.pending = 49, &[PendingIsActiveSum]),
        (|a| a.job.pending = 150, &[PendingIsActiveSum]),
        (|a| a.job.pending = u64::MAX, &[PendingIsActiveSum]),
        (|a| a.job.carried = 1, &[CarriedIsCeilingSum]),
        (|a| a.job.carried = 100, &[CarriedIsCeilingSum]),
        (|a| a.job.carried = 1 << 32, &[CarriedIsCeilingSum]),
        (|a| a.job.carried = u64::MAX, &[CarriedIsCeilingSum]),
        (|a| a.job.mean = 2 << 40, &[]),
        (|a| a.job.mean = -(2 << 40), &[]),
        (|a| a.job.mean = (2 << 40) + 1, &[MeanWithinBound]),
        (|a| a.job.mean = -(2 << 40) - 1, &[MeanWithinBound]),
        (|a| a.job.mean = i64::MIN, &[MeanWithinBound]),
        (|a| a.records[0].indicator = 7, &[]),
        (|a| a.records[1].indicator = 51, &[PendingIsActiveSum]),
        (|a| a.records[2].indicator = 1, &[WantedIndicatorsZero]),
        (|a| a.records[2].state = 3, &[StatesAreOfTheThree]),
        (|a| a.records[2].state = u32::MAX, &[StatesAreOfTheThree]),
        (|a| a.records[2].state = OLD, &[AdmissibleAreHeld]),
        (|a| a.records[2].state = ACTIVE, &[]),
        (|a| a.records[0].forward[2] = 0, &[LinksBeyondAxesAreNone]),
        (|a| a.records[1].backward[7] = 0, &[LinksBeyondAxesAreNone]),
        (|a| a.records[0].forward[0] = u32::MAX, &[LinksNameHeldNeighbours]),
        (|a| a.records[0].forward[0] = 2, &[LinksNameHeldNeighbours]),
        (|a| a.records[0].forward[0] = 3, &[LinksNameHeldNeighbours]),
        (|a| a.records[1].backward[0] = u32::MAX, &[LinksNameHeldNeighbours]),
        (|a| a.records[1].backward[1] = 0, &[LinksNameHeldNeighbours]),
        (|a| a.records[1].forward[0] = 3, &[LinksNameHeldNeighbours]),
        (|a| a.records[1].forward[1] = u32::MAX - 1, &[LinksNameHeldNeighbours]),
        (|a| a.records[2].first_reading = 4, &[FirstReadingsRunningSum]),
        (|a| a.records[2].first_reading = 2, &[FirstReadingsRunningSum]),
        (|a| a.store[0] = 1_048_576, &[]),
        (|a| a.store[2] = 1_048_577, &[DeliveredReadingsInRange]),
        (|a| a.store[2] = -1_048_576, &[]),
        (|a| a.store[1] = -1_048_577, &[DeliveredReadingsInRange]),
        (|a| a.store[1] = i32::MIN, &[DeliveredReadingsInRange]),
        (|a| a.store[3] = i32::MAX, &[]),
        (|a| a.records[3] = IndexRecord::from_words(&[0; 27]), &[]),
    ];
    for (number, (edit, broken)) in cases.iter().enumerate() {
        let mut area = scope_area();
        edit(&mut area);
        assert_eq!(broken_clauses(&area), *broken, "case {number}");
    }
    let mut area = scope_area();
    area.records[0].state = ACTIVE;
    area.job.pending = 150;
    assert_eq!(broken_clauses(&area), [BackwardNeighboursOld]);
    for held in [0, 513, u32::MAX] {
        let mut area = scope_area();
        area.job.held = held;
        assert!(broken_clauses(&area).contains(&HeldCountInRange), "{held}");
    }
}

#[test]
fn with_nothing_delivered_a_sound_mean_is_0() {
    let mut area = Area::empty(512, 8192);
    assert_eq!(calls::start(&mut area, 2, 0, 8), Ok(()));
    for mean in [1, -1, i64::MIN] {
        area.job.mean = mean;
        assert_eq!(broken_clauses(&area), [Clause::MeanWithinBound]);
    }
}
