//! Choose and promote by name, each call on the library and beside it on the
//! reference: the answers are those that are named, and everything lent is the same
//! on both sides after every call.

mod support;

use harness::pair::Pair;
use reference::area::{Area, ACTIVE, OLD, WANTED};
use reference::call::{Answer, Call};
use reference::calls::{Cause, Choice, Promotion};
use reference::grid::{self, Levels, ROOT};
use reference::sample;
use reference::steps::{self, Case};
use support::*;

/// One work area on both sides.
struct Sides(Pair);

impl Sides {
    fn of(area: Area) -> Sides {
        Sides(Pair::new(area, Vec::new()))
    }

    fn started(axes: u32, threshold: u64, budget: u32) -> Sides {
        let mut sides = Sides::of(Area::empty(RECORDS, budget as usize));
        let start = Call::Start { axes, threshold, budget };
        assert_eq!(sides.answer(&start), Answer::Started);
        sides
    }

    fn answer(&mut self, call: &Call) -> Answer {
        let whole = self.0.whole();
        let same = self.0.call(call, whole, &slots(0));
        same.unwrap_or_else(|fault| panic!("{call:?}: {fault}"))
    }

    /// The first wanted block with readings of 1.
    fn deliver(&mut self, indicator: u32) {
        let area = self.0.area();
        let wanted = area.held().iter().find(|record| record.state == WANTED);
        let size = grid::block_size(&wanted.expect("a block is wanted").levels);
        let delivery = Call::Deliver { readings: vec![1; size], indicator };
        assert_eq!(self.answer(&delivery), Answer::Delivered);
    }

    fn assert_choice(&mut self, choice: Choice) {
        self.assert_left(&Call::Choose, Answer::Choice(choice));
    }

    fn assert_promoted(&mut self, place: u64) {
        assert_eq!(self.answer(&promotion(place)), Answer::Promotion(Promotion::Promoted));
    }

    fn assert_refused(&mut self, call: &Call, cause: Cause) {
        self.assert_left(call, Answer::Refused(cause));
    }

    /// The call answers so and leaves the area as it was.
    fn assert_left(&mut self, call: &Call, answer: Answer) {
        let before = self.0.area().clone();
        assert_eq!(self.answer(call), answer, "{call:?}");
        assert_eq!(*self.0.area(), before, "{call:?}");
    }

    fn states(&self) -> Vec<u32> {
        self.0.area().held().iter().map(|record| record.state).collect()
    }

    fn last_held(&self) -> Levels {
        self.0.area().held().last().expect("the root is held").levels
    }
}

fn index(levels: &[u32]) -> Levels {
    let mut index = ROOT;
    index[..levels.len()].copy_from_slice(levels);
    index
}

/// Two axes, budget 64, threshold 40, the root delivered with indicator 40.
fn root_at_the_threshold() -> Sides {
    let mut sides = Sides::started(2, 40, 64);
    sides.deliver(40);
    sides
}

#[test]
fn right_after_start_both_are_refused_6() {
    let mut sides = Sides::started(2, 40, 64);
    sides.assert_refused(&Call::Choose, Cause::BlockWanted);
    sides.assert_refused(&promotion(u64::MAX), Cause::BlockWanted);
}

#[test]
fn the_root_alone_is_met_at_the_threshold_and_promoted_all_the_same() {
    let mut sides = root_at_the_threshold();
    sides.assert_choice(Choice::Met);
    for place in [1, 512, 1 << 32, u64::MAX] {
        sides.assert_refused(&promotion(place), Cause::PlaceNotActive);
    }
    sides.assert_promoted(0);
    assert_eq!(sides.states(), [OLD, WANTED, WANTED]);
}

#[test]
fn of_equal_neighbours_the_first_is_chosen_and_the_other_can_be_promoted() {
    let mut sides = root_at_the_threshold();
    sides.assert_promoted(0);
    sides.deliver(30);
    sides.deliver(30);
    sides.assert_choice(Choice::Place(1));
    sides.assert_refused(&promotion(0), Cause::PlaceNotActive);
    sides.assert_promoted(2);
    assert_eq!(sides.last_held(), index(&[1, 3]));
    assert_eq!(sides.states(), [OLD, ACTIVE, OLD, WANTED]);
}

#[test]
fn one_axis_promoted_in_turn_is_capped_at_threshold_9_and_met_at_10() {
    for (threshold, choice) in [(9, Choice::Capped), (10, Choice::Met)] {
        let mut sides = Sides::started(1, threshold, 129);
        for place in 0..8 {
            sides.deliver(10);
            sides.assert_promoted(place);
        }
        sides.assert_choice(choice);
        sides.assert_refused(&promotion(7), Cause::PlaceNotActive);
    }
}

#[test]
fn two_axes_with_budget_4_and_indicator_0_are_met_and_spent() {
    let mut sides = Sides::started(2, 0, 4);
    sides.deliver(0);
    sides.assert_choice(Choice::Met);
    sides.assert_left(&promotion(0), Answer::Promotion(Promotion::Spent));
}

/// The answers and the admitted were worked out by hand.
#[test]
fn the_steps_by_name() {
    let cases = steps::cases();
    assert_eq!(cases.len(), 49);
    for Case { name, area, call, answer, admitted } in cases {
        let mut sides = Sides::of(area.clone());
        if answer != Answer::Promotion(Promotion::Promoted) {
            sides.assert_left(&call, answer);
            continue;
        }
        assert_eq!(sides.answer(&call), answer, "{name}");
        let appended = &sides.0.area().held()[area.held().len()..];
        let appended: Vec<Levels> = appended.iter().map(|record| record.levels).collect();
        let due: Vec<Levels> = admitted.iter().map(|levels| index(levels)).collect();
        assert_eq!(appended, due, "{name}");
    }
}

/// Each place from the first to past those held, and each of them past 16, 32 and 63
/// bits: promoted or spent where an index is active, else refused with 11.
#[test]
fn every_place_of_a_job_and_those_past_it() {
    let (mut active, mut other) = (0, 0);
    for seed in 0..60 {
        let area = sample::area(seed);
        if area.held().iter().any(|record| record.state == WANTED) {
            continue;
        }
        let held = area.held().len();
        for place in 0..held + 2 {
            let is_active = place < held && area.records[place].state == ACTIVE;
            let answer = Sides::of(area.clone()).answer(&promotion(place as u64));
            assert_eq!(matches!(answer, Answer::Promotion(_)), is_active, "seed {seed}, {place}");
            (active, other) = (active + u32::from(is_active), other + u32::from(!is_active));
            for past in [1 << 16, 1 << 32, 1 << 63] {
                let call = promotion(place as u64 + past);
                Sides::of(area.clone()).assert_refused(&call, Cause::PlaceNotActive);
            }
        }
    }
    assert!(active > 100 && other > 100, "{active} active, {other} not");
}

/// With all 512 places held the last one is a place like the others.
#[test]
fn the_last_place_of_a_full_job() {
    for (seed, axes, promotion_due) in [(0, 8, Promotion::Promoted), (1, 5, Promotion::Spent)] {
        let area = sample::full_area(seed, axes);
        assert_eq!((area.job.held, area.records[511].state), (512, ACTIVE));
        let mut sides = Sides::of(area);
        sides.assert_refused(&promotion(512), Cause::PlaceNotActive);
        sides.assert_refused(&promotion((1 << 32) + 511), Cause::PlaceNotActive);
        assert_eq!(sides.answer(&promotion(511)), Answer::Promotion(promotion_due));
    }
}
