//! Wrong programs for choose and promote, each with one slip, and the areas by name
//! that tell them from a right one. Altered areas by seed notice each slip too, and
//! so do the laws.

use reference::alter;
use reference::area::{Area, IndexRecord, ACTIVE, OLD, WANTED};
use reference::call::{self, Answer, Call};
use reference::calls::{self, Cause, Choice, Promotion};
use reference::grid::{self, Levels, HELD_LIMIT};
use reference::laws;
use reference::places::Places;
use reference::rng::Rng;
use reference::sample;
use reference::soundness;
use reference::steps::{self, Case};

/// What a program says. A wrong promote may say met or capped.
#[derive(Clone, Copy, Debug, PartialEq, Eq)]
enum Said {
    Refused(Cause),
    Met,
    Capped,
    Place(u64),
    Spent,
    Promoted,
}

/// The two calls, in parts that a slip can change one at a time.
#[derive(Clone, Copy)]
struct Program {
    /// The causes in the order in which they are tested; choose leaves out 11.
    order: [Cause; 4],
    /// Whether a later active record is chosen in place of the one so far, by their
    /// indicators.
    replaces: fn(u32, u32) -> bool,
    /// What choose does to the area when it has chosen.
    marks: fn(&mut Area, usize),
    /// The place that promote goes by.
    place: fn(&Area, u64) -> u64,
    /// Whether it takes that for the place of an active index.
    active: fn(&Area, u64) -> bool,
    /// What it says before it looks at the limits, doing nothing.
    early: fn(&Area) -> Option<Said>,
    /// The place whose promotion is held against the limits.
    limited: fn(&Area, usize) -> usize,
}

const RIGHT: Program = Program {
    order: [Cause::StorageShort, Cause::AreaNotSound, Cause::BlockWanted, Cause::PlaceNotActive],
    replaces: |so_far, next| next > so_far,
    marks: |_, _| {},
    place: |_, place| place,
    active: |area, place| record_at(area, place).is_some_and(|record| record.state == ACTIVE),
    early: |_| None,
    limited: |_, place| place,
};

/// The held record of a place, any number, in any area.
fn record_at(area: &Area, place: u64) -> Option<&IndexRecord> {
    area.held().get(usize::try_from(place).ok()?)
}

/// The active place of largest indicator, the lowest among equals; 0 if there is none.
fn largest(area: &Area) -> u64 {
    Places::of_area(area).largest.unwrap_or(0)
}

fn ends(area: &Area) -> bool {
    area.job.pending <= area.job.threshold
}

fn is_met(area: &Area) -> bool {
    area.job.pending + area.job.carried <= area.job.threshold
}

/// What a promotion of a record admits, whatever its state.
fn admitted(area: &Area, place: usize) -> Vec<Levels> {
    let axes = area.job.axes as usize;
    let is_old = |levels: &Levels| {
        let mut held = area.held().iter().enumerate();
        held.any(|(at, held)| held.levels == *levels && (held.state == OLD || at == place))
    };
    let neighbours =
        (0..axes).filter_map(|axis| grid::forward_neighbour(&area.records[place].levels, axis));
    let mut all: Vec<Levels> = neighbours.filter(grid::within_ceilings).collect();
    all.retain(|next| {
        let mut behind = (0..axes).filter_map(|axis| grid::backward_neighbour(next, axis));
        behind.all(|backward| is_old(&backward))
    });
    all
}

fn passes_a_limit(area: &Area, place: usize) -> bool {
    let admitted = admitted(area, place);
    let sizes: usize = admitted.iter().map(grid::block_size).sum();
    let reserved = area.job.reserved as usize + sizes;
    area.job.held as usize + admitted.len() > HELD_LIMIT || reserved > area.job.budget as usize
}

/// Makes the record of a place old and appends what that admits. On a record that is
/// not active the pending error may wrap.
fn refine(area: &mut Area, place: usize) {
    let admitted = admitted(area, place);
    let axes = area.job.axes as usize;
    let IndexRecord { levels, indicator, .. } = area.records[place];
    area.records[place].state = OLD;
    area.job.pending = area.job.pending.wrapping_sub(indicator.into());
    if grid::at_a_ceiling(axes, &levels) {
        area.job.carried += u64::from(indicator);
    }
    for levels in admitted {
        let next = area.job.held as usize;
        let mut record = IndexRecord::wanted(levels, area.job.reserved);
        for axis in 0..axes {
            let Some(backward) = grid::backward_neighbour(&levels, axis) else {
                continue;
            };
            let at = area.held().iter().position(|held| held.levels == backward);
            let at = at.expect("a backward neighbour is held");
            record.backward[axis] = at as u32;
            area.records[at].forward[axis] = next as u32;
        }
        area.records[next] = record;
        area.job.held += 1;
        area.job.reserved += grid::block_size(&levels) as u32;
    }
}

impl Program {
    /// The first cause of the order that applies.
    fn refused(&self, area: &Area, place: Option<u64>) -> Option<Cause> {
        let short = area.records.len() < HELD_LIMIT || area.store.len() < area.job.budget as usize;
        let applies = |cause: &Cause| match cause {
            Cause::StorageShort => short,
            Cause::AreaNotSound => !soundness::sound(area),
            Cause::BlockWanted => calls::first_wanted(area).is_some(),
            _ => place.is_some_and(|place| !(self.active)(area, place)),
        };
        self.order.into_iter().find(applies)
    }

    fn choose(&self, area: &mut Area) -> Said {
        if let Some(cause) = self.refused(area, None) {
            return Said::Refused(cause);
        }
        if ends(area) {
            return if is_met(area) { Said::Met } else { Said::Capped };
        }
        let held = area.held().iter().enumerate();
        let active = held.filter(|(_, record)| record.state == ACTIVE);
        let chosen = active.reduce(|so_far, next| {
            match (self.replaces)(so_far.1.indicator, next.1.indicator) {
                true => next,
                false => so_far,
            }
        });
        let chosen = chosen.expect("something is pending").0;
        (self.marks)(area, chosen);
        Said::Place(chosen as u64)
    }

    fn promote(&self, area: &mut Area, place: u64) -> Said {
        let place = (self.place)(area, place);
        if let Some(cause) = self.refused(area, Some(place)) {
            return Said::Refused(cause);
        }
        if let Some(said) = (self.early)(area) {
            return said;
        }
        let place = place as usize;
        if passes_a_limit(area, (self.limited)(area, place)) {
            return Said::Spent;
        }
        refine(area, place);
        Said::Promoted
    }

    /// What it says of a call, and the area after it.
    fn seen(&self, area: &Area, call: &Call) -> (Said, Area) {
        let mut after = area.clone();
        let said = match *call {
            Call::Choose => self.choose(&mut after),
            Call::Promote { place } => self.promote(&mut after, place),
            _ => unreachable!("another call: {call:?}"),
        };
        (said, after)
    }
}

/// What the reference says of a call, and the area after it.
fn right(area: &Area, call: &Call) -> (Said, Area) {
    let mut after = area.clone();
    let said = match call::perform(&mut after, call, &mut []) {
        Answer::Refused(cause) => Said::Refused(cause),
        Answer::Choice(Choice::Met) => Said::Met,
        Answer::Choice(Choice::Capped) => Said::Capped,
        Answer::Choice(Choice::Place(place)) => Said::Place(place),
        Answer::Promotion(Promotion::Spent) => Said::Spent,
        Answer::Promotion(Promotion::Promoted) => Said::Promoted,
        answer => unreachable!("another call: {answer:?}"),
    };
    (said, after)
}

/// A slip, the area by name that tells it, and what it says there. Where it says what
/// a right program says, it leaves another area.
struct Slip {
    name: &'static str,
    told_by: &'static str,
    says: Said,
    program: Program,
}

fn slip(name: &'static str, told_by: &'static str, says: Said, program: Program) -> Slip {
    Slip { name, told_by, says, program }
}

const EQUALS: &str = "choose the first of equals";
const LAST: &str = "promote 2, the last place";
const THOUGH_MET: &str = "promote 0 though met";
const THOUGH_CAPPED: &str = "promote 2 though capped, budget 137";
const NOT_ACTIVE: Said = Said::Refused(Cause::PlaceNotActive);

/// Slips in choose.
fn wrong_choices() -> Vec<Slip> {
    let state = |area: &mut Area, place: usize| area.records[place].state = WANTED;
    let pending = |area: &mut Area, place: usize| {
        area.job.pending -= u64::from(area.records[place].indicator);
    };
    let later = |so_far: u32, next: u32| next >= so_far;
    let marked = Said::Place(1);
    vec![
        slip("later_of_equals", EQUALS, Said::Place(2), Program { replaces: later, ..RIGHT }),
        slip("choose_marks_a_record", EQUALS, marked, Program { marks: state, ..RIGHT }),
        slip("choose_marks_the_job", EQUALS, marked, Program { marks: pending, ..RIGHT }),
    ]
}

/// Slips in where promote looks, and in what it takes for an active index.
fn wrong_places() -> Vec<Slip> {
    let of_bits = |place: fn(&Area, u64) -> u64| Program { place, ..RIGHT };
    let taking = |active: fn(&Area, u64) -> bool| Program { active, ..RIGHT };
    let old = taking(|area, place| {
        record_at(area, place).is_some_and(|record| [ACTIVE, OLD].contains(&record.state))
    });
    let not_old = taking(|area, place| match usize::try_from(place) {
        Ok(at) => area.records.get(at).is_some_and(|record| record.state != OLD),
        Err(_) => false,
    });
    let before_last =
        taking(|area, place| (RIGHT.active)(area, place) && place + 1 < area.job.held.into());
    let chosen = of_bits(|area, _| largest(area));
    let thirty_two = of_bits(|_, place| place % (1 << 32));
    vec![
        slip("old_let_through", "promote 0, an old place", Said::Promoted, old),
        slip("past_the_held_let_through", "promote 1, the held", Said::Promoted, not_old),
        slip("last_place_refused", LAST, NOT_ACTIVE, before_last),
        slip("place_of_32_bits", "promote 2^32", Said::Promoted, thirty_two),
        slip("place_of_63_bits", "promote 2^63", Said::Promoted, of_bits(|_, p| p % (1 << 63))),
        slip("place_of_9_bits", "promote 512", Said::Promoted, of_bits(|_, p| p % 512)),
        slip("chosen_whatever_the_place", LAST, Said::Promoted, chosen),
    ]
}

/// Slips in the order of the causes.
fn wrong_orders() -> Vec<Slip> {
    let [short, unsound, wanted, not_active] = RIGHT.order;
    let in_order = |order: [Cause; 4]| Program { order, ..RIGHT };
    let before_6 = in_order([short, unsound, not_active, wanted]);
    let before_4 = in_order([short, not_active, unsound, wanted]);
    let six_first = in_order([wanted, short, unsound, not_active]);
    let six = Said::Refused(Cause::BlockWanted);
    vec![
        slip("11_before_6", "promote 2^64 - 1 right after start", NOT_ACTIVE, before_6),
        slip("11_before_4", "promote, 4 before 11", NOT_ACTIVE, before_4),
        slip("6_before_3", "choose, 3 before 6", six, six_first),
    ]
}

/// Slips that ask what promote no longer asks.
fn wrong_ends() -> Vec<Slip> {
    let early = |early: fn(&Area) -> Option<Said>| Program { early, ..RIGHT };
    let asked = early(|area| match (ends(area), is_met(area)) {
        (true, true) => Some(Said::Met),
        (true, false) => Some(Said::Capped),
        (false, _) => None,
    });
    let idle = early(|area| ends(area).then_some(Said::Promoted));
    let spent = early(|area| ends(area).then_some(Said::Spent));
    let at_met = early(|area| is_met(area).then_some(Said::Spent));
    let limited: fn(&Area, usize) -> usize = |area, _| largest(area) as usize;
    let another = "promote 2 with budget 18, another";
    vec![
        slip("threshold_asked", THOUGH_MET, Said::Met, asked),
        slip("threshold_asked_when_capped", THOUGH_CAPPED, Said::Capped, asked),
        slip("nothing_done_at_the_end", THOUGH_MET, Said::Promoted, idle),
        slip("spent_where_the_loop_ends", THOUGH_CAPPED, Said::Spent, spent),
        slip("spent_where_met", THOUGH_MET, Said::Spent, at_met),
        slip("limits_of_the_chosen", another, Said::Spent, Program { limited, ..RIGHT }),
    ]
}

fn slips() -> Vec<Slip> {
    [wrong_choices(), wrong_places(), wrong_orders(), wrong_ends()].into_iter().flatten().collect()
}

#[test]
fn without_a_slip_the_program_is_right() {
    for Case { name, area, call, .. } in steps::cases() {
        assert_eq!(RIGHT.seen(&area, &call), right(&area, &call), "{name}");
    }
}

#[test]
fn each_slip_is_told_by_a_named_area() {
    let cases = steps::cases();
    for Slip { name, told_by, says, program } in slips() {
        let case = cases.iter().find(|case| case.name == told_by).expect("an area of that name");
        let seen = program.seen(&case.area, &case.call);
        assert_eq!(seen.0, says, "{name} by {told_by}");
        assert_ne!(seen, right(&case.area, &case.call), "{name} by {told_by}");
    }
}

/// The first law that what was seen of a call breaks.
fn broken(area: &Area, call: &Call, said: Said, after: &Area) -> Option<&'static str> {
    let place = match *call {
        Call::Promote { place } => place,
        _ => {
            let answer = match said {
                Said::Refused(cause) => Err(cause),
                Said::Met => Ok(Choice::Met),
                Said::Capped => Ok(Choice::Capped),
                Said::Place(place) => Ok(Choice::Place(place)),
                Said::Spent | Said::Promoted => return Some("choose never says so"),
            };
            return laws::broken_by_choose(area, &answer, after);
        }
    };
    let answer = match said {
        Said::Refused(cause) => Err(cause),
        Said::Spent => Ok(Promotion::Spent),
        Said::Promoted => Ok(Promotion::Promoted),
        Said::Met | Said::Capped | Said::Place(_) => return Some("promote never says so"),
    };
    laws::broken_by_promote(area, place, &answer, after)
}

/// On the areas by name a right program keeps the laws, and each slip breaks one
/// where it is told.
#[test]
fn the_laws_are_broken_by_each_slip() {
    let cases = steps::cases();
    for Case { name, area, call, .. } in &cases {
        let (said, after) = right(area, call);
        assert_eq!(broken(area, call, said, &after), None, "{name}");
    }
    for Slip { name, told_by, program, .. } in slips() {
        let case = cases.iter().find(|case| case.name == told_by).expect("an area of that name");
        let (said, after) = program.seen(&case.area, &case.call);
        assert!(broken(&case.area, &case.call, said, &after).is_some(), "{name}");
    }
}

/// Areas and places as lists have them, altered ones too, notice each slip, so that a
/// comparison over lists would without any area by name.
#[test]
fn each_slip_is_told_by_areas_by_seed() {
    let slips = slips();
    let mut told = vec![0; slips.len()];
    let mut rng = Rng::new(61);
    for seed in 0..2_500 {
        let mut area = sample::area(seed);
        if rng.percent(60) {
            alter::alter(&mut area, &mut rng);
        }
        if rng.percent(4) {
            area.records.truncate(511);
        }
        let places = Places::of_area(&area);
        let any = if places.active.is_empty() { 0 } else { rng.pick(&places.active) };
        let promotes = [largest(&area), any, places.any(&mut rng), places.any(&mut rng)];
        let promotes = promotes.map(|place| Call::Promote { place });
        for call in [Call::Choose].into_iter().chain(promotes) {
            let due = right(&area, &call);
            assert_eq!(RIGHT.seen(&area, &call), due, "seed {seed}: {call:?}");
            for (count, slip) in told.iter_mut().zip(&slips) {
                *count += u32::from(slip.program.seen(&area, &call) != due);
            }
        }
    }
    for (count, slip) in told.iter().zip(&slips) {
        println!("{}: {count}", slip.name);
        assert!(*count > 5, "{}: {count}", slip.name);
    }
}
