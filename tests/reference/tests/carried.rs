//! The carried error: its definition, the step that raises it, how a job with a
//! hard corner ends, and what an altered one does.

use reference::alter;
use reference::area::{Area, IndexRecord, ACTIVE, OLD};
use reference::call::{self, Call};
use reference::calls::{self, Cause, Choice, Promotion};
use reference::cases;
use reference::grid::{self, Levels, ROOT};
use reference::jobfile;
use reference::laws;
use reference::log::{Entry, Job, State};
use reference::places::Places;
use reference::program;
use reference::rng::Rng;
use reference::sample;
use reference::soundness::{self, Clause};
use std::collections::BTreeMap;

fn index(levels: [u32; 2]) -> Levels {
    let mut index = ROOT;
    index[..2].copy_from_slice(&levels);
    index
}

/// What the program leaves of a job file.
fn left_by(file: &[u8]) -> Area {
    let mut area = Area::empty(512, 8192);
    program::run(&jobfile::parse(file).expect("well-formed"), &mut area);
    area
}

/// One axis, level 8 old, 10 carried.
fn ten_carried() -> Area {
    left_by(&cases::one_axis(9, [10; 8]))
}

/// Two axes, 5 pending for (1,2), 6 carried for (8,1).
fn five_and_six() -> Area {
    left_by(&cases::two_axes(9, 131))
}

/// Two axes: old (8,6), (8,5) and (7,7), at a ceiling, and (7,6), at none; active
/// (8,4), at a ceiling.
const ROW: [([u32; 2], u32, u32); 5] =
    [([8, 6], OLD, 5), ([8, 5], OLD, 3), ([7, 7], OLD, 2), ([7, 6], OLD, 9), ([8, 4], ACTIVE, 7)];

#[test]
fn the_worked_row() {
    let mut area = Area::empty(512, 8192);
    (area.job.axes, area.job.held) = (2, 5);
    for (record, (levels, state, indicator)) in area.records.iter_mut().zip(ROW) {
        *record = IndexRecord { state, indicator, ..IndexRecord::wanted(index(levels), 0) };
    }
    assert_eq!(soundness::ceiling_sum(&area), 10);
    let entry = |(levels, state, indicator)| Entry {
        levels: index(levels),
        state: if state == OLD { State::Old } else { State::Active },
        indicator,
        readings: Vec::new(),
    };
    let job = Job::new(2, 0, 8192, ROW.map(entry).to_vec());
    assert_eq!((job.carried(), job.pending()), (10, 7));
    assert_eq!(job.ceiling(), 5, "pairs: (8,6) and (7,7) twice, (8,5) once");
}

/// By its neighbours and by its numbers, an index is at a ceiling or not.
#[test]
fn at_a_ceiling_by_neighbours_and_by_numbers() {
    for axes in 1..=4 {
        grid::for_each_within_ceilings(axes, |levels| {
            let numbers = levels.contains(&8) || levels.iter().sum::<u32>() == 8 + 12;
            assert_eq!(grid::at_a_ceiling(axes, levels), numbers, "{levels:?}");
        });
    }
    // Along the job's axes alone.
    let mut beyond = ROOT;
    beyond[2] = 8;
    assert!(!grid::at_a_ceiling(2, &beyond));
    assert!(grid::at_a_ceiling(3, &beyond));
    for level in [9, u32::MAX] {
        assert!(grid::at_a_ceiling(1, &[level; 8]), "total on any content");
    }
    assert!(!grid::at_a_ceiling(8, &[0; 8]));
}

/// Start records 0, deliver keeps it, a promotion adds the refined indicator if
/// its index is at a ceiling; what is active there is pending.
#[test]
fn call_by_call() {
    let file = jobfile::parse(&cases::two_axes(9, 131)).expect("well-formed");
    let mut area = Area::empty(512, 131);
    area.job.carried = 99;
    assert_eq!(calls::start(&mut area, 2, 9, 131), Ok(()));
    let mut promotions = 0;
    for entry in &file.entries {
        if calls::first_wanted(&area).is_none() {
            assert_eq!(program::choose_and_promote(&mut area), None);
            promotions += 1;
        }
        assert_eq!(calls::deliver(&mut area, &entry.readings, entry.indicator), Ok(()));
        assert_eq!(area.job.carried, 0);
    }
    assert_eq!((promotions, area.job.pending), (7, 11));
    assert_eq!(calls::choose(&area), Ok(Choice::Place(8)));
    assert_eq!(calls::promote(&mut area, 8), Ok(Promotion::Promoted));
    assert_eq!((area.job.pending, area.job.carried), (5, 6));
    let totals = calls::result(&area).unwrap();
    assert_eq!((totals.old, totals.active, totals.carried, totals.ceiling), (8, 1, 6, 1));
    assert_eq!(calls::choose(&area), Ok(Choice::Capped));
}

/// The threshold is free, so that an area can be met with something carried. By
/// calls from a start it can if an index is promoted that choose doesn't answer.
#[test]
fn thresholds_around_pending_and_carried() {
    let area = five_and_six();
    for (threshold, answer) in [
        (0, Choice::Place(2)),
        (4, Choice::Place(2)),
        (5, Choice::Capped),
        (6, Choice::Capped),
        (10, Choice::Capped),
        (11, Choice::Met),
        (12, Choice::Met),
        (u64::MAX, Choice::Met),
    ] {
        let mut other = area.clone();
        other.job.threshold = threshold;
        assert!(calls::check(&other));
        laws::assert_choose(&other);
        laws::assert_promote(&other, 2);
        assert_eq!(calls::choose(&other), Ok(answer), "threshold {threshold}");
        let before = other.clone();
        assert_eq!(calls::promote(&mut other, 2), Ok(Promotion::Spent), "threshold {threshold}");
        assert_eq!(other, before);
    }
    for threshold in [4, 9, 11] {
        let mut roomy = area.clone();
        (roomy.job.threshold, roomy.job.budget) = (threshold, 137);
        laws::assert_promote(&roomy, 2);
        assert_eq!(calls::promote(&mut roomy, 2), Ok(Promotion::Promoted));
        assert_eq!((roomy.job.pending, roomy.job.carried), (0, 6), "(1,2) is at no ceiling");
        assert_eq!(calls::choose(&roomy), Err(Cause::BlockWanted), "6 comes first");
        assert_eq!(calls::promote(&mut roomy, 2), Err(Cause::BlockWanted), "6 comes first");
    }
}

/// By calls from a start, the last level promoted though choose says met.
#[test]
fn met_with_something_carried() {
    let mut area = Area::empty(512, 129);
    assert_eq!(calls::start(&mut area, 1, 15, 129), Ok(()));
    for place in 0..8 {
        let levels = area.records[place].levels;
        let readings = vec![3; grid::block_size(&levels)];
        assert_eq!(calls::deliver(&mut area, &readings, 10), Ok(()));
        assert_eq!(calls::choose(&area), Ok(Choice::Met), "place {place}");
        assert_eq!(calls::promote(&mut area, place as u64), Ok(Promotion::Promoted));
    }
    assert_eq!((area.job.pending, area.job.carried), (0, 10));
    assert_eq!(calls::choose(&area), Ok(Choice::Met));
}

/// Every call but start and check, on an area that breaks this clause alone.
fn assert_all_refuse(area: &Area) {
    assert_eq!(soundness::broken_clauses(area), [Clause::CarriedIsCeilingSum]);
    assert!(!calls::check(area));
    let mut copy = area.clone();
    let deliver = Call::Deliver { readings: vec![0], indicator: 1 };
    let (point, points) = (Call::Point { n: 0, buffer: 8 }, Call::Points { n: 0, buffer: 8 });
    let (promote, past) = (Call::Promote { place: 0 }, Call::Promote { place: u64::MAX });
    let others = [Call::Choose, Call::Result, Call::CrossTotal, Call::Doubles];
    for call in [point, points, deliver, promote, past].into_iter().chain(others) {
        let mut buffer = vec![7; call.buffer_length().unwrap_or(0)];
        let answer = call::perform(&mut copy, &call, &mut buffer);
        assert_eq!(answer, call::Answer::Refused(Cause::AreaNotSound), "{call:?}");
        assert!(buffer.iter().all(|&byte| byte == 7));
        assert_eq!(copy, *area, "{call:?}");
    }
    assert_eq!(calls::start(&mut copy, 1, 0, 1), Ok(()));
    assert!(calls::check(&copy));
}

#[test]
fn another_carried_error_is_refused() {
    for other in [11, 9, 0, 20, 10 + (1 << 32), u64::MAX] {
        let mut area = ten_carried();
        area.job.carried = other;
        assert_all_refuse(&area);
    }
}

/// An old indicator at a ceiling belongs to the sum; another is free.
#[test]
fn old_indicators_at_a_ceiling_and_elsewhere() {
    let mut area = ten_carried();
    for level in 1..8u32 {
        area.records[level as usize - 1].indicator = u32::MAX - level;
        assert!(calls::check(&area), "level {level}");
    }
    area.records[7].indicator = 11;
    assert_all_refuse(&area);
    area.job.carried = 11;
    assert!(calls::check(&area));
    assert_eq!(calls::result(&area).unwrap().carried, 11);
    // An old index at a ceiling may have carried nothing: then its job is met.
    (area.records[7].indicator, area.job.carried) = (0, 0);
    assert_eq!(calls::choose(&area), Ok(Choice::Met));
    assert_eq!(calls::result(&area).unwrap().ceiling, 1);
}

/// What choose and promote answer on areas of all kinds, most of them altered since,
/// by what result says of them.
#[test]
fn the_laws_on_altered_areas() {
    let mut rng = Rng::new(41);
    let mut seen: BTreeMap<&str, u32> = BTreeMap::new();
    for seed in 0..8_000 {
        let mut area = sample::area(seed);
        if rng.percent(80) {
            alter::alter(&mut area, &mut rng);
        }
        laws::assert_choose(&area);
        let place = Places::of_area(&area).largest.unwrap_or(0);
        laws::assert_promote(&area, place);
        let broken = soundness::broken_clauses(&area);
        let (carried, equal) = (area.job.carried > 0, area.job.threshold == area.job.pending);
        let promoted = calls::promote(&mut area.clone(), place);
        let what = match (calls::choose(&area), carried, equal) {
            (Ok(Choice::Met), true, _) => "met with carried above 0",
            (Ok(Choice::Met), false, true) => "met at the pending error",
            (Ok(Choice::Capped), _, true) => "capped at the pending error",
            (Ok(Choice::Capped), _, false) => "capped",
            (Ok(Choice::Place(_)), true, _) if promoted == Ok(Promotion::Spent) => {
                "spent with carried above 0"
            }
            (Ok(Choice::Place(_)), true, _) => "promoted with carried above 0",
            (Err(Cause::AreaNotSound), true, _) if broken == [Clause::CarriedIsCeilingSum] => {
                "refused for the carried error alone"
            }
            _ => "another",
        };
        *seen.entry(what).or_default() += 1;
    }
    println!("{seen:?}");
    assert!(seen.len() == 8 && seen.values().all(|&count| count >= 10), "{seen:?}");
}
