//! The calls: their effects, the boundary cases, and every row of the table of
//! causes, alone and in order against the later ones. Choose and promote have more
//! of both in `choosing.rs`.

use reference::area::{Area, IndexRecord, ACTIVE, NONE, OLD, WANTED};
use reference::calls::{self, Cause, Choice, Promotion};
use reference::grid::{Levels, READING_LIMIT, ROOT};
use reference::program;

fn index(levels: &[u32]) -> Levels {
    let mut index = ROOT;
    index[..levels.len()].copy_from_slice(levels);
    index
}

fn started(axes: u32, threshold: u64, budget: u32) -> Area {
    let mut area = Area::empty(512, 8192);
    assert_eq!(calls::start(&mut area, axes, threshold, budget), Ok(()));
    area
}

fn deliver(area: &mut Area, readings: &[i32], indicator: u32) {
    assert_eq!(calls::deliver(area, readings, indicator), Ok(()));
}

fn promote(area: &mut Area, place: u64) {
    assert_eq!(calls::promote(area, place), Ok(Promotion::Promoted));
}

/// The job of the scope document up to its first `steps` deliveries, with a choose
/// and a promote where no block is wanted.
fn scope_area(deliveries: usize) -> Area {
    let entries: [(u32, &[i32]); 4] =
        [(100, &[4160]), (50, &[64, 16448]), (0, &[4096, 4224]), (10, &[1088, 9280])];
    let mut area = started(2, 40, 64);
    for (indicator, readings) in &entries[..deliveries] {
        if calls::first_wanted(&area).is_none() {
            assert_eq!(program::choose_and_promote(&mut area), None);
        }
        deliver(&mut area, readings, *indicator);
    }
    area
}

/// An area that isn't sound: the pending error is off by one.
fn unsound(mut area: Area) -> Area {
    area.job.pending += 1;
    area
}

/// Every call but start and check on a copy, each of which must be refused
/// with this cause and change nothing.
fn assert_all_refuse(area: &Area, cause: Cause) {
    let mut copy = area.clone();
    let mut buffer = [7u8; 12];
    assert_eq!(calls::point(area, 0, &mut buffer), Err(cause), "point");
    assert_eq!(calls::points(area, 0, &mut buffer), Err(cause), "points");
    assert_eq!(buffer, [7; 12]);
    assert_eq!(calls::deliver(&mut copy, &[0], 0), Err(cause), "deliver");
    assert_eq!(calls::choose(area), Err(cause), "choose");
    for place in [0, 1, u64::MAX] {
        assert_eq!(calls::promote(&mut copy, place), Err(cause), "promote {place}");
    }
    assert_eq!(calls::result(area), Err(cause), "result");
    assert_eq!(calls::cross_total(area), Err(cause), "cross total");
    assert_eq!(calls::doubles(area), Err(cause), "doubles");
    assert_eq!(copy, *area);
}

#[test]
fn start_writes_the_job_record_and_record_0_whole_and_nothing_else() {
    let mut area = Area::empty(512, 8192);
    for record in &mut area.records {
        *record = IndexRecord::from_words(&[9; 27]);
    }
    area.store.fill(-9);
    (area.job.held, area.job.carried) = (77, 78);
    assert_eq!(calls::start(&mut area, 3, 5, 10), Ok(()));
    let job = area.job;
    assert_eq!((job.axes, job.threshold, job.budget), (3, 5, 10));
    assert_eq!((job.held, job.reserved, job.pending, job.mean), (1, 1, 0, 0));
    assert_eq!(job.carried, 0);
    let mut root = [1u32; 27];
    root[8] = WANTED;
    root[9] = 0;
    root[10] = 0;
    root[11..].fill(NONE);
    assert_eq!(area.records[0].to_words(), root);
    assert!(area.records[1..].iter().all(|record| record.to_words() == [9; 27]));
    assert!(area.store.iter().all(|&reading| reading == -9));
    assert!(calls::check(&area));
}

#[test]
fn before_the_first_delivery_the_mean_is_0() {
    let area = started(2, 0, 64);
    let totals = calls::result(&area).unwrap();
    assert_eq!((totals.old, totals.active, totals.wanted, totals.reserved), (0, 0, 1, 1));
    assert_eq!((totals.mean, totals.pending, totals.carried, totals.ceiling), (0, 0, 0, 0));
    assert_eq!(calls::cross_total(&area), Ok(0));
}

#[test]
fn the_scope_document_job_call_by_call() {
    let mut area = scope_area(1);
    assert_eq!(area.job.pending, 100);
    assert_eq!(calls::choose(&area), Ok(Choice::Place(0)));
    promote(&mut area, 0);
    assert_eq!(area.job.pending, 0, "the selected indicator leaves the pending error");
    assert_eq!((area.records[0].state, area.records[0].indicator), (OLD, 100), "and is kept");
    assert_eq!(area.records[1].levels, index(&[2, 1]));
    assert_eq!(area.records[2].levels, index(&[1, 2]));
    assert_eq!((area.records[1].first_reading, area.records[2].first_reading), (1, 3));
    assert_eq!(area.records[0].forward[..3], [1, 2, NONE]);
    assert_eq!((area.records[1].backward[0], area.records[2].backward[1]), (0, 0));
    assert_eq!((area.job.held, area.job.reserved), (3, 5));
    deliver(&mut area, &[64, 16448], 50);
    assert_eq!(area.records[1].state, ACTIVE);
    assert_eq!(area.store[1..3], [64, 16448]);
    assert_eq!(area.job.mean, (4160 + 2048) << 20);
    deliver(&mut area, &[4096, 4224], 0);
    assert_eq!(calls::choose(&area), Ok(Choice::Place(1)));
    promote(&mut area, 1);
    // (2,2) is not admitted: only (2,1) is old, (1,2) is active.
    assert_eq!(area.job.held, 4);
    assert_eq!(area.records[3].levels, index(&[3, 1]));
    deliver(&mut area, &[1088, 9280], 10);
    assert_eq!(calls::choose(&area), Ok(Choice::Met));
    let totals = calls::result(&area).unwrap();
    assert_eq!((totals.old, totals.active, totals.wanted, totals.reserved), (2, 2, 0, 7));
    assert_eq!((totals.pending, totals.mean, totals.ceiling), (10, 5_972_688_896, 0));
    assert_eq!(totals.carried, 0);
    assert_eq!(calls::cross_total(&area), Ok(5_972_688_896));
}

#[test]
fn point_writes_d_positions_and_leaves_later_bytes() {
    let mut area = scope_area(1);
    promote(&mut area, 0);
    for (n, first) in [(0, 0), (1, 128)] {
        let mut buffer = [200u8; 5];
        assert_eq!(calls::point(&area, n, &mut buffer), Ok(()));
        assert_eq!(buffer, [first, 64, 200, 200, 200]);
    }
    let mut exact = [9u8; 2];
    assert_eq!(calls::point(&area, 1, &mut exact), Ok(()));
    assert_eq!(exact, [128, 64]);
}

#[test]
fn causes_1_2_3_of_start_in_order() {
    for (records, store, axes, budget, cause) in [
        (0, 0, 0, 0, Cause::AxesOutOfRange),
        (512, 8192, 0, 1, Cause::AxesOutOfRange),
        (512, 8192, 9, 1, Cause::AxesOutOfRange),
        (512, 8192, u32::MAX, 0, Cause::AxesOutOfRange),
        (512, 8192, 257, 1, Cause::AxesOutOfRange),
        (0, 0, 1, 0, Cause::BudgetOutOfRange),
        (512, 8192, 8, 8193, Cause::BudgetOutOfRange),
        (512, 8192, 8, u32::MAX, Cause::BudgetOutOfRange),
        (512, 8192, 8, 65_537, Cause::BudgetOutOfRange),
        (511, 8192, 1, 1, Cause::StorageShort),
        (512, 9, 1, 10, Cause::StorageShort),
        (512, 0, 1, 1, Cause::StorageShort),
    ] {
        let mut area = Area::empty(records, store);
        let before = area.clone();
        assert_eq!(calls::start(&mut area, axes, 0, budget), Err(cause));
        assert_eq!(area, before);
    }
    for (axes, budget) in [(1, 1), (8, 8192)] {
        let mut area = Area::empty(512, budget as usize);
        assert_eq!(calls::start(&mut area, axes, u64::MAX, budget), Ok(()));
    }
}

#[test]
fn cause_3_goes_by_the_recorded_budget_and_comes_before_4() {
    let area = scope_area(2);
    for spoil in [|area: Area| area, unsound as fn(Area) -> Area] {
        let mut short = spoil(area.clone());
        short.records.truncate(511);
        assert_all_refuse(&short, Cause::StorageShort);
        assert!(!calls::check(&short));
        let mut short = spoil(area.clone());
        short.store.truncate(63);
        assert_all_refuse(&short, Cause::StorageShort);
        assert!(!calls::check(&short));
    }
    let mut exact = area.clone();
    exact.store.truncate(64);
    assert!(calls::check(&exact));
    assert!(calls::result(&exact).is_ok());
    let mut altered = area;
    altered.job.budget = 8193;
    assert_all_refuse(&altered, Cause::StorageShort);
    altered.store.push(0);
    assert_all_refuse(&altered, Cause::AreaNotSound);
}

#[test]
fn a_short_point_buffer_is_3_before_all_that_follows() {
    let area = scope_area(0);
    let mut one = [5u8];
    assert_eq!(calls::point(&area, u64::MAX, &mut one), Err(Cause::StorageShort));
    assert_eq!(calls::point(&unsound(area.clone()), 0, &mut one), Err(Cause::StorageShort));
    assert_eq!(calls::point(&scope_area(4), 0, &mut one), Err(Cause::StorageShort));
    assert_eq!(one, [5]);
    // An altered d above the buffer's length is 3 in point and 4 elsewhere.
    let mut altered = area;
    altered.job.axes = 9;
    assert_eq!(calls::point(&altered, 0, &mut [0; 8]), Err(Cause::StorageShort));
    assert_eq!(calls::point(&altered, 0, &mut [0; 9]), Err(Cause::AreaNotSound));
    assert_eq!(calls::result(&altered), Err(Cause::AreaNotSound));
    altered.job.axes = u32::MAX;
    assert_eq!(calls::point(&altered, 0, &mut [0; 9]), Err(Cause::StorageShort));
    assert_eq!(calls::choose(&altered), Err(Cause::AreaNotSound));
    assert_eq!(calls::promote(&mut altered, 0), Err(Cause::AreaNotSound));
}

#[test]
fn cause_4_comes_before_5_to_9_and_11() {
    // Each of these would be refused for a later cause if the area were sound.
    let mut buffer = [0u8; 8];
    let wanted = unsound(scope_area(0));
    let none_wanted = unsound(scope_area(4));
    assert_all_refuse(&wanted, Cause::AreaNotSound);
    assert_all_refuse(&none_wanted, Cause::AreaNotSound);
    assert!(!calls::check(&wanted));
    assert_eq!(calls::point(&wanted, 9, &mut buffer), Err(Cause::AreaNotSound));
    for readings in [&[0, 0][..], &[i32::MAX], &[]] {
        let refused = calls::deliver(&mut wanted.clone(), readings, 0);
        assert_eq!(refused, Err(Cause::AreaNotSound));
    }
    // Start doesn't read the old area, and so never answers 4.
    let mut restarted = none_wanted;
    assert_eq!(calls::start(&mut restarted, 1, 0, 1), Ok(()));
    assert!(calls::check(&restarted));
}

#[test]
fn cause_5_comes_before_7_8_9() {
    let area = scope_area(4);
    let mut buffer = [3u8; 8];
    for n in [0, u64::MAX] {
        assert_eq!(calls::point(&area, n, &mut buffer), Err(Cause::NoBlockWanted));
    }
    assert_eq!(buffer, [3; 8]);
    for readings in [&[0][..], &[], &[i32::MIN, 0, 0]] {
        let mut copy = area.clone();
        assert_eq!(calls::deliver(&mut copy, readings, 1), Err(Cause::NoBlockWanted));
        assert_eq!(copy, area);
    }
}

#[test]
fn cause_7_comes_before_8() {
    let area = scope_area(0);
    for readings in [&[][..], &[0, 0], &[i32::MAX, 0]] {
        let mut copy = area.clone();
        assert_eq!(calls::deliver(&mut copy, readings, 1), Err(Cause::ReadingCountWrong));
        assert_eq!(copy, area);
    }
}

#[test]
fn cause_8_at_the_edges_of_the_range() {
    let area = scope_area(0);
    for reading in [READING_LIMIT + 1, -READING_LIMIT - 1, i32::MIN, i32::MAX] {
        let mut copy = area.clone();
        assert_eq!(calls::deliver(&mut copy, &[reading], 1), Err(Cause::ReadingOutOfRange));
        assert_eq!(copy, area);
    }
    for reading in [READING_LIMIT, -READING_LIMIT] {
        let mut copy = area.clone();
        deliver(&mut copy, &[reading], u32::MAX);
        assert_eq!(copy.job.mean, i64::from(reading) << 20);
    }
}

#[test]
fn cause_9_at_the_blocks_size() {
    let mut area = scope_area(1);
    promote(&mut area, 0);
    let mut buffer = [3u8; 4];
    for n in [2, 1 << 32, u64::MAX] {
        assert_eq!(calls::point(&area, n, &mut buffer), Err(Cause::PointNumberTooLarge));
    }
    assert_eq!(buffer, [3; 4]);
}

#[test]
fn the_numbers_of_the_causes() {
    let causes = [
        Cause::AxesOutOfRange,
        Cause::BudgetOutOfRange,
        Cause::StorageShort,
        Cause::AreaNotSound,
        Cause::NoBlockWanted,
        Cause::BlockWanted,
        Cause::ReadingCountWrong,
        Cause::ReadingOutOfRange,
        Cause::PointNumberTooLarge,
        Cause::HeaderMalformed,
        Cause::PlaceNotActive,
        Cause::EntryTableMalformed,
        Cause::ReadingsMalformed,
    ];
    assert_eq!(causes.map(Cause::number), [1, 2, 3, 4, 5, 6, 7, 8, 9, 10, 11, 12, 13]);
}

/// "An altered area can be sound with another mean": result gives the recorded
/// one, the cross total works from the readings.
#[test]
fn an_altered_mean_is_recorded_but_not_in_the_cross_total() {
    let mut area = scope_area(4);
    area.job.mean = -4 * (1 << 40);
    assert!(calls::check(&area));
    assert_eq!(calls::result(&area).unwrap().mean, -4 * (1 << 40));
    assert_eq!(calls::cross_total(&area), Ok(5_972_688_896));
    area.job.mean -= 1;
    assert!(!calls::check(&area));
}
