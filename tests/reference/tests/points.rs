//! The calls point and points: the walk of blocks by name; then what points writes
//! and leaves at the edges of block and buffer, every cause that refuses it, and
//! the laws that tie it to point.

use reference::alter;
use reference::area::Area;
use reference::call::{self, Answer, Call};
use reference::calls::{self, Cause, PointCounts};
use reference::choice::{Block, Chooser};
use reference::grid::{self, Levels, BUDGET_LIMIT, ROOT};
use reference::laws;
use reference::log::Log;
use reference::places::Places;
use reference::replay::LENT;
use reference::rng::Rng;
use reference::rule;
use reference::sample;
use reference::walks;

/// What lies in every buffer beforehand: no position.
const FILL: u8 = 200;

fn index(levels: &[u32]) -> Levels {
    let mut index = ROOT;
    index[..levels.len()].copy_from_slice(levels);
    index
}

/// A job of so many axes that goes straight for an index, up to where its
/// block is the first wanted; and the log of the calls that led there.
fn wanting(axes: u32, target: &Levels) -> (Area, Log) {
    let mut area = Area::empty(LENT.records, LENT.store);
    let mut log = Log::default();
    let mut both = |area: &mut Area, call: Call| {
        let answer = call::perform(area, &call, &mut []);
        assert_eq!(log.expect(&call, LENT), answer);
        assert!(!matches!(answer, Answer::Refused(_)), "{call:?}");
    };
    both(&mut area, Call::Start { axes, threshold: 0, budget: BUDGET_LIMIT });
    loop {
        let Some(place) = calls::first_wanted(&area) else {
            let place = Places::of_area(&area).chosen().expect("the job goes on");
            both(&mut area, Call::Promote { place });
            continue;
        };
        let levels = area.records[place].levels;
        if levels == *target {
            return (area, log);
        }
        let indicator = u32::from(grid::nowhere_higher(&levels, target));
        let readings = vec![1; grid::block_size(&levels)];
        both(&mut area, Call::Deliver { readings, indicator });
    }
}

/// A block of four points of so many axes; those on axis 1 are 16, 48, 80, 112.
fn four_points(axes: u32) -> Area {
    wanting(axes, &index(&[4])).0
}

/// A job with nothing wanted, its root delivered.
fn none_wanted() -> Area {
    let mut area = wanting(2, &ROOT).0;
    assert_eq!(calls::deliver(&mut area, &[1], 1), Ok(()));
    area
}

/// An area that isn't sound: the pending error is off by one.
fn unsound(mut area: Area) -> Area {
    area.job.pending += 1;
    area
}

/// Calls points with a buffer of this length; it must have written so many
/// points, these, and left every later byte.
fn assert_written(area: &Area, n: u64, length: usize, expected: &[Vec<u8>]) {
    let size = grid::block_size(&area.records[calls::first_wanted(area).unwrap()].levels);
    let mut buffer = vec![FILL; length];
    let counts = PointCounts { written: expected.len() as u32, block: size as u32 };
    assert_eq!(calls::points(area, n, &mut buffer), Ok(counts), "{n} into {length}");
    let mut due = expected.concat();
    due.resize(length, FILL);
    assert_eq!(buffer, due, "{n} into {length}");
}

fn assert_refused(area: &Area, n: u64, length: usize, cause: Cause) {
    let mut buffer = vec![FILL; length];
    assert_eq!(calls::points(area, n, &mut buffer), Err(cause), "{n} into {length}");
    assert_eq!(buffer, vec![FILL; length], "{n} into {length}");
}

/// The points of the first wanted block by the grid's list.
fn block(area: &Area) -> Vec<Vec<u8>> {
    let axes = area.job.axes as usize;
    let levels = area.records[calls::first_wanted(area).unwrap()].levels;
    grid::block(axes, &levels).iter().map(|point| point[..axes].to_vec()).collect()
}

#[test]
fn the_root_has_one_point_whatever_the_room() {
    for axes in 1..=8u32 {
        let d = axes as usize;
        let (area, _) = wanting(axes, &ROOT);
        for length in [d, d + 1, 2 * d - 1, 2 * d, 2 * d + 1, 16_384, 20_000] {
            assert_written(&area, 0, length, &[vec![64; d]]);
        }
        assert_refused(&area, 1, 20_000, Cause::PointNumberTooLarge);
    }
}

#[test]
fn a_part_of_a_point_is_not_written() {
    for axes in 1..=8u32 {
        let d = axes as usize;
        let area = four_points(axes);
        let mut points = vec![vec![64; d]; 4];
        for (point, position) in points.iter_mut().zip([16, 48, 80, 112]) {
            point[0] = position;
        }
        assert_written(&area, 0, d, &points[..1]);
        assert_written(&area, 0, 2 * d - 1, &points[..1]);
        assert_written(&area, 0, 2 * d, &points[..2]);
        assert_written(&area, 1, 2 * d, &points[1..3]);
        if d > 1 {
            assert_written(&area, 0, d + 1, &points[..1]);
            assert_written(&area, 0, 2 * d + 1, &points[..2]);
            assert_written(&area, 1, 2 * d + 1, &points[1..3]);
        }
        assert_written(&area, 0, 4 * d - 1, &points[..3]);
        assert_written(&area, 0, 4 * d, &points);
        assert_written(&area, 0, 4 * d + 1, &points);
        assert_written(&area, 0, 5 * d, &points);
        assert_written(&area, 2, 4 * d, &points[2..]);
    }
}

#[test]
fn the_last_point_is_one_whatever_the_room() {
    let area = four_points(3);
    for length in [3, 4, 5, 6, 12, 20_000] {
        assert_written(&area, 3, length, &[vec![112, 64, 64]]);
    }
}

/// Point gives the points that are written down by hand, one by one, and points
/// gives them all.
#[test]
fn the_walk_of_blocks_by_name() {
    for case in &walks::CASES {
        let (name, axes) = (case.name, case.axes());
        let (area, _) = wanting(axes as u32, &case.index());
        for (n, point) in case.walk.iter().enumerate() {
            let mut buffer = vec![FILL; axes + 3];
            assert_eq!(calls::point(&area, n as u64, &mut buffer), Ok(()), "{name}, {n}");
            assert_eq!(buffer, [point, &[FILL; 3][..]].concat(), "{name}, {n}");
            laws::assert_point(&area, n as u64);
        }
        let past = calls::point(&area, case.walk.len() as u64, &mut [FILL; 8]);
        assert_eq!(past, Err(Cause::PointNumberTooLarge), "{name}");
        let points: Vec<Vec<u8>> = case.walk.iter().map(|point| point.to_vec()).collect();
        assert_written(&area, 0, axes * points.len(), &points);
    }
}

/// Axis 1 slowest, so that a call from the middle of a row goes on with the next,
/// from where the row ended.
#[test]
fn a_call_goes_on_from_row_to_row() {
    let (area, _) = wanting(2, &index(&[3, 4]));
    let points =
        [[32, 80], [32, 112], [96, 112], [96, 80], [96, 48]].map(|positions| positions.to_vec());
    assert_written(&area, 2, 10, &points);
    assert_written(&area, 2, 11, &points);
}

/// By the ceilings a block has at most 2,048 points, which 8 axes bring to
/// 16,384 bytes. Below its index lie more readings than any budget; with those
/// within the budget a block has at most 1,024.
#[test]
fn the_largest_blocks() {
    let mut largest = 0;
    let mut reachable = 0;
    grid::for_each_within_ceilings(8, |levels| {
        let size = grid::block_size(levels);
        largest = size.max(largest);
        let below: usize = levels.iter().map(|&level| rule::points(level).len()).product();
        if below <= BUDGET_LIMIT as usize {
            reachable = size.max(reachable);
        }
    });
    assert_eq!((largest, 8 * largest, reachable), (2_048, 16_384, 1_024));
}

#[test]
fn the_largest_block_of_a_job_whole() {
    let (area, mut log) = wanting(8, &index(&[8, 6]));
    let points = block(&area);
    assert_eq!(points.len(), 1_024);
    assert_written(&area, 0, 8_191, &points[..1_023]);
    assert_written(&area, 0, 8_192, &points);
    assert_written(&area, 0, 8_193, &points);
    assert_written(&area, 0, 16_384, &points);
    assert_written(&area, 1_000, 16_384, &points[1_000..]);
    assert_written(&area, 1, 8_192, &points[1..]);
    assert_refused(&area, 1_024, 16_384, Cause::PointNumberTooLarge);
    assert_list(area, &mut log, Block { axes: 8, levels: index(&[8, 6]) });
}

/// Calls of points as lists have them, against the log and point.
fn assert_list(mut area: Area, log: &mut Log, wanted: Block) {
    let mut chooser = Chooser::new(Rng::new(3));
    let before = area.clone();
    let mut longest = 0;
    for number in 0..100 {
        let call = match number % 4 {
            0 => chooser.damaged_points(Some(wanted)),
            _ => chooser.points(Some(wanted)),
        };
        let mut buffer = vec![FILL; call.buffer_length().unwrap()];
        let answer = call::perform(&mut area, &call, &mut buffer);
        assert_eq!(answer, log.expect(&call, LENT), "{call:?}");
        assert_eq!(area, before, "{call:?} changed the area");
        if let Call::Points { n, .. } = call {
            laws::assert_points(&area, n, &vec![FILL; buffer.len()]);
        }
        if let Answer::Points { positions, .. } = answer {
            longest = positions.len().max(longest);
        }
    }
    assert_eq!(longest, wanted.axes * grid::block_size(&wanted.levels));
}

#[test]
fn cause_3_comes_before_all_that_follows() {
    let wanted = four_points(2);
    for area in [&wanted, &unsound(wanted.clone()), &none_wanted()] {
        for n in [0, 4, u64::MAX] {
            for length in [0, 1] {
                assert_refused(area, n, length, Cause::StorageShort);
            }
            // The storage short, with the buffer short and not.
            for length in [0, 1, 2, 20_000] {
                let mut short = area.clone();
                short.records.truncate(511);
                assert_refused(&short, n, length, Cause::StorageShort);
                let mut short = area.clone();
                short.store.truncate(short.job.budget as usize - 1);
                assert_refused(&short, n, length, Cause::StorageShort);
            }
        }
    }
    for axes in 1..=8 {
        let (area, _) = wanting(axes, &ROOT);
        assert_refused(&area, 0, axes as usize - 1, Cause::StorageShort);
    }
    // An altered d above the buffer's length is 3, and 4 with room for it.
    let mut altered = wanted;
    altered.job.axes = 9;
    assert_refused(&altered, 0, 8, Cause::StorageShort);
    assert_refused(&altered, 0, 9, Cause::AreaNotSound);
    altered.job.axes = u32::MAX;
    assert_refused(&altered, 0, 20_000, Cause::StorageShort);
    // With d 0 no buffer is short of it, and the area is not sound.
    altered.job.axes = 0;
    assert_refused(&altered, 0, 0, Cause::AreaNotSound);
}

#[test]
fn cause_4_comes_before_5_and_9() {
    for area in [unsound(four_points(2)), unsound(none_wanted())] {
        for n in [0, 4, u64::MAX] {
            for length in [2, 3, 20_000] {
                assert_refused(&area, n, length, Cause::AreaNotSound);
            }
        }
    }
}

#[test]
fn cause_5_comes_before_9() {
    for n in [0, 1, u64::MAX] {
        for length in [2, 3, 20_000] {
            assert_refused(&none_wanted(), n, length, Cause::NoBlockWanted);
        }
    }
}

#[test]
fn cause_9_at_the_blocks_size() {
    let area = four_points(2);
    for n in [4, 5, 8, 1 << 32, (1 << 32) + 1, u64::MAX - 1, u64::MAX] {
        for length in [2, 3, 8, 20_000] {
            assert_refused(&area, n, length, Cause::PointNumberTooLarge);
        }
    }
}

/// The laws on areas of all kinds, most of them altered since, with buffers
/// and numbers as lists have them.
#[test]
fn point_says_of_points_on_altered_areas() {
    let mut rng = Rng::new(11);
    let mut chooser = Chooser::new(Rng::new(12));
    let (mut written, mut unsound) = (0, 0);
    for seed in 0..500 {
        let mut area = sample::area(seed);
        let block = calls::first_wanted(&area).map(|place| Block {
            axes: area.job.axes as usize,
            levels: area.records[place].levels,
        });
        if rng.percent(80) {
            alter::alter(&mut area, &mut rng);
        }
        for number in 0..6 {
            let call = match number % 3 {
                0 => chooser.damaged_points(block),
                _ => chooser.points(block),
            };
            let Call::Points { n, buffer } = call else {
                unreachable!("a call of points was asked for");
            };
            let content: Vec<u8> = (0..buffer).map(|_| rng.number() as u8).collect();
            laws::assert_points(&area, n, &content);
            match calls::points(&area, n, &mut content.clone()) {
                Ok(_) => written += 1,
                Err(Cause::AreaNotSound) => unsound += 1,
                Err(_) => {}
            }
        }
    }
    assert!(written > 200 && unsound > 200, "{written} written, {unsound} not sound");
}
