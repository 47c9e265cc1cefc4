//! What point says of points, and what result and the differences say of
//! doubles, as laws. They leave those two calls no freedom, and they hold on any
//! area, altered ones included. And what the rig sees of a walk, without knowing
//! the block: it never jumps. What result and Fig. 1 say of choose and promote has
//! a file of its own.
//!
//! Point and points are refused alike; the i-th point that points writes from n
//! on is the one that point writes for n + i; a buffer of one point gets what
//! point writes.
//!
//! "Two points in a row then differ on one axis only, and there by one step among
//! the new points": those that point gives for n and n + 1, and so those that
//! points writes one after the other.
//!
//! Doubles is refused as result is; its mean and pending error are result's,
//! exactly; its largest is a delivered difference that no other passes in size,
//! the one of the lowest place; a zero is never -0.

use crate::area::Area;
use crate::calls::{self, Cause, Doubled, PointCounts};
use crate::doubles;
use crate::grid::{Levels, MOST_AXES};
use crate::rule;
use crate::sums;

mod promotion;

pub use promotion::{assert_choose, assert_promote, broken_by_choose, broken_by_promote};

/// Asserts the laws for a call of points from n on, whose buffer is lent with
/// this content.
pub fn assert_points(area: &Area, n: u64, content: &[u8]) {
    let mut buffer = content.to_vec();
    let mut by_point = content.to_vec();
    let answer = calls::points(area, n, &mut buffer);
    assert_eq!(answer.map(|_| ()), calls::point(area, n, &mut by_point), "refused alike");
    let Ok(counts) = answer else {
        assert_eq!(buffer, content, "a refusal leaves the buffer");
        return;
    };
    let axes = area.job.axes as usize;
    assert_block(area, counts.block);
    assert_counts(n, counts, content.len() / axes);
    let end = counts.written as usize * axes;
    for i in some(counts.written) {
        let from = i as usize * axes;
        let point = point(area, n + u64::from(i)).expect("a point of the block");
        assert_eq!(buffer[from..from + axes], point, "point {n} + {i}");
    }
    assert_eq!(buffer[end..], content[end..], "later bytes untouched");
    assert_one(area, n, &content[..axes], counts.block);
    assert_no_jump(area, n, &buffer[..end]);
}

/// Asserts that point, where it gives the n-th point, gives neighbours of it
/// before and after.
pub fn assert_point(area: &Area, n: u64) {
    if let Ok(point) = point(area, n) {
        assert_no_jump(area, n, &point);
    }
}

/// The points written from n on, with those that point gives just before and
/// just after them, are neighbours in a row.
fn assert_no_jump(area: &Area, n: u64, written: &[u8]) {
    let axes = area.job.axes as usize;
    let mut row = Vec::new();
    if n > 0 {
        row.extend(point(area, n - 1).expect("a point before one of the block"));
    }
    row.extend(written);
    // Past the block's last point there is none.
    row.extend(point(area, n + (written.len() / axes) as u64).unwrap_or_default());
    assert_eq!(first_jump(axes, &row), None, "from {n} on: {row:?}");
}

/// Of points in a row, so many positions each, the first that is no neighbour of
/// the one before it.
pub fn first_jump(axes: usize, row: &[u8]) -> Option<usize> {
    let points: Vec<&[u8]> = row.chunks_exact(axes).collect();
    (1..points.len()).find(|&at| !neighbours(points[at - 1], points[at]))
}

/// Whether two points "differ on one axis only, and there by one step among the
/// new points": next to each other among those that are new at one level, which
/// the positions tell. Past 128 nothing is a position.
fn neighbours(one: &[u8], other: &[u8]) -> bool {
    let mut changed = one.iter().zip(other).filter(|(from, to)| from != to);
    let (Some((&from, &to)), None) = (changed.next(), changed.next()) else {
        return false;
    };
    let (from, to) = (u32::from(from), u32::from(to));
    if from.max(to) > rule::LAST_POSITION {
        return false;
    }
    let ((level, number), (other_level, other_number)) = (rule::origin(from), rule::origin(to));
    level == other_level && number.abs_diff(other_number) == 1
}

/// The numbers that point takes are those below the block's size.
fn assert_block(area: &Area, block: u32) {
    assert!(point(area, u64::from(block) - 1).is_ok(), "the block's last point");
    assert_eq!(point(area, u64::from(block)), Err(Cause::PointNumberTooLarge));
}

/// At least one point, none past the block or the buffer, and no fewer than
/// there are in the one and whole room for in the other.
fn assert_counts(n: u64, counts: PointCounts, room: usize) {
    let (written, left) = (u64::from(counts.written), u64::from(counts.block) - n);
    assert!(1 <= written && written <= left && written <= room as u64, "{counts:?} from {n}");
    assert!(written == left || written == room as u64, "{counts:?} from {n} is too few");
}

/// A buffer of one point gets what point writes.
fn assert_one(area: &Area, n: u64, content: &[u8], block: u32) {
    let mut one = content.to_vec();
    let answer = calls::points(area, n, &mut one);
    assert_eq!(answer, Ok(PointCounts { written: 1, block }), "a buffer of one point");
    assert_eq!(Ok(one), point(area, n), "a buffer of one point");
}

fn point(area: &Area, n: u64) -> Result<Vec<u8>, Cause> {
    // No area of more axes is sound, whatever an altered one says.
    let mut positions = vec![0; MOST_AXES.min(area.job.axes as usize)];
    calls::point(area, n, &mut positions)?;
    Ok(positions)
}

/// All of few, else some of them with the first and the last, since each call of
/// point judges the whole area.
fn some(written: u32) -> impl Iterator<Item = u32> {
    let last = written - 1;
    (0..last).step_by(1 + written as usize / 16).chain([last])
}

/// Asserts the laws for a call of doubles whose array is lent with this content.
pub fn assert_doubles(area: &Area, content: [f64; 3]) {
    let answer = calls::doubles(area);
    assert_eq!(broken_by_doubles(area, &answer), None, "{answer:?}");
    let (number, due) = match answer {
        Ok(report) => (0, report.array()),
        Err(cause) => (cause.number(), content),
    };
    let mut lent = content;
    assert_eq!(calls::doubles_into(area, &mut lent), number, "0 or the cause");
    assert_eq!(lent.map(f64::to_bits), due.map(f64::to_bits), "written, or left if refused");
}

/// The first law that an answer of doubles breaks on this area, in words.
pub fn broken_by_doubles(area: &Area, answer: &Doubled) -> Option<&'static str> {
    let (totals, report) = match (calls::result(area), answer) {
        (Ok(totals), Ok(report)) => (totals, report),
        (Err(cause), Err(other)) if cause == *other => return None,
        _ => return Some("doubles is refused as result is"),
    };
    let Some(exact) = report.exact() else {
        return Some("each of the three is a fraction over 2^20");
    };
    let differences = first_differences(area, (totals.old + totals.active) as usize);
    let size = exact.largest.abs();
    let first = differences.iter().find(|difference| difference.abs() == size);
    let plus_0 = |double: f64| doubles::numerator(double) != Some(0) || double.to_bits() == 0;
    let laws = [
        ("the mean is result's over 2^20", exact.mean == totals.mean.into()),
        ("the pending error is result's", exact.pending == i128::from(totals.pending) << 20),
        ("a zero is +0", report.array().into_iter().all(plus_0)),
        ("nothing delivered is +0", !differences.is_empty() || report.bits() == [0; 3]),
        ("no difference is larger in size", differences.iter().all(|d| d.abs() <= size)),
        (
            "the lowest place of that size has it",
            differences.is_empty() || first == Some(&exact.largest),
        ),
    ];
    laws.into_iter().find(|(_, holds)| !holds).map(|(law, _)| law)
}

/// The differences of so many first records times 2^20: of the delivered, since
/// wanted records come last.
fn first_differences(area: &Area, delivered: usize) -> Vec<i128> {
    let known = calls::delivered_readings(area);
    let reading = |index: &Levels, number: usize| known.at(index, number);
    let axes = area.job.axes as usize;
    let records = area.records[..delivered].iter();
    records.map(|record| sums::difference(axes, &record.levels, &reading)).collect()
}
