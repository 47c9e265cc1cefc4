//! The order in which point gives the points of the blocks whose walks are
//! written by hand: (2,2), (2,1,2), (3,4,1), (4) and others. Each block is
//! reached by calls.

mod support;

use harness::calls;
use harness::lent::Lent;
use reference::area::WORDS;
use reference::grid::BUDGET_LIMIT;
use reference::walks::{Case, CASES};
use support::*;

/// The levels of the first index that is wanted; none if none is.
fn first_wanted(lent: &Lent, axes: usize) -> Option<Vec<u32>> {
    const STATE: usize = 8;
    const HELD: usize = 8;
    let held = lent.cells.chunks_exact(WORDS).take(lent.job[HELD] as usize);
    held.into_iter().find(|record| record[STATE] == 0).map(|record| record[..axes].to_vec())
}

/// How many points the first wanted block has.
fn wanted_points(lent: &mut Lent) -> usize {
    let (words, _) = points_in(lent, 0, 8);
    words[1] as usize
}

/// A job that wants the block of these levels first. Only indices nowhere
/// higher have an indicator, so they alone are promoted.
fn wanting(levels: &[u32]) -> Lent {
    let axes = levels.len();
    let mut lent = storage();
    lent.store = vec![0; BUDGET_LIMIT as usize];
    assert_eq!(calls::start(lent.all(), axes as u32, 0, BUDGET_LIMIT), 0);
    loop {
        match first_wanted(&lent, axes) {
            Some(wanted) if wanted == levels => return lent,
            Some(wanted) => {
                let lower = wanted.iter().zip(levels).all(|(low, level)| low <= level);
                let readings = vec![0; wanted_points(&mut lent)];
                deliver(&mut lent, &readings, u32::from(lower));
            }
            None => promote_chosen(&mut lent),
        }
    }
}

/// Point must give the points of the walk, by number, and then no more.
fn assert_walk(case: &Case) {
    let mut lent = wanting(case.levels);
    for (n, &positions) in case.walk.iter().enumerate() {
        let mut buffer = vec![MARKED_BYTE; case.axes()];
        assert_eq!(calls::point(lent.all(), n, &mut buffer), 0, "{}, point {n}", case.name);
        assert_eq!(buffer, positions, "{}, point {n}", case.name);
    }
    refused(&mut lent, &point(case.walk.len() as u64), 9);
}

#[test]
fn point_gives_the_named_walks() {
    CASES.iter().for_each(assert_walk);
}
