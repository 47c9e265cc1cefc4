//! Wrong walks of a block, each with one slip, and the blocks by name that tell
//! them from the right one. Which of them the law that no walk jumps notices, and
//! which it cannot, is said too.

use reference::grid::{self, Levels};
use reference::laws;
use reference::rule;
use reference::walks::{Case, CASES};

/// A walk at one of its axes.
struct Step {
    /// The number of the whole point.
    n: usize,
    /// The rank of the earlier axes' point.
    rank: usize,
    /// How many points are new on this axis.
    count: usize,
    /// How many of them were visited since the earlier axes moved.
    q: usize,
}

/// The walk, in parts that a slip can change one at a time.
#[derive(Clone, Copy)]
struct Walk {
    /// The number, positions rising, of the new point that is visited.
    visits: fn(&Step) -> usize,
    /// The rank that is passed on to the next axis.
    passes_on: fn(&Step) -> usize,
    /// The axes, from the slowest to the fastest.
    axes: fn(usize) -> Vec<usize>,
}

fn rises(step: &Step) -> usize {
    step.q
}

fn falls(step: &Step) -> usize {
    step.count - 1 - step.q
}

const RIGHT: Walk = Walk {
    visits: |step| if step.rank.is_multiple_of(2) { rises(step) } else { falls(step) },
    passes_on: |step| step.rank * step.count + step.q,
    axes: |axes| (0..axes).collect(),
};

/// The new point of this number at a level, by the formula, which goes on past
/// the last of them.
fn position(level: u32, number: usize) -> u32 {
    let number = number as u32;
    match level {
        1 => rule::CENTRE,
        2 => rule::LAST_POSITION * number,
        _ => (2 * number + 1) << (rule::TOP_LEVEL - level),
    }
}

impl Walk {
    fn point(&self, axes: usize, levels: &Levels, n: usize) -> Vec<u32> {
        let mut point = vec![0; axes];
        let mut row = grid::block_size(levels);
        let mut rank = 0;
        for axis in (self.axes)(axes) {
            let count = rule::new_points(levels[axis]).len();
            row /= count;
            let step = Step { n, rank, count, q: n / row % count };
            point[axis] = position(levels[axis], (self.visits)(&step));
            rank = (self.passes_on)(&step);
        }
        point
    }

    fn walk(&self, axes: usize, levels: &Levels) -> Vec<Vec<u32>> {
        (0..grid::block_size(levels)).map(|n| self.point(axes, levels, n)).collect()
    }

    /// The first point that is no neighbour of the one before it. What is past
    /// 128 stays past it in a byte.
    fn first_jump(&self, axes: usize, levels: &Levels) -> Option<usize> {
        let row: Vec<u8> =
            self.walk(axes, levels).concat().into_iter().map(|p| p.min(255) as u8).collect();
        laws::first_jump(axes, &row)
    }

    fn is_right(&self, axes: usize, levels: &Levels) -> bool {
        let right: Vec<Vec<u32>> =
            grid::block(axes, levels).iter().map(|point| wide(&point[..axes])).collect();
        self.walk(axes, levels) == right
    }
}

fn wide(point: &[u8]) -> Vec<u32> {
    point.iter().map(|&position| position.into()).collect()
}

/// A slip, the block that tells it from the right walk, the number of the first
/// point that does, and what it gives there.
struct Slip {
    name: &'static str,
    walk: Walk,
    told_by: &'static str,
    at: usize,
    gives: &'static [u32],
    /// The first jump in that block.
    jumps_at: Option<usize>,
}

fn slips() -> [Slip; 7] {
    [
        Slip {
            name: "never_turned",
            walk: Walk { visits: rises, ..RIGHT },
            told_by: "(2,2)",
            at: 2,
            gives: &[128, 0],
            jumps_at: Some(2),
        },
        Slip {
            name: "first_axis_falls",
            walk: Walk {
                visits: |step| if step.rank % 2 == 1 { rises(step) } else { falls(step) },
                ..RIGHT
            },
            told_by: "(4)",
            at: 0,
            gives: &[112],
            jumps_at: None,
        },
        Slip {
            name: "turned_by_own_number",
            walk: Walk {
                visits: |step| if step.q.is_multiple_of(2) { rises(step) } else { falls(step) },
                ..RIGHT
            },
            told_by: "(4)",
            at: 1,
            gives: &[80],
            jumps_at: Some(1),
        },
        Slip {
            name: "turned_by_the_axis_before",
            walk: Walk { passes_on: |step| step.q * step.count + step.q, ..RIGHT },
            told_by: "(2,1,2)",
            at: 2,
            gives: &[128, 64, 0],
            jumps_at: Some(2),
        },
        Slip {
            name: "one_past_the_end",
            walk: Walk {
                visits: |step| match step.rank.is_multiple_of(2) {
                    true => rises(step),
                    false => step.count - step.q,
                },
                ..RIGHT
            },
            told_by: "(3,4,1)",
            at: 4,
            gives: &[96, 144, 64],
            jumps_at: Some(4),
        },
        Slip {
            name: "turned_by_the_point_number",
            walk: Walk {
                visits: |step| if step.n.is_multiple_of(2) { rises(step) } else { falls(step) },
                ..RIGHT
            },
            told_by: "(2,2)",
            at: 1,
            gives: &[128, 0],
            // Point 2 is where point 1 was.
            jumps_at: Some(2),
        },
        Slip {
            name: "last_axis_slowest",
            walk: Walk { axes: |axes| (0..axes).rev().collect(), ..RIGHT },
            told_by: "(2,2)",
            at: 1,
            gives: &[128, 0],
            jumps_at: None,
        },
    ]
}

fn case_named(name: &str) -> &'static Case {
    CASES.iter().find(|case| case.name == name).expect("a block of that name")
}

/// Every index of up to three axes within the ceilings.
fn for_each_index(mut visit: impl FnMut(usize, &Levels)) {
    for axes in 1..=3 {
        grid::for_each_within_ceilings(axes, |levels| visit(axes, levels));
    }
}

#[test]
fn without_a_slip_the_walk_is_right() {
    for case in &CASES {
        let walk = RIGHT.walk(case.axes(), &case.index());
        let right: Vec<Vec<u32>> = case.walk.iter().map(|point| wide(point)).collect();
        assert_eq!(walk, right, "{}", case.name);
    }
    for_each_index(|axes, levels| assert!(RIGHT.is_right(axes, levels), "{levels:?}"));
}

#[test]
fn each_slip_is_told_by_a_named_block() {
    for Slip { name, walk, told_by, at, gives, .. } in slips() {
        let case = case_named(told_by);
        let walked = walk.walk(case.axes(), &case.index());
        assert_eq!(walked[at], gives, "{name} on {told_by}");
        let told = (0..walked.len()).find(|&n| walked[n] != wide(case.walk[n]));
        assert_eq!(told, Some(at), "{name} on {told_by}");
    }
}

/// Two wrong walks are reflected walks too, one from the other end of each axis
/// and one with another axis slowest. They jump nowhere; only where the points
/// lie tells them.
#[test]
fn the_law_that_no_walk_jumps_is_broken_by_all_but_two() {
    for Slip { name, walk, told_by, jumps_at, .. } in slips() {
        let case = case_named(told_by);
        assert_eq!(walk.first_jump(case.axes(), &case.index()), jumps_at, "{name} on {told_by}");
        let mut jumps = 0;
        for_each_index(|axes, levels| {
            jumps += usize::from(walk.first_jump(axes, levels).is_some());
        });
        assert_eq!(jumps > 0, jumps_at.is_some(), "{name}: {jumps}");
    }
}

/// On which blocks a slip is noticed: on all with a refined axis, or on all with
/// two, but for one slip that takes more.
#[test]
fn how_far_each_slip_is_noticed() {
    for Slip { name, walk, .. } in slips() {
        for_each_index(|axes, levels| {
            let refined: Vec<usize> = (0..axes).filter(|&axis| levels[axis] > 1).collect();
            let noticed = match name {
                "first_axis_falls" | "turned_by_own_number" | "turned_by_the_point_number" => {
                    !refined.is_empty()
                }
                // An axis with one point between two refined ones.
                "turned_by_the_axis_before" => refined.windows(2).any(|pair| pair[0] + 1 < pair[1]),
                _ => refined.len() >= 2,
            };
            assert_eq!(walk.is_right(axes, levels), !noticed, "{name} on {levels:?}");
        });
    }
}
