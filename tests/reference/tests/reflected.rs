//! "Blocks are now walked in reflected order": the sentences of the request on
//! every block of up to four axes and on some of more; the walk by different
//! formulas; and what follows it, sums, the reading store and job files.

use reference::area::Area;
use reference::calls;
use reference::examples::examples;
use reference::grid::{self, Levels, Point, MOST_AXES, READING_LIMIT, ROOT};
use reference::jobfile::{self, Entry, JobFile};
use reference::laws;
use reference::program;
use reference::pump;
use reference::replay::LENT;
use reference::rng::Rng;
use reference::rule;
use reference::sums;
use reference::trapezoid::{self, Fraction};
use std::cell::RefCell;

fn index(levels: &[u32]) -> Levels {
    let mut index = ROOT;
    index[..levels.len()].copy_from_slice(levels);
    index
}

/// The product of some points of each axis, "axis 1 slowest and axis d fastest,
/// positions rising": of the new points, the block in its order before the
/// request; of all points, the whole grid of an index.
fn product(axes: usize, levels: &Levels, points: fn(u32) -> Vec<u32>) -> Vec<Point> {
    let mut list = vec![[rule::CENTRE as u8; MOST_AXES]];
    for axis in 0..axes {
        let mut longer = Vec::new();
        for head in list {
            for position in points(levels[axis]) {
                let mut point: Point = head;
                point[axis] = position as u8;
                longer.push(point);
            }
        }
        list = longer;
    }
    list
}

/// An index within the ceilings, of any excess.
fn any_index(rng: &mut Rng, axes: usize) -> Levels {
    let mut levels = ROOT;
    for _ in 0..rng.between(0, grid::EXCESS_CEILING) {
        let axis = rng.place(axes);
        levels[axis] = (levels[axis] + 1).min(rule::TOP_LEVEL);
    }
    levels
}

/// Every index of up to four axes within the ceilings, and a sample of those of
/// five to eight, with their blocks.
fn for_each_block(mut visit: impl FnMut(usize, &Levels, &[Point])) {
    for axes in 1..=4 {
        grid::for_each_within_ceilings(axes, |levels| {
            visit(axes, levels, &grid::block(axes, levels));
        });
    }
    let mut rng = Rng::new(17);
    for axes in 5..=MOST_AXES {
        for _ in 0..250 {
            let levels = any_index(&mut rng, axes);
            visit(axes, &levels, &grid::block(axes, &levels));
        }
    }
}

/// So many axes have more than one point.
fn refined(levels: &Levels) -> usize {
    levels.iter().filter(|&&level| level > 1).count()
}

/// "Axis 1 rises, and each later axis rises or falls as the rank of the earlier
/// axes' points in this walk, from 0, is even or odd". As long as the earlier
/// axes stand still their point has one rank, which is that in the walk of those
/// axes alone.
#[test]
fn each_axis_rises_or_falls_as_the_rank_is_even_or_odd() {
    for_each_block(|axes, levels, walk| {
        for axis in 0..axes {
            let earlier = grid::block(axis, levels);
            let still: Vec<&[Point]> =
                walk.chunk_by(|one, next| one[..axis] == next[..axis]).collect();
            assert_eq!(still.len(), earlier.len(), "{levels:?}");
            for ((rank, point), part) in earlier.iter().enumerate().zip(still) {
                assert_eq!(part[0][..axis], point[..axis], "{levels:?}, rank {rank}");
                let mut visited: Vec<u32> = part.iter().map(|p| u32::from(p[axis])).collect();
                visited.dedup();
                if rank % 2 == 1 {
                    visited.reverse();
                }
                assert_eq!(visited, rule::new_points(levels[axis]), "{levels:?}, rank {rank}");
            }
        }
    });
}

/// "Two points in a row then differ on one axis only, and there by one step among
/// the new points."
#[test]
fn two_points_in_a_row_are_one_step_apart() {
    for_each_block(|axes, levels, walk| {
        for pair in walk.windows(2) {
            let moved: Vec<usize> = (0..axes).filter(|&a| pair[0][a] != pair[1][a]).collect();
            let [axis] = moved[..] else {
                panic!("{levels:?}: {pair:?}");
            };
            let new_points = rule::new_points(levels[axis]);
            let number = |point: &Point| {
                let at = new_points.iter().position(|&p| p == u32::from(point[axis]));
                at.expect("a new point of the axis's level")
            };
            assert_eq!(number(&pair[0]).abs_diff(number(&pair[1])), 1, "{levels:?}: {pair:?}");
        }
    });
}

/// A block has the points it had: only their order is another, and only where
/// two axes or more are refined. There the rig used to jump.
#[test]
fn the_points_are_those_of_the_product() {
    for_each_block(|axes, levels, walk| {
        let before = product(axes, levels, rule::new_points);
        assert_eq!(walk == before, refined(levels) < 2, "{levels:?}");
        let mut sorted = walk.to_vec();
        sorted.sort();
        assert_eq!(sorted, before, "{levels:?}");
        let row = |points: &[Point]| -> Vec<u8> {
            points.iter().flat_map(|point| point[..axes].to_vec()).collect()
        };
        assert_eq!(laws::first_jump(axes, &row(walk)), None, "{levels:?}");
        let jumps = laws::first_jump(axes, &row(&before)).is_some();
        assert_eq!(jumps, refined(levels) >= 2, "{levels:?}");
    });
}

/// The list by ranks, the list by rows, the walk step by step, each point from
/// its number and each number from its point.
#[test]
fn the_walk_is_the_same_by_every_formula() {
    for_each_block(|axes, levels, walk| {
        assert_eq!(walk.len(), grid::block_size(levels), "{levels:?}");
        assert_eq!(grid::block_by_rows(axes, levels), walk, "{levels:?}");
        let mut stepped = Vec::new();
        grid::for_each_point(axes, levels, |number, point| {
            assert_eq!(number, stepped.len(), "{levels:?}");
            stepped.push(*point);
        });
        assert_eq!(stepped, walk, "{levels:?}");
        for (n, point) in walk.iter().enumerate() {
            assert_eq!(grid::nth_point(axes, levels, n), *point, "{levels:?}, {n}");
            assert_eq!(grid::point_number(axes, point), n, "{levels:?}, {point:?}");
        }
    });
}

/// Without its axes of level 1 an index has the same walk.
#[test]
fn an_axis_with_one_point_changes_nothing() {
    for_each_block(|axes, levels, walk| {
        let kept: Vec<usize> = (0..axes).filter(|&axis| levels[axis] > 1).collect();
        let fewer: Vec<u32> = kept.iter().map(|&axis| levels[axis]).collect();
        let narrow = grid::block(kept.len(), &index(&fewer));
        assert_eq!(narrow.len(), walk.len());
        for (point, narrow) in walk.iter().zip(&narrow) {
            let shown: Vec<u8> = kept.iter().map(|&axis| point[axis]).collect();
            assert_eq!(shown, narrow[..kept.len()], "{levels:?}");
        }
    });
}

/// A reading that depends on the positions alone, and looks random.
fn sampled(point: &Point) -> i32 {
    let seed = point.iter().fold(0u64, |seed, &position| seed * 129 + u64::from(position));
    Rng::new(seed).between(-i64::from(READING_LIMIT), i64::from(READING_LIMIT)) as i32
}

/// The readings at all points of the grid, each times the product of the axes'
/// weights, as an exact fraction of which no order is known.
fn weighed(axes: usize, levels: &Levels, weight: fn(u32, Fraction) -> Fraction) -> Fraction {
    let mut sum = Fraction::whole(0);
    for point in product(axes, levels, rule::points) {
        let mut term = Fraction::whole(i128::from(sampled(&point)));
        for axis in 0..axes {
            let at = trapezoid::abscissa(u32::from(point[axis]));
            term = term.times(weight(levels[axis], at));
        }
        sum = sum.plus(term);
    }
    sum.times(Fraction::whole(1 << sums::SCALE))
}

/// Readings taken from one function on positions give the exact sums in the
/// walk's order, and, as all points of a block have one weight, the same in the
/// order before the request.
#[test]
fn sums_of_sampled_readings_are_exact_in_either_order() {
    for levels in [&[4][..], &[2, 2], &[3, 4, 1], &[2, 1, 3], &[5, 2], &[2, 2, 3], &[2, 3, 2, 2]] {
        let axes = levels.len();
        let levels = index(levels);
        let walked = |own: &Levels, n: usize| sampled(&grid::block(axes, own)[n]);
        let before = |own: &Levels, n: usize| sampled(&product(axes, own, rule::new_points)[n]);
        let difference = weighed(axes, &levels, trapezoid::difference_at);
        let whole = |level: u32, at| trapezoid::weight_at(&trapezoid::rule(level), at);
        let tensor = weighed(axes, &levels, whole);
        for (by_difference, by_tensor) in [
            (
                sums::difference(axes, &levels, &walked),
                sums::full_tensor_rule(axes, &levels, &walked),
            ),
            (
                sums::difference(axes, &levels, &before),
                sums::full_tensor_rule(axes, &levels, &before),
            ),
        ] {
            assert_eq!(difference, Fraction::whole(by_difference), "{levels:?}");
            assert_eq!(tensor, Fraction::whole(by_tensor), "{levels:?}");
        }
    }
}

/// No sum shows which reading of a block was asked for, so the asking is watched:
/// the tensor rule goes through the grid, positions rising, and must ask for each
/// point by its number in the walk of its block.
#[test]
fn the_tensor_rule_asks_by_the_number_in_the_walk() {
    for levels in [&[5][..], &[2, 2], &[4, 3], &[3, 1, 4], &[3, 3, 3], &[2, 1, 2, 3]] {
        let axes = levels.len();
        let levels = index(levels);
        let asked = RefCell::new(Vec::new());
        sums::full_tensor_rule(axes, &levels, &|own: &Levels, n: usize| {
            asked.borrow_mut().push((*own, n));
            0
        });
        let due: Vec<(Levels, usize)> = product(axes, &levels, rule::points)
            .iter()
            .map(|point| {
                let own: Levels = point.map(|position| rule::new_at(position.into()));
                let rows = grid::block_by_rows(axes, &own);
                (own, rows.iter().position(|p| p == point).expect("a point of its block"))
            })
            .collect();
        assert_eq!(*asked.borrow(), due, "{levels:?}");
    }
}

/// Performs a job file's deliveries, and shows each with its index, the points
/// that points gave for it and its readings in the store after it.
fn replayed(job: &JobFile, mut see: impl FnMut(&Levels, &[u8], &[i32])) {
    let mut area = Area::empty(LENT.records, LENT.store);
    assert_eq!(calls::start(&mut area, job.axes, job.threshold, job.budget), Ok(()));
    for entry in &job.entries {
        while calls::first_wanted(&area).is_none() {
            assert_eq!(program::choose_and_promote(&mut area), None);
        }
        let record = area.records[calls::first_wanted(&area).unwrap()];
        let mut positions = vec![0; entry.readings.len() * job.axes as usize];
        let counts = calls::points(&area, 0, &mut positions).unwrap();
        assert_eq!(counts.written as usize, entry.readings.len());
        assert_eq!(calls::deliver(&mut area, &entry.readings, entry.indicator), Ok(()));
        let first = record.first_reading as usize;
        see(&record.levels, &positions, &area.store[first..first + entry.readings.len()]);
    }
}

/// The pumps' files have their readings in the order in which the calls ask for
/// the points, and so has the store.
#[test]
fn the_pumps_files_and_the_store_follow_the_walk() {
    for example in &examples()[1..] {
        let job = jobfile::parse(&example.job).unwrap();
        let mut turned = 0;
        replayed(&job, |levels, positions, stored| {
            let points = positions.chunks(job.axes as usize);
            let measured: Vec<i32> = points.map(pump::delivered_volume).collect();
            assert_eq!(stored, measured, "{}: {levels:?}", example.name);
            turned += usize::from(refined(levels) >= 2);
        });
        assert!(turned > 0, "{} has a block with two refined axes", example.name);
    }
}

/// "Files in the old order must be written anew": nothing in such a file tells
/// that it is one, and it prints the same report.
#[test]
fn a_file_in_the_old_order_prints_the_same_report() {
    for example in examples() {
        let job = jobfile::parse(&example.job).unwrap();
        let axes = job.axes as usize;
        let mut entries: Vec<Entry> = Vec::new();
        replayed(&job, |levels, _, stored| {
            let before = product(axes, levels, rule::new_points);
            let readings = before.iter().map(|p| stored[grid::point_number(axes, p)]).collect();
            entries.push(Entry { indicator: job.entries[entries.len()].indicator, readings });
        });
        let old = jobfile::write(&JobFile { entries, ..job });
        assert_eq!(old == example.job, example.name == "two-axes", "{}", example.name);
        assert_eq!(program::report(&old), example.report, "{}", example.name);
    }
}
