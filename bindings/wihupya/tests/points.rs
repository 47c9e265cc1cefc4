//! Many points at once, in a buffer and by the iterator: each is the one that
//! `point` gives.

mod support;

use support::Storage;
use wihupya::{Integrator, PointCounts, Refusal, LARGEST_BLOCK};

const MARK: u8 = 0xa5;

/// Every point of the wanted block, by a call each.
fn one_by_one(job: &Integrator) -> Vec<Vec<u8>> {
    let axes = job.job().axes as usize;
    let mut points = Vec::new();
    loop {
        let mut point = vec![MARK; axes];
        match job.point(points.len(), &mut point) {
            Ok(()) => points.push(point),
            Err(Refusal::NoSuchPoint) => return points,
            Err(refusal) => panic!("{refusal}"),
        }
    }
}

/// From the n-th point of the block on, in a buffer of this length: as many as
/// are left and fit, and no byte more.
fn assert_written(job: &Integrator, block: &[Vec<u8>], n: usize, length: usize) {
    let mut buffer = vec![MARK; length];
    let written = (block.len() - n).min(length / block[0].len());
    assert_eq!(job.points(n, &mut buffer), Ok(PointCounts { written, block: block.len() }));
    let mut expected = block[n..n + written].concat();
    expected.resize(length, MARK);
    assert_eq!(buffer, expected, "{n} of {}, {length} bytes", block.len());
}

/// Every block on the way to each target: whole, in room for a part of it, and
/// from a later point on.
#[test]
fn points_are_those_that_point_gives() {
    let targets: [(u32, &[u32]); 4] =
        [(1, &[8]), (2, &[4, 3]), (3, &[3, 1, 4]), (8, &[2, 2, 2, 1, 1, 1, 1, 3])];
    for (axes, target) in targets {
        let axis_count = axes as usize;
        let mut blocks = 0;
        support::grow(axes, target, |job| {
            let block = one_by_one(job);
            let size = block.len();
            for n in [0, size / 2, size - 1] {
                for points in [1, 2, size - n, size, size + 1] {
                    let room = points * axis_count;
                    assert_written(job, &block, n, room);
                    assert_written(job, &block, n, room + axis_count - 1);
                }
                assert_written(job, &block, n, axis_count * LARGEST_BLOCK);
            }
            blocks += 1;
        });
        assert!(blocks > 7, "{blocks} blocks");
    }
}

#[test]
fn the_iterator_gives_the_points_of_every_block() {
    support::grow(3, &[3, 1, 4], |job| {
        let block = job.wanted_block().unwrap();
        assert_eq!(block.size_hint(), (block.len(), Some(block.len())));
        let points: Vec<Vec<u8>> = block.map(|point| point.to_vec()).collect();
        assert_eq!(points, one_by_one(job));
    });
}

/// The largest block that a job can want takes 8 KB, which the iterator asks for
/// in two pieces. With 7 axes a piece is not full to its last byte.
#[test]
fn the_iterator_goes_on_from_piece_to_piece() {
    for (axes, target) in [(7, &[6, 1, 1, 8, 1, 1, 1][..]), (8, &[8, 6, 1, 1, 1, 1, 1, 1])] {
        let mut storage = support::grow(axes, target, |_| {});
        storage.call(|job| {
            let expected = one_by_one(job);
            assert_eq!(expected.len(), 1_024);
            let mut block = job.wanted_block().unwrap();
            for (n, point) in expected.iter().enumerate() {
                assert_eq!(block.len(), 1_024 - n);
                assert_eq!(block.next().as_deref(), Some(&point[..]), "{axes} axes, point {n}");
            }
            assert_eq!((block.len(), block.next(), block.next()), (0, None, None));
            assert_eq!(
                job.wanted_block().unwrap().nth(1_000).as_deref(),
                Some(&expected[1_000][..])
            );
        });
    }
}

/// A copy of the iterator goes on by itself.
#[test]
fn the_iterator_is_a_value() {
    Storage::wanting_two().call(|job| {
        let mut block = job.wanted_block().unwrap();
        let first = block.next().unwrap();
        assert_eq!((&*first, first.len()), (&[0, 64][..], 2));
        let rest = block.clone();
        assert!(block.eq(rest.clone()));
        assert_eq!(rest.map(|point| point.to_vec()).collect::<Vec<_>>(), [[128, 64]]);
    });
}

/// An area whose number of axes was altered is refused before a point is read:
/// as not sound, and with more axes than the iterator's bytes as too short.
#[test]
fn the_iterator_is_refused_with_other_axes() {
    let altered = [(0, Refusal::NotSound), (9, Refusal::NotSound), (4_097, Refusal::TooShort)];
    for (axes, cause) in altered {
        let mut storage = Storage::wanting_two();
        storage.job.axes = axes;
        support::refused(&mut storage, cause, |job| job.wanted_block().map(|block| block.len()));
    }
}
