//! What points writes: as many whole points as are left in the block and have
//! room, in the block's order, the same as point writes one by one.

mod support;

use harness::calls;
use harness::initial_areas;
use harness::lent::Lent;
use reference::rng::Rng;
use reference::sample;
use support::*;

/// Points must give these words and begin its buffer with these positions; all
/// bytes after them, those behind the buffer too, are as they were.
fn assert_written(lent: &mut Lent, n: u64, buffer: usize, words: [u32; 2], positions: &[u8]) {
    let (given, bytes) = points_in(lent, n, buffer);
    assert_eq!(given, words, "{n} into {buffer}");
    let (written, later) = bytes.split_at(positions.len());
    assert_eq!(written, positions, "{n} into {buffer}");
    assert!(later.iter().all(|&byte| byte == MARKED_BYTE), "{n} into {buffer}: {later:?}");
}

#[test]
fn the_block_ends_first() {
    let mut lent = wanting_two();
    for buffer in [4, 5, 6, 20_000] {
        assert_written(&mut lent, 0, buffer, [2, 2], &[0, 64, 128, 64]);
    }
}

#[test]
fn the_buffer_ends_first_and_a_part_of_a_point_is_not_written() {
    let mut lent = wanting_two();
    for buffer in [2, 3] {
        assert_written(&mut lent, 0, buffer, [1, 2], &[0, 64]);
    }
}

#[test]
fn from_a_later_point_on_the_block_is_not_begun_again() {
    let mut lent = wanting_two();
    for buffer in [2, 3, 4, 20_000] {
        assert_written(&mut lent, 1, buffer, [1, 2], &[128, 64]);
    }
}

/// Point n by point, or none if it is refused.
fn by_point(lent: &mut Lent, n: u64, axes: usize) -> Option<Vec<u8>> {
    let mut position = vec![MARKED_BYTE; axes];
    match calls::point(lent.all(), n as usize, &mut position) {
        0 => Some(position),
        _ => None,
    }
}

/// Points from n on, with room for so many points and bytes, against point.
fn assert_as_point(lent: &mut Lent, axes: usize, n: u64, room: usize, rest: usize) {
    let left = (n..).map_while(|n| by_point(lent, n, axes)).take(room);
    let positions: Vec<Vec<u8>> = left.collect();
    let size = (n..).find(|&n| by_point(lent, n, axes).is_none()).expect("the block ends");
    let words = [positions.len() as u32, size as u32];
    assert_written(lent, n, room * axes + rest, words, &positions.concat());
}

#[test]
fn points_writes_what_point_writes_one_by_one() {
    let (mut rng, mut wanted) = (Rng::new(5), 0);
    for seed in 0..400 {
        let area = sample::area(seed);
        let axes = area.job.axes as usize;
        let mut lent = Lent::of(&area);
        if by_point(&mut lent, 0, axes).is_none() {
            continue;
        }
        wanted += 1;
        for room in 1..=5 {
            assert_as_point(&mut lent, axes, 0, room, rng.place(axes));
            let n = rng.below(5);
            if by_point(&mut lent, n, axes).is_some() {
                assert_as_point(&mut lent, axes, n, room, rng.place(axes));
            }
        }
    }
    assert!(wanted > 100, "{wanted}");
}

#[test]
fn the_largest_block_of_a_job_whole() {
    let area = initial_areas::large_block(&mut Rng::new(6));
    let axes = area.job.axes as usize;
    let mut lent = Lent::of(&area);
    for rest in [0, 1, axes] {
        assert_as_point(&mut lent, axes, 0, 1_024, rest);
    }
    assert_as_point(&mut lent, axes, 0, 1_023, axes - 1);
    assert_as_point(&mut lent, axes, 1_000, 1_024, 0);
}
