//! Indices, neighbours, ceilings and blocks.

use reference::grid::*;
use reference::rng::Rng;

fn index(levels: &[u32]) -> Levels {
    let mut index = ROOT;
    index[..levels.len()].copy_from_slice(levels);
    index
}

#[test]
fn proved_case_4_and_the_order_of_a_block() {
    let levels = index(&[3, 4, 1]);
    assert_eq!(block_size(&levels), 8);
    let points: Vec<[u8; 3]> =
        block(3, &levels).iter().map(|point| [point[0], point[1], point[2]]).collect();
    let expected = [
        [32, 16, 64],
        [32, 48, 64],
        [32, 80, 64],
        [32, 112, 64],
        [96, 112, 64],
        [96, 80, 64],
        [96, 48, 64],
        [96, 16, 64],
    ];
    assert_eq!(points, expected, "axis 1 slowest and rising, axis 2 rising, then falling");
}

#[test]
fn proved_case_5_the_ceilings() {
    assert!(within_ceilings(&index(&[8, 6])));
    assert!(!within_ceilings(&index(&[8, 7])));
    assert!(!within_ceilings(&index(&[9])));
    assert!(!within_ceilings(&index(&[0])));
    assert_eq!(excess(&index(&[8, 6])), 12);
    assert_eq!(excess(&[u32::MAX; 8]), 8 * (i64::from(u32::MAX) - 1));
}

#[test]
fn a_level_of_1_has_no_backward_neighbour() {
    let levels = index(&[2, 1]);
    assert_eq!(backward_neighbour(&levels, 0), Some(ROOT));
    assert_eq!(backward_neighbour(&levels, 1), None, "there is no (2,0)");
    assert_eq!(forward_neighbour(&levels, 1), Some(index(&[2, 2])));
    assert!((0..8).all(|axis| backward_neighbour(&ROOT, axis).is_none()));
}

#[test]
fn walking_a_block_gives_the_list() {
    let mut rng = Rng::new(7);
    for _ in 0..300 {
        let axes = rng.between(1, 8) as usize;
        let mut levels = ROOT;
        for level in &mut levels[..axes] {
            *level = rng.between(1, 4) as u32;
        }
        let list = block(axes, &levels);
        assert_eq!(list.len(), block_size(&levels));
        let mut walked = Vec::new();
        for_each_point(axes, &levels, |number, point| {
            assert_eq!(number, walked.len());
            walked.push(*point);
        });
        assert_eq!(walked, list);
        assert!(list.windows(2).all(|pair| pair[0][0] <= pair[1][0]), "axis 1 slowest, rising");
    }
}

#[test]
fn every_index_nowhere_higher_once() {
    let levels = index(&[3, 1, 4]);
    let mut seen = Vec::new();
    for_each_nowhere_higher(3, &levels, |lower| seen.push(*lower));
    assert_eq!(seen.len(), 12);
    assert!(seen.iter().all(|lower| nowhere_higher(lower, &levels)));
    seen.sort();
    seen.dedup();
    assert_eq!(seen.len(), 12);
    assert!(!nowhere_higher(&index(&[1, 2]), &levels));
}

#[test]
fn all_indices_within_the_ceilings() {
    let count = |axes: usize| {
        let mut count = 0u64;
        for_each_within_ceilings(axes, |levels| {
            assert!(within_ceilings(levels));
            assert!(levels[axes..].iter().all(|&level| level == 1));
            count += 1;
        });
        count
    };
    assert_eq!(count(1), 8);
    // 64 pairs less (8,7), (7,8) and (8,8), whose excess is 13 or 14.
    assert_eq!(count(2), 61);
    // Numbers of solutions of x1 + ... + xd at most 12 with each at most 7,
    // counted one axis at a time.
    for axes in 1..=8 {
        let mut ways = [1u64, 0, 0, 0, 0, 0, 0, 0, 0, 0, 0, 0, 0];
        for _ in 0..axes {
            ways = std::array::from_fn(|sum| (0..=7.min(sum)).map(|x| ways[sum - x]).sum());
        }
        assert_eq!(count(axes), ways.iter().sum::<u64>());
    }
}
