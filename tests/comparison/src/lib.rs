//! The proved functions as Rust sees them, and areas as they take them.

use reference::area::WORDS;

pub mod search;

/// The exported functions. Those on figures and points ask for what a sound area
/// gives, those of the search for at most 512 records that lie in the cells, so nothing
/// here may hand them anything else.
pub mod proved {
    use reference::grid::{Levels, Point};

    #[allow(improper_ctypes)]
    extern "C" {
        pub fn figures_difference(axes: usize, place: usize, cells: &[u32], store: &[i32]) -> i64;
        pub fn figures_tensor_rule(axes: usize, place: usize, cells: &[u32], store: &[i32]) -> i64;
        pub fn figures_coefficient(axes: usize, held: usize, place: usize, cells: &[u32]) -> i64;
        pub fn figures_difference_total(
            axes: usize,
            held: usize,
            cells: &[u32],
            store: &[i32],
        ) -> i64;
        pub fn figures_point(place: usize, n: usize, point: &mut Point, cells: &[u32]);
        pub fn figures_search(held: usize, levels: &Levels, cells: &[u32]) -> usize;
        pub fn figures_same_word(left: &Levels, right: &Levels) -> u32;
    }
}

/// The cells and the reading store of an area's bytes.
pub fn words(bytes: &[u8]) -> (Vec<u32>, Vec<i32>) {
    let all: Vec<u32> = bytes
        .chunks_exact(4)
        .map(|word| u32::from_le_bytes(word.try_into().expect("four bytes")))
        .collect();
    let (records, readings) = (all[12] as usize, all[13] as usize);
    let (cells, store) = all[14..].split_at(records * WORDS);
    assert_eq!(store.len(), readings);
    (cells.to_vec(), store.iter().map(|&word| word as i32).collect())
}
