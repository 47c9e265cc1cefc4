//! The proved search among packed records, and the proved comparison of two words.

use crate::proved;
use reference::area::{NONE, WORDS};
use reference::grid::{Levels, MOST_AXES};
use reference::search::Comparison;

/// The cells of records with these levels. The words behind the levels are the largest
/// there are, so that a search that read one of them for a level would show.
pub fn cells(held: &[Levels]) -> Vec<u32> {
    let mut cells = vec![u32::MAX; held.len() * WORDS];
    for (record, levels) in cells.chunks_exact_mut(WORDS).zip(held) {
        record[..MOST_AXES].copy_from_slice(levels);
    }
    cells
}

/// The place that the proved search answers: it packs the held records, then searches.
pub fn found(held: usize, sought: &Levels, cells: &[u32]) -> Option<usize> {
    assert!(held <= 512 && held * WORDS <= cells.len());
    let place = unsafe { proved::figures_search(held, sought, cells) };
    (place != NONE as usize).then_some(place)
}

/// What the proved comparison of two packed lists answers.
pub fn same_word(left: &Levels, right: &Levels) -> Comparison {
    match unsafe { proved::figures_same_word(left, right) } {
        0 => Comparison::Different,
        1 => Comparison::Equal,
        2 => Comparison::NotPacked,
        other => panic!("the comparison of two words answered {other}"),
    }
}
