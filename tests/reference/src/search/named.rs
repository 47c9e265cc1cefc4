//! Searches by name, each with the place that must be found, worked out by hand.

use super::{with, BYTE};
use crate::grid::{Levels, HELD_LIMIT, MOST_AXES, ROOT};

pub struct Case {
    pub name: String,
    /// The held lists, in the order of places.
    pub held: Vec<Levels>,
    pub sought: Levels,
    /// The first place that has the sought list.
    pub place: Option<usize>,
}

pub fn cases() -> Vec<Case> {
    [
        bytes_and_larger(),
        taken_for_another(),
        edges(),
        one_level_off(),
        carries(),
        equals(),
        beside_larger(),
        none_held(),
        all_held(),
    ]
    .into_iter()
    .flatten()
    .collect()
}

fn found(name: impl Into<String>, held: &[Levels], sought: Levels, place: usize) -> Case {
    Case { name: name.into(), held: held.to_vec(), sought, place: Some(place) }
}

fn nothing(name: impl Into<String>, held: &[Levels], sought: Levels) -> Case {
    Case { name: name.into(), held: held.to_vec(), sought, place: None }
}

/// The levels of the first axes, and 1 on the others.
fn index(levels: &[u32]) -> Levels {
    let mut index = ROOT;
    index[..levels.len()].copy_from_slice(levels);
    index
}

/// What every search must get right, on both sides of a byte's edge.
fn bytes_and_larger() -> Vec<Case> {
    let full = [255; MOST_AXES];
    let largest = index(&[1, 1, u32::MAX]);
    let two = index(&[2]);
    vec![
        nothing("a_carry_is_no_match", &[index(&[257])], index(&[1, 2])),
        found("every_byte_counts, 255 on every axis", &[ROOT, full], full, 1),
        nothing("every_byte_counts, 254 on axis 8", &[ROOT, full], with(&full, 7, 254)),
        found("larger_is_found_unpacked", &[ROOT, largest], largest, 1),
        found("one_larger_record_spoils_no_other", &[index(&[300]), two], two, 1),
    ]
}

/// Different lists that a wrong packing takes for one another.
fn taken_for_another() -> Vec<Case> {
    let rising = [1, 2, 3, 4, 5, 6, 7, 8];
    let falling = [8, 7, 6, 5, 4, 3, 2, 1];
    let halves = [1, 2, 3, 4, 1, 2, 3, 4];
    vec![
        nothing("(129,1) held, (1,2) sought", &[index(&[129])], index(&[1, 2])),
        nothing("(256,1) held, (0,2) sought", &[index(&[256])], index(&[0, 2])),
        nothing("(256,1) held, (0,1) sought", &[index(&[256])], index(&[0])),
        nothing("the root held, (257,1) sought", &[ROOT], index(&[257])),
        nothing("(257,1) held, the root sought", &[index(&[257])], ROOT),
        nothing("the levels in the other order", &[rising], falling),
        nothing("other levels on axes 5 to 8", &[rising], halves),
        nothing("the root held, 0 throughout sought", &[ROOT], [0; MOST_AXES]),
        found("0 throughout held and sought", &[ROOT, [0; MOST_AXES]], [0; MOST_AXES], 1),
    ]
}

/// Levels at the edges of one byte to four.
const EDGES: [u32; 6] = [0, 255, 256, 65_536, 1 << 24, u32::MAX];

/// Each edge on each axis: it is found, and what a byte keeps of it is another level.
fn edges() -> Vec<Case> {
    let mut cases = Vec::new();
    for axis in 0..MOST_AXES {
        for level in EDGES {
            let name = format!("level {level} on axis {}", axis + 1);
            let edge = with(&ROOT, axis, level);
            cases.push(found(&name, &[ROOT, edge, index(&[2])], edge, 1));
            if level >= BYTE {
                let kept = with(&ROOT, axis, level % BYTE);
                cases.push(nothing(format!("{name}, its low byte sought"), &[ROOT, edge], kept));
                cases.push(nothing(format!("{name}, its low byte held"), &[ROOT, kept], edge));
            }
        }
    }
    cases
}

/// Lists that differ on one axis only.
fn one_level_off() -> Vec<Case> {
    let held = [9, 8, 7, 6, 5, 4, 3, 2];
    let mut cases = Vec::new();
    for axis in 0..MOST_AXES {
        let number = axis + 1;
        let higher = with(&held, axis, held[axis] + 1);
        let lower = with(&held, axis, held[axis] - 1);
        cases.push(nothing(format!("one higher on axis {number}"), &[held], higher));
        cases.push(nothing(format!("one lower on axis {number}"), &[held], lower));
        let both = [lower, held, higher];
        cases.push(found(format!("between both on axis {number}"), &both, held, 1));
    }
    cases
}

/// So much on one axis, and 1 so many axes later, which a packing of base 256 or 128
/// that lets a level pass its base takes for the same.
const CARRIES: [(u32, usize); 4] = [(128, 1), (256, 1), (65_536, 2), (1 << 24, 3)];

/// Each carry from each axis on, from a level of 0 and of 1, held and sought.
fn carries() -> Vec<Case> {
    let mut cases = Vec::new();
    for (more, later) in CARRIES {
        for axis in 0..MOST_AXES - later {
            for level in [0, 1] {
                let large = with(&ROOT, axis, level + more);
                let carried = with(&with(&ROOT, axis, level), axis + later, 2);
                let name = format!("{more} above level {level} on axis {}", axis + 1);
                cases.push(nothing(format!("{name} held, a carry sought"), &[large], carried));
                cases.push(nothing(format!("{name} sought, a carry held"), &[carried], large));
            }
        }
    }
    cases
}

/// Where the sought list is held twice or more the first place wins.
fn equals() -> Vec<Case> {
    let (two, other, larger) = (index(&[2]), index(&[1, 2]), index(&[300]));
    vec![
        found("held at places 1 and 3", &[ROOT, two, other, two], two, 1),
        found("held first and last", &[two, ROOT, other, two], two, 0),
        found("larger, held at places 1 and 3", &[ROOT, larger, two, larger], larger, 1),
        found("held twice behind a larger record", &[larger, two, two], two, 1),
        found("all equal", &[two; 5], two, 0),
        found("all equal and larger", &[larger; 5], larger, 0),
    ]
}

/// A larger record in front of, behind and at the found place.
fn beside_larger() -> Vec<Case> {
    let (two, larger, another) = (index(&[2]), index(&[300]), index(&[301]));
    // 300 is 256 and 44.
    let low_byte = index(&[44]);
    vec![
        found("a larger record in front", &[larger, ROOT, two], two, 2),
        found("a larger record behind", &[ROOT, two, larger], two, 1),
        found("a larger record at the place", &[ROOT, larger, two], larger, 1),
        found("larger records on both sides", &[larger, two, another], two, 1),
        found("a larger record behind a larger one", &[larger, ROOT, another], another, 2),
        found("a larger record at the first place", &[larger, ROOT, two], larger, 0),
        found("the low byte of a larger record behind it", &[larger, low_byte], low_byte, 1),
        nothing("larger records, another sought", &[larger, two], another),
        nothing("a larger record, nothing found", &[ROOT, larger, two], index(&[3])),
    ]
}

fn none_held() -> Vec<Case> {
    vec![
        nothing("0 held, the root sought", &[], ROOT),
        nothing("0 held, 0 throughout sought", &[], [0; MOST_AXES]),
        nothing("0 held, a larger one sought", &[], index(&[256])),
    ]
}

/// All 512 places held, no list twice: on the first three axes every list of levels
/// 1 to 8.
fn all_held() -> Vec<Case> {
    let place = |place: u32| index(&[place % 8 + 1, place / 8 % 8 + 1, place / 64 + 1]);
    let held: Vec<Levels> = (0..HELD_LIMIT as u32).map(place).collect();
    let (last, larger) = (index(&[8, 8, 8]), index(&[1, 1, 1, 1, 1, 1, 1, u32::MAX]));
    let replaced = |place: usize| {
        let mut held = held.clone();
        held[place] = larger;
        held
    };
    vec![
        found("512 held, the first sought", &held, ROOT, 0),
        found("512 held, the last sought", &held, last, 511),
        found("512 held, the last but one sought", &held, index(&[7, 8, 8]), 510),
        nothing("512 held, another sought", &held, index(&[1, 1, 1, 2])),
        nothing("512 held, 0 throughout sought", &held, [0; MOST_AXES]),
        nothing("512 held, a larger one sought", &held, larger),
        found("512 held, the last one larger and sought", &replaced(511), larger, 511),
        found("512 held, the first one larger, the last sought", &replaced(0), last, 511),
        found("512 held, the last one larger, another sought", &replaced(511), place(510), 510),
        nothing("512 held, the first one larger, the root sought", &replaced(0), ROOT),
    ]
}
