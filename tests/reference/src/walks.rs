//! Blocks by name, each with its walk written by hand from the request's words:
//! "axis 1 rises, and each later axis rises or falls as the rank of the earlier
//! axes' points in this walk, from 0, is even or odd".

use crate::grid::{Levels, ROOT};

pub struct Case {
    pub name: &'static str,
    /// So many levels as the job has axes.
    pub levels: &'static [u32],
    /// The positions of each point, in the order of the walk.
    pub walk: &'static [&'static [u8]],
}

impl Case {
    pub fn axes(&self) -> usize {
        self.levels.len()
    }

    pub fn index(&self) -> Levels {
        let mut index = ROOT;
        index[..self.axes()].copy_from_slice(self.levels);
        index
    }
}

pub static CASES: [Case; 6] = [
    Case { name: "(1,1)", levels: &[1, 1], walk: &[&[64, 64]] },
    Case { name: "(4)", levels: &[4], walk: &[&[16], &[48], &[80], &[112]] },
    Case { name: "(2,2)", levels: &[2, 2], walk: &[&[0, 0], &[0, 128], &[128, 128], &[128, 0]] },
    // The axis with one point hands on the rank as it is.
    Case {
        name: "(2,1,2)",
        levels: &[2, 1, 2],
        walk: &[&[0, 64, 0], &[0, 64, 128], &[128, 64, 128], &[128, 64, 0]],
    },
    Case {
        name: "(3,4,1)",
        levels: &[3, 4, 1],
        walk: &[
            &[32, 16, 64],
            &[32, 48, 64],
            &[32, 80, 64],
            &[32, 112, 64],
            &[96, 112, 64],
            &[96, 80, 64],
            &[96, 48, 64],
            &[96, 16, 64],
        ],
    },
    // Axis 3 rises at the ranks 0 and 2 of the first two, falls at 1 and 3.
    Case {
        name: "(2,2,2)",
        levels: &[2, 2, 2],
        walk: &[
            &[0, 0, 0],
            &[0, 0, 128],
            &[0, 128, 128],
            &[0, 128, 0],
            &[128, 128, 0],
            &[128, 128, 128],
            &[128, 0, 128],
            &[128, 0, 0],
        ],
    },
];
