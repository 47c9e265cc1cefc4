//! The exported calls held against the reference, which answers by plain
//! searching. The calls ask nothing of what they are lent, so an area here may
//! hold anything at all.
//!
//! - [`lent`]: an area as the exported calls take it;
//! - [`calls`]: the exported calls, which must leave what is lent shared;
//! - [`doubles`]: doubles by their bits, and what an accepted call has shown;
//! - [`verdict`], [`check_cases`], [`tally`]: check and doubles alone, on areas
//!   by seed, altered, short, at their limits, or garbage, and what was seen of
//!   them;
//! - [`answers`], [`pair`]: a call on both sides, and the comparison after it;
//! - [`initial_areas`], [`lists`], [`coverage`]: lists of calls by seed, and what was
//!   seen of them, [`choosing`] of choose and promote;
//! - [`records`]: lists of calls over lent record structs, for the program of
//!   tests/records.

pub mod answers;
pub mod calls;
pub mod check_cases;
pub mod choosing;
pub mod coverage;
pub mod doubles;
pub mod initial_areas;
pub mod lent;
pub mod lists;
pub mod pair;
pub mod records;
pub mod tally;
pub mod verdict;
