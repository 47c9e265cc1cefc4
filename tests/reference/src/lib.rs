//! An independent reference for the sparse-grid integrator.
//!
//! Everything here is written from the scope document alone, the calls points
//! and doubles, the order of a block's points, the carried error, the two calls
//! choose and promote, the numbers of a job file's parts and the word of eight levels
//! from the texts that ask for them, and follows their sentences as literally as
//! possible. Each request changes it first, from the request's words. It is a test and
//! not a delivery: where a choice lay between clear and fast, it is clear.
//!
//! From the inside out:
//! - [`rule`] and [`trapezoid`]: the rule along one axis, twice;
//! - [`grid`] and [`sums`]: indices, blocks in reflected order, differences, tensor
//!   rules;
//! - [`area`] and [`soundness`]: the lent storage and what makes it sound;
//! - [`doubles`]: the report of doubles, and doubles as exact fractions;
//! - [`calls`]: the ten calls;
//! - [`call`] and [`log`]: a list of calls and the log that predicts answers;
//! - [`algorithm`]: Fig. 1 of the published algorithm, led;
//! - [`laws`]: what point says of points, that no walk jumps, what result and the
//!   differences say of doubles, and what result and Fig. 1 say of choose and promote;
//! - [`jobfile`] and [`form`]: job files, and their form twice;
//! - [`jobtext`], [`program`], [`replay`]: a job as text, and reports;
//! - [`rng`], [`style`], [`corner`], [`generate`], [`spoil`], [`damage`], [`survey`]:
//!   job files by seed;
//! - [`cases`], [`vectors`]: job files by name, and many in one;
//! - [`choice`], [`places`], [`drive`] and [`promotes`]: lists of calls by seed, where
//!   they promote, and what their chooses and promotes were like;
//! - [`demand`] and [`beside`]: the third demand, and Fig. 1 beside a list;
//! - [`sample`], [`alter`], [`figures`]: areas by seed, altered, with figures;
//! - [`reports`]: areas by name, with what doubles must answer;
//! - [`steps`]: areas by name, with what choose and promote must answer and leave;
//! - [`walks`]: blocks by name, with their points in order;
//! - [`search`]: the search for an index among the held, the word of eight levels, and
//!   lists to search, by name and by seed;
//! - [`pump`] and [`examples`]: the example jobs.

pub mod algorithm;
pub mod alter;
pub mod area;
pub mod beside;
pub mod call;
pub mod calls;
pub mod cases;
pub mod choice;
pub mod corner;
pub mod damage;
pub mod demand;
pub mod doubles;
pub mod drive;
pub mod examples;
pub mod figures;
pub mod form;
pub mod generate;
pub mod grid;
pub mod jobfile;
pub mod jobtext;
pub mod laws;
pub mod log;
pub mod places;
pub mod program;
pub mod promotes;
pub mod pump;
pub mod replay;
pub mod reports;
pub mod rng;
pub mod rule;
pub mod sample;
pub mod search;
pub mod soundness;
pub mod spoil;
pub mod steps;
pub mod style;
pub mod sums;
pub mod survey;
pub mod trapezoid;
pub mod vectors;
pub mod walks;
