//! The integrator in idiomatic Rust without proofs, for the comparison of
//! speed with the proved one.
//!
//! From the inside out:
//! - [`rule`], [`index`], [`area`]: one axis, indices, the lent storage;
//! - [`quadrature`]: differences, full tensor rules, coefficients;
//! - [`check`]: whether an area is sound, by following links;
//! - [`steps`]: what the calls do on an area that is known to be sound;
//! - [`calls`]: the ten calls, which refuse;
//! - [`jobfile`], [`program`]: from a file's bytes to the report.
//!
//! The other side of the comparison is the package `wihupya-sys`.

pub mod area;
pub mod calls;
pub mod check;
pub mod index;
pub mod jobfile;
pub mod program;
pub mod quadrature;
pub mod rule;
pub mod steps;
