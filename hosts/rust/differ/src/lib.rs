//! Holds the proved library against the reference, call by call, through the C names.
//!
//! A case is made up by a seeded source of chance: an entry that obeys the rules, with models or without, damaged or not; a
//! table, ordered about or damaged; a single line; a tally; lines with wrong fields; crystal lines; coordinates for a fractional place; slots to draw. Texts are jumped in. Each call is made on both sides
//! with the same input. Compared are the number, the counts and all memory lent to the call, with guards at its sides or fences
//! that may not be touched.

#![warn(missing_docs)]

pub mod cases;
pub mod cells;
pub mod chance;
mod coordinates;
mod crystals;
mod damage;
pub mod entry;
pub mod faults;
pub mod fence;
mod fields;
mod findings;
mod framed;
pub mod harness;
pub mod joints;
mod jumping;
pub mod jumps;
pub mod lent;
mod modelled;
mod modelling;
pub mod models;
pub mod names;
pub mod places;
mod placing;
pub mod rows;
pub mod slots;
mod spoiling;
mod sweep;
mod tallying;
mod twinning;
pub mod twins;
mod verdicts;

pub use cases::{run, run_fenced};
pub use findings::{Call, Findings, Met};
pub use sweep::sweep;
