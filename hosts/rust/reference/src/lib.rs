//! The rules of the station in plain Rust.
//!
//! This crate says what the proved library has to answer, in the plainest way its author could find, and was
//! written from the rules alone, without a look at the library. Speed and memory are not its concern. The
//! differential test holds the two against each other.
//!
//! One module for each part of the rules: [`columns`] (fields), [`element`], [`mod@line`] (names and places),
//! [`record`] (what a line says), [`reading`] and [`writing`] (one line by itself), [`mod@check`] (a whole text, with
//! `models` for where it stands among its models),
//! [`crystal`] (cells, transformations, fractional places), [`table`] (slots, fragments, orders, arrangements), [`saved`] (saving and tray), [`jump`] (the line of an atom),
//! [`tally`] and [`feed`] (dots, strokes, frame).

#![forbid(unsafe_code)]
#![warn(missing_docs)]

pub mod check;
pub mod columns;
#[cfg(test)]
mod columns_told;
pub mod crystal;
pub mod element;
pub mod feed;
pub mod jump;
pub mod line;
mod models;
pub mod reading;
pub mod record;
mod refusal;
#[cfg(test)]
mod samples;
pub mod saved;
pub mod table;
pub mod tally;
pub mod writing;

pub use check::{check, Verdict};
pub use crystal::{cell_of_line, fractional, place, rows, transformation_of_line, Fractional, Rows};
pub use feed::{dot, frame, stroke, Frame};
pub use jump::{find, Jump};
pub use line::LineName;
pub use reading::read_line;
pub use record::Record;
pub use refusal::{Blame, Refusal, WrongAt};
pub use saved::{save, tray};
pub use table::{arrange, fragment_numbers, fragments, load, order, slot_of_line, Mark, Slot};
pub use tally::{count_line, count_line_past, Tally};
pub use writing::{rewrite_line, write_record};

/// The number of an atom, a TER or an end of a bond: 1 to 99,999.
#[derive(Clone, Copy, Debug, Default, PartialEq, Eq, PartialOrd, Ord)]
pub struct Serial(pub u32);

/// The number of a residue in its chain: -999 to 9999.
#[derive(Clone, Copy, Debug, Default, PartialEq, Eq, Hash)]
pub struct ResidueNumber(pub i32);

/// The number of a model of an entry, from 1.
#[derive(Clone, Copy, Debug, Default, PartialEq, Eq)]
pub struct ModelNumber(pub u32);

/// The number of a fragment of an entry, from 1.
#[derive(Clone, Copy, Debug, Default, PartialEq, Eq)]
pub struct FragmentNumber(pub u32);
