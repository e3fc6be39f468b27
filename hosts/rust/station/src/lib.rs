//! The proved library of the station, in Rust's own manners.
//!
//! [`Entry::check`] judges a text; [`Table`] holds the coordinates of an accepted one, of all its models, sets fragments aside, puts them
//! back, one by one or all at once, and saves; [`Line`] is one line by itself; [`Jump`] finds the line of an atom; [`Tally`] counts lines;
//! [`Dot`], [`Stroke`] and [`Frame`] are what a renderer draws; [`Cell`] and [`Transformation`] are lines of the crystal frame, and [`Scale`]
//! tells fractional places by it. The numbers of a [`Slot`] or a [`Cell`] are whole, as the library has them; a [`Decimal`], such as
//! [`Thousandths`], shows them as text and as doubles.
//!
//! Everything that can be refused is a [`Result`] whose error says in words why: a [`Refusal`], or where it is known a [`Verdict`] with the line
//! of the text, or a [`LineRefusal`] with the column.
//!
//! ```
//! let verdict = station::Entry::check(b"no entry at all");
//! assert_eq!(verdict.refusal.map(|refusal| refusal.number()), Some(1));
//! println!("{}", verdict.report());
//! ```
//!
//! The C names themselves are in [`raw`].

#![warn(missing_docs)]

mod crystal;
mod decimal;
mod entry;
mod feed;
mod fragment;
mod jump;
mod line;
pub mod raw;
mod refusal;
mod slot;
mod table;

pub use crystal::{fractional, scale, Fractional, Matrix, Scale, Transformation};
pub use decimal::{Billionths, Decimal, HundredThousandths, Hundredths, Millionths, Thousandths};
pub use entry::{piece, pieces, Counts, Entry, Report, Verdict};
pub use feed::{Dot, Frame, Stroke};
pub use fragment::{Fragment, Fragments};
pub use jump::Jump;
pub use line::{Line, LineRefusal};
pub use raw::{Cell, Slot, Tally};
pub use refusal::Refusal;
pub use slot::{Kind, Mark, ModelNumber};
pub use table::{FragmentNumber, OwnedTable, RefusedText, Table};
