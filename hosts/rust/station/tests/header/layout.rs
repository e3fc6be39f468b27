//! The layout of what is lent by its fields, the same on both sides of the boundary.

use std::mem::{align_of, offset_of, size_of};

use station::raw::Transform;
use station::{Cell, Slot, Tally};

use crate::compiler::compiling;

/// The offsets of the fields of a struct, with their names.
macro_rules! offsets {
    ($of:ty: $($field:ident)*) => { [$((stringify!($field), offset_of!($of, $field))),*] };
}

fn slot() -> [(&'static str, usize); 17] {
    offsets!(Slot: serial number x y z occupancy temperature kind mark name alternate residue chain insertion element charge model)
}

fn tally() -> [(&'static str, usize); 9] {
    offsets!(Tally: remark het helix sheet xform coord ter conect seq)
}

fn cell() -> [(&'static str, usize); 8] {
    offsets!(Cell: a b c alpha beta gamma z group)
}

fn transform() -> [(&'static str, usize); 3] {
    offsets!(Transform: m t row)
}

#[test]
fn as_written_down() {
    assert_eq!((size_of::<Slot>(), align_of::<Slot>()), (48, 4));
    assert_eq!((size_of::<Tally>(), align_of::<Tally>()), (36, 4));
    assert_eq!((size_of::<Cell>(), align_of::<Cell>()), (40, 4));
    assert_eq!((size_of::<Transform>(), align_of::<Transform>()), (20, 4));
    assert_eq!(slot().map(|(_, at)| at), [0, 4, 8, 12, 16, 20, 24, 28, 29, 30, 34, 35, 38, 39, 40, 42, 44]);
    assert_eq!(tally().map(|(_, at)| at), [0, 4, 8, 12, 16, 20, 24, 28, 32]);
    assert_eq!(cell().map(|(_, at)| at), [0, 4, 8, 12, 16, 20, 24, 28]);
    assert_eq!(transform().map(|(_, at)| at), [0, 12, 16]);
}

/// The layout of a struct as macros for the C compiler.
fn macros<T>(name: &str, offsets: &[(&str, usize)]) -> Vec<String> {
    let whole = [("SIZE", size_of::<T>()), ("ALIGN", align_of::<T>())];
    whole.iter().chain(offsets).map(|(what, bytes)| format!("-D{name}_{what}={bytes}")).collect()
}

/// A C compiler holds the header against the Rust side.
#[test]
fn as_in_c() {
    let mut command = compiling("layout.c");
    command.arg("-fsyntax-only");
    command.args(macros::<Slot>("SLOT", &slot()));
    command.args(macros::<Tally>("TALLY", &tally()));
    command.args(macros::<Cell>("CELL", &cell()));
    command.args(macros::<Transform>("TRANSFORM", &transform()));
    let status = command.status().expect("a C compiler");
    assert!(status.success(), "the header and the Rust side differ");
}
