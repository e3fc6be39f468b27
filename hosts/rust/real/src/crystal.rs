//! What either side answers about the crystal frame, in a form that can be compared.

use differ::slots::{cell_to_library, transform_to_library};
use reference::{Fractional, Rows};
use station::raw::{Cell, Transform, LINKED};

use crate::answers::own_by_number;

/// What a call of the library left, by its number of refusal.
fn answered<T>(number: u32, left: T) -> Result<T, u32> {
    match number {
        0 => Ok(left),
        _ => Err(number),
    }
}

/// The cell of a line, of the library.
pub fn cell_of_library(line: &[u8]) -> Result<Cell, u32> {
    let mut cell = Cell::default();
    // SAFETY: the line is as long as said, and there is room for a cell.
    answered(unsafe { (LINKED.cell_of_line)(line.as_ptr(), line.len(), &mut cell) }, cell)
}

/// The cell of a line, of the reference.
pub fn cell_of_reference(line: &[u8]) -> Result<Cell, u32> {
    own_by_number(reference::cell_of_line(line)).map(|cell| cell_to_library(&cell))
}

/// The transformation of a line, of the library.
pub fn transform_of_library(line: &[u8]) -> Result<Transform, u32> {
    let mut transform = Transform::default();
    // SAFETY: the line is as long as said, and there is room for a transformation.
    answered(unsafe { (LINKED.transform_of_line)(line.as_ptr(), line.len(), &mut transform) }, transform)
}

/// The transformation of a line, of the reference.
pub fn transform_of_reference(line: &[u8]) -> Result<Transform, u32> {
    own_by_number(reference::transformation_of_line(line)).map(|row| transform_to_library(&row))
}

/// The rows of a text, of the library.
pub fn rows_of_library(text: &[u8]) -> Result<Rows, u32> {
    let mut rows: Rows = Default::default();
    // SAFETY: the text is as long as said, and there is room for twelve numbers.
    answered(unsafe { (LINKED.scale)(text.as_ptr(), text.len(), rows.as_flattened_mut().as_mut_ptr()) }, rows)
}

/// The fractional place of coordinates, of the library, with this call.
fn place(call: impl Fn(*const i32, *mut i64) -> u32, at: [i32; 3]) -> Result<Fractional, u32> {
    let mut out = [0; 6];
    let number = call(at.as_ptr(), out.as_mut_ptr());
    let [a, b, c, d, e, f] = out;
    answered(number, Fractional { billionths: [a, b, c], hundred_thousandths: [d, e, f] })
}

/// The fractional place of coordinates in a text.
pub fn place_of_library(text: &[u8], at: [i32; 3]) -> Result<Fractional, u32> {
    // SAFETY: the text is as long as said, there are three coordinates, and there is room for six numbers.
    place(|at, out| unsafe { (LINKED.fractional)(text.as_ptr(), text.len(), at, out) }, at)
}

/// The fractional place of coordinates by rows.
pub fn place_by_rows(rows: &Rows, at: [i32; 3]) -> Result<Fractional, u32> {
    // SAFETY: there are twelve numbers and three coordinates, and there is room for six numbers.
    place(|at, out| unsafe { (LINKED.place)(rows.as_flattened().as_ptr(), at, out) }, at)
}
