//! Errors in CRYST1, ORIGX and SCALE lines, by themselves and in a text.

use std::slice::from_raw_parts;

use differ::entry::Columns;
use station::raw::{Cell, Library, Transform, LINKED};

use crate::assert_found;

/// The columns of the angles.
const ANGLES: [usize; 3] = [33, 40, 47];

/// The columns of a line with one of these names.
unsafe fn seen(line: *const u8, n: usize, names: &[&str]) -> Option<Columns> {
    let columns: Columns = from_raw_parts(line, n).try_into().ok()?;
    names.iter().any(|name| columns.starts_with(name.as_bytes())).then_some(columns)
}

/// The line with angles of 179.99 for those of 180.00.
unsafe fn without_180(line: *const u8, n: usize) -> Option<Columns> {
    let columns = seen(line, n, &["CRYST1"])?;
    let mut other = columns;
    for at in ANGLES {
        if columns[at..at + 7] == *b" 180.00" {
            other[at..at + 7].copy_from_slice(b" 179.99");
        }
    }
    Some(other)
}

/// A right cell in the place of any.
unsafe fn right_cell(line: *const u8, n: usize) -> Option<Columns> {
    let right = *b"CRYST1    1.000    1.000    1.000  90.00  90.00  90.00 P 1           1          ";
    seen(line, n, &["CRYST1"]).map(|_| right)
}

/// The line with column 55 blank.
unsafe fn without_55(line: *const u8, n: usize) -> Option<Columns> {
    let mut columns = seen(line, n, &["CRYST1"])?;
    columns[54] = b' ';
    Some(columns)
}

/// The line with the minus of each zero blank.
unsafe fn without_minus_zero(line: *const u8, n: usize) -> Option<Columns> {
    let mut columns = seen(line, n, &["ORIGX", "SCALE"])?;
    for (at, zero) in [(10, b" -0.000000"), (20, b" -0.000000"), (30, b" -0.000000"), (45, b"  -0.00000")] {
        if columns[at..at + 10] == *zero {
            columns[at..at + 10].copy_from_slice(&zero.map(|byte| if byte == b'-' { b' ' } else { byte }));
        }
    }
    Some(columns)
}

/// A text to a library that sees its lines otherwise, those with a strange byte left out.
unsafe fn seen_text(text: *const u8, n: usize, other: unsafe fn(*const u8, usize) -> Option<Columns>) -> Vec<u8> {
    let mut bytes = from_raw_parts(text, n).to_vec();
    for piece in bytes.chunks_exact_mut(81).filter(|piece| piece[..80].iter().all(|byte| (32..=126).contains(byte))) {
        if let Some(columns) = other(piece.as_ptr(), 80) {
            piece[..80].copy_from_slice(&columns);
        }
    }
    bytes
}

planted! {
    an_angle_of_180_is_right: cell_of_line(line: *const u8, n: usize, cell: *mut Cell) {
        match without_180(line, n) {
            Some(other) => (LINKED.cell_of_line)(other.as_ptr(), 80, cell),
            None => (LINKED.cell_of_line)(line, n, cell),
        }
    }
    an_angle_of_180_reads: read_line(line: *const u8, n: usize, column: *mut u64) {
        match without_180(line, n) {
            Some(other) => (LINKED.read_line)(other.as_ptr(), 80, column),
            None => (LINKED.read_line)(line, n, column),
        }
    }
    an_angle_of_180_is_right_in_a_text: verdict(text: *const u8, n: usize, answer: *mut u64) {
        (LINKED.verdict)(seen_text(text, n, without_180).as_ptr(), n, answer)
    }
    column_55_is_free: cell_of_line(line: *const u8, n: usize, cell: *mut Cell) {
        match without_55(line, n) {
            Some(other) => (LINKED.cell_of_line)(other.as_ptr(), 80, cell),
            None => (LINKED.cell_of_line)(line, n, cell),
        }
    }
    column_55_is_free_where_a_line_is_read: read_line(line: *const u8, n: usize, column: *mut u64) {
        match without_55(line, n) {
            Some(other) => (LINKED.read_line)(other.as_ptr(), 80, column),
            None => (LINKED.read_line)(line, n, column),
        }
    }
    column_55_is_free_in_a_text: verdict(text: *const u8, n: usize, answer: *mut u64) {
        (LINKED.verdict)(seen_text(text, n, without_55).as_ptr(), n, answer)
    }
    a_blank_space_group_is_wrong: cell_of_line(line: *const u8, n: usize, cell: *mut Cell) {
        let before = *cell;
        let number = (LINKED.cell_of_line)(line, n, cell);
        let group = (*cell).group;
        if number == 0 && group[..11] == [b' '; 11] {
            *cell = before;
            return 6;
        }
        number
    }
    a_space_group_without_its_last_byte: cell_of_line(line: *const u8, n: usize, cell: *mut Cell) {
        let before = (*cell).group[11];
        let number = (LINKED.cell_of_line)(line, n, cell);
        (*cell).group[11] = before;
        number
    }
    a_space_group_without_its_blanks: cell_of_line(line: *const u8, n: usize, cell: *mut Cell) {
        let number = (LINKED.cell_of_line)(line, n, cell);
        if number == 0 {
            let group = &mut (*cell).group;
            let filled = group[..11].trim_ascii_end().len();
            group[filled..].fill(0);
        }
        number
    }
    alpha_and_gamma_change_places: cell_of_line(line: *const u8, n: usize, cell: *mut Cell) {
        let number = (LINKED.cell_of_line)(line, n, cell);
        if number == 0 {
            std::mem::swap(&mut (*cell).alpha, &mut (*cell).gamma);
        }
        number
    }
    a_refused_cell_is_written: cell_of_line(line: *const u8, n: usize, cell: *mut Cell) {
        let number = (LINKED.cell_of_line)(line, n, cell);
        if number == 6 {
            (*cell).z ^= 1;
        }
        number
    }
    a_wrong_field_of_another_kind: cell_of_line(line: *const u8, n: usize, cell: *mut Cell) {
        let number = (LINKED.cell_of_line)(line, n, cell);
        if number == 4 {
            return (LINKED.read_line)(line, n, &mut 0).max(4);
        }
        number
    }
    minus_zero_is_right: transform_of_line(line: *const u8, n: usize, transform: *mut Transform) {
        match without_minus_zero(line, n) {
            Some(other) => (LINKED.transform_of_line)(other.as_ptr(), 80, transform),
            None => (LINKED.transform_of_line)(line, n, transform),
        }
    }
    an_origx_line_is_none: transform_of_line(line: *const u8, n: usize, transform: *mut Transform) {
        let before = *transform;
        let number = (LINKED.transform_of_line)(line, n, transform);
        if number == 0 && (*transform).row <= 3 {
            *transform = before;
            return 4;
        }
        number
    }
    rows_of_each_trio_from_one: transform_of_line(line: *const u8, n: usize, transform: *mut Transform) {
        let number = (LINKED.transform_of_line)(line, n, transform);
        if number == 0 && (*transform).row > 3 {
            (*transform).row -= 3;
        }
        number
    }
    a_refused_transformation_is_written: transform_of_line(line: *const u8, n: usize, transform: *mut Transform) {
        let number = (LINKED.transform_of_line)(line, n, transform);
        if number == 4 {
            (*transform).row ^= 1;
        }
        number
    }
    crystal_lines_are_carried: rewrite_line(line: *const u8, n: usize, out: *mut u8, room: usize) {
        if seen(line, n, &["CRYST1", "ORIGX1"]).is_some() {
            return 4;
        }
        (LINKED.rewrite_line)(line, n, out, room)
    }
    cells_are_free_in_a_text: check(text: *const u8, n: usize, answer: *mut u64) {
        (LINKED.check)(seen_text(text, n, right_cell).as_ptr(), n, answer)
    }
}
