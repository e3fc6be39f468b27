//! Errors in the column of a wrong field. A wrong library is the linked one, which tells other columns.

use std::slice::{from_raw_parts, from_raw_parts_mut};

use differ::entry::Columns;
use differ::faults::mended;
use differ::rows::Row;
use station::raw::{Library, LINKED};

use crate::{assert_found, CASES};

/// What the library tells of a line in the place of the column that is wrong.
type Told = fn(&Columns, usize) -> usize;

fn of_atom(line: &Columns) -> bool {
    matches!(Row::of(line), Some(Row::Atom | Row::Hetatm))
}

fn of_sheet(line: &Columns) -> bool {
    matches!(Row::of(line), Some(Row::FirstStrand | Row::Strand))
}

/// The last of some columns that is not behind this one.
fn last_of(columns: &[usize], column: usize) -> usize {
    columns.iter().copied().rfind(|&from| from <= column).unwrap_or(column)
}

/// Columns count from 0.
fn from_zero(_: &Columns, column: usize) -> usize {
    column - 1
}

/// The first of two chains that differ is blamed.
fn first_chain(line: &Columns, column: usize) -> usize {
    if column == 32 && Row::of(line) == Some(Row::Helix) {
        20
    } else {
        column
    }
}

/// The last chain is blamed, though the first is none.
fn last_chain(line: &Columns, column: usize) -> usize {
    if column == 20 && Row::of(line) == Some(Row::Helix) && line[31] != line[19] {
        32
    } else {
        column
    }
}

/// A sense that does not fit is blamed on the strand.
fn strand_for_sense(line: &Columns, column: usize) -> usize {
    if column == 39 && of_sheet(line) {
        8
    } else {
        column
    }
}

/// An element that does not fit is blamed on the name.
fn name_for_element(line: &Columns, column: usize) -> usize {
    if column == 77 && of_atom(line) {
        13
    } else {
        column
    }
}

/// The end of a name is blamed on the element.
fn element_for_name(line: &Columns, column: usize) -> usize {
    if column == 13 && of_atom(line) {
        77
    } else {
        column
    }
}

/// A name that could begin with no element is blamed itself.
fn name_without_element(line: &Columns, column: usize) -> usize {
    let begins = line[13].is_ascii_uppercase() || line[12].is_ascii_uppercase();
    if column == 77 && of_atom(line) && !begins {
        13
    } else {
        column
    }
}

/// A name that does not fill its columns is blamed itself.
fn name_not_filled(line: &Columns, column: usize) -> usize {
    if column == 77 && of_atom(line) && line[12] == line[77] && line[15] == b' ' {
        13
    } else {
        column
    }
}

/// A blank first partner is passed over: the first one that is there is blamed.
fn partner_behind_a_blank(line: &Columns, column: usize) -> usize {
    let there = |from: &usize| line[from - 1..from + 4] != *b"     ";
    if column == 12 && Row::of(line) == Some(Row::Conect) {
        [12, 17, 22, 27].into_iter().find(there).unwrap_or(12)
    } else {
        column
    }
}

/// A gap between partners is blamed itself.
fn gap(line: &Columns, column: usize) -> usize {
    if matches!(column, 22 | 27) && Row::of(line) == Some(Row::Conect) && line[column - 6..column - 1] == *b"     " {
        column - 5
    } else {
        column
    }
}

/// A partner that is the atom is blamed on the atom.
fn atom_for_partner(line: &Columns, column: usize) -> usize {
    let same = || line[column - 1..column + 4] == line[6..11];
    if matches!(column, 12 | 17 | 22 | 27) && Row::of(line) == Some(Row::Conect) && same() {
        7
    } else {
        column
    }
}

/// The last wrong field is told.
fn last_wrong(line: &Columns, column: usize) -> usize {
    let (mut seen, mut last) = (*line, column);
    loop {
        seen = mended(&seen, last);
        let mut next = 0;
        // SAFETY: the line is as long as said, and there is room for a number.
        unsafe { (LINKED.read_line)(seen.as_ptr(), seen.len(), &mut next) };
        if next as usize <= last {
            return last;
        }
        last = next as usize;
    }
}

/// The registration of strand 1 is judged by the fields that another has.
fn fields_of_first_strand(line: &Columns, column: usize) -> usize {
    if (42..=70).contains(&column) && Row::of(line) == Some(Row::FirstStrand) {
        last_of(&Row::Strand.columns(), column)
    } else {
        column
    }
}

/// The registration of any other strand is judged column by column, as that of strand 1.
fn columns_of_other_strand(line: &Columns, column: usize) -> usize {
    let filled = |at: &usize| line[at - 1] != b' ';
    if column == 42 && Row::of(line) == Some(Row::Strand) {
        (42..=70).find(filled).unwrap_or(column)
    } else {
        column
    }
}

/// The fixed numbers of MASTER are judged column by column.
fn columns_of_fixed_number(line: &Columns, column: usize) -> usize {
    if matches!(column, 16 | 36 | 41) && Row::of(line) == Some(Row::Master) {
        let wrong = line[column - 1..column + 4].iter().zip(b"    0").position(|(is, due)| is != due);
        column + wrong.unwrap_or(0)
    } else {
        column
    }
}

/// Neighbouring blank columns are one field.
fn blank_columns_as_one(line: &Columns, column: usize) -> usize {
    let columns = Row::of(line).map_or(Vec::new(), Row::columns);
    let mut first = column;
    while columns.contains(&(first - 1)) && line[first - 2] == b' ' {
        first -= 1;
    }
    first
}

/// The line of a text, from 1, as the wrong library sees it.
unsafe fn line_of<'t>(text: *const u8, line: u64) -> &'t Columns {
    &*text.add(81 * (line as usize - 1)).cast()
}

unsafe fn verdict(text: *const u8, n: usize, answer: *mut u64, told: Told) -> u32 {
    let number = (LINKED.verdict)(text, n, answer);
    let answer = from_raw_parts_mut(answer, 13);
    if number == 6 {
        answer[2] = told(line_of(text, answer[1]), answer[2] as usize) as u64;
    }
    number
}

unsafe fn read_line(line: *const u8, n: usize, column: *mut u64, told: Told) -> u32 {
    let number = (LINKED.read_line)(line, n, column);
    if number == 6 {
        *column = told(line_of(line, 1), *column as usize) as u64;
    }
    number
}

/// What is planted below is wrong by what it tells, not by the way it does.
#[test]
fn columns_told_as_they_are() {
    fn as_they_are(_: &Columns, column: usize) -> usize {
        column
    }
    unsafe extern "C" fn judged(text: *const u8, n: usize, answer: *mut u64) -> u32 {
        verdict(text, n, answer, as_they_are)
    }
    unsafe extern "C" fn read(line: *const u8, n: usize, column: *mut u64) -> u32 {
        read_line(line, n, column, as_they_are)
    }
    let library = Library { verdict: judged, read_line: read, ..LINKED };
    assert_eq!(differ::run(library, 5, 0..CASES).shown, Vec::<String>::new());
}

/// Two tests for each way to tell another column: in the verdict of a text, and of a line by itself.
macro_rules! told_otherwise {
    ($($in_a_text:ident, $of_a_line:ident: $told:ident;)*) => {
        planted! {
            $($in_a_text: verdict(text: *const u8, n: usize, answer: *mut u64) {
                verdict(text, n, answer, $told)
            }
            $of_a_line: read_line(line: *const u8, n: usize, column: *mut u64) {
                read_line(line, n, column, $told)
            })*
        }
    };
}

told_otherwise! {
    columns_count_from_zero_in_a_text, columns_count_from_zero: from_zero;
    the_first_chain_is_blamed_in_a_text, the_first_chain_is_blamed: first_chain;
    the_last_chain_is_always_blamed_in_a_text, the_last_chain_is_always_blamed: last_chain;
    a_sense_is_blamed_on_the_strand_in_a_text, a_sense_is_blamed_on_the_strand: strand_for_sense;
    an_element_is_blamed_on_the_name_in_a_text, an_element_is_blamed_on_the_name: name_for_element;
    a_name_is_blamed_on_the_element_in_a_text, a_name_is_blamed_on_the_element: element_for_name;
    a_name_of_no_element_is_blamed_in_a_text, a_name_of_no_element_is_blamed: name_without_element;
    a_name_that_is_not_filled_is_blamed_in_a_text, a_name_that_is_not_filled_is_blamed: name_not_filled;
    a_blank_first_partner_is_passed_over_in_a_text, a_blank_first_partner_is_passed_over: partner_behind_a_blank;
    a_gap_is_blamed_in_a_text, a_gap_is_blamed: gap;
    a_partner_is_blamed_on_the_atom_in_a_text, a_partner_is_blamed_on_the_atom: atom_for_partner;
    the_last_wrong_field_is_told_in_a_text, the_last_wrong_field_is_told: last_wrong;
    strand_1_is_judged_by_fields_in_a_text, strand_1_is_judged_by_fields: fields_of_first_strand;
    other_strands_are_judged_by_columns_in_a_text, other_strands_are_judged_by_columns: columns_of_other_strand;
    fixed_numbers_are_judged_by_columns_in_a_text, fixed_numbers_are_judged_by_columns: columns_of_fixed_number;
    blank_columns_are_one_field_in_a_text, blank_columns_are_one_field: blank_columns_as_one;
}

planted! {
    a_column_with_a_place: verdict(text: *const u8, n: usize, answer: *mut u64) {
        let number = (LINKED.verdict)(text, n, answer);
        if number == 5 {
            (LINKED.read_line)(text.add(81 * (*answer.add(1) as usize - 1)), 80, answer.add(2));
        }
        number
    }
    a_column_with_another_end: verdict(text: *const u8, n: usize, answer: *mut u64) {
        let number = (LINKED.verdict)(text, n, answer);
        if number == 2 {
            (LINKED.read_line)(text.add(81 * (*answer.add(1) as usize - 1)), 80, answer.add(2));
        }
        number
    }
    a_column_with_a_byte: read_line(line: *const u8, n: usize, column: *mut u64) {
        let number = (LINKED.read_line)(line, n, column);
        if number == 3 {
            let bytes = from_raw_parts(line, n);
            *column = 1 + bytes.iter().position(|byte| !(32..=126).contains(byte)).unwrap_or(0) as u64;
        }
        number
    }
    a_column_left_as_found_in_a_text: verdict(text: *const u8, n: usize, answer: *mut u64) {
        let found = *answer.add(2);
        let number = (LINKED.verdict)(text, n, answer);
        if number != 6 {
            *answer.add(2) = found;
        }
        number
    }
    a_column_left_as_found: read_line(line: *const u8, n: usize, column: *mut u64) {
        let found = *column;
        let number = (LINKED.read_line)(line, n, column);
        if number != 6 {
            *column = found;
        }
        number
    }
    a_column_left_as_found_where_granted: read_line(line: *const u8, n: usize, column: *mut u64) {
        let found = *column;
        let number = (LINKED.read_line)(line, n, column);
        if number == 0 {
            *column = found;
        }
        number
    }
    no_column_is_told: verdict(text: *const u8, n: usize, answer: *mut u64) {
        let number = (LINKED.verdict)(text, n, answer);
        *answer.add(2) = 0;
        number
    }
    the_column_behind_the_counts: verdict(text: *const u8, n: usize, answer: *mut u64) {
        let number = (LINKED.verdict)(text, n, answer);
        from_raw_parts_mut(answer, 13)[2..].rotate_left(1);
        number
    }
    the_good_lines_of_a_text_with_a_column: verdict(text: *const u8, n: usize, answer: *mut u64) {
        let number = (LINKED.verdict)(text, n, answer);
        if number == 6 {
            *answer.add(3) = *answer.add(1);
        }
        number
    }
    a_fourteenth_number: verdict(text: *const u8, n: usize, answer: *mut u64) {
        let number = (LINKED.verdict)(text, n, answer);
        *answer.add(13) ^= 1;
        number
    }
    a_carried_line_is_read: read_line(line: *const u8, n: usize, column: *mut u64) {
        let number = (LINKED.read_line)(line, n, column);
        if number == 4 && from_raw_parts(line, n).starts_with(b"REMARK") {
            return 0;
        }
        number
    }
    a_line_may_have_its_newline: read_line(line: *const u8, n: usize, column: *mut u64) {
        (LINKED.read_line)(line, if n == 81 { 80 } else { n }, column)
    }
}
