//! Errors in the names of atoms that begin in column 13. A wrong library is the linked one, which sees other names.

use std::slice::{from_raw_parts, from_raw_parts_mut};

use differ::entry::Columns;
use differ::names::{put_name, Form, Named};
use station::raw::{Library, Slot, LINKED};

use crate::{assert_found, CASES};

/// What the library sees in the place of a name of this form.
type Seen = fn(Form, Named) -> Named;

/// A name of three columns is seen as one of four.
fn three_as_four(form: Form, (name, element): Named) -> Named {
    let [a, b, c, d] = name;
    ([a, b, c, if form == Form::Three { b'1' } else { d }], element)
}

/// The first letter of an element of two is seen as the element.
fn half_as_whole(form: Form, (name, element): Named) -> Named {
    let [a, b, c, d] = name;
    ([a, if form == Form::HalfOfTwo { element[1] } else { b }, c, d], element)
}

/// A name of four columns is seen with a wrong one.
fn four_as_wrong(form: Form, (name, element): Named) -> Named {
    let [a, b, c, d] = name;
    ([a, if form == Form::Filled { b'#' } else { b }, c, d], element)
}

/// Whatever stands in columns 14 to 16 is seen as a name character, blanks apart.
fn strange_as_letter(form: Form, (mut name, element): Named) -> Named {
    if let Form::Strange(column) = form {
        name[usize::from(column) - 13] = b'A';
    }
    (name, element)
}

/// Whatever stands in column 13 is seen as the element.
fn other_as_element(form: Form, (name, element): Named) -> Named {
    let [a, b, c, d] = name;
    ([if form == Form::Other { element[1] } else { a }, b, c, d], element)
}

/// Small letters are seen as capitals.
fn lower_as_capital(form: Form, (name, element): Named) -> Named {
    (if form == Form::Lower { name.map(|byte| byte.to_ascii_uppercase()) } else { name }, element)
}

/// A line, or a text, as the wrong library sees it.
unsafe fn seen(text: *const u8, n: usize, see: Seen) -> Vec<u8> {
    let mut bytes = from_raw_parts(text, n).to_vec();
    for piece in bytes.chunks_mut(81) {
        let columns: Option<&mut Columns> = piece.get_mut(..80).and_then(|columns| columns.try_into().ok());
        let Some(columns) = columns else { continue };
        if let Some(form) = Form::of_line(&columns[..]) {
            let name = [columns[12], columns[13], columns[14], columns[15]];
            put_name(columns, see(form, (name, [columns[76], columns[77]])));
        }
    }
    bytes
}

unsafe fn check(text: *const u8, n: usize, answer: *mut u64, see: Seen) -> u32 {
    (LINKED.check)(seen(text, n, see).as_ptr(), n, answer)
}

unsafe fn slot_of_line(line: *const u8, n: usize, slot: *mut Slot, see: Seen) -> u32 {
    let number = (LINKED.slot_of_line)(seen(line, n, see).as_ptr(), n, slot);
    if number == 0 && (*slot).kind != 3 {
        (*slot).name.copy_from_slice(from_raw_parts(line.add(12), 4));
    }
    number
}

unsafe fn rewrite_line(line: *const u8, n: usize, out: *mut u8, room: usize, see: Seen) -> u32 {
    let number = (LINKED.rewrite_line)(seen(line, n, see).as_ptr(), n, out, room);
    if number == 0 {
        from_raw_parts_mut(out, 80).copy_from_slice(from_raw_parts(line, 80));
    }
    number
}

/// What is planted below is wrong by what it sees, not by the way it looks.
#[test]
fn names_seen_as_they_are() {
    fn as_they_are(_: Form, name: Named) -> Named {
        name
    }
    unsafe extern "C" fn checked(text: *const u8, n: usize, answer: *mut u64) -> u32 {
        check(text, n, answer, as_they_are)
    }
    unsafe extern "C" fn filled(line: *const u8, n: usize, slot: *mut Slot) -> u32 {
        slot_of_line(line, n, slot, as_they_are)
    }
    unsafe extern "C" fn rewritten(line: *const u8, n: usize, out: *mut u8, room: usize) -> u32 {
        rewrite_line(line, n, out, room, as_they_are)
    }
    let library = Library { check: checked, slot_of_line: filled, rewrite_line: rewritten, ..LINKED };
    assert_eq!(differ::run(library, 5, 0..CASES).shown, Vec::<String>::new());
}

planted! {
    three_filled_columns_will_do_in_a_text: check(text: *const u8, n: usize, answer: *mut u64) {
        check(text, n, answer, three_as_four)
    }
    three_filled_columns_will_do: slot_of_line(line: *const u8, n: usize, slot: *mut Slot) {
        slot_of_line(line, n, slot, three_as_four)
    }
    first_letter_of_two_will_do_in_a_text: check(text: *const u8, n: usize, answer: *mut u64) {
        check(text, n, answer, half_as_whole)
    }
    first_letter_of_two_will_do: rewrite_line(line: *const u8, n: usize, out: *mut u8, room: usize) {
        rewrite_line(line, n, out, room, half_as_whole)
    }
    four_filled_columns_are_refused_in_a_text: check(text: *const u8, n: usize, answer: *mut u64) {
        check(text, n, answer, four_as_wrong)
    }
    four_filled_columns_are_refused: slot_of_line(line: *const u8, n: usize, slot: *mut Slot) {
        slot_of_line(line, n, slot, four_as_wrong)
    }
    any_four_columns_will_do: rewrite_line(line: *const u8, n: usize, out: *mut u8, room: usize) {
        rewrite_line(line, n, out, room, strange_as_letter)
    }
    any_first_letter_will_do: slot_of_line(line: *const u8, n: usize, slot: *mut Slot) {
        slot_of_line(line, n, slot, other_as_element)
    }
    small_letters_will_do: rewrite_line(line: *const u8, n: usize, out: *mut u8, room: usize) {
        rewrite_line(line, n, out, room, lower_as_capital)
    }
    four_filled_columns_are_refused_in_a_table: load(
        text: *const u8, n: usize, table: *mut Slot, slots: usize, count: *mut u64
    ) {
        (LINKED.load)(seen(text, n, four_as_wrong).as_ptr(), n, table, slots, count)
    }
}
