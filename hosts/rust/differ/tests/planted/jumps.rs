//! Errors in jumps. A wrong library jumps as it is told by a belief, with the linked one reading each line.

use std::slice::from_raw_parts;

use differ::entry::{named, ATOMS, PIECE};
use station::raw::{Library, Slot, LINKED};

use crate::{assert_found, CASES};

/// What a wrong library believes.
#[derive(Clone, Copy)]
struct Belief {
    /// The lines that it looks at, on the way to a serial. What is left out is not counted either.
    lines: for<'t> fn(&'t [u8], u32) -> Vec<&'t [u8]>,
    /// Whether a line is that of the atom with a serial.
    hit: fn(&[u8], u32) -> bool,
    /// Whether it gives the last of several.
    last: bool,
    /// How many lines it says that it looked at: the line that it gives or 0, and the text.
    looked: fn(u64, &[u8]) -> u64,
}

/// What is right.
const RIGHT: Belief = Belief {
    lines: whole_pieces,
    hit: |line, serial| ends(line) && of_kind(line, serial, &[1, 2]),
    last: false,
    looked: |line, text| if line > 0 { line } else { whole(text) },
};

fn whole_pieces(text: &[u8], _: u32) -> Vec<&[u8]> {
    text.chunks_exact(PIECE).collect()
}

fn whole(text: &[u8]) -> u64 {
    (text.len() / PIECE) as u64
}

/// Whether a line ends in its newline.
fn ends(line: &[u8]) -> bool {
    line.ends_with(b"\n")
}

/// The slot of a line, whatever its last byte.
fn slot(line: &[u8]) -> Option<Slot> {
    let columns = line.get(..80)?;
    let mut slot = Slot::default();
    // SAFETY: the columns are as many as said.
    let number = unsafe { (LINKED.slot_of_line)(columns.as_ptr(), columns.len(), &mut slot) };
    (number == 0).then_some(slot)
}

/// Whether a line reads as one of these kinds with a serial.
fn of_kind(line: &[u8], serial: u32, kinds: &[u8]) -> bool {
    slot(line).is_some_and(|slot| slot.serial == serial && kinds.contains(&slot.kind))
}

/// Whether a line has a serial in columns 7-11, whatever else stands in it.
fn by_columns(line: &[u8], serial: u32) -> bool {
    ends(line) && line.get(6..11) == Some(format!("{serial:5}").as_bytes())
}

/// Jumps as a library with this belief would.
unsafe fn jump(text: *const u8, n: usize, serial: u32, looked: *mut u64, belief: Belief) -> u64 {
    let text = from_raw_parts(text, n);
    let lines = (belief.lines)(text, serial);
    let hit = |line: &&[u8]| (belief.hit)(line, serial);
    let found = if belief.last { lines.iter().rposition(hit) } else { lines.iter().position(hit) };
    let line = found.map_or(0, |above| above as u64 + 1);
    *looked = (belief.looked)(line, text);
    line
}

/// What is planted below is wrong by its belief, not by the way it jumps.
#[test]
fn jumps_as_they_are() {
    unsafe extern "C" fn found(text: *const u8, n: usize, serial: u32, looked: *mut u64) -> u64 {
        jump(text, n, serial, looked, RIGHT)
    }
    let findings = differ::run(Library { find: found, ..LINKED }, 5, 0..CASES);
    assert_eq!(findings.shown, Vec::<String>::new());
    assert!(findings.reached[&(differ::Call::Find, 1)] > 1_000);
}

fn cut_at_newlines(text: &[u8], _: u32) -> Vec<&[u8]> {
    text.split_inclusive(|&byte| byte == b'\n').collect()
}

fn rest_too(text: &[u8], _: u32) -> Vec<&[u8]> {
    text.chunks(PIECE).collect()
}

fn lines_that_read(text: &[u8], serial: u32) -> Vec<&[u8]> {
    whole_pieces(text, serial).into_iter().filter(|line| slot(line).is_some() || !named(line, ATOMS)).collect()
}

fn good_lines(text: &[u8], _: u32) -> Vec<&[u8]> {
    text.chunks_exact(PIECE).take(reference::check(text).good_lines as usize).collect()
}

fn up_to_the_first_above(text: &[u8], serial: u32) -> Vec<&[u8]> {
    let not_above = |line: &&[u8]| slot(line).is_none_or(|slot| slot.serial <= serial);
    whole_pieces(text, serial).into_iter().take_while(not_above).collect()
}

fn up_to_end(text: &[u8], serial: u32) -> Vec<&[u8]> {
    whole_pieces(text, serial).into_iter().take_while(|line| !named(line, &[b"END   "])).collect()
}

fn conect_too(line: &[u8], serial: u32) -> bool {
    (RIGHT.hit)(line, serial) || (named(line, &[b"CONECT"]) && by_columns(line, serial))
}

fn sixteen_bits(line: &[u8], serial: u32) -> bool {
    slot(line).is_some_and(|slot| slot.serial as u16 == serial as u16 && (RIGHT.hit)(line, slot.serial))
}

fn newline_may_miss(line: &[u8], serial: u32) -> bool {
    (RIGHT.hit)(line, serial) || (line.len() == PIECE - 1 && of_kind(line, serial, &[1, 2]))
}

fn those_that_end(line: u64, text: &[u8]) -> u64 {
    if line > 0 {
        line
    } else {
        text.chunks_exact(PIECE).filter(|line| ends(line)).count() as u64
    }
}

fn short_rest_too(line: u64, text: &[u8]) -> u64 {
    if line > 0 {
        line
    } else {
        text.len().div_ceil(PIECE) as u64
    }
}

/// A test for each wrong belief about jumps.
macro_rules! believed {
    ($($belief:ident: $changed:expr)*) => {
        planted! {
            $($belief: find(text: *const u8, n: usize, serial: u32, looked: *mut u64) -> u64 {
                jump(text, n, serial, looked, $changed)
            })*
        }
    };
}

believed! {
    last_line_of_several_is_given: Belief { last: true, ..RIGHT }
    line_may_end_in_another_byte: Belief { hit: |line, serial| of_kind(line, serial, &[1, 2]), ..RIGHT }
    ter_is_an_atom: Belief { hit: |line, serial| ends(line) && of_kind(line, serial, &[1, 2, 3]), ..RIGHT }
    hetatm_is_no_atom: Belief { hit: |line, serial| ends(line) && of_kind(line, serial, &[1]), ..RIGHT }
    atom_is_no_heterogen: Belief { hit: |line, serial| ends(line) && of_kind(line, serial, &[2]), ..RIGHT }
    conect_has_the_atom: Belief { hit: conect_too, ..RIGHT }
    other_fields_are_not_looked_at: Belief { hit: |line, serial| named(line, ATOMS) && by_columns(line, serial), ..RIGHT }
    name_is_not_looked_at: Belief { hit: by_columns, ..RIGHT }
    serial_is_cut_to_its_columns: Belief { hit: |line, serial| (RIGHT.hit)(line, serial % 100_000), ..RIGHT }
    serial_is_cut_to_sixteen_bits: Belief { hit: sixteen_bits, ..RIGHT }
    lines_end_at_newlines: Belief { lines: cut_at_newlines, ..RIGHT }
    last_newline_may_miss_in_a_jump: Belief { lines: rest_too, hit: newline_may_miss, ..RIGHT }
    lines_that_do_not_read_have_no_number: Belief { lines: lines_that_read, ..RIGHT }
    only_good_lines_are_looked_at: Belief { lines: good_lines, ..RIGHT }
    serials_are_believed_to_rise: Belief { lines: up_to_the_first_above, ..RIGHT }
    text_is_over_at_end: Belief { lines: up_to_end, ..RIGHT }
    looked_is_one_less: Belief { looked: |line, text| (RIGHT.looked)(line, text).saturating_sub(1), ..RIGHT }
    line_given_is_not_looked_at: Belief { looked: |line, text| if line > 0 { line - 1 } else { whole(text) }, ..RIGHT }
    all_lines_are_looked_at: Belief { looked: |_, text| whole(text), ..RIGHT }
    only_lines_that_end_are_looked_at: Belief { looked: those_that_end, ..RIGHT }
    short_rest_is_looked_at: Belief { looked: short_rest_too, ..RIGHT }
    nothing_is_looked_at_for_nothing: Belief { looked: |line, _| line, ..RIGHT }
}

planted! {
    looked_is_left_where_there_is_no_line: find(text: *const u8, n: usize, serial: u32, looked: *mut u64) -> u64 {
        let before = *looked;
        let line = (LINKED.find)(text, n, serial, looked);
        if line == 0 {
            *looked = before;
        }
        line
    }
    looked_is_left_where_no_line_can_have_the_serial: find(
        text: *const u8, n: usize, serial: u32, looked: *mut u64
    ) -> u64 {
        if serial == 0 || serial > 99_999 {
            return 0;
        }
        (LINKED.find)(text, n, serial, looked)
    }
    looked_has_thirty_two_bits: find(text: *const u8, n: usize, serial: u32, looked: *mut u64) -> u64 {
        let mut own = 0;
        let line = (LINKED.find)(text, n, serial, &mut own);
        *looked.cast::<u32>() = own as u32;
        line
    }
    two_numbers_are_written: find(text: *const u8, n: usize, serial: u32, looked: *mut u64) -> u64 {
        let line = (LINKED.find)(text, n, serial, looked);
        *looked.add(1) ^= line;
        line
    }
    line_given_is_marked: find(text: *const u8, n: usize, serial: u32, looked: *mut u64) -> u64 {
        let line = (LINKED.find)(text, n, serial, looked);
        if line > 0 {
            *text.cast_mut().add(PIECE * line as usize - 1) = b'*';
        }
        line
    }
}
