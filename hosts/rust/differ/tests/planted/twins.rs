//! Errors in how atoms are told apart. A wrong library is the linked one where no two atoms are the same, with a wrong belief
//! about twins of its own.

use std::slice::{from_raw_parts, from_raw_parts_mut};

use differ::entry::{named, Columns, ATOMS};
use differ::models::model_start;
use differ::names::put_name;
use differ::twins::{label, lines, residue, twin_above, Label, ALTERNATE, CHAIN, INSERTION, NAME, RESIDUE};
use station::raw::{Library, Slot, LINKED};

use crate::{assert_found, blame, CASES};

/// What a wrong library believes.
#[derive(Clone, Copy)]
struct Belief {
    /// The line above that is taken for a twin of a line.
    twin: fn(&[&Columns], usize) -> Option<usize>,
    /// The number that a text gets which would be refused with this one, and has twins: above that line, or on it.
    instead: fn(u32, bool) -> u32,
    /// Whether the first of the two is blamed.
    first: bool,
}

/// What is right: 21 if the twin comes on an earlier line, and what else is wrong if it is wrong on the same line.
const RIGHT: Belief =
    Belief { twin: twin_above, instead: |number, above| if above { 21 } else { number }, first: false };

/// The name of the atom of so many: four columns that no other has.
fn name_of(count: usize) -> [u8; 4] {
    const NAME: &[u8] = b"0123456789ABCDEFGHIJKLMNOPQRSTUVWXYZ'*";
    let digit = |size: usize| NAME[count / size % NAME.len()];
    [b'C', digit(NAME.len() * NAME.len()), digit(NAME.len()), digit(1)]
}

/// A text in which no two atoms that read are the same, and all else is as it was.
unsafe fn distinct(text: *const u8, n: usize) -> Vec<u8> {
    let mut bytes = from_raw_parts(text, n).to_vec();
    for (count, piece) in bytes.chunks_mut(81).enumerate() {
        let Some(line) = piece.first_chunk_mut::<80>() else { continue };
        let mut slot = Slot::default();
        if named(&line[..], ATOMS) && (LINKED.slot_of_line)(line.as_ptr(), 80, &mut slot) == 0 {
            put_name(line, (name_of(count), *b" C"));
        }
    }
    bytes
}

/// Checks a text as a library with this belief would.
unsafe fn check(text: *const u8, n: usize, answer: *mut u64, belief: Belief) -> u32 {
    let (seen, original) = (distinct(text, n), from_raw_parts(text, n));
    let number = (LINKED.check)(seen.as_ptr(), n, answer);
    let lines = lines(original);
    let good = *answer.add(2) as usize;
    // The line that is refused counts too: it may have a twin.
    let last = if number == 0 || number == 12 { good } else { good + 1 }.min(lines.len());
    let Some((at, twin)) = (0..last).find_map(|at| (belief.twin)(&lines, at).map(|twin| (at, twin))) else {
        return number;
    };
    let told = if number == 0 { 21 } else { (belief.instead)(number, at < good) };
    if told == 21 {
        // The lines above the one that is blamed are good, and then the text is over.
        blame(seen.as_ptr(), if belief.first { twin } else { at }, 21, answer);
    }
    told
}

/// A twin above by another way to tell atoms apart. The residue's number tells them apart in any case, and quickly.
fn twin_by<T: PartialEq>(lines: &[&Columns], at: usize, what: fn(&Columns) -> T) -> Option<usize> {
    let own = lines.get(at).filter(|line| named(&line[..], ATOMS))?;
    let same = |line: &&Columns| line[22..26] == own[22..26] && named(&line[..], ATOMS) && what(line) == what(own);
    let start = model_start(lines, at);
    lines[start..at].iter().position(same).map(|above| start + above)
}

fn without(line: &Columns, field: std::ops::Range<usize>) -> Label {
    let mut label = label(line);
    label[field].fill(0);
    label
}

fn alternate_ignored(lines: &[&Columns], at: usize) -> Option<usize> {
    twin_by(lines, at, |line| without(line, ALTERNATE))
}

fn blank_is_a(lines: &[&Columns], at: usize) -> Option<usize> {
    twin_by(lines, at, |line| (without(line, ALTERNATE), if line[16] == b' ' { b'A' } else { line[16] }))
}

fn insertion_ignored(lines: &[&Columns], at: usize) -> Option<usize> {
    twin_by(lines, at, |line| without(line, INSERTION))
}

fn chain_ignored(lines: &[&Columns], at: usize) -> Option<usize> {
    twin_by(lines, at, |line| without(line, CHAIN))
}

fn residue_name_ignored(lines: &[&Columns], at: usize) -> Option<usize> {
    twin_by(lines, at, |line| without(line, RESIDUE))
}

fn names_without_blanks(lines: &[&Columns], at: usize) -> Option<usize> {
    twin_by(lines, at, |line| (line[12..16].trim_ascii().to_vec(), without(line, NAME)))
}

fn element_too(lines: &[&Columns], at: usize) -> Option<usize> {
    twin_by(lines, at, |line| (label(line), [line[76], line[77]]))
}

fn kinds_apart(lines: &[&Columns], at: usize) -> Option<usize> {
    twin_by(lines, at, |line| (label(line), line[0]))
}

/// A TER is taken for an atom of its residue without a name.
fn ter_too(lines: &[&Columns], at: usize) -> Option<usize> {
    let is_ter = |line: &&&Columns| named(&line[..], &[b"TER   "]);
    let above = |own: &&Columns| {
        let start = model_start(lines, at);
        lines[start..at].iter().position(|line| line[12..] == own[12..]).map(|ter| start + ter)
    };
    let ter = lines.get(at).filter(is_ter).and_then(above);
    ter.or_else(|| twin_above(lines, at))
}

/// A twin above that is among the last lines.
fn twin_from(lines: &[&Columns], from: usize, at: usize) -> Option<usize> {
    twin_above(&lines[from..], at - from).map(|twin| from + twin)
}

fn line_before_alone(lines: &[&Columns], at: usize) -> Option<usize> {
    twin_from(lines, at.saturating_sub(1), at)
}

fn some_lines_alone(lines: &[&Columns], at: usize) -> Option<usize> {
    twin_from(lines, at.saturating_sub(500), at)
}

fn first_atom_forgotten(lines: &[&Columns], at: usize) -> Option<usize> {
    let first = lines.iter().position(|line| named(&line[..], ATOMS));
    twin_above(lines, at).filter(|&twin| Some(twin) != first)
}

fn same_run_alone(lines: &[&Columns], at: usize) -> Option<usize> {
    let ter = lines[..at].iter().rposition(|line| named(&line[..], &[b"TER   "]));
    twin_from(lines, ter.map_or(0, |ter| ter + 1), at)
}

fn same_stretch_alone(lines: &[&Columns], at: usize) -> Option<usize> {
    let own = label(lines[at]);
    let other = lines[..at].iter().rposition(|line| residue(&label(line)) != residue(&own));
    twin_from(lines, other.map_or(0, |other| other + 1), at)
}

/// What is planted below is wrong by its belief, not by the way it looks.
#[test]
fn twins_as_they_are() {
    unsafe extern "C" fn checked(text: *const u8, n: usize, answer: *mut u64) -> u32 {
        check(text, n, answer, RIGHT)
    }
    let findings = differ::run(Library { check: checked, ..LINKED }, 5, 0..CASES);
    assert_eq!(findings.shown, Vec::<String>::new());
    assert!(findings.reached[&(differ::Call::Check, 21)] > 50);
}

/// A test for each wrong belief about twins.
macro_rules! believed {
    ($($belief:ident: $changed:expr)*) => {
        planted! {
            $($belief: check(text: *const u8, n: usize, answer: *mut u64) {
                check(text, n, answer, $changed)
            })*
        }
    };
}

believed! {
    alternate_location_plays_no_part: Belief { twin: alternate_ignored, ..RIGHT }
    blank_alternate_location_is_a: Belief { twin: blank_is_a, ..RIGHT }
    insertion_code_plays_no_part: Belief { twin: insertion_ignored, ..RIGHT }
    chain_plays_no_part: Belief { twin: chain_ignored, ..RIGHT }
    residue_name_plays_no_part: Belief { twin: residue_name_ignored, ..RIGHT }
    names_are_compared_without_blanks: Belief { twin: names_without_blanks, ..RIGHT }
    element_tells_atoms_apart: Belief { twin: element_too, ..RIGHT }
    atom_and_hetatm_are_kept_apart: Belief { twin: kinds_apart, ..RIGHT }
    ter_has_an_atom: Belief { twin: ter_too, ..RIGHT }
    only_the_line_before_is_looked_at: Belief { twin: line_before_alone, ..RIGHT }
    only_five_hundred_lines_are_looked_at: Belief { twin: some_lines_alone, ..RIGHT }
    first_atom_is_not_looked_at: Belief { twin: first_atom_forgotten, ..RIGHT }
    only_the_same_run_is_looked_at: Belief { twin: same_run_alone, ..RIGHT }
    only_the_same_stretch_is_looked_at: Belief { twin: same_stretch_alone, ..RIGHT }
    twins_are_never_found: Belief { twin: |_, _| None, ..RIGHT }
    twins_come_before_serials: Belief { instead: |number, above| if above || number == 7 { 21 } else { number }, ..RIGHT }
    twins_come_before_runs: Belief { instead: |number, above| if above || number == 8 { 21 } else { number }, ..RIGHT }
    twins_come_after_bonds: Belief { instead: |number, above| if above && number != 9 { 21 } else { number }, ..RIGHT }
    twins_come_after_counts: Belief { instead: |number, above| if above && number != 11 { 21 } else { number }, ..RIGHT }
    first_of_two_twins_is_blamed: Belief { first: true, ..RIGHT }
}

planted! {
    twins_are_loaded: load(text: *const u8, n: usize, table: *mut Slot, slots: usize, count: *mut u64) {
        let number = (LINKED.load)(text, n, table, slots, count);
        if number != 21 {
            return number;
        }
        (LINKED.load)(distinct(text, n).as_ptr(), n, table, slots, count)
    }
    twins_leave_a_slot: load(text: *const u8, n: usize, table: *mut Slot, slots: usize, count: *mut u64) {
        let number = (LINKED.load)(text, n, table, slots, count);
        if number == 21 && slots > 0 {
            (*table).serial ^= 1;
        }
        number
    }
    short_table_comes_before_twins: load(text: *const u8, n: usize, table: *mut Slot, slots: usize, count: *mut u64) {
        let number = (LINKED.load)(text, n, table, slots, count);
        let mut other = vec![Slot::default(); slots];
        let otherwise = (LINKED.load)(distinct(text, n).as_ptr(), n, other.as_mut_ptr(), slots, &mut 0);
        if number == 21 && otherwise == 13 {
            return 13;
        }
        number
    }
    twins_are_ordered: order(
        text: *const u8, n: usize, table: *mut Slot, slots: usize, fragment: u32, aside: u8
    ) {
        let number = (LINKED.order)(text, n, table, slots, fragment, aside);
        if number != 21 {
            return number;
        }
        (LINKED.order)(distinct(text, n).as_ptr(), n, table, slots, fragment, aside)
    }
    twins_are_arranged: arrange(
        text: *const u8, n: usize, table: *mut Slot, slots: usize, aside: *const u8, fragments: usize
    ) {
        let number = (LINKED.arrange)(text, n, table, slots, aside, fragments);
        if number != 21 {
            return number;
        }
        (LINKED.arrange)(distinct(text, n).as_ptr(), n, table, slots, aside, fragments)
    }
    twins_have_fragments: fragments(
        text: *const u8, n: usize, table: *const Slot, slots: usize, out: *mut u32, room: usize, count: *mut u64
    ) {
        let number = (LINKED.fragments)(text, n, table, slots, out, room, count);
        if number != 21 {
            return number;
        }
        (LINKED.fragments)(distinct(text, n).as_ptr(), n, table, slots, out, room, count)
    }
    twins_are_saved: save(
        text: *const u8, n: usize, table: *const Slot, slots: usize, out: *mut u8, room: usize, count: *mut u64
    ) {
        let number = (LINKED.save)(text, n, table, slots, out, room, count);
        if number != 21 {
            return number;
        }
        (LINKED.save)(distinct(text, n).as_ptr(), n, table, slots, out, room, count)
    }
    twins_have_a_tray: tray(
        text: *const u8, n: usize, table: *const Slot, slots: usize, out: *mut u8, room: usize, count: *mut u64
    ) {
        let number = (LINKED.tray)(text, n, table, slots, out, room, count);
        if number == 21 && room > 0 {
            from_raw_parts_mut(out, 1)[0] ^= 1;
        }
        number
    }
}
