//! Errors in what is saved of models and in their tray. A wrong library parts the text as it is told by a belief, where the
//! linked one grants it.

use std::slice::{from_raw_parts, from_raw_parts_mut};

use differ::entry::{named, put_number, Columns, COORDINATES};
use differ::models::{bond, ENDS, MODEL};
use differ::twins::lines;
use station::raw::{Library, Slot, LINKED};

use crate::{assert_found, needed, CASES};

/// What a wrong library believes.
#[derive(Clone, Copy)]
struct Belief {
    /// Whether a number on a CONECT line still has its atom.
    has_atom: fn(&[Slot], u32) -> bool,
    /// Which numbers of a CONECT line are looked at.
    looked_at: fn(Vec<u32>) -> Vec<u32>,
    /// Whether a slot that stays is counted on MASTER.
    counted: fn(&Slot) -> bool,
    /// Whether a model that has no line is left out of the saved text.
    emptied_go: bool,
    /// Whether a MODEL or ENDMDL line is copied to the tray.
    copied: fn(&Columns) -> bool,
    /// Whether a model that has no line is left out of the tray.
    bare_go: bool,
}

/// What is right.
const RIGHT: Belief = Belief {
    has_atom: |slots, number| slots.iter().any(|slot| is_in(slot, number) && slot.kind != 3),
    looked_at: |numbers| numbers,
    counted: |slot| slot.model <= 1,
    emptied_go: false,
    copied: |_| true,
    bare_go: false,
};

/// Whether a slot has this number and is in.
fn is_in(slot: &Slot, number: u32) -> bool {
    slot.serial == number && slot.mark == 0
}

/// Leaves out the models without a line.
fn without_bare(lines: Vec<Columns>) -> Vec<Columns> {
    let mut kept: Vec<Columns> = Vec::new();
    for line in lines {
        let bare = named(&line, &[b"ENDMDL"]) && kept.last().is_some_and(|last| named(last, &[MODEL]));
        if bare {
            kept.pop();
        } else {
            kept.push(line);
        }
    }
    kept
}

/// The saved text and the tray, by a belief.
fn parted(text: &[u8], slots: &[Slot], belief: Belief) -> (Vec<Columns>, Vec<Columns>) {
    let (mut saved, mut tray, mut next) = (Vec::new(), Vec::new(), slots.iter());
    for line in lines(text) {
        let stays = match &line[..6] {
            _ if named(&line[..], COORDINATES) => next.next().is_some_and(|slot| slot.mark == 0),
            b"CONECT" => (belief.looked_at)(bond(line)).into_iter().all(|number| (belief.has_atom)(slots, number)),
            _ => true,
        };
        let copied = named(&line[..], ENDS) && (belief.copied)(line);
        if !stays || copied {
            tray.push(*line);
        }
        if stays {
            saved.push(*line);
        }
    }
    if let Some(at) = saved.iter().position(|line| named(line, &[b"MASTER"])) {
        let left = |kinds: &[u8]| {
            let stays = |slot: &&Slot| slot.mark == 0 && kinds.contains(&slot.kind) && (belief.counted)(slot);
            slots.iter().filter(stays).count() as i64
        };
        let bonds = saved.iter().filter(|line| named(&line[..], &[b"CONECT"])).count() as i64;
        for (from, count) in [(51, left(&[1, 2])), (56, left(&[3])), (61, bonds)] {
            put_number(&mut saved[at], from, from + 4, count);
        }
    }
    (
        if belief.emptied_go { without_bare(saved) } else { saved },
        if belief.bare_go { without_bare(tray) } else { tray },
    )
}

type Write = unsafe extern "C" fn(*const u8, usize, *const Slot, usize, *mut u8, usize, *mut u64) -> u32;

/// Writes what a library with this belief would, where the linked one grants it with room enough.
#[allow(clippy::too_many_arguments)]
unsafe fn write(
    call: Write,
    text: *const u8,
    n: usize,
    table: *const Slot,
    slots: usize,
    out: *mut u8,
    room: usize,
    count: *mut u64,
    part: impl Fn((Vec<Columns>, Vec<Columns>)) -> Vec<Columns>,
    belief: Belief,
) -> u32 {
    let number = call(text, n, table, slots, vec![0; n].as_mut_ptr(), n, count);
    if number != 0 {
        return number;
    }
    let own = from_raw_parts(table, needed(text, n));
    let bytes = differ::entry::text(&part(parted(from_raw_parts(text, n), own, belief)));
    *count = 0;
    if bytes.len() > room {
        return 17;
    }
    from_raw_parts_mut(out, bytes.len()).copy_from_slice(&bytes);
    *count = bytes.len() as u64;
    0
}

/// A test for each wrong belief, about what is saved or about the tray.
macro_rules! believed {
    ($call:ident, $part:expr; $($belief:ident: $changed:expr)*) => {
        planted! {
            $($belief: $call(
                text: *const u8, n: usize, table: *const Slot, slots: usize, out: *mut u8, room: usize, count: *mut u64
            ) {
                write(LINKED.$call, text, n, table, slots, out, room, count, $part, $changed)
            })*
        }
    };
}

/// What is planted below is wrong by its belief, not by the way it parts a text.
#[test]
fn parts_as_they_are() {
    macro_rules! right {
        ($call:ident, $part:expr) => {{
            unsafe extern "C" fn written(
                text: *const u8,
                n: usize,
                table: *const Slot,
                slots: usize,
                out: *mut u8,
                room: usize,
                count: *mut u64,
            ) -> u32 {
                write(LINKED.$call, text, n, table, slots, out, room, count, $part, RIGHT)
            }
            let findings = differ::run(Library { $call: written, ..LINKED }, 5, 0..CASES);
            assert_eq!(findings.shown, Vec::<String>::new());
        }};
    }
    right!(save, |parts| parts.0);
    right!(tray, |parts| parts.1);
}

fn in_everywhere(slots: &[Slot], number: u32) -> bool {
    slots.iter().all(|slot| slot.serial != number || slot.kind == 3 || slot.mark == 0)
}

fn in_the_first_model(slots: &[Slot], number: u32) -> bool {
    slots.iter().any(|slot| is_in(slot, number) && slot.kind != 3 && slot.model <= 1)
}

fn in_the_first_model_that_has_it(slots: &[Slot], number: u32) -> bool {
    slots.iter().find(|slot| slot.serial == number && slot.kind != 3).is_some_and(|slot| slot.mark == 0)
}

believed! { save, |parts| parts.0;
    bond_goes_with_one_model: Belief { has_atom: in_everywhere, ..RIGHT }
    bond_stays_though_no_model_has_its_atom: Belief { has_atom: |_, _| true, ..RIGHT }
    bond_goes_with_the_first_model: Belief { has_atom: in_the_first_model, ..RIGHT }
    bond_goes_with_the_first_model_that_has_its_atom: Belief { has_atom: in_the_first_model_that_has_it, ..RIGHT }
    bond_stays_by_a_ter: Belief { has_atom: |slots, number| slots.iter().any(|slot| is_in(slot, number)), ..RIGHT }
    partners_are_not_looked_at: Belief { looked_at: |numbers| numbers[..1].to_vec(), ..RIGHT }
    atom_of_a_bond_is_not_looked_at: Belief { looked_at: |numbers| numbers[1..].to_vec(), ..RIGHT }
    all_models_are_counted_in_the_saved_master: Belief { counted: |_| true, ..RIGHT }
    second_model_is_counted_in_the_saved_master: Belief { counted: |slot| slot.model <= 2, ..RIGHT }
    emptied_models_are_not_saved: Belief { emptied_go: true, ..RIGHT }
}

believed! { tray, |parts| parts.1;
    bond_is_on_the_tray_with_one_model: Belief { has_atom: in_everywhere, ..RIGHT }
    bond_is_never_on_the_tray: Belief { has_atom: |_, _| true, ..RIGHT }
    model_line_is_not_on_the_tray: Belief { copied: |line| !named(&line[..], &[MODEL]), ..RIGHT }
    endmdl_line_is_not_on_the_tray: Belief { copied: |line| named(&line[..], &[MODEL]), ..RIGHT }
    tray_has_no_models: Belief { copied: |_| false, ..RIGHT }
    tray_has_only_models_with_something_aside: Belief { bare_go: true, ..RIGHT }
}
