//! Errors planted into the library: the harness has to find each of them.
//!
//! A planted library is the linked one with a single name replaced by a function that is wrong in one way.

use std::slice::{from_raw_parts, from_raw_parts_mut};

use differ::entry::{named, COORDINATES};
use station::raw::{Library, Slot, Tally, LINKED};

/// Cases enough to find any of the errors.
const CASES: u64 = 4_000;

/// So many of them are run before it is asked whether the error is found: most are within the first hundred.
const AT_ONCE: u64 = 50;

fn assert_found(wrong_belief: &str, library: Library) {
    let mut calls = 0;
    for first in (0..CASES).step_by(AT_ONCE as usize) {
        let findings = differ::run(library, 5, first..first + AT_ONCE);
        calls += findings.calls;
        if findings.differences > 0 {
            println!("{wrong_belief}: {} differences, found in {calls} calls", findings.differences);
            return;
        }
    }
    panic!("{wrong_belief} was not found in {calls} calls");
}

/// How many slots an accepted text needs.
unsafe fn needed(text: *const u8, n: usize) -> usize {
    from_raw_parts(text, n).chunks(81).filter(|line| named(line, COORDINATES)).count()
}

/// The answer to a text that is refused with a number at a line, counted from 0: the lines above are good.
unsafe fn blame(text: *const u8, at: usize, number: u32, answer: *mut u64) -> u32 {
    (LINKED.check)(text, 81 * at, answer);
    *answer = number.into();
    number
}

/// What a name answers: a number of refusal, unless something else is said.
macro_rules! answer {
    () => {
        u32
    };
    ($kind:ty) => {
        $kind
    };
}

/// A test for each error: the name that is replaced, its arguments, and what is done instead.
macro_rules! planted {
    ($($belief:ident: $name:ident ($($argument:ident: $kind:ty),*) $(-> $answer:ty)? $body:block)*) => {
        $(#[test]
        fn $belief() {
            unsafe extern "C" fn wrong($($argument: $kind),*) -> answer!($($answer)?) $body
            assert_found(stringify!($belief), Library { $name: wrong, ..LINKED });
        })*
    };
}

mod columns;
mod crystal;
mod fences;
mod fragments;
mod jumps;
mod models;
mod models_saved;
mod names;
mod places;
mod twins;

planted! {
    ter_counts_as_coordinate: check(text: *const u8, n: usize, answer: *mut u64) {
        let number = (LINKED.check)(text, n, answer);
        let answer = from_raw_parts_mut(answer, 12);
        answer[8] += answer[9];
        number
    }
    all_lines_are_good: check(text: *const u8, n: usize, answer: *mut u64) {
        let number = (LINKED.check)(text, n, answer);
        *answer.add(2) = n.div_ceil(81) as u64;
        number
    }
    line_before_the_offending_one: check(text: *const u8, n: usize, answer: *mut u64) {
        let number = (LINKED.check)(text, n, answer);
        *answer.add(1) = (*answer.add(1)).saturating_sub(1);
        number
    }
    last_newline_may_miss: check(text: *const u8, n: usize, answer: *mut u64) {
        let bytes = from_raw_parts(text, n);
        if n % 81 == 80 {
            let whole = [bytes, b"\n"].concat();
            return (LINKED.check)(whole.as_ptr(), whole.len(), answer);
        }
        (LINKED.check)(text, n, answer)
    }
    lent_text_is_changed: check(text: *const u8, n: usize, answer: *mut u64) {
        let number = (LINKED.check)(text, n, answer);
        if n > 500 {
            *text.cast_mut().add(n - 1) ^= 1;
        }
        number
    }
    refused_load_wrote_a_slot: load(text: *const u8, n: usize, table: *mut Slot, slots: usize, count: *mut u64) {
        let number = (LINKED.load)(text, n, table, slots, count);
        if number == 13 && slots > 0 {
            (*table).serial ^= 1;
        }
        number
    }
    refused_load_leaves_the_count: load(text: *const u8, n: usize, table: *mut Slot, slots: usize, count: *mut u64) {
        let before = *count;
        let number = (LINKED.load)(text, n, table, slots, count);
        if number != 0 {
            *count = before;
        }
        number
    }
    load_clears_the_spare_slot: load(text: *const u8, n: usize, table: *mut Slot, slots: usize, count: *mut u64) {
        let number = (LINKED.load)(text, n, table, slots, count);
        if number == 0 && (*count as usize) < slots {
            *table.add(*count as usize) = Slot::default();
        }
        number
    }
    load_writes_past_the_table: load(text: *const u8, n: usize, table: *mut Slot, slots: usize, count: *mut u64) {
        let number = (LINKED.load)(text, n, table, slots, count);
        if number == 0 {
            (*table.add(slots)).mark ^= 1;
        }
        number
    }
    deuterium_is_kept_as_hydrogen: load(text: *const u8, n: usize, table: *mut Slot, slots: usize, count: *mut u64) {
        let number = (LINKED.load)(text, n, table, slots, count);
        for index in 0..*count as usize {
            let slot = &mut *table.add(index);
            if slot.element == *b" D" {
                slot.element = *b" H";
            }
        }
        number
    }
    order_marks_the_first_slot_alone: order(
        text: *const u8, n: usize, table: *mut Slot, slots: usize, fragment: u32, aside: u8
    ) {
        let before = from_raw_parts(table, slots).to_vec();
        let number = (LINKED.order)(text, n, table, slots, fragment, aside);
        let after = from_raw_parts_mut(table, slots);
        let changed: Vec<usize> = (0..slots).filter(|&index| before[index] != after[index]).collect();
        for &index in changed.iter().skip(1) {
            after[index] = before[index];
        }
        number
    }
    order_granted_without_effect: order(
        text: *const u8, n: usize, table: *mut Slot, slots: usize, fragment: u32, aside: u8
    ) {
        let before = from_raw_parts(table, slots).to_vec();
        let number = (LINKED.order)(text, n, table, slots, fragment, aside);
        from_raw_parts_mut(table, slots).copy_from_slice(&before);
        number
    }
    only_one_means_aside: order(
        text: *const u8, n: usize, table: *mut Slot, slots: usize, fragment: u32, aside: u8
    ) {
        (LINKED.order)(text, n, table, slots, fragment, u8::from(aside == 1))
    }
    spare_slots_are_judged: order(
        text: *const u8, n: usize, table: *mut Slot, slots: usize, fragment: u32, aside: u8
    ) {
        if slots > 0 && (*table.add(slots - 1)).mark > 1 {
            return 18;
        }
        (LINKED.order)(text, n, table, slots, fragment, aside)
    }
    damaged_mark_is_in: order(
        text: *const u8, n: usize, table: *mut Slot, slots: usize, fragment: u32, aside: u8
    ) {
        let mut healed = from_raw_parts(table, slots).to_vec();
        for slot in &mut healed {
            slot.mark &= 1;
        }
        let number = (LINKED.order)(text, n, healed.as_mut_ptr(), slots, fragment, aside);
        if number == 0 {
            from_raw_parts_mut(table, slots).copy_from_slice(&healed);
        }
        number
    }
    marks_may_disagree: save(
        text: *const u8, n: usize, table: *const Slot, slots: usize, out: *mut u8, room: usize, count: *mut u64
    ) {
        let mut own = from_raw_parts(table, slots).to_vec();
        if let Some(last) = own.first().copied() {
            for slot in own.iter_mut().skip(1).take(1) {
                slot.mark = last.mark;
            }
        }
        (LINKED.save)(text, n, own.as_ptr(), slots, out, room, count)
    }
    save_returns_the_text: save(
        text: *const u8, n: usize, table: *const Slot, slots: usize, out: *mut u8, room: usize, count: *mut u64
    ) {
        let mut own = from_raw_parts(table, slots).to_vec();
        for slot in &mut own {
            slot.mark = 0;
        }
        (LINKED.save)(text, n, own.as_ptr(), slots, out, room, count)
    }
    bond_kept_whose_atom_is_in_the_tray: save(
        text: *const u8, n: usize, table: *const Slot, slots: usize, out: *mut u8, room: usize, count: *mut u64
    ) {
        let number = (LINKED.save)(text, n, table, slots, out, room, count);
        if number != 0 {
            return number;
        }
        let mut own = from_raw_parts(table, slots).iter();
        let mut saved = Vec::new();
        for line in from_raw_parts(text, n).chunks(81) {
            let coordinate = [&b"ATOM  "[..], b"HETATM", b"TER   "].contains(&&line[..6]);
            if !coordinate || own.next().is_some_and(|slot| slot.mark == 0) {
                saved.extend_from_slice(line);
            }
        }
        let master = saved.len().saturating_sub(162);
        let own = from_raw_parts(table, needed(text, n));
        let counted = |slot: &Slot| slot.mark == 0 && slot.model <= 1;
        let left = |kinds: &[u8]| own.iter().filter(|slot| counted(slot) && kinds.contains(&slot.kind)).count();
        let (coordinates, ters) = (left(&[1, 2]), left(&[3]));
        saved[master + 50..master + 60].copy_from_slice(format!("{coordinates:5}{ters:5}").as_bytes());
        if saved.len() > room {
            return 17;
        }
        from_raw_parts_mut(out, saved.len()).copy_from_slice(&saved);
        *count = saved.len() as u64;
        0
    }
    room_for_the_whole_text_is_asked: save(
        text: *const u8, n: usize, table: *const Slot, slots: usize, out: *mut u8, room: usize, count: *mut u64
    ) {
        let mut scratch = vec![0; room];
        let number = (LINKED.save)(text, n, table, slots, scratch.as_mut_ptr(), room, count);
        if number == 0 && room < n {
            *count = 0;
            return 17;
        }
        (LINKED.save)(text, n, table, slots, out, room, count)
    }
    tray_without_bonds: tray(
        text: *const u8, n: usize, table: *const Slot, slots: usize, out: *mut u8, room: usize, count: *mut u64
    ) {
        let number = (LINKED.tray)(text, n, table, slots, out, room, count);
        let written = from_raw_parts(out, *count as usize);
        let kept = written.chunks(81).filter(|line| !line.starts_with(b"CONECT")).count();
        *count = 81 * kept as u64;
        number
    }
    refused_tray_writes: tray(
        text: *const u8, n: usize, table: *const Slot, slots: usize, out: *mut u8, room: usize, count: *mut u64
    ) {
        let number = (LINKED.tray)(text, n, table, slots, out, room, count);
        if number == 17 && room > 0 {
            *out = *out.wrapping_add(1) ^ 1;
            *out ^= 0x55;
        }
        number
    }
    negative_number_is_damage: slot_of_line(line: *const u8, n: usize, slot: *mut Slot) {
        let before = *slot;
        let number = (LINKED.slot_of_line)(line, n, slot);
        if number == 0 && (*slot).number < 0 {
            *slot = before;
            return 6;
        }
        number
    }
    refused_line_writes_the_slot: slot_of_line(line: *const u8, n: usize, slot: *mut Slot) {
        let number = (LINKED.slot_of_line)(line, n, slot);
        if number == 6 {
            (*slot).mark = (*slot).mark.wrapping_add(1);
        }
        number
    }
    line_with_its_newline_reads: rewrite_line(line: *const u8, n: usize, out: *mut u8, room: usize) {
        (LINKED.rewrite_line)(line, if n == 81 { 80 } else { n }, out, room)
    }
    record_written_with_a_newline: rewrite_line(line: *const u8, n: usize, out: *mut u8, room: usize) {
        let number = (LINKED.rewrite_line)(line, n, out, room);
        if number == 0 && room > 80 {
            *out.add(80) = b'\n';
        }
        number
    }
    carried_lines_read: rewrite_line(line: *const u8, n: usize, out: *mut u8, room: usize) {
        let number = (LINKED.rewrite_line)(line, n, out, room);
        if number == 4 && from_raw_parts(line, n).starts_with(b"REMARK") {
            return 0;
        }
        number
    }
    ter_is_drawn: dot(slot: *const Slot, out: *mut f64) {
        let mut own = *slot;
        if own.kind == 3 {
            own.kind = 1;
        }
        (LINKED.dot)(&own, out)
    }
    dots_in_angstroms: dot(slot: *const Slot, out: *mut f64) {
        let drawn = (LINKED.dot)(slot, out);
        if drawn == 1 {
            *out /= 1000.0;
        }
        drawn
    }
    stroke_to_an_atom_set_aside: stroke(a: *const Slot, b: *const Slot, out: *mut f64) {
        let mut own = *b;
        if own.mark == 1 {
            own.mark = 0;
        }
        (LINKED.stroke)(a, &own, out)
    }
    middle_in_whole_thousandths: frame(table: *const Slot, slots: usize, out: *mut f64) {
        let number = (LINKED.frame)(table, slots, out);
        if number == 0 {
            *out.add(6) = (*out.add(6)).floor();
        }
        number
    }
    middle_is_a_negative_zero: frame(table: *const Slot, slots: usize, out: *mut f64) {
        let number = (LINKED.frame)(table, slots, out);
        if number == 0 && *out.add(8) == 0.0 {
            *out.add(8) = -0.0;
        }
        number
    }
    frame_holds_what_is_aside: frame(table: *const Slot, slots: usize, out: *mut f64) {
        let mut own = from_raw_parts(table, slots).to_vec();
        for slot in &mut own {
            if slot.mark == 1 {
                slot.mark = 0;
            }
        }
        (LINKED.frame)(own.as_ptr(), slots, out)
    }
    full_tally_is_raised: count_line(tally: *mut Tally, line: *const u8, n: usize) {
        let number = (LINKED.count_line)(tally, line, n);
        if number == 14 && from_raw_parts(line, n).starts_with(b"REMARK") {
            (*tally).remark = (*tally).remark.wrapping_add(1);
            return 0;
        }
        number
    }
    any_full_count_refuses: count_line(tally: *mut Tally, line: *const u8, n: usize) {
        if n >= 6 && (*tally).seq >= 99_999 {
            return 14;
        }
        (LINKED.count_line)(tally, line, n)
    }
}
