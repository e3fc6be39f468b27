//! Errors in the fragments of slots and in arrangements.

use std::slice::{from_raw_parts, from_raw_parts_mut};

use station::raw::{Library, Slot, LINKED};

use crate::{assert_found, needed, CASES};

planted! {
    fragments_count_from_zero: fragments(
        text: *const u8, n: usize, table: *const Slot, slots: usize, out: *mut u32, room: usize, count: *mut u64
    ) {
        let number = (LINKED.fragments)(text, n, table, slots, out, room, count);
        for fragment in from_raw_parts_mut(out, *count as usize) {
            *fragment -= 1;
        }
        number
    }
    ter_begins_the_next_fragment: fragments(
        text: *const u8, n: usize, table: *const Slot, slots: usize, out: *mut u32, room: usize, count: *mut u64
    ) {
        let number = (LINKED.fragments)(text, n, table, slots, out, room, count);
        for index in 0..*count as usize {
            if (*table.add(index)).kind == 3 {
                *out.add(index) += 1;
            }
        }
        number
    }
    tail_is_one_fragment: fragments(
        text: *const u8, n: usize, table: *const Slot, slots: usize, out: *mut u32, room: usize, count: *mut u64
    ) {
        let number = (LINKED.fragments)(text, n, table, slots, out, room, count);
        let own = from_raw_parts(table, *count as usize);
        let tail = own.iter().rposition(|slot| slot.kind == 3).map_or(0, |last| last + 1);
        for index in tail + 1..own.len() {
            *out.add(index) = *out.add(tail);
        }
        number
    }
    fragment_set_aside_has_no_number: fragments(
        text: *const u8, n: usize, table: *const Slot, slots: usize, out: *mut u32, room: usize, count: *mut u64
    ) {
        let number = (LINKED.fragments)(text, n, table, slots, out, room, count);
        for index in 0..*count as usize {
            if (*table.add(index)).mark == 1 {
                *out.add(index) = 0;
            }
        }
        number
    }
    spare_slots_get_a_number: fragments(
        text: *const u8, n: usize, table: *const Slot, slots: usize, out: *mut u32, room: usize, count: *mut u64
    ) {
        let number = (LINKED.fragments)(text, n, table, slots, out, room, count);
        let needed = *count as usize;
        if number == 0 && needed < slots && needed < room {
            *out.add(needed) = 0;
        }
        number
    }
    room_for_spare_slots_is_asked: fragments(
        text: *const u8, n: usize, table: *const Slot, slots: usize, out: *mut u32, room: usize, count: *mut u64
    ) {
        let mut scratch = vec![0; room];
        let number = (LINKED.fragments)(text, n, table, slots, scratch.as_mut_ptr(), room, count);
        if number == 0 && room < slots {
            *count = 0;
            return 17;
        }
        (LINKED.fragments)(text, n, table, slots, out, room, count)
    }
    numbers_are_cut_to_the_room: fragments(
        text: *const u8, n: usize, table: *const Slot, slots: usize, out: *mut u32, room: usize, count: *mut u64
    ) {
        let mut all = vec![0; slots];
        let number = (LINKED.fragments)(text, n, table, slots, all.as_mut_ptr(), slots, count);
        *count = (*count).min(room as u64);
        let written = *count as usize;
        from_raw_parts_mut(out, written).copy_from_slice(&all[..written]);
        number
    }
    count_is_that_of_fragments: fragments(
        text: *const u8, n: usize, table: *const Slot, slots: usize, out: *mut u32, room: usize, count: *mut u64
    ) {
        let number = (LINKED.fragments)(text, n, table, slots, out, room, count);
        *count = from_raw_parts(out, *count as usize).last().map_or(0, |&last| u64::from(last));
        number
    }
    refused_fragments_leave_the_count: fragments(
        text: *const u8, n: usize, table: *const Slot, slots: usize, out: *mut u32, room: usize, count: *mut u64
    ) {
        let before = *count;
        let number = (LINKED.fragments)(text, n, table, slots, out, room, count);
        if number == 17 {
            *count = before;
        }
        number
    }
    room_is_looked_at_before_the_table: fragments(
        text: *const u8, n: usize, table: *const Slot, slots: usize, out: *mut u32, room: usize, count: *mut u64
    ) {
        let number = (LINKED.fragments)(text, n, table, slots, out, room, count);
        if number == 18 && room == 0 {
            return 17;
        }
        number
    }
    arrangement_without_effect: arrange(
        text: *const u8, n: usize, table: *mut Slot, slots: usize, aside: *const u8, fragments: usize
    ) {
        let before = from_raw_parts(table, slots).to_vec();
        let number = (LINKED.arrange)(text, n, table, slots, aside, fragments);
        from_raw_parts_mut(table, slots).copy_from_slice(&before);
        number
    }
    arrangement_only_sets_aside: arrange(
        text: *const u8, n: usize, table: *mut Slot, slots: usize, aside: *const u8, fragments: usize
    ) {
        let before = from_raw_parts(table, slots).to_vec();
        let number = (LINKED.arrange)(text, n, table, slots, aside, fragments);
        for (slot, before) in from_raw_parts_mut(table, slots).iter_mut().zip(before) {
            slot.mark |= before.mark;
        }
        number
    }
    list_is_read_from_its_end: arrange(
        text: *const u8, n: usize, table: *mut Slot, slots: usize, aside: *const u8, fragments: usize
    ) {
        let list: Vec<u8> = from_raw_parts(aside, fragments).iter().rev().copied().collect();
        (LINKED.arrange)(text, n, table, slots, list.as_ptr(), fragments)
    }
    only_one_means_aside_in_a_list: arrange(
        text: *const u8, n: usize, table: *mut Slot, slots: usize, aside: *const u8, fragments: usize
    ) {
        let list: Vec<u8> = from_raw_parts(aside, fragments).iter().map(|&byte| u8::from(byte == 1)).collect();
        (LINKED.arrange)(text, n, table, slots, list.as_ptr(), fragments)
    }
    byte_becomes_the_mark: arrange(
        text: *const u8, n: usize, table: *mut Slot, slots: usize, aside: *const u8, fragments: usize
    ) {
        let number = (LINKED.arrange)(text, n, table, slots, aside, fragments);
        if number == 0 && fragments > 0 && (*table).mark == 1 {
            (*table).mark = *aside;
        }
        number
    }
    list_may_be_longer: arrange(
        text: *const u8, n: usize, table: *mut Slot, slots: usize, aside: *const u8, fragments: usize
    ) {
        match (LINKED.arrange)(text, n, table, slots, aside, fragments) {
            15 if fragments > 0 => (LINKED.arrange)(text, n, table, slots, aside, fragments - 1),
            number => number,
        }
    }
    what_the_list_lacks_is_in: arrange(
        text: *const u8, n: usize, table: *mut Slot, slots: usize, aside: *const u8, fragments: usize
    ) {
        let list = [from_raw_parts(aside, fragments), &[0]].concat();
        match (LINKED.arrange)(text, n, table, slots, aside, fragments) {
            15 => (LINKED.arrange)(text, n, table, slots, list.as_ptr(), list.len()),
            number => number,
        }
    }
    empty_list_changes_nothing: arrange(
        text: *const u8, n: usize, table: *mut Slot, slots: usize, aside: *const u8, fragments: usize
    ) {
        match (LINKED.arrange)(text, n, table, slots, aside, fragments) {
            15 if fragments == 0 => 0,
            number => number,
        }
    }
    nothing_to_move_is_refused: arrange(
        text: *const u8, n: usize, table: *mut Slot, slots: usize, aside: *const u8, fragments: usize
    ) {
        let before = from_raw_parts(table, slots).to_vec();
        let number = (LINKED.arrange)(text, n, table, slots, aside, fragments);
        if number == 0 && fragments > 0 && from_raw_parts(table, slots) == before {
            return 16;
        }
        number
    }
    list_is_looked_at_before_the_table: arrange(
        text: *const u8, n: usize, table: *mut Slot, slots: usize, aside: *const u8, fragments: usize
    ) {
        match (LINKED.arrange)(text, n, table, slots, aside, fragments) {
            18 if fragments == 0 => 15,
            number => number,
        }
    }
    refused_arrangement_marks: arrange(
        text: *const u8, n: usize, table: *mut Slot, slots: usize, aside: *const u8, fragments: usize
    ) {
        let number = (LINKED.arrange)(text, n, table, slots, aside, fragments);
        if number == 15 && slots > 0 && fragments > 0 {
            (*table).mark ^= 1;
        }
        number
    }
    arrangement_marks_spare_slots: arrange(
        text: *const u8, n: usize, table: *mut Slot, slots: usize, aside: *const u8, fragments: usize
    ) {
        let number = (LINKED.arrange)(text, n, table, slots, aside, fragments);
        if number == 0 {
            for slot in from_raw_parts_mut(table, slots).iter_mut().skip(needed(text, n)) {
                slot.mark = 0;
            }
        }
        number
    }
    ter_stays_when_its_run_goes: arrange(
        text: *const u8, n: usize, table: *mut Slot, slots: usize, aside: *const u8, fragments: usize
    ) {
        let number = (LINKED.arrange)(text, n, table, slots, aside, fragments);
        if number == 0 {
            for slot in from_raw_parts_mut(table, slots).iter_mut().filter(|slot| slot.kind == 3) {
                slot.mark = 0;
            }
        }
        number
    }
    list_is_made_tidy: arrange(
        text: *const u8, n: usize, table: *mut Slot, slots: usize, aside: *const u8, fragments: usize
    ) {
        let number = (LINKED.arrange)(text, n, table, slots, aside, fragments);
        for byte in from_raw_parts_mut(aside.cast_mut(), fragments) {
            *byte = (*byte).min(1);
        }
        number
    }
}

/// An arrangement is held against orders one by one as well, through the same library.
#[test]
fn orders_that_leave_another_table() {
    unsafe extern "C" fn wrong(
        text: *const u8,
        n: usize,
        table: *mut Slot,
        slots: usize,
        fragment: u32,
        aside: u8,
    ) -> u32 {
        (LINKED.order)(text, n, table, slots, fragment.max(2), aside)
    }
    let findings = differ::run(Library { order: wrong, ..LINKED }, 5, 0..CASES);
    let told = |words: &String| words.contains("Arrange: reference 0, library 0; table by orders wrong");
    assert!(findings.shown.iter().any(told), "{:#?}", findings.shown);
}
