//! Errors in models: what the check believes of them, and what tables, single lines, tallies and jumps do.

use std::slice::{from_raw_parts, from_raw_parts_mut};

use differ::entry::{master_of_all, named, put_number, Columns, ATOMS, COORDINATES};
use differ::jumps::serial_of;
use differ::models::{bond, model_start, ENDMDL, ENDS, MODEL};
use differ::twins::{label, lines};
use station::raw::{Library, Slot, Tally, LINKED};

use crate::{assert_found, blame, needed};

fn is(line: &Columns, names: &[&[u8; 6]]) -> bool {
    named(&line[..], names)
}

/// Checks a text as a library that refuses some good lines more, with a number.
unsafe fn stricter(
    text: *const u8,
    n: usize,
    answer: *mut u64,
    number: u32,
    wrong: fn(&[&Columns], usize) -> bool,
) -> u32 {
    let told = (LINKED.check)(text, n, answer);
    let (good, lines) = (*answer.add(2) as usize, lines(from_raw_parts(text, n)));
    match (0..good.min(lines.len())).find(|&at| wrong(&lines, at)) {
        Some(at) => blame(text, at, number, answer),
        None => told,
    }
}

/// Checks a text as a library that answers otherwise where a line of these names is refused with a number, and what stands
/// above it is as told.
unsafe fn otherwise(
    text: *const u8,
    n: usize,
    answer: *mut u64,
    names: &[&[u8; 6]],
    above: fn(&[&Columns]) -> bool,
    number: u32,
    instead: u32,
) -> u32 {
    let told = (LINKED.check)(text, n, answer);
    let lines = lines(from_raw_parts(text, n));
    let at = (*answer.add(1) as usize).wrapping_sub(1);
    if told != number || !lines.get(at).is_some_and(|line| is(line, names) && above(&lines[..at])) {
        return told;
    }
    *answer = instead.into();
    if instead == 0 {
        *answer.add(1) = 0;
    }
    instead
}

fn anything(_: &[&Columns]) -> bool {
    true
}

/// A model that is not over.
fn open_model(above: &[&Columns]) -> bool {
    above.iter().rfind(|line| is(line, ENDS)).is_some_and(|line| is(line, &[MODEL]))
}

/// A second model.
fn second_model(above: &[&Columns]) -> bool {
    above.iter().filter(|line| is(line, &[MODEL])).count() > 1
}

/// An ENDMDL right above.
fn end_of_a_model(above: &[&Columns]) -> bool {
    above.last().is_some_and(|line| is(line, &[ENDMDL]))
}

/// Checks a text as a library that lets some numbers of models pass: by the number that is before, and the number.
unsafe fn numbered(text: *const u8, n: usize, answer: *mut u64, passes: fn(i64, i64) -> bool) -> u32 {
    let mut bytes = from_raw_parts(text, n).to_vec();
    let mut before = 0;
    for piece in bytes.chunks_mut(81) {
        let Some(line) = piece.first_chunk_mut::<80>().filter(|line| is(line, &[MODEL])) else { continue };
        let number = std::str::from_utf8(&line[10..14]).ok().and_then(|field| field.trim_start().parse().ok());
        if number.is_some_and(|number| (1..=9_999).contains(&number) && passes(before, number)) {
            put_number(line, 11, 14, before + 1);
        }
        before += 1;
    }
    (LINKED.check)(bytes.as_ptr(), n, answer)
}

/// The last coordinate line above a line.
fn coordinate_above<'t>(lines: &[&'t Columns], at: usize) -> Option<&'t Columns> {
    lines[..at].iter().rfind(|line| is(line, COORDINATES)).copied()
}

fn serial_not_above(lines: &[&Columns], at: usize) -> bool {
    let own = Some(lines[at]).filter(|line| is(line, COORDINATES)).and_then(|line| serial_of(line));
    own.is_some() && own <= coordinate_above(lines, at).and_then(|line| serial_of(line))
}

fn twin_in_any_model(lines: &[&Columns], at: usize) -> bool {
    let own = lines[at];
    is(own, ATOMS) && lines[..at].iter().any(|line| is(line, ATOMS) && label(line) == label(own))
}

fn other_chain_in_the_tail_above(lines: &[&Columns], at: usize) -> bool {
    let run = lines[..at].iter().rposition(|line| is(line, &[b"TER   "])).map_or(0, |ter| ter + 1);
    let mut tail = lines[run..at].iter().filter(|line| is(line, ATOMS));
    is(lines[at], &[b"ATOM  "]) && tail.any(|line| line[21] != lines[at][21])
}

fn number_of_a_later_model(lines: &[&Columns], at: usize) -> bool {
    let end = lines.iter().position(|line| is(line, &[ENDMDL])).unwrap_or(at);
    let atoms: Vec<Option<u32>> =
        lines[..end.min(at)].iter().filter(|line| is(line, ATOMS)).map(|line| serial_of(&line[..])).collect();
    is(lines[at], &[b"CONECT"]) && bond(lines[at]).into_iter().any(|number| !atoms.contains(&Some(number)))
}

fn counts_of_the_first_model_alone(lines: &[&Columns], at: usize) -> bool {
    let above: Vec<Columns> = lines[..at].iter().map(|line| **line).collect();
    is(lines[at], &[b"MASTER"]) && master_of_all(&above) != *lines[at]
}

fn lines_of_model(lines: &[&Columns], at: usize) -> usize {
    at - model_start(lines, at)
}

fn other_length_than_the_first(lines: &[&Columns], at: usize) -> bool {
    let first = lines.iter().position(|line| is(line, &[ENDMDL]));
    is(lines[at], &[ENDMDL]) && first.is_some_and(|first| lines_of_model(lines, first) != lines_of_model(lines, at))
}

/// A test for each wrong belief of the check that refuses too much.
macro_rules! strict {
    ($($belief:ident: $number:literal $wrong:expr)*) => {
        planted! {
            $($belief: check(text: *const u8, n: usize, answer: *mut u64) {
                stricter(text, n, answer, $number, $wrong)
            })*
        }
    };
}

strict! {
    serials_go_on_over_models: 7 serial_not_above
    runs_go_on_over_models: 8 other_chain_in_the_tail_above
    twins_are_looked_for_over_models: 21 twin_in_any_model
    empty_model_is_refused: 5 |lines, at| is(lines[at], &[ENDMDL]) && lines_of_model(lines, at) == 0
    empty_first_model_is_refused: 5 |lines, at| is(lines[at], &[ENDMDL]) && at > 0 && lines[at - 1][13] == b'1' && is(lines[at - 1], &[MODEL])
    models_have_to_be_of_one_length: 5 other_length_than_the_first
    bonds_are_those_of_the_first_model: 9 number_of_a_later_model
    master_counts_all_models: 11 counts_of_the_first_model_alone
    models_are_unknown: 4 |lines, at| is(lines[at], &[MODEL])
    models_have_one_digit: 6 |lines, at| is(lines[at], &[MODEL]) && lines[at][12] != b' '
}

/// A test for each wrong number that the check gives instead of another.
macro_rules! instead {
    ($($belief:ident: $names:expr, $above:expr, $number:literal => $instead:literal)*) => {
        planted! {
            $($belief: check(text: *const u8, n: usize, answer: *mut u64) {
                otherwise(text, n, answer, $names, $above, $number, $instead)
            })*
        }
    };
}

instead! {
    chain_may_be_open_at_the_end_of_a_model: &[ENDMDL], anything, 8 => 0
    atoms_may_stand_behind_models: ATOMS, end_of_a_model, 5 => 0
    ter_may_stand_behind_models: &[b"TER   "], end_of_a_model, 5 => 0
    bonds_may_stand_in_a_model: &[b"CONECT"], open_model, 5 => 0
    open_model_is_closed_by_master: &[b"MASTER"], open_model, 5 => 0
    open_model_is_closed_by_the_next: &[MODEL], open_model, 5 => 0
    number_of_a_model_is_a_field: &[MODEL], anything, 22 => 6
    number_of_a_model_is_its_place: &[MODEL], anything, 22 => 5
    fields_of_a_model_are_its_number: &[MODEL], anything, 6 => 22
    model_out_of_place_is_misnumbered: &[MODEL], anything, 5 => 22
    lone_end_of_a_model_is_unknown: &[ENDMDL], anything, 5 => 4
    columns_behind_endmdl_are_free: &[ENDMDL], anything, 6 => 0
    twins_of_a_later_model_are_let_pass: ATOMS, second_model, 21 => 0
    serials_of_a_later_model_may_fall: COORDINATES, second_model, 7 => 0
}

planted! {
    model_number_may_repeat: check(text: *const u8, n: usize, answer: *mut u64) {
        numbered(text, n, answer, |before, number| number == before)
    }
    model_number_may_be_skipped: check(text: *const u8, n: usize, answer: *mut u64) {
        numbered(text, n, answer, |before, number| before > 0 && number > before)
    }
    models_may_begin_anywhere: check(text: *const u8, n: usize, answer: *mut u64) {
        numbered(text, n, answer, |before, _| before == 0)
    }
    all_models_are_counted_by_the_check: check(text: *const u8, n: usize, answer: *mut u64) {
        let number = (LINKED.check)(text, n, answer);
        let lines = lines(from_raw_parts(text, n));
        let good = &lines[..lines.len().min(*answer.add(2) as usize)];
        let past = good.iter().skip_while(|line| !is(line, &[ENDMDL]));
        *answer.add(8) += past.filter(|line| is(line, ATOMS)).count() as u64;
        number
    }
    models_are_counted_as_coordinates: check(text: *const u8, n: usize, answer: *mut u64) {
        let number = (LINKED.check)(text, n, answer);
        let lines = lines(from_raw_parts(text, n));
        let good = &lines[..lines.len().min(*answer.add(2) as usize)];
        *answer.add(8) += good.iter().filter(|line| is(line, ENDS)).count() as u64;
        number
    }
    model_of_a_slot_is_always_0: load(text: *const u8, n: usize, table: *mut Slot, slots: usize, count: *mut u64) {
        let number = (LINKED.load)(text, n, table, slots, count);
        from_raw_parts_mut(table, *count as usize).iter_mut().for_each(|slot| slot.model = 0);
        number
    }
    model_of_a_slot_is_0_or_1: load(text: *const u8, n: usize, table: *mut Slot, slots: usize, count: *mut u64) {
        let number = (LINKED.load)(text, n, table, slots, count);
        from_raw_parts_mut(table, *count as usize).iter_mut().for_each(|slot| slot.model = slot.model.min(1));
        number
    }
    entry_without_models_is_model_1: load(text: *const u8, n: usize, table: *mut Slot, slots: usize, count: *mut u64) {
        let number = (LINKED.load)(text, n, table, slots, count);
        from_raw_parts_mut(table, *count as usize).iter_mut().for_each(|slot| slot.model = slot.model.max(1));
        number
    }
    empty_models_have_no_number: load(text: *const u8, n: usize, table: *mut Slot, slots: usize, count: *mut u64) {
        let number = (LINKED.load)(text, n, table, slots, count);
        let own = from_raw_parts_mut(table, *count as usize);
        let modelled = own.iter().any(|slot| slot.model > 0);
        for (model, number) in own.chunk_by_mut(|a, b| a.model == b.model).zip(1..).filter(|_| modelled) {
            model.iter_mut().for_each(|slot| slot.model = number);
        }
        number
    }
    first_model_alone_is_loaded: load(text: *const u8, n: usize, table: *mut Slot, slots: usize, count: *mut u64) {
        let number = (LINKED.load)(text, n, table, slots, count);
        *count = from_raw_parts(table, *count as usize).iter().filter(|slot| slot.model <= 1).count() as u64;
        number
    }
    fragment_spans_models: fragments(
        text: *const u8, n: usize, table: *const Slot, slots: usize, out: *mut u32, room: usize, count: *mut u64
    ) {
        let number = (LINKED.fragments)(text, n, table, slots, out, room, count);
        let (own, numbers) = (from_raw_parts(table, *count as usize), from_raw_parts_mut(out, *count as usize));
        let residue = |slot: &Slot| (slot.kind, slot.residue, slot.chain, slot.number, slot.insertion);
        let mut less = 0;
        for at in 1..own.len() {
            let closed = own[at..].iter().any(|slot| slot.kind == 3);
            let spans = own[at].model != own[at - 1].model && residue(&own[at]) == residue(&own[at - 1]);
            less += u32::from(spans && !closed);
            numbers[at] -= less;
        }
        number
    }
    fragments_begin_anew_in_each_model: fragments(
        text: *const u8, n: usize, table: *const Slot, slots: usize, out: *mut u32, room: usize, count: *mut u64
    ) {
        let number = (LINKED.fragments)(text, n, table, slots, out, room, count);
        let (own, numbers) = (from_raw_parts(table, *count as usize), from_raw_parts_mut(out, *count as usize));
        let mut above = 0;
        for model in own.chunk_by(|a, b| a.model == b.model) {
            let (first, end) = (numbers[above], above + model.len());
            numbers[above..end].iter_mut().for_each(|number| *number -= first - 1);
            above = end;
        }
        number
    }
    model_plays_no_part_in_belonging: order(
        text: *const u8, n: usize, table: *mut Slot, slots: usize, fragment: u32, aside: u8
    ) {
        let needed = needed(text, n).min(slots);
        let (mut healed, mut fresh) = (from_raw_parts(table, slots).to_vec(), vec![Slot::default(); slots]);
        (LINKED.load)(text, n, fresh.as_mut_ptr(), slots, &mut 0);
        for (slot, fresh) in healed.iter_mut().zip(&fresh).take(needed) {
            slot.model = fresh.model;
        }
        let number = (LINKED.order)(text, n, healed.as_mut_ptr(), slots, fragment, aside);
        for (slot, healed) in from_raw_parts_mut(table, slots).iter_mut().zip(&healed) {
            slot.mark = healed.mark;
        }
        number
    }
    order_moves_the_atoms_of_all_models: order(
        text: *const u8, n: usize, table: *mut Slot, slots: usize, fragment: u32, aside: u8
    ) {
        let before = from_raw_parts(table, slots).to_vec();
        let number = (LINKED.order)(text, n, table, slots, fragment, aside);
        let after = from_raw_parts_mut(table, needed(text, n).min(slots));
        let changed = after.iter().zip(&before).filter(|(is, was)| is.mark != was.mark);
        let moved: Vec<u32> = changed.map(|(slot, _)| slot.serial).collect();
        for slot in after.iter_mut().filter(|slot| moved.contains(&slot.serial)) {
            slot.mark = u8::from(aside != 0);
        }
        number
    }
    model_of_a_single_line_is_left: slot_of_line(line: *const u8, n: usize, slot: *mut Slot) {
        let model = (*slot).model;
        let number = (LINKED.slot_of_line)(line, n, slot);
        (*slot).model = model;
        number
    }
    model_line_has_a_slot: slot_of_line(line: *const u8, n: usize, slot: *mut Slot) {
        let number = (LINKED.slot_of_line)(line, n, slot);
        if number == 4 && named(from_raw_parts(line, n), &[MODEL]) { 0 } else { number }
    }
    model_line_is_unknown: rewrite_line(line: *const u8, n: usize, out: *mut u8, room: usize) {
        let number = (LINKED.rewrite_line)(line, n, out, room);
        if number == 6 && named(from_raw_parts(line, n), &[MODEL]) { 4 } else { number }
    }
    endmdl_line_is_unknown: rewrite_line(line: *const u8, n: usize, out: *mut u8, room: usize) {
        let number = (LINKED.rewrite_line)(line, n, out, room);
        if number == 6 && named(from_raw_parts(line, n), &[ENDMDL]) { 4 } else { number }
    }
    model_number_may_be_0: rewrite_line(line: *const u8, n: usize, out: *mut u8, room: usize) {
        let number = (LINKED.rewrite_line)(line, n, out, room);
        let zero = from_raw_parts(line, n).starts_with(b"MODEL        0  ");
        if number == 6 && zero { 0 } else { number }
    }
    past_plays_no_part: count_line_past(tally: *mut Tally, line: *const u8, n: usize, _past: u8) {
        (LINKED.count_line_past)(tally, line, n, 0)
    }
    only_one_means_past: count_line_past(tally: *mut Tally, line: *const u8, n: usize, past: u8) {
        (LINKED.count_line_past)(tally, line, n, u8::from(past == 1))
    }
    ter_is_counted_past_the_first_model: count_line_past(tally: *mut Tally, line: *const u8, n: usize, past: u8) {
        let ter = named(from_raw_parts(line, n), &[b"TER   "]);
        (LINKED.count_line_past)(tally, line, n, if ter { 0 } else { past })
    }
    nothing_is_counted_past_the_first_model: count_line_past(tally: *mut Tally, line: *const u8, n: usize, past: u8) {
        let before = *tally;
        let number = (LINKED.count_line_past)(tally, line, n, past);
        if past != 0 {
            *tally = before;
        }
        number
    }
    full_count_refuses_past_the_first_model: count_line_past(
        tally: *mut Tally, line: *const u8, n: usize, past: u8
    ) {
        let number = (LINKED.count_line_past)(&mut (*tally).clone(), line, n, 0);
        if number == 14 { 14 } else { (LINKED.count_line_past)(tally, line, n, past) }
    }
    model_is_no_name_of_the_tally: count_line(tally: *mut Tally, line: *const u8, n: usize) {
        if named(from_raw_parts(line, n), &[MODEL]) { 4 } else { (LINKED.count_line)(tally, line, n) }
    }
    endmdl_is_no_name_of_the_tally: count_line(tally: *mut Tally, line: *const u8, n: usize) {
        if named(from_raw_parts(line, n), &[ENDMDL]) { 4 } else { (LINKED.count_line)(tally, line, n) }
    }
    coordinates_are_never_counted: count_line(tally: *mut Tally, line: *const u8, n: usize) {
        (LINKED.count_line_past)(tally, line, n, 1)
    }
    jumps_stay_in_the_first_model: find(text: *const u8, n: usize, serial: u32, looked: *mut u64) -> u64 {
        let line = (LINKED.find)(text, n, serial, looked);
        let above = from_raw_parts(text, n.min(81 * line as usize)).chunks(81);
        if above.filter(|piece| named(piece, &[MODEL])).count() > 1 { 0 } else { line }
    }
}
