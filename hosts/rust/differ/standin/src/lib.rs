//! The reference behind the C names of `include/station.h`. It stands in for the proved library where that is not at
//! hand, so that the harness and the command line can be built and tested.

#![allow(clippy::missing_safety_doc)]

mod crystal;

use reference::{Mark, Refusal, Slot, Tally};

/// The tally as it is lent.
#[repr(C)]
pub struct LentTally([u32; 9]);

unsafe fn lent<'a, T>(start: *const T, count: usize) -> &'a [T] {
    if count == 0 {
        &[]
    } else {
        std::slice::from_raw_parts(start, count)
    }
}

unsafe fn lent_mut<'a, T>(start: *mut T, count: usize) -> &'a mut [T] {
    if count == 0 {
        &mut []
    } else {
        std::slice::from_raw_parts_mut(start, count)
    }
}

fn number<T>(answer: Result<T, Refusal>) -> u32 {
    answer.map_or_else(Refusal::number, |_| 0)
}

unsafe fn counted(answer: Result<usize, Refusal>, count: *mut u64) -> u32 {
    *count = answer.map_or(0, |made| made as u64);
    number(answer)
}

unsafe fn drawn<const N: usize>(answer: Option<[f64; N]>, out: *mut f64) -> u32 {
    match answer {
        Some(doubles) => {
            lent_mut(out, N).copy_from_slice(&doubles);
            1
        }
        None => 0,
    }
}

#[no_mangle]
pub unsafe extern "C" fn station_check(text: *const u8, n: usize, answer: *mut u64) -> u32 {
    let verdict = reference::check(lent(text, n));
    let number = verdict.refusal.map_or(0, Refusal::number);
    let answer = lent_mut(answer, 12);
    answer[..3].copy_from_slice(&[u64::from(number), verdict.line, verdict.good_lines]);
    answer[3..].copy_from_slice(&verdict.tally.counts());
    number
}

#[no_mangle]
pub unsafe extern "C" fn station_verdict(text: *const u8, n: usize, answer: *mut u64) -> u32 {
    let verdict = reference::check(lent(text, n));
    let number = verdict.refusal.map_or(0, Refusal::number);
    let answer = lent_mut(answer, 13);
    answer[..4].copy_from_slice(&[u64::from(number), verdict.line, verdict.column, verdict.good_lines]);
    answer[4..].copy_from_slice(&verdict.tally.counts());
    number
}

#[no_mangle]
pub unsafe extern "C" fn station_load(
    text: *const u8,
    n: usize,
    table: *mut Slot,
    slots: usize,
    count: *mut u64,
) -> u32 {
    counted(reference::load(lent(text, n), lent_mut(table, slots)), count)
}

#[no_mangle]
pub unsafe extern "C" fn station_order(
    text: *const u8,
    n: usize,
    table: *mut Slot,
    slots: usize,
    fragment: u32,
    aside: u8,
) -> u32 {
    let fragment = reference::FragmentNumber(fragment);
    number(reference::order(lent(text, n), lent_mut(table, slots), fragment, Mark::asked(aside)))
}

#[no_mangle]
pub unsafe extern "C" fn station_arrange(
    text: *const u8,
    n: usize,
    table: *mut Slot,
    slots: usize,
    aside: *const u8,
    fragments: usize,
) -> u32 {
    let marks: Vec<Mark> = lent(aside, fragments).iter().copied().map(Mark::asked).collect();
    number(reference::arrange(lent(text, n), lent_mut(table, slots), &marks))
}

#[no_mangle]
pub unsafe extern "C" fn station_fragments(
    text: *const u8,
    n: usize,
    table: *const Slot,
    slots: usize,
    out: *mut u32,
    room: usize,
    count: *mut u64,
) -> u32 {
    counted(reference::fragment_numbers(lent(text, n), lent(table, slots), lent_mut(out, room)), count)
}

#[no_mangle]
pub unsafe extern "C" fn station_save(
    text: *const u8,
    n: usize,
    table: *const Slot,
    slots: usize,
    out: *mut u8,
    room: usize,
    count: *mut u64,
) -> u32 {
    counted(reference::save(lent(text, n), lent(table, slots), lent_mut(out, room)), count)
}

#[no_mangle]
pub unsafe extern "C" fn station_tray(
    text: *const u8,
    n: usize,
    table: *const Slot,
    slots: usize,
    out: *mut u8,
    room: usize,
    count: *mut u64,
) -> u32 {
    counted(reference::tray(lent(text, n), lent(table, slots), lent_mut(out, room)), count)
}

#[no_mangle]
pub unsafe extern "C" fn station_slot_of_line(line: *const u8, n: usize, slot: *mut Slot) -> u32 {
    let answer = reference::slot_of_line(lent(line, n));
    if let Ok(filled) = answer {
        *slot = filled;
    }
    number(answer)
}

#[no_mangle]
pub unsafe extern "C" fn station_rewrite_line(line: *const u8, n: usize, out: *mut u8, room: usize) -> u32 {
    number(reference::rewrite_line(lent(line, n), lent_mut(out, room)))
}

#[no_mangle]
pub unsafe extern "C" fn station_read_line(line: *const u8, n: usize, column: *mut u64) -> u32 {
    let answer = reference::read_line(lent(line, n));
    *column = answer.map_or_else(|blame| blame.column, |_| 0);
    number(answer.map_err(|blame| blame.refusal))
}

#[no_mangle]
pub unsafe extern "C" fn station_find(text: *const u8, n: usize, serial: u32, looked: *mut u64) -> u64 {
    let jump = reference::find(lent(text, n), reference::Serial(serial));
    *looked = jump.looked;
    jump.line
}

#[no_mangle]
pub unsafe extern "C" fn station_dot(slot: *const Slot, out: *mut f64) -> u32 {
    drawn(reference::dot(&*slot), out)
}

#[no_mangle]
pub unsafe extern "C" fn station_stroke(a: *const Slot, b: *const Slot, out: *mut f64) -> u32 {
    drawn(reference::stroke(&*a, &*b), out)
}

#[no_mangle]
pub unsafe extern "C" fn station_frame(table: *const Slot, slots: usize, out: *mut f64) -> u32 {
    let answer = reference::frame(lent(table, slots));
    if let Ok(frame) = answer {
        let doubles = [frame.lowest, frame.highest, frame.middle].concat();
        lent_mut(out, 9).copy_from_slice(&doubles);
    }
    number(answer)
}

#[no_mangle]
pub unsafe extern "C" fn station_count_line(tally: *mut LentTally, line: *const u8, n: usize) -> u32 {
    station_count_line_past(tally, line, n, 0)
}

#[no_mangle]
pub unsafe extern "C" fn station_count_line_past(tally: *mut LentTally, line: *const u8, n: usize, past: u8) -> u32 {
    let lent_tally = &mut (*tally).0;
    let [remark, het, helix, sheet, xform, coord, ter, conect, seq] = lent_tally.map(u64::from);
    let mut counts = Tally { remark, het, helix, sheet, xform, coord, ter, conect, seq };
    let answer = reference::count_line_past(&mut counts, lent(line, n), past != 0);
    for (count, counted) in lent_tally.iter_mut().zip(counts.counts()) {
        *count = counted as u32;
    }
    number(answer)
}
