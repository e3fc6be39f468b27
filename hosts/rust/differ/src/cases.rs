//! The cases: what is made up and which calls are made on it.

use station::raw::{Library, Slot, Tally};

use crate::chance::Chance;
use crate::crystals::some_cells;
use crate::damage::{damage_line, damage_lines, damage_table, damage_text, recount, rename};
use crate::entry::{entry, large_entry, modelled_entry, named, text, typed_line, Columns, COORDINATES};
use crate::fence;
use crate::findings::Findings;
use crate::harness::Harness;
use crate::jumping::some_jumps;
use crate::lent::Sides;
use crate::modelling::{self, list_of_one_serial};
use crate::placing::{a_place_in, some_places};
use crate::slots::to_reference;
use crate::spoiling::some_faults;
use crate::twinning;

/// Runs the cases of a seed against a library, with guards round all buffers.
pub fn run(library: Library, seed: u64, cases: impl Iterator<Item = u64>) -> Findings {
    run_with(Harness::new(library), seed, cases, &[Sides::Guards])
}

/// Runs the cases of a seed against a library, with guards and fences in turn.
pub fn run_fenced(library: Library, seed: u64, cases: impl Iterator<Item = u64>) -> Findings {
    let sides = [Sides::Guards, Sides::FenceBefore, Sides::FenceBehind];
    run_with(Harness::new(library), seed, cases, &sides)
}

fn run_with(mut harness: Harness, seed: u64, cases: impl Iterator<Item = u64>, sides: &[Sides]) -> Findings {
    for case in cases {
        fence::at_case(case);
        harness.case = case;
        let mut chance = Chance::of_case(seed, case);
        harness.sides = *chance.pick(sides);
        one(&mut harness, &mut chance);
    }
    harness.findings
}

/// One case.
fn one(harness: &mut Harness, chance: &mut Chance) {
    harness.guard = chance.byte();
    match chance.below(21) {
        0..=4 if chance.once_in(120) => a_large_text(harness, chance),
        0..=4 => a_text(harness, chance),
        5..=8 => a_table(harness, chance),
        9..=12 => some_lines(harness, chance),
        13 => a_tally(harness, chance),
        14 => a_feed(harness, chance),
        15 | 16 => a_modelled_text(harness, chance),
        17 => some_faults(harness, chance),
        18 => some_cells(harness, chance),
        19 => some_places(harness, chance),
        _ => noise(harness, chance),
    }
}

/// A text, mostly damaged, in every call that takes one.
fn a_text(harness: &mut Harness, chance: &mut Chance) {
    let mut lines = entry(chance);
    let coordinates = slotted(&lines);
    if !chance.once_in(8) {
        for _ in 0..1 + chance.below(2) {
            damage_lines(chance, &mut lines);
        }
        if chance.once_in(2) {
            recount(&mut lines);
        }
    }
    let mut bytes = text(&lines);
    if chance.once_in(4) {
        damage_text(chance, &mut bytes);
    }
    in_every_call(harness, chance, &bytes, coordinates);
}

/// A text with models, mostly damaged by them, in every call that takes a text.
fn a_modelled_text(harness: &mut Harness, chance: &mut Chance) {
    let mut lines = modelled_entry(chance);
    let coordinates = slotted(&lines);
    if !chance.once_in(8) {
        // Where there is no line for it, the entry stays as it is.
        let _ = modelling::damage(chance, &mut lines);
    }
    in_every_call(harness, chance, &text(&lines), coordinates);
}

/// How many lines a table has slots for.
fn slotted(lines: &[Columns]) -> usize {
    lines.iter().filter(|line| named(&line[..], COORDINATES)).count()
}

/// The calls that take a text, with a table of about so many slots.
fn in_every_call(harness: &mut Harness, chance: &mut Chance, bytes: &[u8], coordinates: usize) {
    harness.check(bytes);
    let slots = (coordinates + chance.below(4)).saturating_sub(chance.below(3));
    let mut table = vec![any_slot(chance); slots];
    if chance.once_in(2) {
        harness.load(bytes, &mut table);
    }
    match chance.below(3) {
        0 => {
            let (fragment, aside) = any_order(chance, 4);
            harness.order(bytes, &mut table, fragment, aside);
        }
        1 => {
            let room = any_room(chance, bytes.len());
            harness.save(bytes, &table, room);
        }
        _ => {
            let room = any_room(chance, bytes.len());
            harness.tray(bytes, &table, room);
        }
    }
    if chance.once_in(2) {
        let list = any_list(chance, 4);
        harness.arrange(bytes, &mut table, &list);
    } else {
        let room = any_room(chance, coordinates);
        harness.fragments(bytes, &table, room);
    }
    some_jumps(harness, chance, bytes);
    a_place_in(harness, chance, bytes);
}

/// A text with many atoms, mostly with one of them twice, and far apart.
fn a_large_text(harness: &mut Harness, chance: &mut Chance) {
    let mut lines = large_entry(chance);
    if !chance.once_in(8) {
        // Where there are no two atoms for it, the entry stays as it is.
        let _ = twinning::damage_far(chance, &mut lines);
    }
    let bytes = text(&lines);
    harness.check(&bytes);
    let mut table = vec![any_slot(chance); lines.len()];
    harness.load(&bytes, &mut table);
    harness.save(&bytes, &table, bytes.len());
    some_jumps(harness, chance, &bytes);
    a_place_in(harness, chance, &bytes);
}

/// An accepted entry and its table: orders, arrangements, damage, saving, drawing.
fn a_table(harness: &mut Harness, chance: &mut Chance) {
    let lines = if chance.once_in(3) { modelled_entry(chance) } else { entry(chance) };
    let bytes = text(&lines);
    let needed = reference::table::loaded(&bytes).map_or(0, |slots| slots.len());
    if chance.once_in(4) {
        let mut table = vec![any_slot(chance); any_room(chance, needed)];
        harness.load(&bytes, &mut table);
    }
    let spare = if chance.once_in(2) { 0 } else { chance.below(3) };
    let mut table = vec![any_slot(chance); needed + spare];
    harness.load(&bytes, &mut table);
    let own: Vec<reference::Slot> = table[..needed].iter().map(to_reference).collect();
    let fragments = reference::fragments(&own).len();
    for _ in 0..chance.below(6) {
        let (fragment, aside) = any_order(chance, fragments);
        harness.order(&bytes, &mut table, fragment, aside);
    }
    for _ in 0..chance.below(3) {
        let list = any_list(chance, fragments);
        harness.arrange(&bytes, &mut table, &list);
    }
    if chance.once_in(2) {
        one_serial_aside(harness, chance, &bytes, &mut table[..needed]);
    }
    if chance.once_in(3) {
        damage_table(chance, &mut table);
        moved(harness, chance, &bytes, &mut table, fragments);
    }
    if chance.once_in(10) {
        table.truncate(chance.below(table.len() + 1));
        moved(harness, chance, &bytes, &mut table, fragments);
    }
    let room = any_room(chance, needed);
    harness.fragments(&bytes, &table, room);
    let own: Vec<reference::Slot> = table.iter().map(to_reference).collect();
    let mut out = vec![0; bytes.len()];
    let saved = reference::save(&bytes, &own, &mut out).unwrap_or(bytes.len());
    let dropped = reference::tray(&bytes, &own, &mut out).unwrap_or(bytes.len());
    let (room, other) = (any_room(chance, saved), any_room(chance, dropped));
    harness.save(&bytes, &table, room);
    harness.tray(&bytes, &table, other);
    if chance.once_in(3) {
        harness.frame(&table);
    }
    some_jumps(harness, chance, &bytes);
    a_place_in(harness, chance, &bytes);
}

/// Sets aside what has one serial, in all models or in all but one: a bond may stay or go by it.
fn one_serial_aside(harness: &mut Harness, chance: &mut Chance, text: &[u8], table: &mut [Slot]) {
    let own: Vec<reference::Slot> = table.iter().map(to_reference).collect();
    let mut numbers = vec![0; own.len()];
    if reference::fragment_numbers(text, &own, &mut numbers).is_ok() {
        let list = list_of_one_serial(chance, text, table, &numbers);
        harness.arrange(text, table, &list);
    }
}

/// An order and an arrangement, on a table that may be damaged or too short.
fn moved(harness: &mut Harness, chance: &mut Chance, text: &[u8], table: &mut [Slot], fragments: usize) {
    let (fragment, aside) = any_order(chance, fragments);
    harness.order(text, table, fragment, aside);
    let list = any_list(chance, fragments);
    harness.arrange(text, table, &list);
}

/// Some lines, each by itself.
fn some_lines(harness: &mut Harness, chance: &mut Chance) {
    for _ in 0..8 {
        a_line(harness, chance);
    }
}

/// One line by itself.
fn a_line(harness: &mut Harness, chance: &mut Chance) {
    let mut columns = typed_line(chance);
    for _ in 0..*chance.pick(&[0, 1, 1, 1, 1, 2]) {
        damage_line(chance, &mut columns);
    }
    if chance.once_in(10) {
        rename(chance, &mut columns);
    }
    let mut line = columns.to_vec();
    if chance.once_in(12) {
        let length = if chance.once_in(2) { *chance.pick(&[0, 5, 6, 79, 81, 160, 162]) } else { chance.below(201) };
        line.resize(length, *chance.pick(b" \nx"));
    }
    let before = any_slot(chance);
    harness.slot_of_line(&line, before);
    let room = if chance.once_in(2) { 80 } else { any_room(chance, 80) };
    harness.rewrite_line(&line, room);
    harness.read_line(&line);
    harness.cell_of_line(&line);
    harness.transform_of_line(&line);
    if chance.once_in(16) {
        harness.check(&[&line[..], b"\n"].concat());
    }
}

/// A tally and some lines.
fn a_tally(harness: &mut Harness, chance: &mut Chance) {
    let mut counts = [0; 9];
    for count in &mut counts {
        *count = match chance.below(6) {
            0 => 99_998,
            1 => 99_999,
            2 => 100_000,
            3 => chance.bits() as u32,
            _ => chance.below(5) as u32,
        };
    }
    let [remark, het, helix, sheet, xform, coord, ter, conect, seq] = counts;
    let mut tally = Tally { remark, het, helix, sheet, xform, coord, ter, conect, seq };
    let mut lines = entry(chance);
    lines.truncate(40);
    for line in &mut lines {
        if chance.once_in(4) {
            damage_line(chance, line);
        }
        let length = match chance.below(4) {
            0 => chance.below(9),
            1 => 6,
            _ => 80,
        };
        match chance.below(3) {
            0 => harness.count_line(&mut tally, &line[..length]),
            _ => harness.count_line_past(&mut tally, &line[..length], *chance.pick(&[0, 0, 1, 2, 255])),
        }
    }
}

/// Slots of any content, drawn.
fn a_feed(harness: &mut Harness, chance: &mut Chance) {
    let slots: Vec<Slot> = (0..chance.below(12)).map(|_| any_slot(chance)).collect();
    harness.frame(&slots);
    for pair in slots.windows(2) {
        harness.dot(&pair[0]);
        harness.stroke(&pair[0], Some(&pair[1]));
        harness.stroke(&pair[1], None);
    }
}

/// Bytes of no meaning at all.
fn noise(harness: &mut Harness, chance: &mut Chance) {
    let length = if chance.once_in(2) { chance.below(12) } else { chance.below(400) };
    let printable = chance.once_in(2);
    let mut bytes: Vec<u8> = (0..length).map(|_| if printable { chance.printable() } else { chance.byte() }).collect();
    if chance.once_in(2) {
        bytes.splice(..6.min(length), *b"HEADER");
        if bytes.len() > 80 {
            bytes[80] = b'\n';
        }
    }
    harness.check(&bytes);
    let before = any_slot(chance);
    harness.slot_of_line(&bytes, before);
    harness.rewrite_line(&bytes, 80);
    harness.read_line(&bytes);
    harness.cell_of_line(&bytes);
    harness.transform_of_line(&bytes);
    let mut table = vec![before; chance.below(3)];
    harness.load(&bytes, &mut table);
    harness.order(&bytes, &mut table, 1, 1);
    harness.arrange(&bytes, &mut table, &[1]);
    harness.fragments(&bytes, &table, length);
    harness.save(&bytes, &table, length);
    harness.tray(&bytes, &table, length);
    some_jumps(harness, chance, &bytes);
    a_place_in(harness, chance, &bytes);
}

/// A slot of any content; often an atom that is in.
fn any_slot(chance: &mut Chance) -> Slot {
    let place = |chance: &mut Chance| match chance.below(5) {
        0 => 0,
        1 => chance.bits() as i32,
        2 => chance.within(-3, 3) as i32,
        3 => *chance.pick(&[i32::MIN, i32::MAX, -999_999, 9_999_999]),
        _ => chance.within(-999_999, 9_999_999) as i32,
    };
    Slot {
        serial: chance.bits() as u32,
        number: chance.bits() as i32,
        x: place(chance),
        y: place(chance),
        z: place(chance),
        occupancy: chance.bits() as i32,
        temperature: chance.bits() as i32,
        kind: *chance.pick(&[1, 1, 1, 2, 2, 3, 0, 4, 255]),
        mark: *chance.pick(&[0, 0, 0, 0, 0, 1, 2, 255]),
        name: [chance.byte(); 4],
        alternate: chance.byte(),
        residue: [chance.byte(); 3],
        chain: chance.byte(),
        insertion: chance.byte(),
        element: [chance.byte(); 2],
        charge: [chance.byte(); 2],
        model: *chance.pick(&[0, 1, 1, 2, 9_999, u32::MAX]),
    }
}

/// An order on one of so many fragments, or on one that is not there.
fn any_order(chance: &mut Chance, fragments: usize) -> (u32, u8) {
    let fragment = match chance.below(12) {
        0 => 0,
        1 => fragments as u32 + 1,
        2 => chance.bits() as u32,
        _ => 1 + chance.below(fragments) as u32,
    };
    (fragment, *chance.pick(&[0, 1, 1, 1, 2, 255]))
}

/// A list of bytes for so many fragments: mostly one each, also none, one too few, one too many, any number.
fn any_list(chance: &mut Chance, fragments: usize) -> Vec<u8> {
    let length = match chance.below(12) {
        0 => 0,
        1 => fragments.saturating_sub(1),
        2 => fragments + 1,
        3 => chance.below(2 * fragments + 4),
        _ => fragments,
    };
    let any = chance.byte();
    (0..length).map(|_| *chance.pick(&[0, 0, 0, 1, 1, 2, 255, any])).collect()
}

/// Room about what is needed: none, less, exactly, more.
fn any_room(chance: &mut Chance, needed: usize) -> usize {
    match chance.below(8) {
        0 => 0,
        1 => needed.saturating_sub(1),
        2 => needed + 1,
        3 => needed + chance.below(200),
        4 => chance.below(needed + 1),
        _ => needed,
    }
}
