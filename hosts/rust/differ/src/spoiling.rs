//! Lines with wrong fields: one in every column that can be told, two at once, and fields that are judged together.

use crate::chance::Chance;
use crate::crystals::transform;
use crate::damage::put_nearly;
use crate::entry::{good_line, line, master, put, put_number, text, Columns, PIECE};
use crate::fields::fields;
use crate::harness::Harness;
use crate::names::{nearly, put_name};
use crate::rows::{field, Row};

/// How many lines a case has.
const LINES: usize = 120;

/// Rows with fields that are judged together.
const JOINED: [Row; 7] = [Row::Atom, Row::Hetatm, Row::Helix, Row::FirstStrand, Row::Strand, Row::Conect, Row::Master];

/// Lines with wrong fields, each by itself and in a text.
pub fn some_faults(harness: &mut Harness, chance: &mut Chance) {
    let listed = Row::listed();
    for _ in 0..LINES {
        let (mut row, column) = *chance.pick(&listed);
        let together = chance.once_in(3);
        if together {
            row = *chance.pick(&JOINED);
        }
        let mut line = good_line(chance, row);
        if together {
            spoil_together(chance, &mut line, row);
        } else {
            spoil(chance, &mut line, row, column);
        }
        if chance.once_in(4) {
            spoil_another(chance, &mut line, row, column);
        }
        if chance.once_in(50) {
            put(&mut line, 7 + chance.below(74), &[*chance.pick(&[0, 9, 10, 13, 31, 127, 128, 255])]);
        }
        harness.read_line(&line);
        let bytes = in_a_text(chance, row, line);
        harness.check(&bytes);
    }
}

/// Makes the field that begins in a column wrong, mostly.
fn spoil(chance: &mut Chance, line: &mut Columns, row: Row, column: usize) {
    let own = fields(line).iter().find(|(from, ..)| *from == column);
    let Some(&(from, to, sort)) = own.filter(|_| row != Row::FirstStrand || column < 42) else {
        return put(line, column, &[33 + chance.below(94) as u8]);
    };
    let width = to + 1 - from;
    match chance.below(6) {
        0 => put(line, from, &vec![b' '; width]),
        1..=3 => put(line, from + chance.below(width), b"~"),
        4 => line[from - 1..to].rotate_left(1),
        _ => put_nearly(chance, line, (from, to, sort)),
    }
}

/// Makes another field wrong: the next one, or any.
fn spoil_another(chance: &mut Chance, line: &mut Columns, row: Row, column: usize) {
    let columns = row.columns();
    let next = columns.iter().copied().find(|&other| other > column);
    let other = next.filter(|_| chance.once_in(2)).unwrap_or(*chance.pick(&columns));
    spoil(chance, line, row, other);
}

/// Makes fields wrong that are judged together, mostly.
fn spoil_together(chance: &mut Chance, line: &mut Columns, row: Row) {
    match row {
        Row::Atom | Row::Hetatm => spoil_name(chance, line),
        Row::Helix => {
            let (first, last) = (*chance.pick(b"AB ~"), *chance.pick(b"AB ~"));
            put(line, 20, &[first]);
            put(line, 32, &[last]);
        }
        Row::FirstStrand | Row::Strand => spoil_strand(chance, line),
        Row::Conect => spoil_partners(chance, line),
        _ => {
            let from = *chance.pick(&[16, 36, 41]);
            match chance.below(3) {
                0 => put(line, from, *chance.pick(&[b"00000", b"x   0", b" -  0", b"0    ", b"   -0"])),
                1 => put_number(line, from, from + 4, 10 * chance.within(1, 9_999)),
                _ => put_number(line, from, from + 4, chance.within(1, 99_999)),
            }
        }
    }
}

/// Makes a name and an element that do not fit.
fn spoil_name(chance: &mut Chance, line: &mut Columns) {
    let other = **chance.pick(&[b" C", b"CA", b" H", b"FE", b" X", b"ZZ", b"  ", b"Fe", b"##"]);
    match chance.below(6) {
        0 => put(line, 77, &other),
        1 => put(line, 13, &other),
        2 => {
            put(line, 13, &other);
            put(line, 77, &other);
        }
        3 => put(line, 15, *chance.pick(&[b" A", b"#A", b"A#", b"a ", b" #"])),
        4 => {
            put(line, 15, *chance.pick(&[b" A", b"#A", b"A#", b"a ", b" #"]));
            put(line, 77, &other);
        }
        _ => put_name(line, nearly(chance)),
    }
}

/// A registration, columns 42-70.
const REGISTRATION: &[u8; 29] = b" N  LYS A  98   O  THR A 107 ";

/// Makes a strand, its sense and its registration that do not fit.
fn spoil_strand(chance: &mut Chance, line: &mut Columns) {
    match chance.below(6) {
        0 => {
            // All of it but a field.
            let all = [(42, 45), (46, 48), (50, 50), (51, 54), (57, 60), (61, 63), (65, 65), (66, 69)];
            let (from, to) = *chance.pick(&all);
            put(line, 42, REGISTRATION);
            return put(line, from, &vec![b' '; to + 1 - from]);
        }
        1 | 2 => {
            // None of it but a column.
            let at = if chance.once_in(2) { *chance.pick(&[49, 56, 64]) } else { 42 + chance.below(29) };
            put(line, 42, &[b' '; 29]);
            put(line, at, &[*chance.pick(b"XN1~")]);
        }
        3 => put(line, 42, REGISTRATION),
        _ => {}
    }
    if chance.once_in(2) {
        put(line, 8, *chance.pick(&[b"  1", b"  1", b"  2", b" 10", b"  0", b"   ", b"1  ", b"001", b" -1"]));
    }
    if chance.once_in(2) {
        put(line, 39, *chance.pick(&[b" 0", b" 0", b" 1", b"-1", b" 2", b"  ", b"0 ", b"-0", b"01"]));
    }
}

/// Makes partners that are the atom, blank or wrong.
fn spoil_partners(chance: &mut Chance, line: &mut Columns) {
    if chance.once_in(8) {
        put(line, 7, *chance.pick(&[b"    0", b"     ", b"1    ", b"00001"]));
    }
    let atom = field(line, 7, 11).to_vec();
    for from in [12, 17, 22, 27] {
        match chance.below(8) {
            0 => put(line, from, &atom),
            1 | 2 => put(line, from, b"     "),
            3 if chance.once_in(3) => put(line, from, *chance.pick(&[b"    0", b"1    ", b"    x", b"   -1"])),
            3 | 4 => put_number(line, from, from + 4, chance.within(1, 99_999)),
            _ => {}
        }
    }
}

/// A text that has a line at its place, or at another one, and sometimes without its newline.
pub fn in_a_text(chance: &mut Chance, row: Row, own: Columns) -> Vec<u8> {
    let (header, zeros) = (line("HEADER"), master(&[]));
    let above = match (row, chance.below(12)) {
        (_, 0) => vec![],
        (_, 1) => vec![header, zeros, line("END")],
        (Row::End, 2) => vec![header],
        (Row::End, _) => vec![header, zeros],
        (_, 2) => vec![header, zeros],
        (Row::Endmdl, _) => vec![header, line("MODEL        1")],
        (Row::Transform(last), _) => {
            let first = if last > 3 { 4 } else { 1 };
            [header].into_iter().chain((first..last).map(|row| transform(chance, row))).collect()
        }
        _ => vec![header],
    };
    let at = PIECE * above.len();
    let mut bytes = text(&[above, vec![own]].concat());
    if chance.once_in(50) {
        bytes[at + PIECE - 1] = *chance.pick(b"\r \0X");
    }
    if chance.once_in(3) {
        bytes.extend(text(&[zeros, line("END")]));
    }
    bytes
}
