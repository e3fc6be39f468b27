//! CRYST1, ORIGX and SCALE lines made up by chance: right ones, and those with a number at the edge of what is right.

use crate::cells::{Found, NUMBERED};
use crate::chance::Chance;
use crate::damage::damage_line;
use crate::entry::{good_line, line, number, put, put_number, put_real, Columns};
use crate::fields::fields;
use crate::harness::Harness;
use crate::rows::{Row, TRANSFORMS};
use crate::spoiling::in_a_text;

/// Space groups; all columns filled, and none.
const GROUPS: [&[u8; 11]; 6] =
    [b"P 21 21 21 ", b"C 1 2 1    ", b"P 1        ", b"           ", b"I -4 3 d:12", b"P-43-21-2_~"];

/// How many lines a case has.
const LINES: usize = 30;

/// A good CRYST1 line.
pub fn cell(chance: &mut Chance) -> Columns {
    let mut line = line("CRYST1");
    for from in [7, 16, 25] {
        put_real(&mut line, from, from + 8, 3, number(chance, 1, 99_999_999));
    }
    for from in [34, 41, 48] {
        let angle = if chance.once_in(2) { *chance.pick(&[9_000, 12_000]) } else { number(chance, 1, 17_999) };
        put_real(&mut line, from, from + 6, 2, angle);
    }
    put(&mut line, 56, *chance.pick(&GROUPS));
    if chance.once_in(4) {
        put(&mut line, 56 + chance.below(11), &[chance.printable()]);
    }
    put_number(&mut line, 67, 70, number(chance, 1, 9_999));
    line
}

/// A good line of a trio: 1 to 3 are ORIGX1 to ORIGX3, 4 to 6 are SCALE1 to SCALE3.
pub fn transform(chance: &mut Chance, row: u8) -> Columns {
    let mut line = line("");
    put(&mut line, 1, TRANSFORMS[usize::from(row) - 1]);
    let usual = chance.once_in(2);
    for from in [11, 21, 31] {
        let coefficient = if usual { chance.within(-60_000, 60_000) } else { number(chance, -99_999_999, 999_999_999) };
        put_real(&mut line, from, from + 9, 6, coefficient);
    }
    let shift = if usual { *chance.pick(&[0, 0, 50_000, -1]) } else { number(chance, -99_999_999, 999_999_999) };
    put_real(&mut line, 46, 55, 5, shift);
    line
}

/// Lines with a number at the edge of what is right for it, each by itself and in a text.
pub fn some_cells(harness: &mut Harness, chance: &mut Chance) {
    for _ in 0..LINES {
        let row = if chance.once_in(4) { Row::Cryst1 } else { *chance.pick(&NUMBERED) };
        let mut line = good_line(chance, row);
        let own = *chance.pick(fields(&line));
        if let Some(found) = Found::any(chance, own) {
            found.put(chance, &mut line, own);
        }
        if chance.once_in(8) {
            damage_line(chance, &mut line);
        }
        harness.cell_of_line(&line);
        harness.transform_of_line(&line);
        harness.rewrite_line(&line, 80);
        harness.read_line(&line);
        let bytes = in_a_text(chance, row, line);
        harness.check(&bytes);
    }
}
