//! Jumps in texts of any sort: serials to ask for, and damage that tells a jump from one that is nearly right.

use crate::chance::Chance;
use crate::entry::{line, named, text, ATOMS, COORDINATES, PIECE};
use crate::harness::Harness;
use crate::jumps::serial_of;

/// Names that an atom's line may be given by mistake, or that stand beside it in public entries.
const NAMES: [&[u8; 6]; 6] = [b"ANISOU", b"SIGATM", b"REMARK", b"atom  ", b"ATOM 1", b" ATOM "];

/// What is wrong in another field of an atom's line, from this column on.
const WRONG: [(usize, &[u8]); 7] =
    [(12, b"x"), (13, b"####"), (18, b"A  "), (31, b"  -0.000"), (55, b"  1.01"), (67, b"1"), (80, b"+")];

/// Jumps in a text, and in the same text with some damage.
pub fn some_jumps(harness: &mut Harness, chance: &mut Chance, text: &[u8]) {
    harness.find(text, any_serial(chance, text));
    let mut damaged = text.to_vec();
    let serial = damage(chance, &mut damaged);
    harness.find(&damaged, serial);
}

/// A serial that stands in the text, on whatever line has one; or one beside it, far off or impossible.
fn any_serial(chance: &mut Chance, text: &[u8]) -> u32 {
    let numbered = |piece: &&[u8]| named(piece, COORDINATES) || named(piece, &[b"CONECT"]);
    let serials: Vec<u32> = text.chunks(PIECE).filter(numbered).filter_map(serial_of).collect();
    let there = if serials.is_empty() { 1 } else { *chance.pick(&serials) };
    match chance.below(12) {
        0 => *chance.pick(&[0, 99_999, 100_000, u32::MAX]),
        1 => chance.bits() as u32,
        2 => there + 1,
        3 => there + *chance.pick(&[1 << 16, 100_000, 1 << 31]),
        _ => there,
    }
}

/// Damages a text round the line of an atom, and answers the serial that stands there.
fn damage(chance: &mut Chance, bytes: &mut Vec<u8>) -> u32 {
    let atoms: Vec<(usize, u32)> = bytes
        .chunks_exact(PIECE)
        .enumerate()
        .filter(|(_, piece)| named(piece, ATOMS))
        .filter_map(|(above, piece)| Some((PIECE * above, serial_of(piece)?)))
        .collect();
    if atoms.is_empty() {
        return any_serial(chance, bytes);
    }
    let (at, serial) = *chance.pick(&atoms);
    if chance.once_in(2) {
        // The same line once more, further below, for a jump past this one.
        let below = at + PIECE * (1 + chance.below((bytes.len() - at) / PIECE));
        let again = bytes[at..at + PIECE].to_vec();
        bytes.splice(below..below, again);
    }
    match chance.below(11) {
        0 => bytes[at + PIECE - 1] = *chance.pick(b"\r \0X\x0b"),
        1 => bytes[at + 11 + chance.below(69)] = *chance.pick(&[0, 9, 10, 13, 31, 127, 128, 255]),
        2 => {
            let (column, wrong) = *chance.pick(&WRONG);
            put(bytes, at + column - 1, wrong);
        }
        3 => put(bytes, at, *chance.pick(&NAMES)),
        4 => put_line(chance, bytes, at, &format!("TER   {serial:5}      ALA A   1")),
        5 => put_line(chance, bytes, at, &format!("CONECT{serial:5}{:5}", if serial == 1 { 2 } else { 1 })),
        6 => bytes.truncate(at + PIECE - 1),
        7 => bytes.truncate(at + chance.below(PIECE)),
        8 => drop(bytes.drain(..at)),
        9 => bytes.truncate(at + PIECE),
        _ if chance.once_in(2) => bytes.insert(0, chance.byte()),
        _ => drop(bytes.remove(0)),
    }
    serial
}

fn put(bytes: &mut [u8], at: usize, new: &[u8]) {
    bytes[at..at + new.len()].copy_from_slice(new);
}

/// Puts a line before another one, or in its place.
fn put_line(chance: &mut Chance, bytes: &mut Vec<u8>, at: usize, columns: &str) {
    bytes.splice(at..at + PIECE * chance.below(2), text(&[line(columns)]));
}
