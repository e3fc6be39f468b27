//! Lines and entries for the tests, and what becomes of them.

use crate::table::loaded;
use crate::{order, save, tray, FragmentNumber, Mark, Refusal};

/// A line of 80 columns.
pub fn line(text: &str) -> [u8; 80] {
    let mut line = [b' '; 80];
    line[..text.len()].copy_from_slice(text.as_bytes());
    line
}

/// A line with other bytes from a column on.
pub fn changed(line: &[u8; 80], column: usize, bytes: &[u8]) -> [u8; 80] {
    let mut changed = *line;
    changed[column - 1..column - 1 + bytes.len()].copy_from_slice(bytes);
    changed
}

/// A text of lines.
pub fn text(lines: &[[u8; 80]]) -> Vec<u8> {
    lines.iter().flat_map(|line| line.iter().copied().chain([b'\n'])).collect()
}

/// The MASTER line of nine counts.
pub fn master(counts: [u32; 9]) -> [u8; 80] {
    let [remark, het, helix, sheet, xform, coord, ter, conect, seq] = counts;
    line(&format!(
        "MASTER    {remark:5}    0{het:5}{helix:5}{sheet:5}    0    0{xform:5}{coord:5}{ter:5}{conect:5}{seq:5}"
    ))
}

/// A carbon of a residue ALA, or of a heterogen.
pub fn atom(name: &str, serial: u32, chain: char, number: i32) -> [u8; 80] {
    line(&format!("{name:6}{serial:5}  C   ALA {chain}{number:4}       1.000   2.000   3.000  1.00  0.00           C"))
}

/// The TER of a residue ALA.
pub fn ter(serial: u32, chain: char, number: i32) -> [u8; 80] {
    line(&format!("TER   {serial:5}      ALA {chain}{number:4}"))
}

pub const ARGININE: &[u8; 80] = b"ATOM     32  N  AARG A  -3      11.281  86.699  94.383  0.50 35.88           N  ";
pub const HELIX: &[u8; 80] = b"HELIX    1  HA GLY A   86  GLY A   94  1                                   9    ";
pub const STRAND_1: &[u8; 80] = b"SHEET    1   A 2 THR A 107  ARG A 110  0                                        ";
pub const STRAND_2: &[u8; 80] = b"SHEET    2   A 2 ILE A  96  THR A  99 -1  N  LYS A  98   O  THR A 107           ";

pub const CELL: &[u8; 80] = b"CRYST1   52.000   58.600   61.900  90.00  90.00  90.00 P 21 21 21    8          ";
/// All columns of all numbers are filled that can be.
pub const WIDE_CELL: &[u8; 80] = b"CRYST199999.99999999.999    0.001 179.99   0.01 120.00 ~ any grp ~9999          ";

/// A line of a trio with 0.019231, -0.016155, 0.000000 and a shift of -0.00001.
pub fn shifted(row: u32) -> [u8; 80] {
    trio_line(row, ["0.019231", "-0.016155", "0.000000", "-0.00001"])
}

/// A line of a trio, all columns of its numbers filled.
pub fn wide(row: u32) -> [u8; 80] {
    trio_line(row, ["-99.999999", "999.999999", "-10.000001", "-999.99999"])
}

/// The line of a trio with these numbers.
pub fn trio_line(row: u32, [x, y, z, shift]: [&str; 4]) -> [u8; 80] {
    let trio = if row <= 3 { "ORIGX" } else { "SCALE" };
    line(&format!("{trio}{}    {x:>10}{y:>10}{z:>10}     {shift:>10}", (row - 1) % 3 + 1))
}

/// HEADER, the arginine, its TER, MASTER and END.
pub fn arginine_entry() -> Vec<u8> {
    text(&[
        line("HEADER"),
        *ARGININE,
        line("TER      33      ARG A  -3"),
        master([0, 0, 0, 0, 0, 1, 1, 0, 0]),
        line("END"),
    ])
}

/// A chain and two heterogens: three fragments.
pub fn three_fragments(bonds: &[&str]) -> Vec<u8> {
    let mut lines = vec![
        line("HEADER"),
        atom("ATOM", 1, 'A', 1),
        ter(2, 'A', 1),
        atom("HETATM", 3, 'B', 7),
        atom("HETATM", 4, 'B', 8),
    ];
    lines.extend(bonds.iter().map(|bond| line(bond)));
    lines.push(master([0, 0, 0, 0, 0, 3, 1, bonds.len() as u32, 0]));
    lines.push(line("END"));
    text(&lines)
}

/// The saved text and the tray after setting fragments aside.
pub fn saved(text: &[u8], aside: &[u32]) -> (Vec<u8>, Vec<u8>) {
    let mut slots = loaded(text).expect("an accepted entry");
    for &fragment in aside {
        order(text, &mut slots, FragmentNumber(fragment), Mark::Aside).expect("a fragment");
    }
    let mut out = vec![b'?'; 2 * text.len()];
    let length = save(text, &slots, &mut out).expect("room");
    assert!(out[length..].iter().all(|&byte| byte == b'?'));
    assert_eq!(save(text, &slots, &mut out[..length - 1]), Err(Refusal::ShortOutput));
    let kept = out[..length].to_vec();
    let length = tray(text, &slots, &mut out).expect("room");
    (kept, out[..length].to_vec())
}
