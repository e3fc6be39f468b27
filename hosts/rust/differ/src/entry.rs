//! Entries and lines made up by chance that obey the rules. Nothing here comes from the reference.

use crate::chance::Chance;
use crate::coordinates::coordinates;
use crate::crystals::{cell, transform};
use crate::modelling::{in_models, model, serials};
use crate::names::{put_name, right};
use crate::rows::Row;
use crate::twinning::nearly;

/// A line of 80 columns.
pub type Columns = [u8; 80];

/// The bytes of a line with its newline.
pub const PIECE: usize = 81;

/// The names of lines.
#[rustfmt::skip]
pub const NAMES: [&str; 29] = [
    "HEADER", "TITLE ", "COMPND", "SOURCE", "KEYWDS", "EXPDTA", "AUTHOR", "REVDAT", "JRNL  ", "REMARK", "SEQRES", "HET   ",
    "HELIX ", "SHEET ", "CRYST1", "ORIGX1", "ORIGX2", "ORIGX3", "SCALE1", "SCALE2", "SCALE3", "MODEL ", "ATOM  ", "HETATM",
    "TER   ", "ENDMDL", "CONECT", "MASTER", "END   ",
];

/// The names of lines that a table has slots for.
pub const COORDINATES: &[&[u8; 6]] = &[b"ATOM  ", b"HETATM", b"TER   "];

/// The names of lines that have an atom.
pub const ATOMS: &[&[u8; 6]] = &[b"ATOM  ", b"HETATM"];

/// Whether a line has one of these names.
pub fn named(line: &[u8], names: &[&[u8; 6]]) -> bool {
    names.iter().any(|name| line.starts_with(*name))
}

/// Names of the carried kinds before HELIX, by place, HEADER left out.
const CARRIED: [&str; 11] =
    ["TITLE", "COMPND", "SOURCE", "KEYWDS", "EXPDTA", "AUTHOR", "REVDAT", "JRNL", "REMARK", "SEQRES", "HET"];

const RESIDUES: [&str; 8] = ["ALA", "GLY", " DA", "  U", "HOH", "5MC", "  7", "ZN2"];

const CHAINS: &[u8] = b"AAABBCa0z9";

/// A residue as its columns have it.
#[derive(Clone, Copy, Debug)]
pub struct Residue {
    name: [u8; 3],
    pub(crate) chain: u8,
    pub(crate) number: i64,
    pub(crate) insertion: u8,
}

/// A line with a text at its left.
pub fn line(text: &str) -> Columns {
    let mut line = [b' '; 80];
    put(&mut line, 1, text.as_bytes());
    line
}

/// Puts bytes at a column.
pub fn put(line: &mut Columns, from: usize, bytes: &[u8]) {
    for (column, byte) in line[from - 1..].iter_mut().zip(bytes) {
        *column = *byte;
    }
}

/// Puts a number right-justified.
pub fn put_number(line: &mut Columns, from: usize, to: usize, number: i64) {
    let width = to + 1 - from;
    put(line, from, format!("{number:width$}").as_bytes());
}

/// The text of a real, from the whole number of its last place.
pub fn real_text(decimals: usize, value: i64) -> String {
    let scale = 10i64.pow(decimals as u32);
    let (whole, rest) = (value.abs() / scale, value.abs() % scale);
    let minus = if value < 0 { "-" } else { "" };
    format!("{minus}{whole}.{rest:0decimals$}")
}

/// Puts a real right-justified, from the whole number of its last place.
pub fn put_real(line: &mut Columns, from: usize, to: usize, decimals: usize, value: i64) {
    let (text, width) = (real_text(decimals, value), to + 1 - from);
    put(line, from, format!("{text:>width$}").as_bytes());
}

fn put_residue(line: &mut Columns, residue: &Residue, name: usize, chain: usize, number: usize) {
    put(line, name, &residue.name);
    put(line, chain, &[residue.chain]);
    put_number(line, number, number + 3, residue.number);
    put(line, number + 4, &[residue.insertion]);
}

/// A number of a range: its ends, small ones, or any.
pub fn number(chance: &mut Chance, low: i64, high: i64) -> i64 {
    match chance.below(8) {
        0 => low,
        1 => high,
        2..=4 => chance.within(low.max(-12), high.min(12)),
        _ => chance.within(low, high),
    }
}

fn free(chance: &mut Chance, line: &mut Columns, from: usize, to: usize) {
    if chance.once_in(3) {
        for column in &mut line[from - 1..to] {
            *column = chance.printable();
        }
    }
}

/// Any residue of a chain.
pub fn residue(chance: &mut Chance, chain: u8) -> Residue {
    let name = chance.pick(&RESIDUES).as_bytes();
    Residue {
        name: [name[0], name[1], name[2]],
        chain,
        number: number(chance, -999, 9_999),
        insertion: *chance.pick(b"    AZ"),
    }
}

/// Any chain.
pub fn chain(chance: &mut Chance) -> u8 {
    *chance.pick(CHAINS)
}

/// A good ATOM or HETATM line.
pub fn atom(chance: &mut Chance, name: &str, serial: i64, residue: &Residue) -> Columns {
    let mut line = line(name);
    put_number(&mut line, 7, 11, serial);
    put_name(&mut line, right(chance));
    put(&mut line, 17, &[*chance.pick(b"    ABZ0129")]);
    put_residue(&mut line, residue, 18, 22, 23);
    for from in [31, 39, 47] {
        let place = number(chance, -999_999, 9_999_999);
        put_real(&mut line, from, from + 7, 3, place);
    }
    put_real(&mut line, 55, 60, 2, number(chance, 0, 100));
    put_real(&mut line, 61, 66, 2, number(chance, -9_999, 99_999));
    put(&mut line, 79, chance.pick(&["  ", "  ", "  ", "1+", "9-", "2-"]).as_bytes());
    line
}

/// A good TER line.
pub fn ter(serial: i64, residue: &Residue) -> Columns {
    let mut line = line("TER");
    put_number(&mut line, 7, 11, serial);
    put_residue(&mut line, residue, 18, 22, 23);
    line
}

fn identifier(chance: &mut Chance) -> [u8; 3] {
    let mut text = [b' '; 3];
    let from = chance.below(3);
    for byte in &mut text[from..] {
        *byte = if chance.once_in(4) { 33 + chance.below(94) as u8 } else { *chance.pick(b"AB1") };
    }
    text
}

/// A good HELIX line.
pub fn helix(chance: &mut Chance, serial: i64) -> Columns {
    let mut line = line("HELIX");
    put_number(&mut line, 8, 10, serial);
    put(&mut line, 12, &identifier(chance));
    let chain = chain(chance);
    put_residue(&mut line, &residue(chance, chain), 16, 20, 22);
    put_residue(&mut line, &residue(chance, chain), 28, 32, 34);
    put_number(&mut line, 39, 40, number(chance, 1, 10));
    free(chance, &mut line, 41, 70);
    put_number(&mut line, 72, 76, number(chance, 1, 99_999));
    line
}

/// A good SHEET line: strand so of so many.
pub fn strand(chance: &mut Chance, strand: i64, identifier: [u8; 3], strands: i64) -> Columns {
    let mut line = line("SHEET");
    put_number(&mut line, 8, 10, strand);
    put(&mut line, 12, &identifier);
    put_number(&mut line, 15, 16, strands);
    for (name, bond, number) in [(18, 22, 23), (29, 33, 34)] {
        let chain = chain(chance);
        put_residue(&mut line, &residue(chance, chain), name, bond, number);
    }
    let sense = if strand == 1 { 0 } else { *chance.pick(&[1, -1]) };
    put_number(&mut line, 39, 40, sense);
    if strand > 1 && !chance.once_in(3) {
        for from in [42, 57] {
            put(&mut line, from, chance.pick(&[" N  ", "N   ", "HH11", " CA ", "O'  ", " *  ", " O1*"]).as_bytes());
            let chain = chain(chance);
            put_residue(&mut line, &residue(chance, chain), from + 4, from + 8, from + 9);
        }
    }
    line
}

/// A good CONECT line between some of these serials, or nothing if there are too few.
pub fn conect(chance: &mut Chance, serial: i64, atoms: &[i64]) -> Option<Columns> {
    let others: Vec<i64> = atoms.iter().copied().filter(|&other| other != serial).collect();
    if others.is_empty() {
        return None;
    }
    let mut line = line("CONECT");
    put_number(&mut line, 7, 11, serial);
    for index in 0..1 + chance.below(4) {
        put_number(&mut line, 12 + 5 * index, 16 + 5 * index, *chance.pick(&others));
    }
    Some(line)
}

/// The MASTER line of these lines: of the coordinates and TER lines those before the first ENDMDL are counted.
pub fn master(lines: &[Columns]) -> Columns {
    let end = lines.iter().position(|line| named(line, &[b"ENDMDL"])).unwrap_or(lines.len());
    let past = |(at, line): (usize, &Columns)| (at < end || !named(line, COORDINATES)).then_some(*line);
    master_of_all(&lines.iter().enumerate().filter_map(past).collect::<Vec<Columns>>())
}

/// The MASTER line of these lines, all of them counted.
pub fn master_of_all(lines: &[Columns]) -> Columns {
    let count = |names: &[&str]| {
        lines.iter().filter(|line| names.iter().any(|name| line[..6].trim_ascii_end() == name.as_bytes())).count()
            as i64
    };
    let counts = [
        count(&["REMARK"]),
        0,
        count(&["HET"]),
        count(&["HELIX"]),
        count(&["SHEET"]),
        0,
        0,
        count(&["ORIGX1", "ORIGX2", "ORIGX3", "SCALE1", "SCALE2", "SCALE3"]),
        count(&["ATOM", "HETATM"]),
        count(&["TER"]),
        count(&["CONECT"]),
        count(&["SEQRES"]),
    ];
    let mut line = line("MASTER");
    for (index, count) in counts.into_iter().enumerate() {
        put_number(&mut line, 11 + 5 * index, 15 + 5 * index, count);
    }
    line
}

fn carried(chance: &mut Chance, name: &str) -> Columns {
    let mut line = line(name);
    free(chance, &mut line, 7, 80);
    line
}

/// The head of an entry: all that stands before the coordinates.
fn head(chance: &mut Chance) -> Vec<Columns> {
    let mut lines = vec![carried(chance, "HEADER")];
    if chance.once_in(4) {
        return lines;
    }
    for name in CARRIED {
        if chance.once_in(4) {
            for _ in 0..1 + chance.below(3) {
                lines.push(carried(chance, name));
            }
        }
    }
    if chance.once_in(2) {
        for serial in 0..chance.below(4) {
            lines.push(helix(chance, serial as i64 + 1));
        }
    }
    if chance.once_in(2) {
        let mut before = [0; 3];
        for _ in 0..chance.below(4) {
            let name = identifier(chance);
            if name != before {
                before = name;
                let strands = if chance.once_in(40) { 99 } else { 1 + chance.below(5) as i64 };
                lines.extend((1..=strands).map(|number| strand(chance, number, name, strands)));
            }
        }
    }
    if chance.once_in(2) {
        lines.push(cell(chance));
    }
    for trio in [1..=3, 4..=6] {
        if chance.once_in(2) {
            lines.extend(trio.map(|row| transform(chance, row)));
        }
    }
    lines
}

/// An accepted entry.
pub fn entry(chance: &mut Chance) -> Vec<Columns> {
    let (most, modelled) = (if chance.once_in(50) { 60 } else { 6 }, chance.once_in(3));
    entry_of_runs(chance, most, modelled)
}

/// An accepted entry with models.
pub fn modelled_entry(chance: &mut Chance) -> Vec<Columns> {
    entry_of_runs(chance, 6, true)
}

/// An accepted entry of some thousand lines: what it takes to look back over many.
pub fn large_entry(chance: &mut Chance) -> Vec<Columns> {
    let modelled = chance.once_in(4);
    entry_of_runs(chance, 1_500, modelled)
}

/// An accepted entry with at most so many atoms in a run, with models or without.
fn entry_of_runs(chance: &mut Chance, most: usize, modelled: bool) -> Vec<Columns> {
    let mut lines = head(chance);
    let head = lines.len();
    coordinates(chance, &mut lines, most);
    for _ in 0..chance.below(4) {
        nearly(chance, &mut lines);
    }
    if modelled {
        in_models(chance, &mut lines, head, most);
    }
    let atoms = serials(&lines);
    if chance.once_in(2) {
        for &serial in &atoms {
            if chance.once_in(3) {
                lines.extend(conect(chance, serial, &atoms));
            }
            if chance.once_in(8) {
                lines.extend(conect(chance, serial, &atoms));
            }
        }
    }
    lines.push(master(&lines));
    lines.push(line("END"));
    lines
}

/// The text of some lines.
pub fn text(lines: &[Columns]) -> Vec<u8> {
    let mut text = Vec::with_capacity(81 * lines.len());
    for line in lines {
        text.extend_from_slice(line);
        text.push(b'\n');
    }
    text
}

/// A good line of any typed kind, by itself.
pub fn typed_line(chance: &mut Chance) -> Columns {
    let row = match chance.below(12) {
        0..=2 => Row::Atom,
        3 if chance.once_in(4) => Row::FirstStrand,
        3 => Row::Strand,
        _ => *chance.pick(&Row::ALL),
    };
    good_line(chance, row)
}

/// A good line of a row of the table of columns, by itself.
pub fn good_line(chance: &mut Chance, row: Row) -> Columns {
    let chain = chain(chance);
    let place = residue(chance, chain);
    let serial = number(chance, 1, 99_999);
    match row {
        Row::Atom => atom(chance, "ATOM", serial, &place),
        Row::Hetatm => atom(chance, "HETATM", serial, &place),
        Row::Ter => ter(serial, &place),
        Row::Helix => {
            let serial = number(chance, 1, 999);
            helix(chance, serial)
        }
        Row::FirstStrand | Row::Strand => {
            let own = if row == Row::Strand { number(chance, 2, 999) } else { 1 };
            let (identifier, strands) = (identifier(chance), number(chance, 1, 99));
            strand(chance, own, identifier, strands)
        }
        Row::Cryst1 => cell(chance),
        Row::Transform(row) => transform(chance, row),
        Row::Conect => {
            let atoms: Vec<i64> = (0..5).map(|_| number(chance, 1, 99_999)).collect();
            conect(chance, serial, &atoms).unwrap_or(line("CONECT    1    2"))
        }
        Row::Master => {
            let mut line = master(&[]);
            for index in [0, 2, 3, 4, 7, 8, 9, 10, 11] {
                put_number(&mut line, 11 + 5 * index, 15 + 5 * index, number(chance, 0, 99_999));
            }
            line
        }
        Row::Model => model(number(chance, 1, 9_999)),
        Row::End => line("END"),
        Row::Endmdl => line("ENDMDL"),
    }
}
