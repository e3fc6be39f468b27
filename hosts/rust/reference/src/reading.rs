//! One typed line, read to a record.
//!
//! Every reader takes the columns from left to right and stops at the first field that is wrong: its first column is the one
//! that is told.

use crate::columns::*;
use crate::element::atomic_number;
use crate::line::LineName;
use crate::record::{Atom, Cell, Conect, Helix, Record, Register, Residue, Sheet, Ter, Transformation};
use crate::refusal::WrongAt;
use crate::tally::Tally;
use crate::{Blame, ModelNumber, Refusal, ResidueNumber, Serial};

/// What a field, or a line of them, holds, or the column that is wrong.
type Held<T> = Result<T, WrongAt>;

/// Reads one line by itself: 80 bytes, no newline.
pub fn read_line(line: &[u8]) -> Result<Record, Blame> {
    let columns: &Columns = line.try_into().map_err(|_| Refusal::Length)?;
    if !columns.iter().all(|byte| (32..=126).contains(byte)) {
        return Err(Refusal::Byte.into());
    }
    let name = LineName::of(columns).ok_or(Refusal::Name)?;
    Ok(read_fields(name, columns)?.ok_or(Refusal::Name)?)
}

/// Reads one line by itself for a call that takes some kinds alone: one of another kind is refused for its name, whatever its
/// fields are.
pub fn read_taken(line: &[u8], taken: impl Fn(LineName) -> bool) -> Result<Record, Refusal> {
    let taken = LineName::of(line).is_some_and(taken);
    match read_line(line).map_err(|blame| blame.refusal) {
        Ok(_) | Err(Refusal::Field) if !taken => Err(Refusal::Name),
        answer => answer,
    }
}

/// The record of a line, if its fields and blank columns are right; none of a carried one, in which nothing is judged.
pub fn read_fields(name: LineName, line: &Columns) -> Held<Option<Record>> {
    if let Some(row) = name.transformation() {
        return Ok(Some(Record::Transformation(read_transformation(line, row)?)));
    }
    let record = match name {
        LineName::Helix => read_helix(line).map(Record::Helix),
        LineName::Sheet => read_sheet(line).map(Record::Sheet),
        LineName::Cryst1 => read_cell(line).map(Record::Cell),
        LineName::Atom => read_atom(line).map(Record::Atom),
        LineName::Hetatm => read_atom(line).map(Record::Hetatm),
        LineName::Ter => read_ter(line).map(Record::Ter),
        LineName::Conect => read_conect(line).map(Record::Conect),
        LineName::Master => read_master(line).map(Record::Master),
        LineName::Model => read_model(line).map(Record::Model),
        LineName::Endmdl => blanks(line, 7, 80).map(|()| Record::Endmdl),
        LineName::End => blanks(line, 7, 80).map(|()| Record::End),
        _ => return Ok(None),
    };
    record.map(Some)
}

fn read_atom(line: &Columns) -> Held<Atom> {
    let serial = read_serial(line, 7)?;
    blanks(line, 12, 12)?;
    let (name, element) = (bytes(line, 13), bytes(line, 77));
    // What 13-14 hold is for the element to say.
    right(13, ends_atom_name(bytes(line, 15)))?;
    let alternate = read_byte(line, 17, alternate)?;
    let residue = read_residue(line, 18, 23, chain)?;
    blanks(line, 28, 30)?;
    let position = [read_place(line, 31)?, read_place(line, 39)?, read_place(line, 47)?];
    let occupancy = read_real(line, 55, 60, 2, 0, 100)?;
    let temperature = read_real(line, 61, 66, 2, -9_999, 99_999)?;
    blanks(line, 67, 76)?;
    right(77, atomic_number(element).is_some() && atom_name(name, element))?;
    let charge = read_bytes(line, 79, |&sign| charge(sign))?;
    Ok(Atom { serial, name, alternate, residue, position, occupancy, temperature, element, charge })
}

fn read_ter(line: &Columns) -> Held<Ter> {
    let serial = read_serial(line, 7)?;
    blanks(line, 12, 17)?;
    let residue = read_residue(line, 18, 23, chain)?;
    blanks(line, 28, 80)?;
    Ok(Ter { serial, residue })
}

fn read_helix(line: &Columns) -> Held<Helix> {
    blanks(line, 7, 7)?;
    let serial = read_i32(8, integer_in(field(line, 8, 10), 1, 999))?;
    blanks(line, 11, 11)?;
    let identifier = read_identifier(line)?;
    blanks(line, 15, 15)?;
    let first = read_residue(line, 16, 22, chain)?;
    blanks(line, 27, 27)?;
    let last = read_residue(line, 28, 34, |byte| byte == first.chain)?;
    let class = read_i32(39, integer_in(field(line, 39, 40), 1, 10))?;
    blanks(line, 71, 71)?;
    let length = read_i32(72, integer_in(field(line, 72, 76), 1, 99_999))?;
    blanks(line, 77, 80)?;
    Ok(Helix { serial, identifier, ends: [first, last], class, comment: bytes(line, 41), length })
}

fn read_sheet(line: &Columns) -> Held<Sheet> {
    blanks(line, 7, 7)?;
    let strand = read_i32(8, integer_in(field(line, 8, 10), 1, 999))?;
    blanks(line, 11, 11)?;
    let identifier = read_identifier(line)?;
    let strands = read_i32(15, integer_in(field(line, 15, 16), 1, 99))?;
    blanks(line, 17, 17)?;
    let first = read_residue(line, 18, 23, chain)?;
    blanks(line, 28, 28)?;
    let last = read_residue(line, 29, 34, chain)?;
    let fitting: &[i64] = if strand == 1 { &[0] } else { &[1, -1] };
    let sense = read_i32(39, integer(field(line, 39, 40)).filter(|sense| fitting.contains(sense)))?;
    blanks(line, 41, 41)?;
    let registration = if strand == 1 {
        blanks(line, 42, 70).map(|()| None)?
    } else if blank(field(line, 42, 70)) {
        None
    } else {
        Some(read_registration(line)?)
    };
    blanks(line, 71, 80)?;
    Ok(Sheet { strand, identifier, strands, ends: [first, last], sense, registration })
}

fn read_registration(line: &Columns) -> Held<[Register; 2]> {
    let here = read_register(line, 42)?;
    blanks(line, 56, 56)?;
    let before = read_register(line, 57)?;
    Ok([here, before])
}

fn read_register(line: &Columns, from: usize) -> Held<Register> {
    let atom = read_bytes(line, from, |&name| registration_atom(name))?;
    let residue = read_residue(line, from + 4, from + 9, chain)?;
    Ok(Register { atom, residue })
}

fn read_cell(line: &Columns) -> Held<Cell> {
    let edge = |from| read_real(line, from, from + 8, 3, 1, 99_999_999);
    let edges = [edge(7)?, edge(16)?, edge(25)?];
    let angle = |from| read_real(line, from, from + 6, 2, 1, 17_999);
    let angles = [angle(34)?, angle(41)?, angle(48)?];
    blanks(line, 55, 55)?;
    let group = bytes(line, 56);
    let z = read_u32(67, integer_in(field(line, 67, 70), 1, 9_999))?;
    blanks(line, 71, 80)?;
    Ok(Cell { edges, angles, group, z })
}

fn read_transformation(line: &Columns, row: u32) -> Held<Transformation> {
    blanks(line, 7, 10)?;
    let coefficient = |from| read_real(line, from, from + 9, 6, -99_999_999, 999_999_999);
    let coefficients = [coefficient(11)?, coefficient(21)?, coefficient(31)?];
    blanks(line, 41, 45)?;
    let shift = read_real(line, 46, 55, 5, -99_999_999, 999_999_999)?;
    blanks(line, 56, 80)?;
    Ok(Transformation { row, coefficients, shift })
}

fn read_conect(line: &Columns) -> Held<Conect> {
    let serial = read_serial(line, 7)?;
    let mut partners = [Some(read_partner(line, 12, serial)?), None, None, None];
    for index in 1..partners.len() {
        let from = 12 + 5 * index;
        if !blank(field(line, from, from + 4)) {
            right(from, partners[index - 1].is_some())?;
            partners[index] = Some(read_partner(line, from, serial)?);
        }
    }
    blanks(line, 32, 80)?;
    Ok(Conect { serial, partners })
}

fn read_partner(line: &Columns, from: usize, atom: Serial) -> Held<Serial> {
    let partner = read_serial(line, from)?;
    right(from, partner != atom)?;
    Ok(partner)
}

fn read_master(line: &Columns) -> Held<Tally> {
    blanks(line, 7, 10)?;
    let mut numbers = [0; 12];
    for (index, number) in numbers.iter_mut().enumerate() {
        let from = 11 + 5 * index;
        let most = if matches!(from, 16 | 36 | 41) { 0 } else { 99_999 };
        let count = integer_in(field(line, from, from + 4), 0, most);
        *number = held(from, count.and_then(|count| u64::try_from(count).ok()))?;
    }
    blanks(line, 71, 80)?;
    let [remark, _, het, helix, sheet, _, _, xform, coord, ter, conect, seq] = numbers;
    Ok(Tally { remark, het, helix, sheet, xform, coord, ter, conect, seq })
}

fn read_model(line: &Columns) -> Held<ModelNumber> {
    blanks(line, 7, 10)?;
    let number = read_u32(11, integer_in(field(line, 11, 14), 1, 9_999))?;
    blanks(line, 15, 80)?;
    Ok(ModelNumber(number))
}

/// The value of the field that begins in this column.
fn held<T>(from: usize, value: Option<T>) -> Held<T> {
    value.ok_or(WrongAt(from))
}

/// Whether the field that begins in this column is right.
fn right(from: usize, right: bool) -> Held<()> {
    held(from, right.then_some(()))
}

/// Columns that have to be blank, each of them a field by itself.
fn blanks(line: &Columns, from: usize, to: usize) -> Held<()> {
    (from..=to).try_for_each(|at| right(at, column(line, at) == b' '))
}

fn read_i32(from: usize, value: Option<i64>) -> Held<i32> {
    held(from, value.and_then(|value| i32::try_from(value).ok()))
}

fn read_u32(from: usize, value: Option<i64>) -> Held<u32> {
    held(from, value.and_then(|value| u32::try_from(value).ok()))
}

/// A real in the columns `from` to `to`, within a range of its last place.
fn read_real(line: &Columns, from: usize, to: usize, decimals: usize, low: i64, high: i64) -> Held<i32> {
    read_i32(from, real_in(field(line, from, to), decimals, low, high))
}

fn read_place(line: &Columns, from: usize) -> Held<i32> {
    read_real(line, from, from + 7, 3, -999_999, 9_999_999)
}

fn read_byte(line: &Columns, at: usize, sort: impl Fn(u8) -> bool) -> Held<u8> {
    held(at, Some(column(line, at)).filter(|&byte| sort(byte)))
}

fn read_bytes<const N: usize>(line: &Columns, from: usize, sort: impl Fn(&[u8; N]) -> bool) -> Held<[u8; N]> {
    held(from, Some(bytes(line, from)).filter(sort))
}

fn read_serial(line: &Columns, from: usize) -> Held<Serial> {
    read_u32(from, integer_in(field(line, from, from + 4), 1, 99_999)).map(Serial)
}

fn read_identifier(line: &Columns) -> Held<[u8; 3]> {
    read_bytes(line, 12, |text| identifier(text))
}

/// A residue whose name and whose number begin at these columns. Its chain stands behind the name and a blank column, its
/// insertion code right behind the number.
fn read_residue(line: &Columns, name_at: usize, number_at: usize, chain: impl Fn(u8) -> bool) -> Held<Residue> {
    let chain_at = name_at + 4;
    let name = read_bytes(line, name_at, |name| residue_name(name))?;
    blanks(line, chain_at - 1, chain_at - 1)?;
    let chain = read_byte(line, chain_at, chain)?;
    blanks(line, chain_at + 1, number_at - 1)?;
    let number = read_i32(number_at, integer_in(field(line, number_at, number_at + 3), -999, 9_999))?;
    let insertion = read_byte(line, number_at + 4, insertion)?;
    Ok(Residue { name, chain, number: ResidueNumber(number), insertion })
}

#[cfg(test)]
mod tests {
    use super::*;
    use crate::samples::*;

    /// What a line reads as, or its refusal alone.
    fn read(line: &[u8]) -> Result<Record, Refusal> {
        read_line(line).map_err(|blame| blame.refusal)
    }

    fn refused(line: &[u8; 80], from: usize, bytes: &[u8]) -> bool {
        read(&changed(line, from, bytes)) == Err(Refusal::Field)
    }

    #[test]
    fn the_arginine() {
        let Ok(Record::Atom(atom)) = read_line(ARGININE) else { panic!("{:?}", read_line(ARGININE)) };
        assert_eq!(atom.position, [11_281, 86_699, 94_383]);
        assert_eq!((atom.occupancy, atom.temperature), (50, 3_588));
        assert_eq!((atom.serial, atom.residue.number), (Serial(32), ResidueNumber(-3)));
        assert_eq!((&atom.name, atom.alternate, &atom.residue.name), (b" N  ", b'A', b"ARG"));
    }

    #[test]
    fn fields_of_an_atom() {
        assert!(read_line(&changed(ARGININE, 55, b"  1.00")).is_ok());
        assert!(refused(ARGININE, 55, b"  1.01"));
        assert!(read_line(&changed(ARGININE, 7, b"99999")).is_ok());
        assert!(refused(ARGININE, 7, b"    0"));
        assert!(refused(ARGININE, 31, b"  -0.000"));
        assert!(refused(ARGININE, 31, b" 011.281"));
        assert!(refused(ARGININE, 80, b"+"));
        assert!(refused(ARGININE, 22, b" "));
        assert!(refused(ARGININE, 77, b" C"));
        assert!(read_line(&changed(ARGININE, 13, b" NH1")).is_ok());
        for at in [12, 21, 28, 30, 67, 76] {
            assert!(refused(ARGININE, at, b"x"), "{at}");
        }
    }

    /// The name and the element of an atom, and whether a line with them reads, of either kind.
    #[test]
    fn name_and_element() {
        for (name, element, right) in [
            (b"HH11", b" H", true),
            (b"HG21", b" H", true),
            (b"DD11", b" D", true),
            (b"CA12", b" C", true),
            (b"CA12", b"CA", true),
            (b"HH1 ", b" H", false),
            (b"H#11", b" H", false),
            (b"CA1 ", b" C", false),
            (b"1HH1", b" H", false),
            (b"X111", b" X", false),
        ] {
            for kind in [b"ATOM  ", b"HETATM"] {
                let line = changed(&changed(&changed(ARGININE, 1, kind), 13, name), 77, element);
                match read(&line) {
                    Ok(Record::Atom(atom) | Record::Hetatm(atom)) => {
                        assert!(right && atom.name == *name && atom.element == *element)
                    }
                    other => assert!(!right && other == Err(Refusal::Field), "{}", String::from_utf8_lossy(name)),
                }
            }
        }
    }

    #[test]
    fn numbers_of_a_single_line() {
        assert_eq!(read(&ARGININE[..79]), Err(Refusal::Length));
        assert_eq!(read(&[ARGININE, &b"\n"[..]].concat()), Err(Refusal::Length));
        assert_eq!(read(&changed(ARGININE, 40, b"\n")), Err(Refusal::Byte));
        assert_eq!(read(&changed(ARGININE, 1, b"REMARK")), Err(Refusal::Name));
        assert_eq!(read(&changed(ARGININE, 1, b"ANISOU")), Err(Refusal::Name));
    }

    #[test]
    fn helices_and_sheets() {
        assert!(read_line(HELIX).is_ok() && read_line(STRAND_1).is_ok() && read_line(STRAND_2).is_ok());
        assert!(refused(HELIX, 32, b"B"));
        assert!(refused(HELIX, 39, b"11"));
        assert!(refused(HELIX, 12, b"HA "));
        assert!(read_line(&changed(HELIX, 41, b"anything ~ goes")).is_ok());
        assert!(refused(STRAND_1, 39, b" 1"));
        assert!(refused(STRAND_2, 39, b" 0"));
        assert!(refused(STRAND_1, 70, b"A"));
        assert!(refused(STRAND_2, 42, b"    "));
        assert!(read_line(&changed(STRAND_2, 42, &[b' '; 29])).is_ok());
        assert!(read_line(&changed(STRAND_2, 8, b"  9")).is_ok());
        assert!(refused(STRAND_2, 49, b"x"));
    }

    #[test]
    fn models() {
        for (number, text) in [(1, "MODEL        1"), (10, "MODEL       10"), (9_999, "MODEL     9999")] {
            assert_eq!(read(&line(text)), Ok(Record::Model(ModelNumber(number))));
        }
        for wrong in
            ["MODEL", "MODEL        0", "MODEL     0001", "MODEL       -1", "MODEL    10000", "MODEL        1 1"]
        {
            assert_eq!(read(&line(wrong)), Err(Refusal::Field), "{wrong}");
        }
        assert!(refused(&line("MODEL        1"), 11, b"1   ") && refused(&line("MODEL        1"), 10, b"1"));
        assert_eq!(read(&line("ENDMDL")), Ok(Record::Endmdl));
        assert!((7..=80).all(|at| refused(&line("ENDMDL"), at, b"1") && refused(&line("END"), at, b"1")));
    }

    #[test]
    fn bonds() {
        let good = line("CONECT    5    6    6    6");
        assert!(read_line(&good).is_ok());
        assert!(refused(&good, 12, b"     "));
        assert!(refused(&good, 17, b"    5"));
        assert!(refused(&good, 17, b"     "));
        assert!(refused(&good, 32, b"    7"));
    }
}
