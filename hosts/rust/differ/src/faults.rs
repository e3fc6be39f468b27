//! Kinds of wrong fields: what a call that tells the column of one may come across.

use std::collections::BTreeSet;

use reference::Refusal;

use crate::entry::{line, put, Columns, PIECE};
use crate::fields::fields;
use crate::findings::Call;
use crate::joints::{self, Joint};
use crate::names::put_name;
use crate::rows::{field, Row, TRANSFORMS};

/// What may be met.
#[derive(Clone, Copy, Debug, PartialEq, Eq, PartialOrd, Ord)]
pub enum Kind {
    /// A line of this row is refused with 6, and this column is told.
    Column(Row, usize),
    /// Likewise, and another field further right is wrong as well.
    Two(Row),
    /// Likewise, and it is the next one.
    Neighbours(Row),
    /// Fields that are judged together are wrong.
    Together(Joint),
    /// A line with a wrong field at the wrong place: refused with 5.
    Displaced(Row),
    /// A line with a wrong field and another byte for its newline: refused with 2.
    OtherEnd,
    /// A line with a wrong field and a byte that no column takes: refused with 3.
    OtherByte,
}

use Kind::*;

impl Kind {
    /// All kinds that a call has to meet.
    pub fn all(call: Call) -> Vec<Kind> {
        let columns = Row::listed().into_iter().map(|(row, column)| Column(row, column));
        let pairs = Row::ALL.into_iter().flat_map(|row| [Two(row), Neighbours(row)]);
        let joints = Joint::all().into_iter().map(Together);
        let mut kinds: Vec<Kind> = columns.chain(pairs).chain(joints).chain([OtherByte]).collect();
        if call == Call::Verdict {
            kinds.extend(Row::ALL.map(Displaced));
            kinds.push(OtherEnd);
        }
        kinds
    }
}

/// The column that is told of a line by itself, if it is refused with 6.
fn told(line: &[u8]) -> Option<usize> {
    let blame = reference::read_line(line).err().filter(|blame| blame.refusal == Refusal::Field)?;
    usize::try_from(blame.column).ok()
}

/// The kinds of a line by itself that is answered with this number and column.
pub fn of_line(line: &[u8], number: u32, column: u64) -> BTreeSet<Kind> {
    let (Ok(columns), Ok(column)) = (line.try_into(), usize::try_from(column)) else { return BTreeSet::new() };
    match number {
        6 => of_fields(columns, column),
        3 if told(&healed(columns)).is_some() => BTreeSet::from([OtherByte]),
        _ => BTreeSet::new(),
    }
}

/// The kinds of a text that is answered with this number, line and column.
pub fn of_text(text: &[u8], number: u32, line: u64, column: u64) -> BTreeSet<Kind> {
    let piece = text.chunks(PIECE).nth((line as usize).saturating_sub(1));
    let Some((columns, _)) = piece.and_then(|piece| piece.split_first_chunk::<80>()) else { return BTreeSet::new() };
    match (number, Row::of(columns)) {
        (3 | 6, _) => of_line(columns, number, column),
        (2, _) if told(columns).is_some() => BTreeSet::from([OtherEnd]),
        (5, Some(row)) if told(columns).is_some() => BTreeSet::from([Displaced(row)]),
        _ => BTreeSet::new(),
    }
}

/// The kinds of a line that is refused with 6 and this column.
fn of_fields(line: &Columns, column: usize) -> BTreeSet<Kind> {
    let Some(row) = Row::of(line) else { return BTreeSet::new() };
    let mut kinds = BTreeSet::from([Column(row, column)]);
    kinds.extend(joints::of(line, row, column).into_iter().map(Together));
    if let Some(next) = told(&mended(line, column)).filter(|&next| next > column) {
        kinds.insert(Two(row));
        if row.columns().into_iter().find(|&other| other > column) == Some(next) {
            kinds.insert(Neighbours(row));
        }
    }
    kinds
}

/// The line with blanks for the bytes that no column takes.
fn healed(line: &Columns) -> Columns {
    line.map(|byte| if (32..=126).contains(&byte) { byte } else { b' ' })
}

/// A right line of a row, to mend others from.
pub(crate) fn sample(row: Row) -> Columns {
    let mut sample = line(match row {
        Row::Atom => "ATOM      1  N   ARG A   1       1.000   1.000   1.000  1.00  1.00           N",
        Row::Hetatm => "HETATM    1  N   ARG A   1       1.000   1.000   1.000  1.00  1.00           N",
        Row::Ter => "TER       1      ARG A   1",
        Row::Helix => "HELIX    1   A ARG A    1  ARG A    1  1                                   1",
        Row::FirstStrand => "SHEET    1   A 1 ARG A   1  ARG A   1  0",
        Row::Strand => "SHEET    2   A 1 ARG A   1  ARG A   1  1  N  ARG A   1   O  ARG A   1",
        Row::Conect => "CONECT    1    2    2    2    2",
        Row::Master => "MASTER        0    0    0    0    0    0    0    0    0    0    0    0",
        Row::Cryst1 => "CRYST1    1.000    1.000    1.000  90.00  90.00  90.00 P 1           1",
        Row::Transform(_) => "            1.000000  1.000000  1.000000        1.00000",
        Row::Model => "MODEL        1",
        Row::End => "END",
        Row::Endmdl => "ENDMDL",
    });
    if let Row::Transform(row) = row {
        put(&mut sample, 1, TRANSFORMS[usize::from(row) - 1]);
    }
    sample
}

/// The line with the field that is told made right, whatever else is wrong in it.
pub fn mended(line: &Columns, column: usize) -> Columns {
    let mut mended = *line;
    let Some(row) = Row::of(line) else { return mended };
    let right = sample(row);
    let own = fields(line).iter().find(|(from, ..)| *from == column);
    let to = own.filter(|_| row != Row::FirstStrand || column < 42).map_or(column, |(_, to, _)| *to);
    match (row, column) {
        (Row::Atom | Row::Hetatm, 13) => put(&mut mended, 15, b"  "),
        (Row::Atom | Row::Hetatm, 77) => put_name(&mut mended, (*b" N  ", *b" N")),
        (Row::Helix, 20) if line[31].is_ascii_alphanumeric() => put(&mut mended, 20, &[line[31]]),
        (Row::Helix, 32) => put(&mut mended, 32, &[line[19]]),
        (Row::Conect, 12 | 17 | 22 | 27) => {
            let other = if field(line, 7, 11) == b"    2" { b"    3" } else { b"    2" };
            put(&mut mended, column, other);
        }
        _ => put(&mut mended, column, field(&right, column, to)),
    }
    mended
}

#[cfg(test)]
mod tests {
    use super::*;
    use crate::entry::text;

    #[test]
    fn samples_are_right_and_mend() {
        for row in Row::ALL {
            let right = sample(row);
            assert!(reference::read_line(&right).is_ok() && Row::of(&right) == Some(row), "{row:?}");
            for at in 7..=80 {
                let mut wrong = right;
                put(&mut wrong, at, b"~");
                if let Some(column) = told(&wrong) {
                    assert_eq!(told(&mended(&wrong, column)), None, "{row:?} {at}");
                }
            }
        }
    }

    #[test]
    fn pairs() {
        let kinds = |text: &str| {
            let columns = line(text);
            let kinds = of_line(&columns, 6, told(&columns).expect("a wrong field") as u64);
            kinds.into_iter().collect::<Vec<Kind>>()
        };
        assert_eq!(kinds("END      x"), [Column(Row::End, 10)]);
        assert_eq!(kinds("END      xx"), [Column(Row::End, 10), Two(Row::End), Neighbours(Row::End)]);
        assert_eq!(kinds("MODEL        x 1"), [Column(Row::Model, 11), Two(Row::Model)]);
        assert_eq!(kinds("MODEL        x1"), [Column(Row::Model, 11), Two(Row::Model), Neighbours(Row::Model)]);
    }

    #[test]
    fn without_a_column() {
        let wrong = line("TER       0      ARG A   1");
        let all = |text: &[u8]| {
            let verdict = reference::check(text);
            let number = verdict.refusal.map_or(0, Refusal::number);
            of_text(text, number, verdict.line, verdict.column).into_iter().collect::<Vec<Kind>>()
        };
        assert_eq!(all(&text(&[wrong, line("HEADER")])), [Displaced(Row::Ter)]);
        let mut bytes = text(&[line("HEADER"), wrong]);
        assert_eq!(all(&bytes), [Column(Row::Ter, 7)]);
        bytes[81 + 40] = 9;
        assert_eq!(all(&bytes), [OtherByte]);
        bytes[81 + 80] = b' ';
        assert_eq!(all(&bytes), []);
        bytes[81 + 40] = b' ';
        assert_eq!(all(&bytes), [OtherEnd]);
    }
}
