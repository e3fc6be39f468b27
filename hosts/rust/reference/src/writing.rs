//! One typed line, written from its record.

use crate::columns::Columns;
use crate::line::LineName;
use crate::reading::read_line;
use crate::record::{Atom, Cell, Conect, Helix, Record, Residue, Sheet, Ter, Transformation};
use crate::tally::Tally;
use crate::Refusal;

/// Writes a record into the first 80 bytes of `out`.
pub fn write_record(record: &Record, out: &mut [u8]) -> Result<(), Refusal> {
    let line = line_of(record).ok_or(Refusal::Field)?;
    let place = out.get_mut(..80).ok_or(Refusal::ShortOutput)?;
    place.copy_from_slice(&line);
    Ok(())
}

/// The line of a record: the one line that reads as it, if there is one.
pub fn line_of(record: &Record) -> Option<Columns> {
    let mut sheet = Paper { line: [b' '; 80], fits: true };
    match record {
        Record::Helix(helix) => sheet.helix(helix),
        Record::Sheet(strand) => sheet.sheet(strand),
        Record::Cell(cell) => sheet.cell(cell),
        Record::Transformation(row) => sheet.transformation(row),
        Record::Atom(atom) => sheet.atom(b"ATOM", atom),
        Record::Hetatm(atom) => sheet.atom(b"HETATM", atom),
        Record::Ter(ter) => sheet.ter(ter),
        Record::Conect(conect) => sheet.conect(conect),
        Record::Master(tally) => sheet.master(tally),
        Record::End => sheet.put(1, b"END"),
        Record::Model(number) => {
            sheet.put(1, b"MODEL");
            sheet.integer(11, 14, number.0);
        }
        Record::Endmdl => sheet.put(1, b"ENDMDL"),
    }
    (sheet.fits && read_line(&sheet.line) == Ok(*record)).then_some(sheet.line)
}

/// A line being written. Whether the values were right is seen by reading it back.
struct Paper {
    line: Columns,
    fits: bool,
}

impl Paper {
    fn put(&mut self, from: usize, bytes: &[u8]) {
        self.line[from - 1..from - 1 + bytes.len()].copy_from_slice(bytes);
    }

    /// Puts a text right-justified into the columns `from` to `to`.
    fn put_right(&mut self, from: usize, to: usize, text: &str) {
        if text.len() > to + 1 - from {
            self.fits = false;
        } else {
            self.put(to + 1 - text.len(), text.as_bytes());
        }
    }

    fn integer(&mut self, from: usize, to: usize, value: impl Into<i64>) {
        self.put_right(from, to, &value.into().to_string());
    }

    fn real(&mut self, from: usize, to: usize, decimals: usize, value: i32) {
        let minus = if value < 0 { "-" } else { "" };
        let scale = 10u32.pow(decimals as u32);
        let size = value.unsigned_abs();
        let text = format!("{minus}{}.{:0decimals$}", size / scale, size % scale);
        self.put_right(from, to, &text);
    }

    fn residue(&mut self, residue: &Residue, name_at: usize, chain_at: usize, number_at: usize) {
        self.put(name_at, &residue.name);
        self.put(chain_at, &[residue.chain]);
        self.integer(number_at, number_at + 3, residue.number.0);
        self.put(number_at + 4, &[residue.insertion]);
    }

    fn atom(&mut self, name: &[u8], atom: &Atom) {
        self.put(1, name);
        self.integer(7, 11, atom.serial.0);
        self.put(13, &atom.name);
        self.put(17, &[atom.alternate]);
        self.residue(&atom.residue, 18, 22, 23);
        for (index, &place) in atom.position.iter().enumerate() {
            self.real(31 + 8 * index, 38 + 8 * index, 3, place);
        }
        self.real(55, 60, 2, atom.occupancy);
        self.real(61, 66, 2, atom.temperature);
        self.put(77, &atom.element);
        self.put(79, &atom.charge);
    }

    fn ter(&mut self, ter: &Ter) {
        self.put(1, b"TER");
        self.integer(7, 11, ter.serial.0);
        self.residue(&ter.residue, 18, 22, 23);
    }

    fn helix(&mut self, helix: &Helix) {
        self.put(1, b"HELIX");
        self.integer(8, 10, helix.serial);
        self.put(12, &helix.identifier);
        self.residue(&helix.ends[0], 16, 20, 22);
        self.residue(&helix.ends[1], 28, 32, 34);
        self.integer(39, 40, helix.class);
        self.put(41, &helix.comment);
        self.integer(72, 76, helix.length);
    }

    fn sheet(&mut self, sheet: &Sheet) {
        self.put(1, b"SHEET");
        self.integer(8, 10, sheet.strand);
        self.put(12, &sheet.identifier);
        self.integer(15, 16, sheet.strands);
        self.residue(&sheet.ends[0], 18, 22, 23);
        self.residue(&sheet.ends[1], 29, 33, 34);
        self.integer(39, 40, sheet.sense);
        if let Some(registration) = &sheet.registration {
            for (register, from) in registration.iter().zip([42, 57]) {
                self.put(from, &register.atom);
                self.residue(&register.residue, from + 4, from + 8, from + 9);
            }
        }
    }

    fn cell(&mut self, cell: &Cell) {
        self.put(1, b"CRYST1");
        for (index, &edge) in cell.edges.iter().enumerate() {
            self.real(7 + 9 * index, 15 + 9 * index, 3, edge);
        }
        for (index, &angle) in cell.angles.iter().enumerate() {
            self.real(34 + 7 * index, 40 + 7 * index, 2, angle);
        }
        self.put(56, &cell.group);
        self.integer(67, 70, cell.z);
    }

    fn transformation(&mut self, transformation: &Transformation) {
        match LineName::bytes_of_transformation(transformation.row) {
            Some(name) => self.put(1, name),
            None => self.fits = false,
        }
        for (index, &coefficient) in transformation.coefficients.iter().enumerate() {
            self.real(11 + 10 * index, 20 + 10 * index, 6, coefficient);
        }
        self.real(46, 55, 5, transformation.shift);
    }

    fn conect(&mut self, conect: &Conect) {
        self.put(1, b"CONECT");
        self.integer(7, 11, conect.serial.0);
        for (index, partner) in conect.partners.iter().enumerate() {
            if let Some(partner) = partner {
                self.integer(12 + 5 * index, 16 + 5 * index, partner.0);
            }
        }
    }

    fn master(&mut self, counts: &Tally) {
        self.put(1, b"MASTER");
        let Tally { remark, het, helix, sheet, xform, coord, ter, conect, seq } = *counts;
        let numbers = [remark, 0, het, helix, sheet, 0, 0, xform, coord, ter, conect, seq];
        for (index, number) in numbers.iter().enumerate() {
            self.put_right(11 + 5 * index, 15 + 5 * index, &number.to_string());
        }
    }
}

/// Reads one typed line and writes its record.
pub fn rewrite_line(line: &[u8], out: &mut [u8]) -> Result<(), Refusal> {
    let record = read_line(line).map_err(|blame| blame.refusal)?;
    write_record(&record, out)
}

#[cfg(test)]
mod tests {
    use super::*;
    use crate::samples::*;
    use crate::{ModelNumber, ResidueNumber, Serial};

    fn atom() -> Atom {
        match read_line(ARGININE) {
            Ok(Record::Atom(atom)) => atom,
            other => panic!("{other:?}"),
        }
    }

    #[test]
    fn what_reads_writes_back() {
        let others = ["CONECT    5    6", "END", "MODEL        1", "MODEL     9999", "ENDMDL"].map(line);
        let crystal = [*CELL, *WIDE_CELL].into_iter().chain((1..=6).flat_map(|row| [shifted(row), wide(row)]));
        let all = [*ARGININE, *HELIX, *STRAND_1, *STRAND_2, master([7; 9])].into_iter().chain(others).chain(crystal);
        for line in all {
            let mut out = [b'?'; 90];
            assert_eq!(rewrite_line(&line, &mut out), Ok(()));
            assert_eq!(out[..80], line);
            assert_eq!(out[80..], [b'?'; 10]);
            let mut short = [b'?'; 79];
            assert_eq!(rewrite_line(&line, &mut short), Err(Refusal::ShortOutput));
            assert_eq!(short, [b'?'; 79]);
        }
    }

    #[test]
    fn records_out_of_range() {
        let write = |atom: Atom| write_record(&Record::Hetatm(atom), &mut [0; 80]);
        assert_eq!(write(atom()), Ok(()));
        for wrong in [
            Atom { serial: Serial(0), ..atom() },
            Atom { serial: Serial(100_000), ..atom() },
            Atom { position: [10_000_000, 0, 0], ..atom() },
            Atom { position: [0, -1_000_000, 0], ..atom() },
            Atom { position: [0, i32::MIN, 0], ..atom() },
            Atom { occupancy: 101, ..atom() },
            Atom { occupancy: -1, ..atom() },
            Atom { temperature: 100_000, ..atom() },
            Atom { element: *b" C", ..atom() },
            Atom { charge: *b"+1", ..atom() },
            Atom { residue: Residue { name: *b"AR ", ..atom().residue }, ..atom() },
            Atom { residue: Residue { number: ResidueNumber(10_000), ..atom().residue }, ..atom() },
            Atom { alternate: b'\n', ..atom() },
        ] {
            assert_eq!(write(wrong), Err(Refusal::Field), "{wrong:?}");
        }
        assert_eq!(write_record(&Record::Hetatm(Atom { serial: Serial(0), ..atom() }), &mut []), Err(Refusal::Field));
        let gap = Conect { serial: Serial(1), partners: [None, Some(Serial(2)), None, None] };
        assert_eq!(write_record(&Record::Conect(gap), &mut [0; 80]), Err(Refusal::Field));
        for number in [0, 10_000, u32::MAX] {
            let model = Record::Model(ModelNumber(number));
            assert_eq!(write_record(&model, &mut [0; 80]), Err(Refusal::Field), "{number}");
        }
        let many = Tally { seq: 100_000, ..Tally::default() };
        assert_eq!(write_record(&Record::Master(many), &mut [0; 80]), Err(Refusal::Field));
    }
}
