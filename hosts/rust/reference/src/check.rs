//! The check of a whole text.

use std::collections::{BTreeSet, HashSet};

use crate::columns::Columns;
use crate::line::LineName;
use crate::models::Models;
use crate::reading::read_fields;
use crate::record::{Label, Record, Residue, Sheet};
use crate::tally::{Counting, Tally};
use crate::{Blame, ModelNumber, Refusal, Serial};

/// What the check answers.
#[derive(Clone, Copy, Debug, PartialEq, Eq)]
pub struct Verdict {
    /// The refusal, if the text is refused.
    pub refusal: Option<Refusal>,
    /// The line that is refused, 0 if none is.
    pub line: u64,
    /// The column of a wrong field, 0 if the refusal is none of a field.
    pub column: u64,
    /// The good lines.
    pub good_lines: u64,
    /// The counts over the good lines, of the coordinates and TER lines those of the first model alone.
    pub tally: Tally,
}

impl Verdict {
    /// The refusal as an error.
    pub fn accepted(&self) -> Result<(), Refusal> {
        self.refusal.map_or(Ok(()), Err)
    }
}

/// The pieces of a text: 81 bytes each, but for a shorter last one.
pub fn pieces(text: &[u8]) -> impl Iterator<Item = &[u8]> {
    text.chunks(81)
}

/// A good line: its name, its record if it is typed, its model, and its 81 bytes.
#[derive(Clone, Copy, Debug)]
pub struct GoodLine<'t> {
    /// The name.
    pub name: LineName,
    /// The record of a typed line.
    pub record: Option<Record>,
    /// The number of the model that it stands in, 0 if it stands in none.
    pub model: ModelNumber,
    /// The line with its newline.
    pub bytes: &'t [u8],
}

/// Checks a text.
pub fn check(text: &[u8]) -> Verdict {
    walk(text).0
}

/// Checks a text and keeps the good lines.
pub fn walk(text: &[u8]) -> (Verdict, Vec<GoodLine<'_>>) {
    let mut above = Above::default();
    let mut good = Vec::new();
    let mut blame = None;
    for piece in pieces(text) {
        match above.judge(piece) {
            Ok(line) => {
                above.add(&line);
                good.push(line);
            }
            Err(first) => {
                blame = Some(first);
                break;
            }
        }
    }
    if blame.is_none() && above.name != Some(LineName::End) {
        blame = Some(Refusal::Over.into());
    }
    let good_lines = good.len() as u64;
    let verdict = Verdict {
        refusal: blame.map(|blame| blame.refusal),
        line: blame.map_or(0, |_| good_lines + 1),
        column: blame.map_or(0, |blame| blame.column),
        good_lines,
        tally: above.counting.tally,
    };
    (verdict, good)
}

/// What a line has to know of the lines above it.
#[derive(Default)]
struct Above {
    /// The name of the line before.
    name: Option<LineName>,
    counting: Counting,
    models: Models,
    /// What begins afresh in each model.
    stretch: Stretch,
    /// The serials of all ATOM and HETATM lines, in whichever model.
    atoms: BTreeSet<Serial>,
    /// The serial of the last CONECT.
    conect: Option<Serial>,
    /// The last strand.
    strand: Option<Sheet>,
}

/// What is remembered of the coordinate lines since the start of the text, or since the MODEL.
#[derive(Default)]
struct Stretch {
    /// The last serial of an ATOM, HETATM or TER.
    serial: Option<Serial>,
    /// The labels of all ATOM and HETATM lines.
    labels: HashSet<Label>,
    run: Run,
}

/// The coordinate lines since the last TER.
#[derive(Default)]
struct Run {
    holds_atom: bool,
    /// The chain of the first line, and whether all lines have it.
    chain: Option<u8>,
    one_chain: bool,
    /// The residue of the last line.
    last: Option<Residue>,
}

impl Above {
    /// Judges one line: the first number that applies, 22 being looked for between 6 and 7, and 21 between 8 and 9.
    fn judge<'t>(&self, piece: &'t [u8]) -> Result<GoodLine<'t>, Blame> {
        if piece.len() < 81 {
            return Err(Refusal::Length.into());
        }
        if piece[80] != b'\n' {
            return Err(Refusal::Newline.into());
        }
        let columns: &Columns = piece[..80].try_into().map_err(|_| Refusal::Length)?;
        if !columns.iter().all(|byte| (32..=126).contains(byte)) {
            return Err(Refusal::Byte.into());
        }
        let name = LineName::of(columns).ok_or(Refusal::Name)?;
        if !name.may_follow(self.name) || !self.models.allow(name) {
            return Err(Refusal::Place.into());
        }
        let record = read_fields(name, columns)?;
        let rules = [
            (self.models.count_on(record), Refusal::Model),
            (self.serial_rises(record), Refusal::Serial),
            (self.run_allows(record), Refusal::Run),
            (self.atom_is_new(record), Refusal::SameAtom),
            (self.bond_stands(record), Refusal::Bond),
            (self.in_sequence(record), Refusal::Sequence),
            (self.counts_true(record), Refusal::Count),
        ];
        match rules.iter().find(|(obeyed, _)| !obeyed) {
            Some((_, number)) => Err((*number).into()),
            None => Ok(GoodLine { name, record, model: self.models.number(), bytes: piece }),
        }
    }

    /// 7: serials rise over ATOM, HETATM and TER.
    fn serial_rises(&self, record: Option<Record>) -> bool {
        let serial = match record {
            Some(Record::Atom(atom) | Record::Hetatm(atom)) => atom.serial,
            Some(Record::Ter(ter)) => ter.serial,
            _ => return true,
        };
        self.stretch.serial.is_none_or(|last| serial > last)
    }

    /// 8: runs and TER.
    fn run_allows(&self, record: Option<Record>) -> bool {
        let run = &self.stretch.run;
        match record {
            Some(Record::Atom(atom)) => run.chain.is_none_or(|chain| run.one_chain && chain == atom.residue.chain),
            Some(Record::Hetatm(atom)) => !run.holds_atom || run.chain == Some(atom.residue.chain),
            Some(Record::Ter(ter)) => run.holds_atom && run.last == Some(ter.residue),
            Some(Record::Endmdl | Record::Conect(_) | Record::Master(_) | Record::End) => !run.holds_atom,
            _ => true,
        }
    }

    /// 21: no line above, in the same model, has the same atom.
    fn atom_is_new(&self, record: Option<Record>) -> bool {
        match record {
            Some(Record::Atom(atom) | Record::Hetatm(atom)) => !self.stretch.labels.contains(&atom.label()),
            _ => true,
        }
    }

    /// 9: CONECT serials do not fall, and every number is an atom's.
    fn bond_stands(&self, record: Option<Record>) -> bool {
        let Some(Record::Conect(conect)) = record else {
            return true;
        };
        let falls = self.conect.is_some_and(|last| conect.serial < last);
        !falls && conect.serials().all(|serial| self.atoms.contains(&serial))
    }

    /// 10: helices count up, sheets are whole.
    fn in_sequence(&self, record: Option<Record>) -> bool {
        let unfinished = self.strand.filter(|last| last.strand < last.strands);
        match (record, unfinished) {
            (Some(Record::Sheet(next)), Some(last)) => {
                next.strand == last.strand + 1 && next.strands == last.strands && next.identifier == last.identifier
            }
            (Some(Record::Sheet(next)), None) => {
                next.strand == 1 && self.strand.is_none_or(|last| next.identifier != last.identifier)
            }
            (_, Some(_)) => false,
            (Some(Record::Helix(helix)), None) => u64::try_from(helix.serial) == Ok(self.counting.tally.helix + 1),
            _ => true,
        }
    }

    /// 11: MASTER holds the counts of the lines above it.
    fn counts_true(&self, record: Option<Record>) -> bool {
        match record {
            Some(Record::Master(counts)) => counts == self.counting.tally,
            _ => true,
        }
    }

    /// Takes a good line in.
    fn add(&mut self, line: &GoodLine) {
        self.name = Some(line.name);
        self.counting.add(line.name);
        self.models.add(line.name);
        match line.record {
            Some(Record::Model(_)) => self.stretch = Stretch::default(),
            Some(Record::Atom(atom) | Record::Hetatm(atom)) => {
                self.stretch.serial = Some(atom.serial);
                self.atoms.insert(atom.serial);
                self.stretch.labels.insert(atom.label());
                self.stretch.run.add(line.name == LineName::Atom, atom.residue);
            }
            Some(Record::Ter(ter)) => {
                self.stretch.serial = Some(ter.serial);
                self.stretch.run = Run::default();
            }
            Some(Record::Conect(conect)) => self.conect = Some(conect.serial),
            Some(Record::Sheet(strand)) => self.strand = Some(strand),
            _ => {}
        }
    }
}

impl Run {
    fn add(&mut self, is_atom: bool, residue: Residue) {
        self.holds_atom |= is_atom;
        self.one_chain = match self.chain {
            None => true,
            Some(chain) => self.one_chain && chain == residue.chain,
        };
        self.chain.get_or_insert(residue.chain);
        self.last = Some(residue);
    }
}

#[cfg(test)]
mod tests {
    use super::*;
    use crate::samples::*;

    /// Number, line and good lines of a text.
    fn answer(text: &[u8]) -> (u32, u64, u64) {
        let verdict = check(text);
        (verdict.refusal.map_or(0, Refusal::number), verdict.line, verdict.good_lines)
    }

    fn answer_of(lines: &[[u8; 80]]) -> (u32, u64) {
        let (number, line, _) = answer(&text(lines));
        (number, line)
    }

    #[test]
    fn the_arginine_entry() {
        let entry = arginine_entry();
        let tally = Tally { coord: 1, ter: 1, ..Tally::default() };
        assert_eq!(check(&entry), Verdict { refusal: None, line: 0, column: 0, good_lines: 5, tally });
        assert_eq!(answer(&[&entry[..], b"x"].concat()), (1, 6, 5));
        assert_eq!(answer(&[&entry[..], b"\n"].concat()), (1, 6, 5));
        assert_eq!(answer(&entry[..entry.len() - 1]), (1, 5, 4));
        assert_eq!(answer(&entry[..entry.len() - 81]), (12, 5, 4));
        assert_eq!(answer(&entry[81..]), (5, 1, 0));
        assert_eq!(answer(&[&entry[..], &entry[..]].concat()), (5, 6, 5));
        assert_eq!(answer(b""), (12, 1, 0));
    }

    #[test]
    fn shortest_entry() {
        assert_eq!(answer_of(&[line("HEADER"), master([0; 9]), line("END")]), (0, 0));
        assert_eq!(answer_of(&[line("HEADER"), line("END")]), (5, 2));
        assert_eq!(answer_of(&[line("HEADER"), master([0; 9])]), (12, 3));
        assert_eq!(answer_of(&[line("HEADER"), master([0; 9]), master([0; 9])]), (5, 3));
    }

    #[test]
    fn serials() {
        let first = atom("ATOM", 5, 'A', 1);
        assert_eq!(answer_of(&[line("HEADER"), first, first]), (7, 3));
        assert_eq!(answer_of(&[line("HEADER"), first, ter(5, 'B', 1)]), (7, 3));
    }

    #[test]
    fn runs() {
        let open = [line("HEADER"), atom("ATOM", 1, 'A', 1)];
        let with = |more: &[[u8; 80]]| answer_of(&[&open[..], more].concat());
        assert_eq!(with(&[master([0, 0, 0, 0, 0, 1, 0, 0, 0])]), (8, 3));
        assert_eq!(with(&[line("CONECT    7    8")]), (8, 3));
        assert_eq!(with(&[atom("HETATM", 2, 'B', 1)]), (8, 3));
        assert_eq!(with(&[atom("ATOM", 2, 'B', 1)]), (8, 3));
        assert_eq!(with(&[ter(2, 'A', 2)]), (8, 3));
        assert_eq!(with(&[atom("HETATM", 2, 'A', 3), ter(3, 'A', 3), ter(4, 'A', 3)]), (8, 5));
        let lone = [line("HEADER"), atom("HETATM", 1, 'A', 1), atom("HETATM", 2, 'B', 1)];
        let with = |more: [u8; 80]| answer_of(&[&lone[..], &[more]].concat());
        assert_eq!(with(ter(3, 'B', 1)), (8, 4));
        assert_eq!(with(atom("ATOM", 3, 'B', 1)), (8, 4));
        assert_eq!(with(atom("HETATM", 3, 'C', 1)), (12, 5));
    }

    /// An atom of residue ALA A 1, or one that has some columns otherwise, and then a second one.
    fn with_second(first: [u8; 80], second: [u8; 80]) -> (u32, u64) {
        answer_of(&[line("HEADER"), first, second])
    }

    #[test]
    fn the_same_atom() {
        let (first, second) = (atom("ATOM", 1, 'A', 1), changed(&atom("ATOM", 2, 'A', 1), 31, b"   9.000"));
        assert_eq!(with_second(first, second), (21, 3));
        assert_eq!(with_second(atom("HETATM", 1, 'A', 1), second), (21, 3));
        assert_eq!(with_second(first, atom("HETATM", 2, 'A', 1)), (21, 3));
        assert_eq!(with_second(first, changed(&second, 79, b"2+")), (21, 3));
        assert_eq!(with_second(changed(&first, 17, b"A"), changed(&second, 17, b"A")), (21, 3));
        for (column, other) in [(13, &b" CA "[..]), (17, b"A"), (18, b"GLY"), (23, b"   2"), (27, b"A")] {
            assert_eq!(with_second(first, changed(&second, column, other)), (12, 4), "column {column}");
        }
        assert_eq!(with_second(atom("HETATM", 1, 'A', 1), atom("HETATM", 2, 'B', 1)), (12, 4));
        assert_eq!(with_second(changed(&first, 17, b"A"), changed(&second, 17, b"B")), (12, 4));
    }

    #[test]
    fn the_same_name_of_two_elements() {
        let named = |serial, name, element| changed(&changed(&atom("HETATM", serial, 'A', 1), 13, name), 77, element);
        assert_eq!(with_second(named(1, b"CA12", b" C"), named(2, b"CA12", b"CA")), (21, 3));
        assert_eq!(with_second(named(1, b" CA ", b" C"), named(2, b"CA  ", b"CA")), (12, 4));
    }

    #[test]
    fn the_same_atom_far_below() {
        let closed = [line("HEADER"), atom("ATOM", 1, 'A', 1), ter(2, 'A', 1)];
        let with = |more: &[[u8; 80]]| answer_of(&[&closed[..], more].concat());
        let other = atom("HETATM", 3, 'B', 1);
        assert_eq!(with(&[other, atom("HETATM", 4, 'A', 1)]), (21, 5));
        assert_eq!(with(&[other, atom("HETATM", 3, 'A', 1)]), (7, 5));
        assert_eq!(with(&[atom("ATOM", 3, 'B', 1), atom("HETATM", 4, 'A', 1)]), (8, 5));
        assert_eq!(with(&[atom("HETATM", 4, 'A', 1), line("CONECT    1    9")]), (21, 4));
        let named = |serial, name| changed(&atom("ATOM", serial, 'A', 1), 13, name);
        assert_eq!(with(&[named(3, b" CA "), ter(4, 'A', 1), named(5, b" CB "), ter(6, 'A', 1)]), (12, 8));
        assert_eq!(with(&[named(3, b" CA "), ter(4, 'A', 1), named(5, b" CA ")]), (21, 6));
    }

    #[test]
    fn bonds() {
        let verdict = |bonds: &[&str]| answer(&three_fragments(bonds)).0;
        assert_eq!(verdict(&["CONECT    1    3    4    3", "CONECT    1    3", "CONECT    3    1"]), 0);
        assert_eq!(verdict(&["CONECT    3    1", "CONECT    1    3"]), 9);
        assert_eq!(verdict(&["CONECT    1    2"]), 9);
        assert_eq!(verdict(&["CONECT    5    1"]), 9);
        assert_eq!(verdict(&["CONECT    1    1"]), 6);
        assert_eq!(answer_of(&[line("HEADER"), line("CONECT    1    2")]), (9, 2));
    }

    #[test]
    fn sheets() {
        let with = |more: &[[u8; 80]]| answer_of(&[&[line("HEADER")], more].concat());
        assert_eq!(with(&[*STRAND_1, master([0; 9])]), (10, 3));
        assert_eq!(with(&[*STRAND_1, *HELIX]), (5, 3));
        assert_eq!(with(&[*STRAND_1, *CELL]), (10, 3));
        assert_eq!(with(&[*STRAND_1, line("CRYST1")]), (6, 3));
        assert_eq!(with(&[*STRAND_1, line("CONECT    1    2")]), (9, 3));
        assert_eq!(with(&[*STRAND_1]), (12, 3));
        assert_eq!(with(&[*STRAND_2]), (10, 2));
        assert_eq!(with(&[*STRAND_1, *STRAND_2, *STRAND_1]), (10, 4));
        assert_eq!(with(&[*HELIX, *HELIX]), (10, 3));
        assert_eq!(with(&[*HELIX, *STRAND_1, *STRAND_2, master([0, 0, 1, 2, 0, 0, 0, 0, 0]), line("END")]), (0, 0));
    }

    #[test]
    fn counts() {
        assert_eq!(answer_of(&[line("HEADER"), line("REMARK"), master([0; 9])]), (11, 3));
        assert_eq!(answer_of(&[line("HEADER"), line("ANISOU")]), (4, 2));
    }
}
