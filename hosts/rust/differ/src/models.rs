//! Kinds of models: what a call may come across in an entry with MODEL and ENDMDL lines, and in one that should have them
//! otherwise. Nothing here comes from the reference.

use std::collections::BTreeSet;

use crate::entry::{master_of_all, named, Columns, ATOMS, COORDINATES};
use crate::jumps::serial_of;
use crate::twins::{label, lines, residue};

/// The names of the lines that models begin and end with.
pub const ENDS: &[&[u8; 6]] = &[MODEL, ENDMDL];
/// The name of the line that a model begins with.
pub const MODEL: &[u8; 6] = b"MODEL ";
/// The name of the line that a model ends with.
pub const ENDMDL: &[u8; 6] = b"ENDMDL";

/// Declares the kinds and the list of all of them.
macro_rules! kinds {
    ($($(#[$doc:meta])* $kind:ident)*) => {
        /// What may be met.
        #[derive(Clone, Copy, Debug, PartialEq, Eq, PartialOrd, Ord)]
        pub enum Kind {
            $($(#[$doc])* $kind,)*
        }

        impl Kind {
            /// All kinds.
            pub const ALL: &'static [Kind] = &[$(Kind::$kind,)*];
        }
    };
}

kinds! {
    /// One model. Granted by the check, as are those that follow up to `BondOfTer`.
    One
    /// Several models.
    Several
    /// Ten models, so that the last number has two digits.
    Ten
    /// Two models in a row that have the same atoms and TER lines.
    Alike
    /// Two models in a row that have not.
    Unlike
    /// An empty model behind one that is not.
    Empty
    /// An empty first model, and one that is not behind it.
    EmptyFirst
    /// A model of one line.
    OneLine
    /// A model with a first serial that is not above the last one of the model before.
    SerialsAgain
    /// A model with a first serial that is.
    SerialsGoOn
    /// A model that ends with the residue that the next one begins with, and none of the two has a TER.
    ResidueGoesOn
    /// A CONECT with a number that a model with atoms has not.
    BondOfSome
    /// A CONECT with a number that the first model has not.
    BondOfLater
    /// A CONECT with a number that is an atom's in one model and a TER's in another.
    BondOfTer
    /// A MODEL within a model. Refused with 5, as are those that follow up to `EndInside`.
    Nested
    /// A MODEL behind coordinate lines that stand in none.
    Late
    /// A MODEL behind a CONECT or MASTER.
    Behind
    /// An ENDMDL above which there is no coordinate line and no model.
    LoneEnd
    /// An ENDMDL behind an ENDMDL.
    DoubleEnd
    /// An ENDMDL behind coordinate lines that stand in no model.
    EndWithout
    /// An ATOM or HETATM behind an ENDMDL.
    AtomOutside
    /// A TER behind an ENDMDL.
    TerOutside
    /// A CONECT within a model.
    BondInside
    /// A MASTER within a model.
    MasterInside
    /// A line of the head within a model.
    HeadInside
    /// An END within a model.
    EndInside
    /// The first number is not 1. Refused with 22, as are the next three.
    FirstNumber
    /// A number that the model before has.
    Repeated
    /// A number that leaves one out.
    Skipped
    /// A number below that of the model before.
    Fallen
    /// A MODEL refused with 6.
    ModelField
    /// An ENDMDL refused with 6.
    EndField
    /// An ENDMDL behind an open chain, refused with 8.
    OpenChain
    /// A TER right behind the MODEL of a later model, refused with 8.
    TerFirst
    /// Twins in a later model, refused with 21.
    Twins
    /// A serial that falls in a later model, refused with 7.
    SerialFalls
    /// A MASTER with the coordinates of all models, refused with 11.
    AllCounted
    /// A CONECT with a number that no model has, refused with 9.
    BondOfNone
    /// A MODEL that comes while strands are missing, refused with 10.
    SheetOpen
    /// A text that is over within a model, refused with 12.
    OverWithin
    /// A text that is over behind a model, refused with 12.
    OverBehind
    /// A table that is another text's by the model of a slot alone, refused with 18.
    OtherModel
    /// A saved text that keeps a CONECT of which a number is aside in one model and in in another.
    BondStays
    /// One that loses a CONECT of which a number is aside in several models and in in none.
    BondGoes
    /// One that loses a CONECT though a TER with one of its numbers is in.
    BondGoesFromTer
    /// One with something aside in the first model.
    FirstLess
    /// One with something aside in later models alone.
    LaterLess
    /// One with a model that all lines of are aside.
    Emptied
    /// A tray that has MODEL and ENDMDL lines alone.
    BareTray
    /// A MODEL line by itself that reads.
    ModelReads
    /// One that does not, with 6.
    ModelFails
    /// An ENDMDL line by itself that reads.
    EndReads
    /// One that does not, with 6.
    EndFails
    /// A slot asked of a MODEL or ENDMDL line that reads, refused with 4.
    NoSlot
    /// A MODEL or ENDMDL line in a tally.
    Tallied
    /// An ATOM, HETATM or TER in a tally past the first ENDMDL.
    Past
    /// The same, where its count is full.
    PastFull
    /// Another line that has a count, past the first ENDMDL.
    PastCounted
}

use Kind::*;

/// A line's first six bytes are one of these names.
fn is(line: &Columns, names: &[&[u8; 6]]) -> bool {
    named(&line[..], names)
}

/// Those of some kinds that are met.
pub fn those_met(kinds: &[(Kind, bool)]) -> BTreeSet<Kind> {
    kinds.iter().filter(|(_, met)| *met).map(|(kind, _)| *kind).collect()
}

/// Where the model of a line begins: behind the last MODEL above it, or at the first line.
pub fn model_start(lines: &[&Columns], at: usize) -> usize {
    lines[..at].iter().rposition(|line| is(line, &[MODEL])).map_or(0, |model| model + 1)
}

/// The lines of each model of an entry.
pub fn models<'a, 't>(lines: &'a [&'t Columns]) -> Vec<&'a [&'t Columns]> {
    let behind = lines.split(|line| is(line, &[MODEL])).skip(1);
    behind.filter_map(|part| Some(&part[..part.iter().position(|line| is(line, &[ENDMDL]))?])).collect()
}

/// The serials of the lines with these names.
fn serials(lines: &[&Columns], names: &[&[u8; 6]]) -> BTreeSet<u32> {
    lines.iter().filter(|line| is(line, names)).filter_map(|line| serial_of(&line[..])).collect()
}

/// The numbers on a CONECT line.
pub fn bond(line: &Columns) -> Vec<u32> {
    line[6..31].chunks(5).map_while(|field| std::str::from_utf8(field).ok()?.trim_start().parse().ok()).collect()
}

/// The kinds of models that a text shows when it is answered with this number and line.
pub fn met(text: &[u8], number: u32, line: u64) -> BTreeSet<Kind> {
    let lines = lines(text);
    let at = (line as usize).saturating_sub(1);
    match (number, lines.get(at)) {
        (0, _) => of_entry(&lines),
        (12, _) => match lines.iter().rfind(|line| is(line, ENDS)) {
            Some(last) if is(last, &[MODEL]) => BTreeSet::from([OverWithin]),
            Some(_) => BTreeSet::from([OverBehind]),
            None => BTreeSet::new(),
        },
        (_, Some(own)) => of_refused(number, &lines[..at], own),
        _ => BTreeSet::new(),
    }
}

/// The kinds of an entry that is granted.
fn of_entry(lines: &[&Columns]) -> BTreeSet<Kind> {
    let models = models(lines);
    let Some(first) = models.first() else { return BTreeSet::new() };
    let filled = |model: &&[&Columns]| !model.is_empty();
    let mut kinds = those_met(&[
        (One, models.len() == 1),
        (Several, models.len() > 1),
        (Ten, models.len() >= 10),
        (Empty, models.iter().skip_while(|model| !filled(model)).any(|model| model.is_empty())),
        (EmptyFirst, first.is_empty() && models.iter().any(filled)),
        (OneLine, models.iter().any(|model| model.len() == 1)),
    ]);
    kinds.extend(models.windows(2).flat_map(|pair| of_neighbours(pair[0], pair[1])));
    let bonds = lines.iter().filter(|line| is(line, &[b"CONECT"])).flat_map(|line| bond(line));
    let having: Vec<Having> = models.iter().map(|model| Having::of(model)).collect();
    kinds.extend(bonds.collect::<BTreeSet<u32>>().iter().flat_map(|number| of_number(&having, *number)));
    kinds
}

/// The kinds of two models in a row.
fn of_neighbours(first: &[&Columns], second: &[&Columns]) -> BTreeSet<Kind> {
    let (Some(end), Some(begin)) = (first.last(), second.first()) else { return BTreeSet::new() };
    let atoms = |model: &[&Columns]| -> Vec<_> { model.iter().map(|line| (line[0], label(line))).collect() };
    let closed = |model: &[&Columns]| model.iter().any(|line| is(line, &[b"TER   "]));
    let alike = atoms(first) == atoms(second);
    let again = serial_of(&begin[..]) <= serial_of(&end[..]);
    let same = residue(&label(begin)) == residue(&label(end));
    those_met(&[
        (Alike, alike),
        (Unlike, !alike),
        (SerialsAgain, again),
        (SerialsGoOn, !again),
        (ResidueGoesOn, same && !closed(first) && !closed(second)),
    ])
}

/// The serials that a model has, of its atoms and of its TER lines.
struct Having {
    atoms: BTreeSet<u32>,
    ters: BTreeSet<u32>,
}

impl Having {
    fn of(model: &[&Columns]) -> Having {
        Having { atoms: serials(model, ATOMS), ters: serials(model, &[b"TER   "]) }
    }
}

/// The kinds of a number on a CONECT line.
fn of_number(models: &[Having], number: u32) -> BTreeSet<Kind> {
    those_met(&[
        (BondOfSome, models.iter().any(|model| !model.atoms.is_empty() && !model.atoms.contains(&number))),
        (BondOfLater, models.first().is_some_and(|model| !model.atoms.contains(&number))),
        (BondOfTer, models.iter().any(|model| model.ters.contains(&number))),
    ])
}

/// The kinds of a line that is refused, with the lines above it.
fn of_refused(number: u32, above: &[&Columns], own: &Columns) -> BTreeSet<Kind> {
    let last = above.iter().rfind(|line| is(line, ENDS));
    let (within, behind) = (last.is_some_and(|line| is(line, &[MODEL])), last.is_some_and(|line| is(line, &[ENDMDL])));
    let without = last.is_none() && above.iter().any(|line| is(line, COORDINATES));
    let later = within && above.iter().filter(|line| is(line, &[MODEL])).count() > 1;
    let (begins, ends) = (is(own, &[MODEL]), is(own, &[ENDMDL]));
    match number {
        5 if begins => {
            let late = above.iter().any(|line| is(line, &[b"CONECT", b"MASTER"]));
            those_met(&[(Nested, within), (Late, without && !late), (Behind, late)])
        }
        5 if ends => those_met(&[
            (LoneEnd, last.is_none() && !without && !above.is_empty()),
            (DoubleEnd, behind),
            (EndWithout, without),
        ]),
        5 if is(own, COORDINATES) => {
            let ter = is(own, &[b"TER   "]);
            let bonds = above.iter().any(|line| is(line, &[b"CONECT", b"MASTER"]));
            those_met(&[(AtomOutside, behind && !ter && !bonds), (TerOutside, behind && ter && !bonds)])
        }
        5 if within => BTreeSet::from([match &own[..6] {
            b"CONECT" => BondInside,
            b"MASTER" => MasterInside,
            b"END   " => EndInside,
            _ => HeadInside,
        }]),
        22 => of_number_refused(above, own),
        6 => those_met(&[(ModelField, begins), (EndField, ends)]),
        8 => those_met(&[
            (OpenChain, ends),
            (TerFirst, later && is(own, &[b"TER   "]) && above.last().is_some_and(|line| is(line, &[MODEL]))),
        ]),
        7 => those_met(&[(SerialFalls, later)]),
        21 => those_met(&[(Twins, later)]),
        9 => {
            those_met(&[(BondOfNone, behind && bond(own).iter().any(|number| !serials(above, ATOMS).contains(number)))])
        }
        10 => those_met(&[(SheetOpen, begins)]),
        11 => {
            let owned: Vec<Columns> = above.iter().map(|line| **line).collect();
            those_met(&[(AllCounted, behind && master_of_all(&owned) == *own)])
        }
        _ => BTreeSet::new(),
    }
}

/// The kinds of a MODEL that is refused for its number.
fn of_number_refused(above: &[&Columns], own: &Columns) -> BTreeSet<Kind> {
    let number = |line: &Columns| std::str::from_utf8(&line[10..14]).ok()?.trim_start().parse::<u32>().ok();
    let before = above.iter().rfind(|line| is(line, &[MODEL])).and_then(|line| number(line));
    BTreeSet::from([match (before, number(own)) {
        (None, _) => FirstNumber,
        (before, own) if own == before => Repeated,
        (before, own) if own > before => Skipped,
        _ => Fallen,
    }])
}

#[cfg(test)]
mod tests {
    use super::*;
    use crate::entry::{line, text};

    const ATOM: &str = "HETATM    1  CA AARG A  15B";
    const TER: &str = "TER       2      ARG A  15B";

    /// The kinds of some lines below a HEADER, the last of which is refused with a number, or that are granted.
    fn kinds(below: &[&str], number: u32) -> Vec<Kind> {
        let lines: Vec<Columns> = ["HEADER"].iter().chain(below).map(|text| line(text)).collect();
        met(&text(&lines), number, if number == 0 { 0 } else { lines.len() as u64 }).into_iter().collect()
    }

    #[test]
    fn granted() {
        let (one, two) = ("MODEL        1", "MODEL        2");
        assert_eq!(kinds(&[ATOM], 0), []);
        assert_eq!(kinds(&[one, "ENDMDL"], 0), [One]);
        assert_eq!(kinds(&[one, ATOM, "ENDMDL", two, "ENDMDL"], 0), [Several, Empty, OneLine]);
        assert_eq!(kinds(&[one, "ENDMDL", two, ATOM, TER, "ENDMDL"], 0), [Several, EmptyFirst]);
        let twice = [one, ATOM, "ENDMDL", two, ATOM, "ENDMDL", "CONECT    1    1"];
        assert_eq!(kinds(&twice, 0), [Several, Alike, OneLine, SerialsAgain, ResidueGoesOn]);
        let other = ATOM.replace("    1  CA", "    3  CB");
        let unlike = [one, ATOM, TER, "ENDMDL", two, &other, "ENDMDL", "CONECT    1    3"];
        assert_eq!(kinds(&unlike, 0), [Several, Unlike, OneLine, SerialsGoOn, BondOfSome, BondOfLater]);
        let ter = [one, ATOM, TER, "ENDMDL", two, &other.replace("    3", "    2"), "ENDMDL", "CONECT    2    1"];
        assert!(kinds(&ter, 0).contains(&BondOfTer));
    }

    #[test]
    fn refused() {
        let (one, two) = ("MODEL        1", "MODEL        2");
        for (below, number, kind) in [
            (&[one, two][..], 5, Nested),
            (&[ATOM, one], 5, Late),
            (&[ATOM, "CONECT", one], 5, Behind),
            (&["ENDMDL"], 5, LoneEnd),
            (&[one, "ENDMDL", "ENDMDL"], 5, DoubleEnd),
            (&[ATOM, "ENDMDL"], 5, EndWithout),
            (&[one, "ENDMDL", ATOM], 5, AtomOutside),
            (&[one, "ENDMDL", TER], 5, TerOutside),
            (&[one, "CONECT"], 5, BondInside),
            (&[one, "MASTER"], 5, MasterInside),
            (&[one, "REMARK"], 5, HeadInside),
            (&[one, "END"], 5, EndInside),
            (&[two], 22, FirstNumber),
            (&[one, "ENDMDL", one], 22, Repeated),
            (&[one, "ENDMDL", "MODEL        3"], 22, Skipped),
            (&[one, "ENDMDL", two, "ENDMDL", one], 22, Fallen),
            (&["MODEL"], 6, ModelField),
            (&[one, "ENDMDL  x"], 6, EndField),
            (&[one, ATOM, "ENDMDL"], 8, OpenChain),
            (&[one, ATOM, "ENDMDL", two, TER], 8, TerFirst),
            (&[one, "ENDMDL", two, ATOM, ATOM], 21, Twins),
            (&[one, "ENDMDL", two, ATOM, ATOM], 7, SerialFalls),
            (&[one, ATOM, "ENDMDL", "CONECT    1    2"], 9, BondOfNone),
            (&["SHEET", one], 10, SheetOpen),
            (&[one, ATOM], 12, OverWithin),
            (&[one, "ENDMDL"], 12, OverBehind),
        ] {
            assert_eq!(kinds(below, number), [kind], "{below:?}");
        }
        for below in [&[one, ATOM, ATOM][..], &["HEADER"], &[ATOM, "CONECT"]] {
            assert!([5, 7, 9, 21].iter().all(|&number| kinds(below, number).is_empty()), "{below:?}");
        }
        let all = "MASTER        0    0    0    0    0    0    0    0    2    0    0    0";
        assert_eq!(kinds(&[one, ATOM, "ENDMDL", two, ATOM, "ENDMDL", all], 11), [AllCounted]);
        assert_eq!(kinds(&[one, ATOM, "ENDMDL", all], 11), []);
    }
}
