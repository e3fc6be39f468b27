//! Pairs of atoms that share all six fields that tell atoms apart, or all but one: which kinds there are, and which of them a
//! text has. Nothing here comes from the reference.

use std::collections::BTreeSet;
use std::ops::Range;

use crate::entry::{named, put, Columns, ATOMS};
use crate::models::{model_start, models};

/// The six fields of an atom, columns 13-20 and 22-27 of its line.
pub type Label = [u8; 14];

/// Where the fields stand in a label.
pub const NAME: Range<usize> = 0..4;
/// The alternate location.
pub const ALTERNATE: Range<usize> = 4..5;
/// The residue's name.
pub const RESIDUE: Range<usize> = 5..8;
/// The chain.
pub const CHAIN: Range<usize> = 8..9;
/// The residue's number.
pub const NUMBER: Range<usize> = 9..13;
/// The insertion code.
pub const INSERTION: Range<usize> = 13..14;

const FIELDS: [Range<usize>; 6] = [NAME, ALTERNATE, RESIDUE, CHAIN, NUMBER, INSERTION];

/// The label in a line. That of a TER has a residue alone.
pub fn label(line: &Columns) -> Label {
    std::array::from_fn(|at| line[if at < CHAIN.start { 12 + at } else { 13 + at }])
}

/// Puts a label into a line.
pub fn put_label(line: &mut Columns, label: &Label) {
    put(line, 13, &label[..CHAIN.start]);
    put(line, 22, &label[CHAIN.start..]);
}

/// The residue of a label.
pub fn residue(label: &Label) -> &[u8] {
    &label[RESIDUE.start..]
}

/// What a pair of atoms may be like.
#[derive(Clone, Copy, Debug, PartialEq, Eq, PartialOrd, Ord)]
pub enum Kind {
    /// Twins on neighbouring lines. Refused with 21, as are those that follow up to `BondBelow`.
    Next,
    /// Twins apart, with atoms of their residue alone between them.
    Within,
    /// Twins with an atom of another residue between them, and no TER.
    Back,
    /// Twins with a TER between them.
    AcrossTer,
    /// Twins with a thousand lines between them, or more.
    Far,
    /// The first atom of the entry and the last.
    FirstAndLast,
    /// An ATOM, and a HETATM below.
    AtomThenHetatm,
    /// A HETATM, and an ATOM below.
    HetatmThenAtom,
    /// Twins with a blank alternate location.
    BothBlank,
    /// Twins with one that is not blank.
    BothLettered,
    /// Twins that have not the same element: `CA12`.
    OtherElement,
    /// Twins, and below them a CONECT that would be refused with 9.
    BondBelow,
    /// Twins, the second of which has a wrong serial: refused with 7.
    SerialToo,
    /// Twins, the second of which is in the wrong run: refused with 8.
    RunToo,
    /// Two atoms that differ in their chain alone. Granted, as are all that follow.
    OtherChain,
    /// In their alternate location alone, which one of them has.
    BlankAndLetter,
    /// In their alternate location alone, which both have.
    OtherLetter,
    /// In their insertion code alone.
    OtherInsertion,
    /// In the name of their residue alone.
    OtherResidue,
    /// In the number of their residue alone.
    OtherNumber,
    /// In their name alone.
    OtherName,
    /// In the place of their name alone: ` CA ` and `CA  `.
    Shifted,
    /// Two TER lines of one residue.
    TwoTers,
}

use Kind::*;

impl Kind {
    /// All kinds.
    #[rustfmt::skip]
    pub const ALL: [Kind; 23] = [
        Next, Within, Back, AcrossTer, Far, FirstAndLast, AtomThenHetatm, HetatmThenAtom, BothBlank, BothLettered,
        OtherElement, BondBelow, SerialToo, RunToo, OtherChain, BlankAndLetter, OtherLetter, OtherInsertion, OtherResidue, OtherNumber,
        OtherName, Shifted, TwoTers,
    ];
}

/// The whole lines of a text, without their newlines.
pub fn lines(text: &[u8]) -> Vec<&Columns> {
    text.chunks(81).filter_map(|piece| piece.first_chunk()).collect()
}

fn has_atom(line: &Columns) -> bool {
    named(line, ATOMS)
}

fn is_ter(line: &Columns) -> bool {
    named(line, &[b"TER   "])
}

/// The first line above, in the same model, with the atom of this one.
pub fn twin_above(lines: &[&Columns], at: usize) -> Option<usize> {
    let own = lines.get(at).filter(|line| has_atom(line))?;
    // As `label`, but quick: texts may be long.
    let same = |line: &&Columns| line[12..20] == own[12..20] && line[21..27] == own[21..27];
    let start = model_start(lines, at);
    lines[start..at].iter().position(|line| same(line) && has_atom(line)).map(|above| start + above)
}

/// The kinds of pairs that a text shows when it is answered with this number and line. `BondBelow` is not among them: it
/// takes a look at what is answered to another text.
pub fn met(text: &[u8], number: u32, line: u64) -> BTreeSet<Kind> {
    let lines = lines(text);
    if number == 0 {
        let models = models(&lines);
        let parts = if models.is_empty() { vec![&lines[..]] } else { models };
        return parts.into_iter().flat_map(between_all).collect();
    }
    let at = (line as usize).saturating_sub(1);
    match (number, twin_above(&lines, at)) {
        (7, Some(_)) => BTreeSet::from([SerialToo]),
        (8, Some(_)) => BTreeSet::from([RunToo]),
        (21, Some(first)) => of_twins(&lines, first, at),
        _ => BTreeSet::new(),
    }
}

/// The kinds of two twins.
fn of_twins(lines: &[&Columns], first: usize, second: usize) -> BTreeSet<Kind> {
    let (a, b) = (lines[first], lines[second]);
    let between = &lines[first + 1..second];
    let own = label(a);
    let distance = match between {
        [] => Next,
        _ if between.iter().any(|line| is_ter(line)) => AcrossTer,
        _ if between.iter().any(|line| residue(&label(line)) != residue(&own)) => Back,
        _ => Within,
    };
    let alternates = if own[ALTERNATE] == *b" " { BothBlank } else { BothLettered };
    let mut kinds = BTreeSet::from([distance, alternates]);
    let atoms = |lines: &[&Columns]| lines.iter().any(|line| has_atom(line));
    for (kind, met) in [
        (Far, between.len() >= 1_000),
        (FirstAndLast, !atoms(&lines[..first]) && !atoms(&lines[second + 1..])),
        (AtomThenHetatm, a[..6] == *b"ATOM  " && b[..6] == *b"HETATM"),
        (HetatmThenAtom, a[..6] == *b"HETATM" && b[..6] == *b"ATOM  "),
        (OtherElement, a[76..78] != b[76..78]),
    ] {
        kinds.extend(met.then_some(kind));
    }
    kinds
}

/// Texts with more atoms are not looked through for all pairs: there are too many.
const FEW: usize = 300;

/// The kinds of all pairs of a text without models, or of a model, that has no twins.
fn between_all(lines: &[&Columns]) -> BTreeSet<Kind> {
    let labels = |of: fn(&Columns) -> bool| -> Vec<Label> {
        lines.iter().filter(|line| of(line)).map(|line| label(line)).collect()
    };
    let (atoms, ters) = (labels(has_atom), labels(is_ter));
    let mut kinds = BTreeSet::new();
    for (at, first) in atoms.iter().enumerate().filter(|_| atoms.len() <= FEW) {
        kinds.extend(atoms[at + 1..].iter().flat_map(|second| of_others(first, second)));
    }
    let alike = |(at, ter): (usize, &Label)| ters[..at].contains(ter);
    kinds.extend(ters.iter().enumerate().any(alike).then_some(TwoTers));
    kinds
}

/// The kinds of two atoms that differ in one field.
fn of_others(first: &Label, second: &Label) -> Vec<Kind> {
    let others: Vec<Range<usize>> =
        FIELDS.into_iter().filter(|field| first[field.clone()] != second[field.clone()]).collect();
    let [field] = &others[..] else { return Vec::new() };
    let (a, b) = (&first[field.clone()], &second[field.clone()]);
    match field.start {
        0 if a.trim_ascii() == b.trim_ascii() => vec![OtherName, Shifted],
        0 => vec![OtherName],
        4 if a == b" " || b == b" " => vec![BlankAndLetter],
        4 => vec![OtherLetter],
        5 => vec![OtherResidue],
        8 => vec![OtherChain],
        9 => vec![OtherNumber],
        _ => vec![OtherInsertion],
    }
}

/// The text with an alternate location on this line that makes its atom a new one.
pub fn mended(text: &[u8], line: u64) -> Vec<u8> {
    let at = (line as usize).saturating_sub(1);
    let column = 81 * at + 12 + ALTERNATE.start;
    let mut mended = text.to_vec();
    for alternate in (b'A'..=b'Z').chain(b'0'..=b'9') {
        if column < mended.len() && twin_above(&lines(&mended), at).is_some() {
            mended[column] = alternate;
        }
    }
    mended
}

#[cfg(test)]
mod tests {
    use super::*;
    use crate::entry::{line, text};

    const FIRST: &str = "ATOM      1  CA AARG A  15B                                                  C";

    /// The kinds of two atoms, with some lines between them.
    fn kinds(first: &str, between: &[&str], second: &str, number: u32) -> Vec<Kind> {
        let lines: Vec<Columns> =
            ["HEADER", first].iter().chain(between).chain(&[second]).map(|text| line(text)).collect();
        met(&text(&lines), number, lines.len() as u64).into_iter().collect()
    }

    #[test]
    fn labels_go_where_they_came_from() {
        let from = line(FIRST);
        let mut to = line("HETATM   99");
        put_label(&mut to, &label(&from));
        assert_eq!(label(&from), *b" CA AARGA  15B");
        assert_eq!(to, line("HETATM   99  CA AARG A  15B"));
    }

    #[test]
    fn kinds_of_twins() {
        let (ter, other) = ("TER       2      ARG A  15B", "ATOM      2  CA AARG A  16");
        let same = "ATOM      2  CB  ARG A  15B";
        assert_eq!(kinds(FIRST, &[], FIRST, 21), [Next, FirstAndLast, BothLettered]);
        assert_eq!(kinds(FIRST, &[same], FIRST, 21), [Within, FirstAndLast, BothLettered]);
        assert_eq!(kinds(FIRST, &[same, other], FIRST, 21), [Back, FirstAndLast, BothLettered]);
        assert_eq!(kinds(FIRST, &[other, ter], FIRST, 21), [AcrossTer, FirstAndLast, BothLettered]);
        assert_eq!(kinds(FIRST, &[other; 999], FIRST, 21), [Back, FirstAndLast, BothLettered]);
        assert_eq!(kinds(FIRST, &[other; 1_000], FIRST, 21), [Back, Far, FirstAndLast, BothLettered]);
        let (blank, het) = (FIRST.replace("CA A", "CA  "), FIRST.replace("ATOM  ", "HETATM").replace("CA A", "CA  "));
        assert_eq!(kinds(&blank, &[], &het, 21), [Next, FirstAndLast, AtomThenHetatm, BothBlank]);
        assert_eq!(kinds(&het, &[], &blank, 21), [Next, FirstAndLast, HetatmThenAtom, BothBlank]);
        let calcium = FIRST.replace("     C", "    CA");
        assert_eq!(kinds(FIRST, &[], &calcium, 21), [Next, FirstAndLast, BothLettered, OtherElement]);
        assert_eq!((kinds(FIRST, &[], FIRST, 7), kinds(FIRST, &[], FIRST, 8)), (vec![SerialToo], vec![RunToo]));
        assert_eq!((kinds(FIRST, &[], same, 7), kinds(FIRST, &[], FIRST, 9)), (vec![], vec![]));
    }

    #[test]
    fn kinds_of_others() {
        for (from, to, kind) in [
            ("CA A", "CB A", &[OtherName][..]),
            (" CA A", "CA  A", &[OtherName, Shifted]),
            ("CA A", "CA  ", &[BlankAndLetter]),
            ("CA A", "CA B", &[OtherLetter]),
            ("ARG A", "LYS A", &[OtherResidue]),
            ("ARG A", "ARG a", &[OtherChain]),
            ("15B", "16B", &[OtherNumber]),
            ("15B", "15 ", &[OtherInsertion]),
            ("15B", "16 ", &[]),
        ] {
            assert_eq!(kinds(FIRST, &[], &FIRST.replace(from, to), 0), kind, "{from} and {to}");
        }
        let ter = "TER       2      ARG A  15B";
        assert_eq!(kinds(ter, &[], ter, 0), [TwoTers]);
        assert_eq!(kinds(FIRST, &[], ter, 0), []);
    }

    #[test]
    fn a_mended_text_has_no_twins() {
        let lettered: Vec<Columns> = [FIRST, &FIRST.replace("CA A", "CA B"), FIRST].map(line).to_vec();
        let mended = mended(&text(&lettered), 3);
        assert_eq!(label(lines(&mended)[2]), *b" CA CARGA  15B");
        assert_eq!(mended[..162], text(&lettered)[..162]);
    }
}
