//! Kinds of fields that are judged together. Nothing here comes from the reference.

use crate::entry::Columns;
use crate::rows::{blank, count, field, Row};

/// How fields that are judged together may be wrong, and which column is told.
#[derive(Clone, Copy, Debug, PartialEq, Eq, PartialOrd, Ord)]
pub enum Joint {
    /// 13-14 and 77-78 could each be an element, and differ: 77.
    OtherElement,
    /// They are the same, and no element: 77.
    NoElement,
    /// 13-14 could begin no name at all: 77.
    NoBeginning,
    /// An element of one letter in 13 and a name that does not fill its columns (`HH1_`): 77.
    NotFilled,
    /// 15-16 are wrong, and 13-14 are the element: 13.
    NameEnd,
    /// 15-16 are wrong, and the element is as well: 13.
    NameEndAndElement,
    /// Two chains of a HELIX that differ: 32.
    OtherChain,
    /// The last one is none: 32.
    NoLastChain,
    /// The first one is none: 20.
    NoFirstChain,
    /// Both are the same, and none: 20.
    NoChains,
    /// Strand 1 with the sense of another: 39.
    FirstWithSense,
    /// Another strand with the sense of strand 1: 39.
    WithoutSense,
    /// A right strand with the sense of none: 39.
    NoSense,
    /// A wrong strand, and a sense of none: 8.
    StrandAndSense,
    /// A wrong strand, and a registration: 8.
    StrandAndRegistration,
    /// Strand 1 with a registration, told by the first byte of it (` N  `): 43.
    Registered,
    /// Strand 1 with a byte within what would be a field of its registration, and nothing before it.
    WithinRegistration,
    /// Another strand with a filled registration but for the field that begins in this column.
    LeftBlank(usize),
    /// Another strand with a registration that only has something in one of its blank columns: 42.
    BlankColumnAlone,
    /// The partner in this column is the atom.
    OfItself(usize),
    /// The partner in this column is right but for the blank one before it.
    BehindGap(usize),
    /// The first partner is blank, and another is not: 12.
    NoFirstPartner,
    /// There is no partner: 12.
    NoPartner,
    /// The atom is wrong, and the first partner is the same: 7.
    AtomAndPartner,
    /// A fixed number of MASTER that begins in this column is another.
    OtherFixed(usize),
    /// It is wrong before its last column.
    FixedBefore(usize),
}

use Joint::*;

/// The fields of a registration that may not be left blank.
const REGISTRATION: [(usize, usize); 8] =
    [(42, 45), (46, 48), (50, 50), (51, 54), (57, 60), (61, 63), (65, 65), (66, 69)];

/// The partners of a CONECT.
const PARTNERS: [usize; 4] = [12, 17, 22, 27];

/// The fixed numbers of MASTER.
const FIXED: [usize; 3] = [16, 36, 41];

impl Joint {
    /// All of them.
    pub fn all() -> Vec<Joint> {
        let mut all = vec![
            OtherElement,
            NoElement,
            NoBeginning,
            NotFilled,
            NameEnd,
            NameEndAndElement,
            OtherChain,
            NoLastChain,
            NoFirstChain,
            NoChains,
            FirstWithSense,
            WithoutSense,
            NoSense,
            StrandAndSense,
            StrandAndRegistration,
            Registered,
            WithinRegistration,
            BlankColumnAlone,
            NoFirstPartner,
            NoPartner,
            AtomAndPartner,
        ];
        all.extend(REGISTRATION.map(|(from, _)| LeftBlank(from)));
        all.extend(PARTNERS.map(OfItself));
        all.extend([22, 27].map(BehindGap));
        all.extend(FIXED.into_iter().flat_map(|from| [OtherFixed(from), FixedBefore(from)]));
        all
    }
}

/// The kinds that a line shows that is refused with 6 and this column.
pub fn of(line: &Columns, row: Row, column: usize) -> Vec<Joint> {
    let kinds = match row {
        Row::Atom | Row::Hetatm => of_name(line, column),
        Row::Helix => of_chains(line, column),
        Row::FirstStrand => of_first_strand(line, column),
        Row::Strand => of_strand(line, column),
        Row::Conect => of_partners(line, column),
        Row::Master => of_fixed(line, column),
        _ => Vec::new(),
    };
    kinds.into_iter().filter(|(_, met)| *met).map(|(kind, _)| kind).collect()
}

fn of_name(line: &Columns, column: usize) -> Vec<(Joint, bool)> {
    let (begin, element) = (field(line, 13, 14), field(line, 77, 78));
    let of_element = |pair: &[u8]| (pair[0] == b' ' || pair[0].is_ascii_uppercase()) && pair[1].is_ascii_uppercase();
    let from_13 = element[0] == b' ' && begin[0] == element[1];
    let both = of_element(begin) && of_element(element);
    match column {
        77 => vec![
            (OtherElement, both && begin != element && !from_13),
            (NoElement, both && begin == element),
            (NoBeginning, of_element(element) && !of_element(begin) && !from_13),
            (NotFilled, from_13 && begin[1].is_ascii_alphanumeric() && line[15] == b' '),
        ],
        13 => vec![(NameEnd, begin == element), (NameEndAndElement, begin != element && !from_13)],
        _ => Vec::new(),
    }
}

fn of_chains(line: &Columns, column: usize) -> Vec<(Joint, bool)> {
    let (first, last) = (line[19], line[31]);
    let is_chain = |byte: u8| byte.is_ascii_alphanumeric();
    match column {
        32 => vec![(OtherChain, is_chain(last)), (NoLastChain, !is_chain(last))],
        20 => vec![(NoFirstChain, is_chain(last)), (NoChains, first == last)],
        _ => Vec::new(),
    }
}

/// What a wrong strand hides.
fn of_wrong_strand(line: &Columns) -> Vec<(Joint, bool)> {
    let sense = field(line, 39, 40);
    vec![(StrandAndSense, ![&b" 0"[..], b" 1", b"-1"].contains(&sense)), (StrandAndRegistration, !blank(line, 42, 70))]
}

fn of_first_strand(line: &Columns, column: usize) -> Vec<(Joint, bool)> {
    let sense = field(line, 39, 40);
    let with = sense == b" 1" || sense == b"-1";
    match column {
        8 => of_wrong_strand(line),
        39 => vec![(FirstWithSense, with), (NoSense, !with)],
        42..=70 => {
            let starts = REGISTRATION.map(|(from, _)| from);
            vec![
                (Registered, column == 43 && !blank(line, 46, 48) && !blank(line, 57, 60)),
                (WithinRegistration, !starts.contains(&column) && column > 43),
            ]
        }
        _ => Vec::new(),
    }
}

fn of_strand(line: &Columns, column: usize) -> Vec<(Joint, bool)> {
    let left_blank = |&(from, to): &(usize, usize)| blank(line, from, to);
    match column {
        8 => of_wrong_strand(line),
        39 => {
            let without = field(line, 39, 40) == b" 0";
            vec![(WithoutSense, without), (NoSense, !without)]
        }
        42..=70 => {
            let alone = REGISTRATION.iter().filter(|own| left_blank(own)).count() == 1;
            let own = REGISTRATION.iter().find(|(from, _)| *from == column).filter(|own| left_blank(own));
            let nothing = REGISTRATION.iter().all(left_blank) && line[54] == b' ' && line[69] == b' ';
            vec![(LeftBlank(column), own.is_some() && alone), (BlankColumnAlone, nothing)]
        }
        _ => Vec::new(),
    }
}

fn of_partners(line: &Columns, column: usize) -> Vec<(Joint, bool)> {
    let (atom, number) = (field(line, 7, 11), |from: usize| field(line, from, from + 4));
    let none = |from: usize| blank(line, from, from + 4);
    match column {
        7 => vec![(AtomAndPartner, number(12) == atom)],
        12 if none(12) => vec![(NoFirstPartner, !blank(line, 17, 31)), (NoPartner, blank(line, 17, 31))],
        12 | 17 => vec![(OfItself(column), number(column) == atom)],
        22 | 27 => {
            let right = count(number(column)).is_some_and(|number| number > 0) && number(column) != atom;
            vec![
                (OfItself(column), number(column) == atom && !none(column - 5)),
                (BehindGap(column), right && none(column - 5)),
            ]
        }
        _ => Vec::new(),
    }
}

fn of_fixed(line: &Columns, column: usize) -> Vec<(Joint, bool)> {
    if !FIXED.contains(&column) {
        return Vec::new();
    }
    let number = field(line, column, column + 4);
    vec![
        (OtherFixed(column), count(number).is_some_and(|number| number > 0)),
        (FixedBefore(column), number.ends_with(b"0")),
    ]
}

#[cfg(test)]
mod tests {
    use super::*;
    use crate::entry::{line, put};

    const STRAND: &str = "SHEET    2   A 2 ILE A  96  THR A  99 -1  N  LYS A  98   O  THR A 107";

    /// The kinds of a line with other bytes from a column on, when a column is told.
    fn kinds(text: &str, changes: &[(usize, &str)], told: usize) -> Vec<Joint> {
        let mut columns = line(text);
        for (from, bytes) in changes {
            put(&mut columns, *from, bytes.as_bytes());
        }
        let blame = reference::read_line(&columns).expect_err("a wrong field");
        assert_eq!(blame.column, told as u64, "{text} {changes:?}");
        of(&columns, Row::of(&columns).expect("a typed line"), told)
    }

    #[test]
    fn names_and_elements() {
        let atom = "ATOM     32  N  AARG A  -3      11.281  86.699  94.383  0.50 35.88           N";
        assert_eq!(kinds(atom, &[(77, "CA")], 77), [OtherElement]);
        assert_eq!(kinds(atom, &[(13, " X"), (77, " X")], 77), [NoElement]);
        assert_eq!(kinds(atom, &[(13, "##")], 77), [NoBeginning]);
        assert_eq!(kinds(atom, &[(13, "NH1 ")], 77), [NotFilled]);
        assert_eq!(kinds(atom, &[(15, " A")], 13), [NameEnd]);
        assert_eq!(kinds(atom, &[(15, " A"), (77, "CA")], 13), [NameEndAndElement]);
    }

    #[test]
    fn helices_and_sheets() {
        let helix = "HELIX    1  HA GLY A   86  GLY A   94  1                                   9";
        assert_eq!(kinds(helix, &[(32, "B")], 32), [OtherChain]);
        assert_eq!(kinds(helix, &[(32, " ")], 32), [NoLastChain]);
        assert_eq!(kinds(helix, &[(20, "~")], 20), [NoFirstChain]);
        assert_eq!(kinds(helix, &[(20, " "), (32, " ")], 20), [NoChains]);
        assert_eq!(kinds(STRAND, &[(8, "  1")], 39), [FirstWithSense]);
        assert_eq!(kinds(STRAND, &[(39, " 0")], 39), [WithoutSense]);
        assert_eq!(kinds(STRAND, &[(39, " 2")], 39), [NoSense]);
        assert_eq!(kinds(STRAND, &[(8, "  0"), (39, " 2")], 8), [StrandAndSense, StrandAndRegistration]);
        assert_eq!(kinds(STRAND, &[(8, "  1"), (39, " 0")], 43), [Registered]);
        assert_eq!(kinds(&STRAND[..41], &[(8, "  1"), (39, " 0"), (48, "A")], 48), [WithinRegistration]);
        assert_eq!(kinds(STRAND, &[(51, "    ")], 51), [LeftBlank(51)]);
        assert_eq!(kinds(STRAND, &[(51, "    "), (57, "    ")], 51), []);
        assert_eq!(kinds(&STRAND[..41], &[(49, "X")], 42), [BlankColumnAlone]);
    }

    #[test]
    fn bonds_and_counts() {
        let bond = "CONECT    5    6    7    8    9";
        assert_eq!(kinds(bond, &[(22, "    5")], 22), [OfItself(22)]);
        assert_eq!(kinds(bond, &[(17, "     ")], 22), [BehindGap(22)]);
        assert_eq!(kinds(bond, &[(12, "     ")], 12), [NoFirstPartner]);
        assert_eq!(kinds(&bond[..11], &[], 12), [NoPartner]);
        assert_eq!(kinds(bond, &[(7, "    0    0")], 7), [AtomAndPartner]);
        let master = "MASTER        0    0    0    0    0    0    0    0    0    0    0    0";
        assert_eq!(kinds(master, &[(16, "    1")], 16), [OtherFixed(16)]);
        assert_eq!(kinds(master, &[(36, "   10")], 36), [OtherFixed(36), FixedBefore(36)]);
        assert_eq!(kinds(master, &[(41, "x   0")], 41), [FixedBefore(41)]);
        assert_eq!(kinds(master, &[(46, "   -1")], 46), []);
    }
}
