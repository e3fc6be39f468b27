//! The fields of the typed lines as `docs/FORMAT.md` lists them: their columns, their names, and what is allowed there.

/// A field of a line.
#[derive(Debug)]
pub struct Field {
    /// Its first and its last column, from 1.
    pub first: usize,
    pub last: usize,
    pub name: &'static str,
    pub allowed: Allowed,
    pub beside: Beside,
}

/// What may stand in a field.
#[derive(Debug)]
pub enum Allowed {
    /// A number from the lowest to the highest.
    Integer(i32, i32),
    /// Such a number, or blanks.
    IntegerOrBlank(i32, i32),
    /// Its width, the digits behind the point, the lowest and the highest.
    Real(usize, usize, &'static str, &'static str),
    /// What everything else is: `no chain (..)`.
    Words(&'static str),
    /// Anything. Such a field is never wrong.
    Free,
}

/// What else of the line a field is judged against.
#[derive(Debug)]
pub enum Beside {
    Nothing,
    /// The earlier field that begins in this column, and how the two go together.
    Earlier(usize, &'static str),
    /// The registration of a strand, which is blank or filled as a whole.
    Registration,
}

/// What a column names.
#[derive(Debug)]
pub enum Named {
    /// The field that begins there.
    Field(&'static Field),
    /// A blank column.
    Blank,
    /// A blank column of the registration, which strand 1 has not.
    NoRegistration,
}

const fn field(first: usize, last: usize, name: &'static str, allowed: Allowed) -> Field {
    Field { first, last, name, allowed, beside: Beside::Nothing }
}

impl Field {
    const fn with(self, beside: Beside) -> Field {
        Field { beside, ..self }
    }
}

const SERIAL: Allowed = Allowed::Integer(1, 99_999);
const NUMBER: Allowed = Allowed::Integer(-999, 9_999);
const COUNT: Allowed = Allowed::Integer(0, 99_999);
const PLACE: Allowed = Allowed::Real(8, 3, "-999.999", "9999.999");
const RESIDUE: Allowed = Allowed::Words("no residue name (one to three of A-Z and 0-9, blanks only on the left)");
const CHAIN: Allowed = Allowed::Words("no chain (one of A-Z, a-z and 0-9)");
const INSERTION: Allowed = Allowed::Words("no insertion code (A-Z or blank)");
const IDENTIFIER: Allowed = Allowed::Words("no identifier (one to three characters, blanks only on the left)");
const ZERO: Allowed = Allowed::Words("not \"    0\"");
const ATOM_NAME: Allowed =
    Allowed::Words("no atom name (behind the element, columns 15-16 are up to two of A-Z, 0-9, ' and *, then blanks)");
const REGISTRATION_ATOM: Allowed =
    Allowed::Words("no registration atom (at most one blank, one or more of A-Z, 0-9, ' and *, then blanks)");

static COORDINATE: [Field; 14] = [
    field(7, 11, "serial", SERIAL),
    field(13, 16, "name", ATOM_NAME),
    field(17, 17, "alternate location", Allowed::Words("no alternate location (A-Z, 0-9 or blank)")),
    field(18, 20, "residue name", RESIDUE),
    field(22, 22, "chain", CHAIN),
    field(23, 26, "residue number", NUMBER),
    field(27, 27, "insertion code", INSERTION),
    field(31, 38, "x", PLACE),
    field(39, 46, "y", PLACE),
    field(47, 54, "z", PLACE),
    field(55, 60, "occupancy", Allowed::Real(6, 2, "0.00", "1.00")),
    field(61, 66, "temperature factor", Allowed::Real(6, 2, "-99.99", "999.99")),
    field(77, 78, "element", Allowed::Words("no element (an IUPAC symbol in capitals or D, filled from the right)"))
        .with(Beside::Earlier(
            13,
            "columns 13-14 are the element again, or 13 is one of one letter and 14-16 are three of A-Z, 0-9, ' and *",
        )),
    field(79, 80, "charge", Allowed::Words("no charge (two blanks, or a digit 1-9 and then + or -)")),
];

static TER: [Field; 5] = [
    field(7, 11, "serial", SERIAL),
    field(18, 20, "residue name", RESIDUE),
    field(22, 22, "chain", CHAIN),
    field(23, 26, "residue number", NUMBER),
    field(27, 27, "insertion code", INSERTION),
];

static HELIX: [Field; 13] = [
    field(8, 10, "helix serial", Allowed::Integer(1, 999)),
    field(12, 14, "identifier", IDENTIFIER),
    field(16, 18, "name of the first residue", RESIDUE),
    field(20, 20, "chain of the first residue", CHAIN),
    field(22, 25, "number of the first residue", NUMBER),
    field(26, 26, "insertion code of the first residue", INSERTION),
    field(28, 30, "name of the last residue", RESIDUE),
    field(32, 32, "chain of the last residue", CHAIN).with(Beside::Earlier(20, "the two are equal")),
    field(34, 37, "number of the last residue", NUMBER),
    field(38, 38, "insertion code of the last residue", INSERTION),
    field(39, 40, "class", Allowed::Integer(1, 10)),
    field(41, 70, "comment", Allowed::Free),
    field(72, 76, "length", Allowed::Integer(1, 99_999)),
];

static SHEET: [Field; 12] = [
    STRAND,
    field(12, 14, "identifier", IDENTIFIER),
    field(15, 16, "strands in the sheet", Allowed::Integer(1, 99)),
    field(18, 20, "name of the first residue", RESIDUE),
    field(22, 22, "chain of the first residue", CHAIN),
    field(23, 26, "number of the first residue", NUMBER),
    field(27, 27, "insertion code of the first residue", INSERTION),
    field(29, 31, "name of the last residue", RESIDUE),
    field(33, 33, "chain of the last residue", CHAIN),
    field(34, 37, "number of the last residue", NUMBER),
    field(38, 38, "insertion code of the last residue", INSERTION),
    field(39, 40, "sense", Allowed::Words("no sense (\" 0\", \" 1\" or \"-1\")"))
        .with(Beside::Earlier(8, "strand 1 has \" 0\", any other strand \" 1\" or \"-1\"")),
];

const STRAND: Field = field(8, 10, "strand", Allowed::Integer(1, 999));

/// Columns 42-70 of a SHEET line of any strand but the first. Insertion codes may be blank in a filled registration.
static REGISTRATION: [Field; 10] = [
    field(42, 45, "registration, atom of this strand", REGISTRATION_ATOM).with(Beside::Registration),
    field(46, 48, "registration, residue name of this strand", RESIDUE).with(Beside::Registration),
    field(50, 50, "registration, chain of this strand", CHAIN).with(Beside::Registration),
    field(51, 54, "registration, residue number of this strand", NUMBER).with(Beside::Registration),
    field(55, 55, "registration, insertion code of this strand", INSERTION),
    field(57, 60, "registration, atom of the strand before", REGISTRATION_ATOM).with(Beside::Registration),
    field(61, 63, "registration, residue name of the strand before", RESIDUE).with(Beside::Registration),
    field(65, 65, "registration, chain of the strand before", CHAIN).with(Beside::Registration),
    field(66, 69, "registration, residue number of the strand before", NUMBER).with(Beside::Registration),
    field(70, 70, "registration, insertion code of the strand before", INSERTION),
];

const EDGE: Allowed = Allowed::Real(9, 3, "0.001", "99999.999");
const ANGLE: Allowed = Allowed::Real(7, 2, "0.01", "179.99");

static CRYST1: [Field; 8] = [
    field(7, 15, "edge a", EDGE),
    field(16, 24, "edge b", EDGE),
    field(25, 33, "edge c", EDGE),
    field(34, 40, "angle alpha", ANGLE),
    field(41, 47, "angle beta", ANGLE),
    field(48, 54, "angle gamma", ANGLE),
    field(56, 66, "space group", Allowed::Free),
    field(67, 70, "Z", Allowed::Integer(1, 9_999)),
];

const COEFFICIENT: Allowed = Allowed::Real(10, 6, "-99.999999", "999.999999");

/// The fields of ORIGX1-3 and SCALE1-3.
static TRANSFORMATION: [Field; 4] = [
    field(11, 20, "coefficient of x", COEFFICIENT),
    field(21, 30, "coefficient of y", COEFFICIENT),
    field(31, 40, "coefficient of z", COEFFICIENT),
    field(46, 55, "shift", Allowed::Real(10, 5, "-999.99999", "9999.99999")),
];

const PARTNER: Allowed = Allowed::IntegerOrBlank(1, 99_999);
const NOT_THE_ATOM: Beside = Beside::Earlier(7, "no partner is the atom itself");
const NO_GAP: Beside = Beside::Earlier(7, "no partner is the atom itself, and none stands right of a blank one");

static CONECT: [Field; 5] = [
    field(7, 11, "atom", SERIAL),
    field(12, 16, "first partner", SERIAL).with(NOT_THE_ATOM),
    field(17, 21, "second partner", PARTNER).with(NOT_THE_ATOM),
    field(22, 26, "third partner", PARTNER).with(NO_GAP),
    field(27, 31, "fourth partner", PARTNER).with(NO_GAP),
];

static MASTER: [Field; 12] = [
    field(11, 15, "REMARK lines", COUNT),
    field(16, 20, "fixed", ZERO),
    field(21, 25, "HET lines", COUNT),
    field(26, 30, "HELIX lines", COUNT),
    field(31, 35, "SHEET lines", COUNT),
    field(36, 40, "fixed (turns)", ZERO),
    field(41, 45, "fixed (sites)", ZERO),
    field(46, 50, "ORIGX and SCALE lines", COUNT),
    field(51, 55, "ATOM and HETATM lines", COUNT),
    field(56, 60, "TER lines", COUNT),
    field(61, 65, "CONECT lines", COUNT),
    field(66, 70, "SEQRES lines", COUNT),
];

static MODEL: [Field; 1] = [field(11, 14, "number of the model", Allowed::Integer(1, 9_999))];

/// What a column of a typed line names, by the line's name; of a SHEET line also by its strand, which is right wherever a column
/// behind it is named. A column within a field names nothing.
pub fn named(line: &[u8; 80], column: usize) -> Option<Named> {
    let first_strand = &line[STRAND.first - 1..STRAND.last] == b"  1";
    let registration = (42..=70).contains(&column);
    let fields: &[Field] = match &line[..6] {
        b"ATOM  " | b"HETATM" => &COORDINATE,
        b"TER   " => &TER,
        b"HELIX " => &HELIX,
        b"SHEET " if registration && first_strand => return Some(Named::NoRegistration),
        b"SHEET " if registration => &REGISTRATION,
        b"SHEET " => &SHEET,
        b"CRYST1" => &CRYST1,
        b"ORIGX1" | b"ORIGX2" | b"ORIGX3" | b"SCALE1" | b"SCALE2" | b"SCALE3" => &TRANSFORMATION,
        b"CONECT" => &CONECT,
        b"MASTER" => &MASTER,
        b"MODEL " => &MODEL,
        b"END   " | b"ENDMDL" => &[],
        _ => return None,
    };
    match fields.iter().find(|field| (field.first..=field.last).contains(&column)) {
        Some(Field { allowed: Allowed::Free, .. }) => None,
        Some(field) => (field.first == column).then_some(Named::Field(field)),
        None => (7..=80).contains(&column).then_some(Named::Blank),
    }
}
