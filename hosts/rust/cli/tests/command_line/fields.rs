//! A right line of each kind, and its fields as `docs/FORMAT.md` lists them.

/// The columns and the name of a field, and the beginning of what a wrong one is.
pub type Field = (usize, usize, &'static str, &'static str);

/// A right line as a row of the table of columns has it: the lines between HEADER and it, and its fields.
pub struct Row {
    pub kind: &'static str,
    pub line: &'static str,
    pub above: &'static [&'static str],
    fields: &'static [&'static [Field]],
}

impl Row {
    pub fn fields(&self) -> impl Iterator<Item = &'static Field> {
        self.fields.iter().copied().flatten()
    }
}

const SERIAL: &str = "no Integer from 1 to 99999 ";
const COUNT: &str = "no Integer from 0 to 99999 ";
const NUMBER: &str = "no Integer from -999 to 9999 ";
pub const RESIDUE: &str = "no residue name (one to three of A-Z and 0-9, blanks only on the left)";
pub const CHAIN: &str = "no chain (one of A-Z, a-z and 0-9)";
pub const INSERTION: &str = "no insertion code (A-Z or blank)";
const IDENTIFIER: &str = "no identifier (one to three characters, blanks only on the left)";
const PLACE: &str = "no Real(8.3) from -999.999 to 9999.999 ";
pub const ATOM: &str = "no registration atom (at most one blank, one or more of A-Z, 0-9, ' and *, then blanks)";
pub const PARTNER: &str = "neither blank nor an Integer from 1 to 99999";

const COORDINATE: &[Field] = &[
    (7, 11, "serial", SERIAL),
    (
        13,
        16,
        "name",
        "no atom name (behind the element, columns 15-16 are up to two of A-Z, 0-9, ' and *, then blanks)",
    ),
    (17, 17, "alternate location", "no alternate location (A-Z, 0-9 or blank)"),
    (18, 20, "residue name", RESIDUE),
    (22, 22, "chain", CHAIN),
    (23, 26, "residue number", NUMBER),
    (27, 27, "insertion code", INSERTION),
    (31, 38, "x", PLACE),
    (39, 46, "y", PLACE),
    (47, 54, "z", PLACE),
    (55, 60, "occupancy", "no Real(6.2) from 0.00 to 1.00 "),
    (61, 66, "temperature factor", "no Real(6.2) from -99.99 to 999.99 "),
    (77, 78, "element", "no element (an IUPAC symbol in capitals or D, filled from the right), or"),
    (79, 80, "charge", "no charge (two blanks, or a digit 1-9 and then + or -)"),
];

const TER: &[Field] = &[
    (7, 11, "serial", SERIAL),
    (18, 20, "residue name", RESIDUE),
    (22, 22, "chain", CHAIN),
    (23, 26, "residue number", NUMBER),
    (27, 27, "insertion code", INSERTION),
];

const HELIX: &[Field] = &[
    (8, 10, "helix serial", "no Integer from 1 to 999 "),
    (12, 14, "identifier", IDENTIFIER),
    (16, 18, "name of the first residue", RESIDUE),
    (20, 20, "chain of the first residue", CHAIN),
    (22, 25, "number of the first residue", NUMBER),
    (26, 26, "insertion code of the first residue", INSERTION),
    (28, 30, "name of the last residue", RESIDUE),
    (32, 32, "chain of the last residue", CHAIN),
    (34, 37, "number of the last residue", NUMBER),
    (38, 38, "insertion code of the last residue", INSERTION),
    (39, 40, "class", "no Integer from 1 to 10 "),
    (72, 76, "length", SERIAL),
];

const SHEET: &[Field] = &[
    (8, 10, "strand", "no Integer from 1 to 999 "),
    (12, 14, "identifier", IDENTIFIER),
    (15, 16, "strands in the sheet", "no Integer from 1 to 99 "),
    (18, 20, "name of the first residue", RESIDUE),
    (22, 22, "chain of the first residue", CHAIN),
    (23, 26, "number of the first residue", NUMBER),
    (27, 27, "insertion code of the first residue", INSERTION),
    (29, 31, "name of the last residue", RESIDUE),
    (33, 33, "chain of the last residue", CHAIN),
    (34, 37, "number of the last residue", NUMBER),
    (38, 38, "insertion code of the last residue", INSERTION),
    (39, 40, "sense", "no sense (\" 0\", \" 1\" or \"-1\"), or cannot stand with \""),
];

const REGISTRATION: &[Field] = &[
    (42, 45, "registration, atom of this strand", ATOM),
    (46, 48, "registration, residue name of this strand", RESIDUE),
    (50, 50, "registration, chain of this strand", CHAIN),
    (51, 54, "registration, residue number of this strand", NUMBER),
    (55, 55, "registration, insertion code of this strand", INSERTION),
    (57, 60, "registration, atom of the strand before", ATOM),
    (61, 63, "registration, residue name of the strand before", RESIDUE),
    (65, 65, "registration, chain of the strand before", CHAIN),
    (66, 69, "registration, residue number of the strand before", NUMBER),
    (70, 70, "registration, insertion code of the strand before", INSERTION),
];

const CONECT: &[Field] = &[
    (7, 11, "atom", SERIAL),
    (12, 16, "first partner", SERIAL),
    (17, 21, "second partner", PARTNER),
    (22, 26, "third partner", PARTNER),
    (27, 31, "fourth partner", PARTNER),
];

const MASTER: &[Field] = &[
    (11, 15, "REMARK lines", COUNT),
    (16, 20, "fixed", "not \"    0\""),
    (21, 25, "HET lines", COUNT),
    (26, 30, "HELIX lines", COUNT),
    (31, 35, "SHEET lines", COUNT),
    (36, 40, "fixed (turns)", "not \"    0\""),
    (41, 45, "fixed (sites)", "not \"    0\""),
    (46, 50, "ORIGX and SCALE lines", COUNT),
    (51, 55, "ATOM and HETATM lines", COUNT),
    (56, 60, "TER lines", COUNT),
    (61, 65, "CONECT lines", COUNT),
    (66, 70, "SEQRES lines", COUNT),
];

const EDGE: &str = "no Real(9.3) from 0.001 to 99999.999 ";
const ANGLE: &str = "no Real(7.2) from 0.01 to 179.99 ";
const COEFFICIENT: &str = "no Real(10.6) from -99.999999 to 999.999999 ";

const CELL: &[Field] = &[
    (7, 15, "edge a", EDGE),
    (16, 24, "edge b", EDGE),
    (25, 33, "edge c", EDGE),
    (34, 40, "angle alpha", ANGLE),
    (41, 47, "angle beta", ANGLE),
    (48, 54, "angle gamma", ANGLE),
    (67, 70, "Z", "no Integer from 1 to 9999 "),
];

const TRANSFORMATION: &[Field] = &[
    (11, 20, "coefficient of x", COEFFICIENT),
    (21, 30, "coefficient of y", COEFFICIENT),
    (31, 40, "coefficient of z", COEFFICIENT),
    (46, 55, "shift", "no Real(10.5) from -999.99999 to 9999.99999 "),
];

pub const ARGININE: &str = "ATOM     32  N  AARG A  -3      11.281  86.699  94.383  0.50 35.88           N";
const HEME: &str = "HETATM   40 FE   HEM b9999Z   -999.9999999.999   0.000  1.00-99.99          FE3+";
pub const TURN: &str = "HELIX    1   A ALA A    1  GLY A    9  1 and so on                         9";
pub const STRAND: &str = "SHEET    1   A 2 ALA A   1  GLY A   5  0";
pub const SECOND: &str = "SHEET    2   A 2 ALA A   7  GLY B   9 -1  N  ALA A   7   O  GLY A   5";
pub const ZEROS: &str = "MASTER        0    0    0    0    0    0    0    0    0    0    0    0";

pub const CRYST1: &str = "CRYST1   52.000   58.600   61.900  90.00  90.00  90.00 P 21 21 21    8";
pub const SCALES: [&str; 3] = [
    "SCALE1      0.019231  0.000000  0.000000        0.00000",
    "SCALE2      0.000000  0.017065  0.000000        0.50000",
    "SCALE3      0.000000  0.000000 -0.016155       -0.00001",
];
const ORIGX: &str = "ORIGX1      1.000000-99.999999999.999999     9999.99999";

pub const ROWS: [Row; 14] = [
    Row { kind: "ATOM", line: ARGININE, above: &[], fields: &[COORDINATE] },
    Row { kind: "HETATM", line: HEME, above: &[], fields: &[COORDINATE] },
    Row { kind: "TER", line: "TER      33      ARG A  -3", above: &[ARGININE], fields: &[TER] },
    Row { kind: "HELIX", line: TURN, above: &[], fields: &[HELIX] },
    Row { kind: "SHEET, strand 1", line: STRAND, above: &[], fields: &[SHEET] },
    Row { kind: "SHEET, any other", line: SECOND, above: &[STRAND], fields: &[SHEET, REGISTRATION] },
    Row { kind: "CONECT", line: "CONECT    5    6    7    8    9", above: &[], fields: &[CONECT] },
    Row { kind: "MASTER", line: ZEROS, above: &[], fields: &[MASTER] },
    Row { kind: "CRYST1", line: CRYST1, above: &[], fields: &[CELL] },
    Row { kind: "ORIGX", line: ORIGX, above: &[], fields: &[TRANSFORMATION] },
    Row { kind: "SCALE", line: SCALES[2], above: &[SCALES[0], SCALES[1]], fields: &[TRANSFORMATION] },
    Row {
        kind: "MODEL",
        line: "MODEL        1",
        above: &[],
        fields: &[&[(11, 14, "number of the model", "no Integer from 1 to 9999 ")]],
    },
    Row { kind: "END", line: "END", above: &[ZEROS], fields: &[] },
    Row { kind: "ENDMDL", line: "ENDMDL", above: &["MODEL        1"], fields: &[] },
];
