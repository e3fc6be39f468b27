//! The fields of typed lines, each with what it takes. Nothing here comes from the reference.

use crate::entry::Columns;
use crate::rows::TRANSFORMS;

/// What sort of text stands in a field.
#[derive(Clone, Copy, Debug)]
pub enum Sort {
    /// An integer of a range.
    Integer(i64, i64),
    /// A real with decimals, of a range of its last place.
    Real(usize, i64, i64),
    /// Some bytes, blank or not.
    Bytes,
    /// An element, which stands in two places.
    Element,
}

use Sort::{Bytes, Element, Integer, Real};

impl Sort {
    /// The decimals and the range of a number.
    pub fn range(self) -> Option<(usize, i64, i64)> {
        match self {
            Integer(low, high) => Some((0, low, high)),
            Real(decimals, low, high) => Some((decimals, low, high)),
            Bytes | Element => None,
        }
    }
}

const SERIAL: Sort = Integer(1, 99_999);
const NUMBER: Sort = Integer(-999, 9_999);
const PLACE: Sort = Real(3, -999_999, 9_999_999);
const COUNT: Sort = Integer(0, 99_999);
const FIXED: Sort = Integer(0, 0);
const EDGE: Sort = Real(3, 1, 99_999_999);
const ANGLE: Sort = Real(2, 1, 17_999);
const COEFFICIENT: Sort = Real(6, -99_999_999, 999_999_999);
const SHIFT: Sort = Real(5, -99_999_999, 999_999_999);

/// The fields of a typed line: first and last column, and sort.
#[rustfmt::skip]
pub fn fields(line: &Columns) -> &'static [(usize, usize, Sort)] {
    match &line[..6] {
        b"ATOM  " | b"HETATM" => &[
            (7, 11, SERIAL), (13, 16, Bytes), (17, 17, Bytes), (18, 20, Bytes), (22, 22, Bytes), (23, 26, NUMBER),
            (27, 27, Bytes), (31, 38, PLACE), (39, 46, PLACE), (47, 54, PLACE), (55, 60, Real(2, 0, 100)),
            (61, 66, Real(2, -9_999, 99_999)), (77, 78, Element), (79, 80, Bytes),
        ],
        b"TER   " => &[(7, 11, SERIAL), (18, 20, Bytes), (22, 22, Bytes), (23, 26, NUMBER), (27, 27, Bytes)],
        b"HELIX " => &[
            (8, 10, Integer(1, 999)), (12, 14, Bytes), (16, 18, Bytes), (20, 20, Bytes), (22, 25, NUMBER),
            (26, 26, Bytes), (28, 30, Bytes), (32, 32, Bytes), (34, 37, NUMBER), (38, 38, Bytes),
            (39, 40, Integer(1, 10)), (41, 70, Bytes), (72, 76, Integer(1, 99_999)),
        ],
        b"SHEET " => &[
            (8, 10, Integer(1, 999)), (12, 14, Bytes), (15, 16, Integer(1, 99)), (18, 20, Bytes), (22, 22, Bytes),
            (23, 26, NUMBER), (27, 27, Bytes), (29, 31, Bytes), (33, 33, Bytes), (34, 37, NUMBER), (38, 38, Bytes),
            (39, 40, Integer(-1, 1)), (42, 45, Bytes), (46, 48, Bytes), (50, 50, Bytes), (51, 54, NUMBER), (55, 55, Bytes),
            (57, 60, Bytes), (61, 63, Bytes), (65, 65, Bytes), (66, 69, NUMBER), (70, 70, Bytes),
        ],
        b"CRYST1" => &[
            (7, 15, EDGE), (16, 24, EDGE), (25, 33, EDGE), (34, 40, ANGLE), (41, 47, ANGLE), (48, 54, ANGLE), (56, 66, Bytes),
            (67, 70, Integer(1, 9_999)),
        ],
        name if TRANSFORMS.iter().any(|own| *own == name) => {
            &[(11, 20, COEFFICIENT), (21, 30, COEFFICIENT), (31, 40, COEFFICIENT), (46, 55, SHIFT)]
        }
        b"MODEL " => &[(11, 14, Integer(1, 9_999))],
        b"CONECT" => &[(7, 11, SERIAL), (12, 16, SERIAL), (17, 21, SERIAL), (22, 26, SERIAL), (27, 31, SERIAL)],
        b"MASTER" => &[
            (11, 15, COUNT), (16, 20, FIXED), (21, 25, COUNT), (26, 30, COUNT), (31, 35, COUNT), (36, 40, FIXED),
            (41, 45, FIXED), (46, 50, COUNT), (51, 55, COUNT), (56, 60, COUNT), (61, 65, COUNT), (66, 70, COUNT),
        ],
        _ => &[],
    }
}
