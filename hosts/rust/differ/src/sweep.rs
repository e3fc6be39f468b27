//! What is few enough to be tried out in full: every byte in every column of a line of each kind, every two columns that are
//! wrong, every stretch of columns that is blank, every element, every name
//! of an atom over a few bytes, two atoms that differ in one column, MODEL and ENDMDL lines in a text, every number of the
//! narrow fields, every length, every name of a line, jumps in lines with every byte in every column and to every serial, every
//! billionth round zero, every coordinate at the ends of its range.

use station::raw::{Library, Slot, Tally};

use crate::entry::{line, master, put, put_number, put_real, text, Columns, NAMES, PIECE};
use crate::findings::Findings;
use crate::harness::Harness;
use crate::jumps::serial_of;
use crate::names::put_name;
use crate::places::RANGE;

/// Good lines of the typed kinds.
const LINES: [&str; 24] = [
    "ATOM     32  N  AARG A  -3      11.281  86.699  94.383  0.50 35.88           N",
    "HETATM99999 CA    CA b9999Z   -999.9999999.999  -0.001  1.00-99.99          CA2+",
    "ATOM      1  D1*  DG 0   0       0.000   0.000   0.000  0.00  0.00           D1-",
    "TER      33      ARG A  -3",
    "HELIX    1  HA GLY A   86  GLY A   94  1                                   9",
    "HELIX  999 ~~~   U z -999A 1MA z 9999Z10any comment, to the last one ~ 99999",
    "SHEET    1   A 5 THR A 107  ARG A 110  0",
    "SHEET    2   A 5 ILE A  96  THR B  99 -1  N  LYS A  98   O  THR A 107",
    "SHEET  999 XYZ99 ILE A  96A THR B  99B 1 HH11  A 0-999Z N*    U z9999A",
    "CONECT 1179  746 1184 1195 1203",
    "MASTER       40    0    1    2    3    0    0    6  768    2   20   18",
    "END",
    "ATOM    137 HH11 ARG A  12      -0.500   1.250  12.000  1.00 10.00           H",
    "MODEL        1",
    "MODEL     9999",
    "ENDMDL",
    "CRYST1   52.000   58.600   61.900  90.00  90.00  90.00 P 21 21 21    8",
    "CRYST199999.99999999.999    0.001 179.99   0.01 120.00 ~ any grp ~9999",
    "ORIGX1      1.000000  0.000000  0.000000        0.00000",
    "ORIGX2    -99.999999999.999999 -0.000001     -999.99999",
    "ORIGX3    999.999999-99.999999 10.000000     9999.99999",
    "SCALE1      0.019231  0.000000  0.000000        0.00000",
    "SCALE2      0.000000  0.017065  0.000000        0.50000",
    "SCALE3      0.000000  0.000000 -0.016155       -0.00001",
];

/// An atom as ATOM and as HETATM, its TER, and once more.
const TWINS: [&str; 4] = [
    "ATOM      1 CA12AARG A  15B     11.281  86.699  94.383  0.50 35.88           C",
    "HETATM    1 CA12AARG A  15B     11.281  86.699  94.383  0.50 35.88           C",
    "TER       2      ARG A  15B",
    "HETATM   12 CA12AARG A  15B     11.281  86.699  94.383  0.50 35.88           C",
];

/// Bytes of atoms' names: blanks, letters of elements of one and of two letters, other name characters, and none.
const NAMED: &[u8] = b" CHA1'#h";

/// Runs the sweep against a library.
pub fn sweep(library: Library) -> Findings {
    let mut harness = Harness::new(library);
    for base in LINES.map(line) {
        columns(&mut harness, base);
        pairs(&mut harness, base);
        lengths(&mut harness, base);
    }
    elements(&mut harness);
    atoms(&mut harness);
    twins(&mut harness);
    models(&mut harness);
    numbers(&mut harness);
    names(&mut harness);
    jumps(&mut harness);
    places(&mut harness);
    harness.findings
}

fn try_line(harness: &mut Harness, line: &[u8]) {
    harness.slot_of_line(line, Slot::default());
    harness.rewrite_line(line, 80);
    harness.read_line(line);
    harness.cell_of_line(line);
    harness.transform_of_line(line);
}

/// Every byte in every column.
fn columns(harness: &mut Harness, base: Columns) {
    for at in 1..=80 {
        for byte in 0..=255 {
            let mut line = base;
            put(&mut line, at, &[byte]);
            try_line(harness, &line);
        }
    }
}

/// Every two columns that hold a byte which hardly a field takes, and every stretch of columns that is blank.
fn pairs(harness: &mut Harness, base: Columns) {
    for (from, to) in (7..=80).flat_map(|from| (from..=80).map(move |to| (from, to))) {
        let mut line = base;
        put(&mut line, from, b"~");
        put(&mut line, to, b"~");
        harness.read_line(&line);
        let mut line = base;
        put(&mut line, from, &vec![b' '; to + 1 - from]);
        harness.read_line(&line);
    }
}

/// Every length of line and of room.
fn lengths(harness: &mut Harness, base: Columns) {
    let long = [base, base, base].concat();
    for length in 0..=200 {
        try_line(harness, &long[..length]);
        harness.rewrite_line(&base, length);
    }
}

/// Every pair of bytes that could be an element, in both places and in one.
fn elements(harness: &mut Harness) {
    for first in b' '..=b'z' {
        for second in b' '..=b'z' {
            let mut line = line(LINES[0]);
            put(&mut line, 77, &[first, second]);
            try_line(harness, &line);
            put(&mut line, 13, &[first, second]);
            try_line(harness, &line);
        }
    }
}

/// Every name of these bytes, with elements that it may begin with.
fn atoms(harness: &mut Harness) {
    let mut line = line(LINES[0]);
    for (&a, &b) in NAMED.iter().flat_map(|a| NAMED.iter().map(move |b| (a, b))) {
        for (&c, &d) in NAMED.iter().flat_map(|c| NAMED.iter().map(move |d| (c, d))) {
            for element in [b" C", b" H", b"CA", b"AC"] {
                put_name(&mut line, ([a, b, c, d], *element));
                try_line(harness, &line);
            }
        }
    }
}

/// Texts with an atom once more, every byte in every column of its second line: right below the first, and behind a TER.
fn twins(harness: &mut Harness) {
    let [first, hetatm, ter] = [TWINS[0], TWINS[1], TWINS[2]].map(line);
    for above in [&[line("HEADER"), hetatm][..], &[line("HEADER"), first, ter]] {
        for at in 1..=80 {
            for byte in 0..=255 {
                let mut twin = line(TWINS[3]);
                put(&mut twin, at, &[byte]);
                let mut lines = [above, &[twin]].concat();
                lines.extend([master(&lines), line("END")]);
                harness.check(&text(&lines));
            }
        }
    }
}

/// A text of two models, every byte in every column of each of its MODEL and ENDMDL lines; and with every number on the
/// second MODEL.
fn models(harness: &mut Harness) {
    let lines = ["HEADER", "MODEL        1", TWINS[1], "ENDMDL", "MODEL        2", TWINS[1], "ENDMDL"].map(line);
    let mut lines = lines.to_vec();
    lines.extend([master(&lines), line("END")]);
    let base = text(&lines);
    for at in [1, 3, 4, 6].into_iter().flat_map(|index| PIECE * index..PIECE * (index + 1)) {
        for byte in 0..=255 {
            let mut bytes = base.clone();
            bytes[at] = byte;
            harness.check(&bytes);
        }
    }
    for number in -999..=9_999 {
        put_number(&mut lines[4], 11, 14, number);
        harness.check(&text(&lines));
    }
}

/// Every number of the narrow fields, with one more on either side.
fn numbers(harness: &mut Harness) {
    for (base, from, to, low, high) in [
        (0, 23, 26, -999, 9_999),
        (3, 23, 26, -999, 9_999),
        (4, 8, 10, -99, 999),
        (4, 39, 40, -9, 99),
        (6, 8, 10, -99, 999),
        (7, 8, 10, -99, 999),
        (6, 39, 40, -9, 99),
        (7, 39, 40, -9, 99),
        (7, 15, 16, -9, 99),
        (9, 7, 11, -10, 2_000),
        (9, 27, 31, -10, 2_000),
        (10, 16, 20, -10, 100),
        (10, 66, 70, -10, 2_000),
        (13, 11, 14, -999, 9_999),
        (13, 10, 14, 9_990, 10_010),
        (16, 67, 70, -999, 9_999),
    ] {
        for number in low..=high {
            let mut line = line(LINES[base]);
            put_number(&mut line, from, to, number);
            try_line(harness, &line);
        }
    }
    for (base, from, to, high) in [(0, 55, 60, 1_000), (16, 34, 40, 18_100), (16, 41, 47, 18_100), (16, 48, 54, 18_100)]
    {
        for hundredths in 0..=high {
            let mut line = line(LINES[base]);
            put_real(&mut line, from, to, 2, hundredths);
            try_line(harness, &line);
        }
    }
}

/// Every billionth from -30,000 to 30,000 on each axis, and every coordinate that is near an end of its range.
fn places(harness: &mut Harness) {
    let ones = [[1, 0, 0, 0], [0, -1, 0, 0], [0, 0, 1, 7]];
    for billionths in -30_000..=30_000 {
        harness.place(&ones, [billionths; 3]);
    }
    for (axis, end) in (0..3).flat_map(|axis| [RANGE.0, RANGE.1].map(|end| (axis, end))) {
        for coordinate in end - 1_000..=end + 1_000 {
            let mut at = [0; 3];
            at[axis] = coordinate;
            harness.place(&ones, at);
        }
    }
}

/// Every name with every byte in each of its columns, and every length of it.
fn names(harness: &mut Harness) {
    for name in NAMES {
        for at in 0..6 {
            for byte in 0..=255 {
                let mut bytes = name.as_bytes().to_vec();
                bytes[at] = byte;
                harness.count_line(&mut Tally::default(), &bytes);
                harness.count_line_past(&mut Tally::default(), &bytes, 1);
            }
        }
        for length in 0..=6 {
            harness.count_line(&mut Tally::default(), &name.as_bytes()[..length]);
            harness.count_line_past(&mut Tally::default(), &name.as_bytes()[..length], 1);
        }
        harness.check(&[line(name).as_slice(), b"\n"].concat());
    }
}

/// Jumps to the serial of each line, with every byte in every column and at its end; in every length of three lines; and to
/// every serial.
fn jumps(harness: &mut Harness) {
    for base in LINES.map(line) {
        let serial = serial_of(&base).unwrap_or(1);
        for at in 0..PIECE {
            for byte in 0..=255 {
                let mut bytes = text(&[base]);
                bytes[at] = byte;
                harness.find(&bytes, serial);
            }
        }
        for length in 0..=3 * PIECE {
            harness.find(&text(&[base; 3])[..length], serial);
            harness.find(&text(&[base; 3])[..length], 0);
        }
    }
    for serial in 0..=100_001 {
        let mut line = line(LINES[0]);
        put_number(&mut line, 7, 11, i64::from(serial));
        harness.find(&text(&[line]), serial);
    }
}

#[cfg(test)]
mod tests {
    use super::*;

    #[test]
    fn the_lines_are_good() {
        for text in LINES {
            assert!(reference::read_line(&line(text)).is_ok(), "{text}");
        }
    }
}
