//! The crystal frame: the cell or the transformation of a line by itself, the rows of a text, and fractional places.

use crate::check::walk;
use crate::line::LineName;
use crate::reading::read_taken;
use crate::record::{Cell, Record, Transformation};
use crate::Refusal;

/// The SCALE lines of an entry: of each the coefficients of x, y, z, in millionths, and the shift, in hundred-thousandths.
pub type Rows = [[i32; 4]; 3];

/// A fractional place, a number for each row.
#[derive(Clone, Copy, Debug, PartialEq, Eq)]
pub struct Fractional {
    /// In billionths, exact.
    pub billionths: [i64; 3],
    /// In hundred-thousandths, the nearest.
    pub hundred_thousandths: [i64; 3],
}

/// The number of SCALE1 among the transformations.
const SCALE1: u32 = 4;

/// What a coordinate may be, in thousandths.
const COORDINATES: std::ops::RangeInclusive<i32> = -999_999..=9_999_999;

/// The cell of a CRYST1 line.
pub fn cell_of_line(line: &[u8]) -> Result<Cell, Refusal> {
    match read_taken(line, |name| name == LineName::Cryst1)? {
        Record::Cell(cell) => Ok(cell),
        _ => Err(Refusal::Name),
    }
}

/// The transformation of an ORIGX or SCALE line.
pub fn transformation_of_line(line: &[u8]) -> Result<Transformation, Refusal> {
    match read_taken(line, |name| name.transformation().is_some())? {
        Record::Transformation(transformation) => Ok(transformation),
        _ => Err(Refusal::Name),
    }
}

/// The rows of a text: there are none without SCALE lines.
pub fn rows(text: &[u8]) -> Result<Rows, Refusal> {
    let (verdict, lines) = walk(text);
    verdict.accepted()?;
    let scale: Vec<[i32; 4]> = lines
        .iter()
        .filter_map(|line| match line.record {
            Some(Record::Transformation(Transformation { row: SCALE1.., coefficients: [x, y, z], shift })) => {
                Some([x, y, z, shift])
            }
            _ => None,
        })
        .collect();
    scale.try_into().map_err(|_| Refusal::NoScale)
}

/// The fractional place of three coordinates, in thousandths, by any rows.
pub fn place(rows: &Rows, at: [i32; 3]) -> Result<Fractional, Refusal> {
    if !at.iter().all(|coordinate| COORDINATES.contains(coordinate)) {
        return Err(Refusal::Coordinate);
    }
    let billionths = rows.map(|[x, y, z, shift]| {
        let products = [x, y, z].into_iter().zip(at).map(|(by, place)| i64::from(by) * i64::from(place));
        products.sum::<i64>() + 10_000 * i64::from(shift)
    });
    Ok(Fractional { billionths, hundred_thousandths: billionths.map(nearest) })
}

/// The fractional place of three coordinates by the rows of a text.
pub fn fractional(text: &[u8], at: [i32; 3]) -> Result<Fractional, Refusal> {
    place(&rows(text)?, at)
}

/// The hundred-thousandths nearest to some billionths, a half away from zero.
fn nearest(billionths: i64) -> i64 {
    (billionths + 5_000 * billionths.signum()) / 10_000
}

#[cfg(test)]
mod tests {
    use super::*;
    use crate::samples::*;
    use crate::{check, read_line, write_record};

    /// The worked example.
    const ROWS: Rows = [[19_231, 0, 0, 0], [0, 17_065, 0, 50_000], [0, 0, -16_155, -1]];

    fn scale_lines() -> [[u8; 80]; 3] {
        [
            trio_line(4, ["0.019231", "0.000000", "0.000000", "0.00000"]),
            trio_line(5, ["0.000000", "0.017065", "0.000000", "0.50000"]),
            trio_line(6, ["0.000000", "0.000000", "-0.016155", "-0.00001"]),
        ]
    }

    /// An entry of these lines alone.
    fn entry(lines: &[[u8; 80]], xform: u32) -> Vec<u8> {
        let mut counts = [0; 9];
        counts[4] = xform;
        text(&[&[line("HEADER")], lines, &[master(counts), line("END")]].concat())
    }

    /// The fractional place by a row that is the same three times.
    fn by(row: [i32; 4], at: [i32; 3]) -> (i64, i64) {
        let place = place(&[row; 3], at).expect("coordinates of the range");
        assert!(place.billionths.iter().all(|&number| number == place.billionths[0]));
        (place.billionths[0], place.hundred_thousandths[2])
    }

    #[test]
    fn the_worked_cell() {
        let due = Cell { edges: [52_000, 58_600, 61_900], angles: [9_000; 3], group: *b"P 21 21 21 ", z: 8 };
        assert_eq!(cell_of_line(CELL), Ok(due));
        assert_eq!(read_line(CELL), Ok(Record::Cell(due)));
        assert_eq!(cell_of_line(&changed(CELL, 34, b" 180.00")), Err(Refusal::Field));
        assert_eq!(cell_of_line(&changed(CELL, 34, b" 179.99")).map(|cell| cell.angles[0]), Ok(17_999));
        assert_eq!(cell_of_line(&changed(CELL, 55, b"X")), Err(Refusal::Field));
        assert_eq!(cell_of_line(&changed(CELL, 56, &[b' '; 11])).map(|cell| cell.group), Ok([b' '; 11]));
    }

    #[test]
    fn ends_of_the_ranges_of_a_cell() {
        let due =
            Cell { edges: [99_999_999, 99_999_999, 1], angles: [17_999, 1, 12_000], group: *b"~ any grp ~", z: 9_999 };
        assert_eq!(cell_of_line(WIDE_CELL), Ok(due));
        for from in [7, 16, 25] {
            for wrong in
                [b"    0.000", b"   -0.001", b"   52.00 ", b"  052.000", b"    52.00", b"   5 .000", b"         "]
            {
                assert_eq!(cell_of_line(&changed(CELL, from, wrong)), Err(Refusal::Field));
            }
        }
        for from in [34, 41, 48] {
            for wrong in [b"   0.00", b"  -0.01", b" 180.00", b"1800.00", b"090.00 ", b" 90.000", b"       "] {
                assert_eq!(cell_of_line(&changed(CELL, from, wrong)), Err(Refusal::Field));
            }
        }
        for (z, right) in
            [(b"   1", true), (b"9999", true), (b"   0", false), (b"  -1", false), (b"    ", false), (b"8   ", false)]
        {
            assert_eq!(cell_of_line(&changed(CELL, 67, z)).is_ok(), right);
        }
    }

    #[test]
    fn transformations() {
        for row in 1..=6 {
            let due = Transformation { row, coefficients: [19_231, -16_155, 0], shift: -1 };
            assert_eq!(transformation_of_line(&shifted(row)), Ok(due));
            let coefficients = [-99_999_999, 999_999_999, -10_000_001];
            assert_eq!(
                transformation_of_line(&wide(row)),
                Ok(Transformation { row, coefficients, shift: -99_999_999 })
            );
            for from in [11, 21, 31] {
                for wrong in [b" -0.000000", b"1000.00000", b" 01.000000", b" +1.000000", b"  0.00000 ", b"  1.00 000"]
                {
                    assert_eq!(transformation_of_line(&changed(&wide(row), from, wrong)), Err(Refusal::Field));
                }
            }
            let shift = |shift: &[u8; 10]| transformation_of_line(&changed(&wide(row), 46, shift)).map(|row| row.shift);
            assert_eq!((shift(b"9999.99999"), shift(b"  -0.00000")), (Ok(999_999_999), Err(Refusal::Field)));
        }
    }

    #[test]
    fn other_kinds_are_refused_by_name() {
        for line in [*ARGININE, *HELIX, line("HELIX"), line("REMARK"), line("END"), line("ANISOU")] {
            assert_eq!(cell_of_line(&line), Err(Refusal::Name));
            assert_eq!(transformation_of_line(&line), Err(Refusal::Name));
        }
        assert_eq!(
            (cell_of_line(&shifted(4)), cell_of_line(&line("SCALE1"))),
            (Err(Refusal::Name), Err(Refusal::Name))
        );
        assert_eq!(transformation_of_line(CELL), Err(Refusal::Name));
        assert_eq!(
            (cell_of_line(&CELL[..79]), transformation_of_line(CELL.repeat(2).as_slice())),
            (Err(Refusal::Length), Err(Refusal::Length))
        );
        assert_eq!(cell_of_line(&changed(CELL, 60, b"\n")), Err(Refusal::Byte));
        assert_eq!(transformation_of_line(&changed(&line("REMARK"), 60, b"\n")), Err(Refusal::Byte));
    }

    #[test]
    fn records_that_no_line_reads_as() {
        let write = |record: Record| write_record(&record, &mut [0; 80]);
        let Ok(Record::Cell(cell)) = read_line(CELL) else { panic!("no cell") };
        assert_eq!(write(Record::Cell(cell)), Ok(()));
        for wrong in [
            Cell { edges: [0, 1, 1], ..cell },
            Cell { edges: [1, 1, 100_000_000], ..cell },
            Cell { edges: [1, i32::MIN, 1], ..cell },
            Cell { angles: [18_000, 1, 1], ..cell },
            Cell { angles: [1, 1, -1], ..cell },
            Cell { z: 0, ..cell },
            Cell { z: 10_000, ..cell },
            Cell { group: *b"P 1\n       ", ..cell },
        ] {
            assert_eq!(write(Record::Cell(wrong)), Err(Refusal::Field), "{wrong:?}");
        }
        let row = Transformation { row: 1, coefficients: [0; 3], shift: 0 };
        assert_eq!(write(Record::Transformation(row)), Ok(()));
        for wrong in [
            Transformation { row: 0, ..row },
            Transformation { row: 7, ..row },
            Transformation { coefficients: [1_000_000_000, 0, 0], ..row },
            Transformation { coefficients: [0, 0, -100_000_000], ..row },
            Transformation { shift: 1_000_000_000, ..row },
            Transformation { shift: i32::MIN, ..row },
        ] {
            assert_eq!(write(Record::Transformation(wrong)), Err(Refusal::Field), "{wrong:?}");
        }
    }

    #[test]
    fn the_worked_place() {
        let own = entry(&scale_lines(), 3);
        assert_eq!(rows(&own), Ok(ROWS));
        let at = [11_281, -500, 7];
        let due =
            Fractional { billionths: [216_944_911, 491_467_500, -123_085], hundred_thousandths: [21_694, 49_147, -12] };
        assert_eq!((place(&ROWS, at), fractional(&own, at)), (Ok(due), Ok(due)));
        let origx = [1, 2, 3].map(shifted);
        assert_eq!(rows(&entry(&[&[*CELL][..], &origx, &scale_lines()].concat(), 6)), Ok(ROWS));
    }

    #[test]
    fn numbers_of_a_text() {
        let bare = entry(&[&[*CELL][..], &[1, 2, 3].map(shifted)].concat(), 3);
        assert_eq!(check(&bare).refusal, None);
        assert_eq!((rows(&bare), fractional(&bare, [0; 3])), (Err(Refusal::NoScale), Err(Refusal::NoScale)));
        assert_eq!(fractional(&bare, [i32::MAX; 3]), Err(Refusal::NoScale));
        let own = entry(&scale_lines(), 3);
        assert_eq!(fractional(&own, [0, 0, 10_000_000]), Err(Refusal::Coordinate));
        let miscounted = entry(&scale_lines(), 2);
        assert_eq!(
            (rows(&miscounted), fractional(&miscounted, [i32::MIN; 3])),
            (Err(Refusal::Count), Err(Refusal::Count))
        );
    }

    #[test]
    fn coordinates_of_the_range() {
        for axis in 0..3 {
            for (coordinate, right) in [
                (-999_999, true),
                (9_999_999, true),
                (-1_000_000, false),
                (10_000_000, false),
                (i32::MIN, false),
                (i32::MAX, false),
            ] {
                let mut at = [0; 3];
                at[axis] = coordinate;
                let answer = place(&ROWS, at);
                assert_eq!(answer.is_ok(), right, "{at:?}");
                assert!(right || answer == Err(Refusal::Coordinate));
            }
        }
    }

    #[test]
    fn rounding() {
        for (billionths, due) in
            [(0, 0), (1, 0), (4_999, 0), (5_000, 1), (5_001, 1), (14_999, 1), (15_000, 2), (25_000, 3)]
        {
            assert_eq!(by([1, 0, 0, 0], [billionths, 0, 0]), (i64::from(billionths), due));
            assert_eq!(by([0, -1, 0, 0], [0, billionths, 0]), (-i64::from(billionths), -due));
        }
        for billionths in -30_000..=30_000 {
            let (exact, near) = by([0, 0, 1, 0], [0, 0, billionths]);
            let off = exact - 10_000 * near;
            assert!(off.abs() < 5_000 || (off.abs() == 5_000 && near.abs() * 10_000 > exact.abs()), "{billionths}");
        }
    }

    #[test]
    fn nothing_overflows() {
        // The ends for the rows of an entry.
        assert_eq!(by([999_999_999; 4], [9_999_999; 3]).0, 30_009_996_969_990_003);
        assert_eq!(by([-99_999_999; 4], [9_999_999; 3]).0, -3_000_999_669_990_003);
        // The ends for any rows.
        assert_eq!(by([i32::MAX; 4], [9_999_999; 3]), (64_445_977_804_019_059, 6_444_597_780_402));
        assert_eq!(by([i32::MIN; 4], [9_999_999; 3]), (-64_445_977_834_029_056, -6_444_597_783_403));
    }
}
