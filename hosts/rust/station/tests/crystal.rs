//! The crystal frame, through the safe wrapper.

use station::{
    fractional, scale, Billionths, Cell, Entry, Fractional, HundredThousandths, Hundredths, Line, LineRefusal, Matrix,
    Millionths, Refusal, Scale, Thousandths, Transformation,
};

const CRYST1: &str = "CRYST1   52.000   58.600   61.900  90.00  90.00  90.00 P 21 21 21    8";
const SCALES: [&str; 3] = [
    "SCALE1      0.019231  0.000000  0.000000        0.00000",
    "SCALE2      0.000000  0.017065  0.000000        0.50000",
    "SCALE3      0.000000  0.000000 -0.016155       -0.00001",
];
const ROWS: [[i32; 4]; 3] = [[19_231, 0, 0, 0], [0, 17_065, 0, 50_000], [0, 0, -16_155, -1]];

/// The 80 columns of a line.
fn columns(line: &str) -> Vec<u8> {
    format!("{line:80}").into_bytes()
}

/// HEADER, some lines of which so many are ORIGX and SCALE lines, MASTER and END.
fn entry(lines: &[&str], rows: u32) -> Vec<u8> {
    let master = format!("MASTER    {}{rows:5}{}", "    0".repeat(7), "    0".repeat(4));
    let lines = [&["HEADER"], lines, &[&master, "END"]].concat();
    lines.iter().map(|line| format!("{line:80}\n")).collect::<String>().into_bytes()
}

#[test]
fn a_cell_is_that_of_its_line() -> Result<(), Refusal> {
    let cell = Cell::of_line(&columns(CRYST1))?;
    let group = *b"P 21 21 21 \0";
    let due = Cell { a: 52_000, b: 58_600, c: 61_900, alpha: 9_000, beta: 9_000, gamma: 9_000, z: 8, group };
    assert_eq!((cell, cell.space_group()), (due, "P 21 21 21 "));
    let widest = Cell::of_line(&columns("CRYST199999.99999999.99999999.999 179.99 179.99 179.99            9999"))?;
    assert_eq!((widest.edges(), widest.z), ([Thousandths::of(99_999_999); 3], 9_999));
    assert_eq!(widest.angles(), [Hundredths::of(17_999); 3]);
    assert_eq!(widest.space_group(), "           ");
    let least = Cell::of_line(&columns("CRYST1    0.001    0.001    0.001   0.01   0.01   0.01               1"))?;
    assert_eq!((least.edges(), least.angles(), least.z), ([Thousandths::of(1); 3], [Hundredths::of(1); 3], 1));
    Ok(())
}

#[test]
fn a_transformation_is_that_of_its_line() -> Result<(), Refusal> {
    let numbers = "      0.019231-99.999999999.999999     -999.99999";
    let names = ["ORIGX1", "ORIGX2", "ORIGX3", "SCALE1", "SCALE2", "SCALE3"];
    let due = |matrix, row| {
        let coefficients = [19_231, -99_999_999, 999_999_999].map(Millionths::of);
        Transformation { matrix, row, coefficients, shift: HundredThousandths::of(-99_999_999) }
    };
    for (index, name) in (0..).zip(names) {
        let of_line = Transformation::of_line(&columns(&format!("{name}{numbers}")))?;
        let matrix = if index < 3 { Matrix::Origx } else { Matrix::Scale };
        assert_eq!(of_line, due(matrix, index % 3 + 1));
        assert_eq!(format!("{}{}", of_line.matrix.name(), of_line.row), name);
    }
    let largest = Transformation::of_line(&columns(&format!("SCALE3{}     9999.99999", &numbers[..34])))?;
    assert_eq!(largest, Transformation { shift: HundredThousandths::of(999_999_999), ..due(Matrix::Scale, 3) });
    Ok(())
}

#[test]
fn lines_are_refused_by_number() {
    let cell = |line: &[u8]| Cell::of_line(line).expect_err("a refusal");
    let row = |line: &[u8]| Transformation::of_line(line).expect_err("a refusal");
    let (cryst1, scale1) = (columns(CRYST1), columns(SCALES[0]));
    assert_eq!((cell(&cryst1[..79]), row(&scale1[..79])), (Refusal::LENGTH, Refusal::LENGTH));
    assert_eq!((cell(&[9; 80]), row(&[9; 80])), (Refusal::BYTE, Refusal::BYTE));
    assert_eq!((cell(&scale1), row(&cryst1)), (Refusal::NAME, Refusal::NAME));
    assert_eq!((cell(&columns("CRYST2")), row(&columns("SCALE4"))), (Refusal::NAME, Refusal::NAME));
    assert_eq!((cell(&columns("CRYST1")), row(&columns("ORIGX1"))), (Refusal::FIELD, Refusal::FIELD));
}

/// They are lines like all others: read, judged and written back.
#[test]
fn the_kinds_are_typed() -> Result<(), Refusal> {
    for line in [&[CRYST1][..], &SCALES].concat() {
        assert_eq!(Line::read(&columns(line))?.columns()[..], columns(line));
    }
    let blamed = |line: &str| Line::judge(&columns(line)).map_err(|LineRefusal { column, .. }| column);
    assert_eq!(blamed(&CRYST1.replacen("  90.00", " 180.00", 1)), Err(34));
    assert_eq!(blamed(&CRYST1.replacen(" P 21", "XP 21", 1)), Err(55));
    assert_eq!(blamed(&SCALES[2].replace("-0.016155", "-0.000000")), Err(31));
    assert_eq!(blamed(&SCALES[2].replace("-0.00001", "-0.00000")), Err(46));
    let mut text = entry(&[&[CRYST1][..], &SCALES].concat(), 3);
    assert!(Entry::check(&text).is_granted());
    text[81 + 66..81 + 70].copy_from_slice(b"   0");
    let verdict = Entry::check(&text);
    assert_eq!((verdict.refusal, verdict.line, verdict.column), (Some(Refusal::FIELD), 2, 67));
    Ok(())
}

#[test]
fn rows_are_those_of_the_scale_lines() -> Result<(), Refusal> {
    let origx = ["ORIGX1", "ORIGX2", "ORIGX3"].map(|name| format!("{name}{}", &SCALES[1][6..]));
    let [first, second, third] = origx.each_ref().map(String::as_str);
    assert_eq!(scale(&entry(&SCALES, 3))?, Scale(ROWS));
    assert_eq!(scale(&entry(&[&[CRYST1, first, second, third][..], &SCALES].concat(), 6))?, Scale(ROWS));
    assert_eq!(scale(&entry(&[CRYST1, first, second, third], 3)), Err(Refusal::NO_SCALE));
    assert_eq!(scale(&entry(&[], 0)), Err(Refusal::NO_SCALE));
    assert_eq!(scale(&entry(&SCALES, 0)), Err(Refusal::COUNT));
    assert_eq!(scale(&entry(&SCALES[..2], 2)), Err(Refusal::PLACE));
    Ok(())
}

#[test]
fn places_are_exact() -> Result<(), Refusal> {
    let place = Scale(ROWS).place([11_281, -500, 7])?;
    let due = Fractional {
        exact: [216_944_911, 491_467_500, -123_085].map(Billionths::of),
        rounded: [21_694, 49_147, -12].map(HundredThousandths::of),
    };
    assert_eq!(place, due);
    assert_eq!(fractional(&entry(&SCALES, 3), [11_281, -500, 7])?, due);
    // A half goes away from zero.
    let near = |billionths: i32| Scale([[billionths, 0, 0, 0], [0; 4], [0; 4]]).place([1, 0, 0]);
    for (billionths, rounded) in [(5_000, 1), (4_999, 0), (-5_000, -1), (-4_999, 0), (15_000, 2), (-14_999, -1)] {
        let place = near(billionths)?;
        assert_eq!((place.exact[0].units(), place.rounded[0].units()), (i64::from(billionths), rounded));
    }
    let (low, high) = (i64::from(i32::MIN), i64::from(i32::MAX));
    let place = Scale([[i32::MAX; 4], [i32::MIN; 4], [0; 4]]).place([9_999_999; 3])?;
    assert_eq!(place.exact, [high * 30_009_997, low * 30_009_997, 0].map(Billionths::of));
    Ok(())
}

#[test]
fn places_are_refused_by_number() {
    for wrong in [-1_000_000, 10_000_000, i32::MIN, i32::MAX] {
        for at in [[wrong, 0, 0], [0, wrong, 0], [0, 0, wrong]] {
            assert_eq!(Scale(ROWS).place(at), Err(Refusal::COORDINATE));
            assert_eq!(fractional(&entry(&SCALES, 3), at), Err(Refusal::COORDINATE));
            assert_eq!(fractional(&entry(&[], 0), at), Err(Refusal::NO_SCALE));
            assert_eq!(fractional(&entry(&SCALES, 2), at), Err(Refusal::COUNT));
        }
    }
    assert!(Scale(ROWS).place([-999_999, 9_999_999, 0]).is_ok());
}
