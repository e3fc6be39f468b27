//! Tests of the column that is told of a wrong field: the worked examples, and every column that a kind can name.

use std::collections::BTreeSet;
use std::ops::RangeInclusive;

use crate::samples::*;
use crate::{check, read_line, Refusal};

/// The column of a wrong field of a line, by itself; 0 if it reads.
fn told(line: &[u8; 80]) -> u64 {
    match read_line(line) {
        Ok(_) => 0,
        Err(blame) => {
            assert_eq!(blame.refusal, Refusal::Field);
            blame.column
        }
    }
}

/// The same of a line with other bytes from a column on.
fn with(line: &[u8; 80], from: usize, bytes: &[u8]) -> u64 {
    told(&changed(line, from, bytes))
}

/// Number, line and column of a text.
fn verdict(lines: &[[u8; 80]]) -> (u32, u64, u64) {
    let verdict = check(&text(lines));
    (verdict.refusal.map_or(0, Refusal::number), verdict.line, verdict.column)
}

#[test]
fn of_the_arginine() {
    assert_eq!(told(ARGININE), 0);
    assert_eq!(with(ARGININE, 31, b"  -0.000"), 31);
    assert_eq!(told(&changed(&changed(ARGININE, 31, b"  -0.000"), 55, b"  1.01")), 31);
    assert_eq!(with(ARGININE, 55, b"  1.01"), 55);
    assert_eq!(with(ARGININE, 7, b"    0"), 7);
    assert_eq!(with(ARGININE, 77, b"CA"), 77);
    assert_eq!(with(ARGININE, 13, b" C A"), 13);
    assert_eq!(with(ARGININE, 12, b"X"), 12);
}

#[test]
fn of_bonds() {
    assert_eq!(told(&line("CONECT    5    5")), 12);
    assert_eq!(told(&line("CONECT    5         6")), 12);
    assert_eq!(told(&line("CONECT    5    6         7")), 22);
    assert_eq!(told(&line("CONECT    5    6              7")), 27);
    assert_eq!(told(&line("CONECT    5    6         7    x")), 22);
    assert_eq!(told(&line("CONECT    5    6    5    5")), 17);
    assert_eq!(told(&line("CONECT    5")), 12);
    assert_eq!(told(&line("CONECT    0    0")), 7);
}

#[test]
fn of_helices_and_sheets() {
    assert_eq!(with(HELIX, 32, b"B"), 32);
    assert_eq!(told(&changed(&changed(HELIX, 20, b" "), 32, b"B")), 20);
    assert_eq!(told(&changed(&changed(HELIX, 32, b"B"), 34, b"   x")), 32);
    assert_eq!(with(STRAND_2, 39, b" 0"), 39);
    assert_eq!(with(STRAND_1, 39, b" 1"), 39);
    assert_eq!(with(STRAND_1, 42, b" N  "), 43);
    assert_eq!(told(&changed(&changed(STRAND_2, 42, &[b' '; 29]), 49, b"X")), 42);
    assert_eq!(with(STRAND_2, 8, b"  0"), 8);
    assert_eq!(with(STRAND_1, 8, b"  0"), 8);
}

#[test]
fn of_cells_and_transformations() {
    assert_eq!((with(CELL, 34, b" 180.00"), with(CELL, 41, b" 180.00"), with(CELL, 48, b" 180.00")), (34, 41, 48));
    assert_eq!((with(CELL, 34, b" 179.99"), with(CELL, 55, b"X"), with(CELL, 80, b"X")), (0, 55, 80));
    assert_eq!(told(&changed(&changed(CELL, 16, b"    0.000"), 67, b"   0")), 16);
    assert_eq!(told(&changed(&changed(CELL, 55, b"X"), 67, b"   0")), 55);
    assert_eq!(
        (with(&shifted(5), 7, b"X"), with(&shifted(5), 45, b"-"), with(&shifted(5), 46, b"  -0.00000")),
        (7, 45, 46)
    );
    assert_eq!(told(&changed(&changed(&shifted(2), 21, b"-100.00000"), 31, b"          ")), 21);
    assert_eq!(verdict(&[line("HEADER"), changed(CELL, 48, b" 180.00")]), (6, 2, 48));
    assert_eq!(verdict(&[line("HEADER"), shifted(4), changed(&shifted(5), 60, b"0")]), (6, 3, 60));
    assert_eq!(verdict(&[line("HEADER"), changed(&shifted(5), 60, b"0")]), (5, 2, 0));
}

#[test]
fn of_the_others() {
    assert_eq!(with(&master([0; 9]), 16, b"    1"), 16);
    assert_eq!(with(&master([0; 9]), 16, b"00000"), 16);
    assert_eq!(with(&line("END"), 80, b"X"), 80);
}

/// The name, the element, and the column that is told.
#[test]
fn of_name_and_element() {
    for (name, element, column) in [
        (b" CA ", b" C", 0),
        (b"HH11", b" H", 0),
        (b" CA ", b"CA", 77),
        (b"CA  ", b" C", 77),
        (b" D  ", b" H", 77),
        (b"HH1 ", b" H", 77),
        (b"H 11", b" H", 77),
        (b"H#11", b" H", 77),
        (b"1HH1", b" H", 77),
        (b"    ", b" H", 77),
        (b"##  ", b" H", 77),
        (b"##  ", b"##", 77),
        (b" X  ", b" X", 77),
        (b" N  ", b"  ", 77),
        (b" C A", b" C", 13),
        (b"HH 1", b" H", 13),
        (b"HH#1", b" H", 13),
        (b"HH1#", b" H", 13),
        (b" C#A", b"##", 13),
    ] {
        let line = changed(&changed(ARGININE, 13, name), 77, element);
        assert_eq!(told(&line), column, "{} with {}", String::from_utf8_lossy(name), String::from_utf8_lossy(element));
    }
}

#[test]
fn only_with_a_six() {
    let wrong = changed(ARGININE, 31, b"  -0.000");
    assert_eq!(verdict(&[line("HEADER"), wrong]), (6, 2, 31));
    assert_eq!(verdict(&[wrong, line("HEADER")]), (5, 1, 0));
    assert_eq!(verdict(&[line("HEADER"), *ARGININE, *ARGININE]), (7, 3, 0));
    assert_eq!(verdict(&[line("HEADER")]), (12, 2, 0));
    for (line, number) in [
        (&ARGININE[..79], Refusal::Length),
        (&changed(&wrong, 3, b"\t"), Refusal::Byte),
        (&changed(&wrong, 1, b"REMARK"), Refusal::Name),
    ] {
        let blame = read_line(line).unwrap_err();
        assert_eq!((blame.refusal, blame.column), (number, 0));
    }
}

/// The columns that are told of a line when one of its bytes is wrong, and when one of its fields is blank.
fn all_told(line: &[u8; 80]) -> BTreeSet<u64> {
    let of_bytes = (7..=80).map(|at| with(line, at, b"~"));
    let of_fields = (7..=80).flat_map(|from| (from..=80).map(move |to| (from, to)));
    let blanked = of_fields.map(|(from, to)| with(line, from, &vec![b' '; to + 1 - from]));
    of_bytes.chain(blanked).filter(|&column| column > 0).collect()
}

/// Single columns and whole ranges of them.
fn listed(single: &[u64], ranges: &[RangeInclusive<u64>]) -> BTreeSet<u64> {
    single.iter().copied().chain(ranges.iter().cloned().flatten()).collect()
}

/// The columns before the registration of a strand.
const STRAND: [u64; 19] = [7, 8, 11, 12, 15, 17, 18, 21, 22, 23, 27, 28, 29, 32, 33, 34, 38, 39, 41];

#[test]
fn every_column_of_every_kind() {
    let atom = listed(&[7, 12, 13, 17, 18, 21, 22, 23, 27, 31, 39, 47, 55, 61, 77, 79], &[28..=30, 67..=76]);
    assert_eq!(all_told(ARGININE), atom);
    assert_eq!(all_told(&changed(ARGININE, 1, b"HETATM")), atom);
    let ter = listed(&[7, 18, 21, 22, 23, 27], &[12..=17, 28..=80]);
    assert_eq!(all_told(&line("TER      33      ARG A  -3")), ter);
    let helix = [7, 8, 11, 12, 15, 16, 19, 20, 21, 22, 26, 27, 28, 31, 32, 33, 34, 38, 39, 71, 72];
    assert_eq!(all_told(HELIX), listed(&helix, &[77..=80]));
    assert_eq!(all_told(STRAND_1), listed(&STRAND, &[42..=70, 71..=80]));
    let registration = [42, 46, 49, 50, 51, 55, 56, 57, 61, 64, 65, 66, 70];
    assert_eq!(all_told(STRAND_2), listed(&[&STRAND[..], &registration].concat(), &[71..=80]));
    assert_eq!(all_told(&line("CONECT    5    6    7    8    9")), listed(&[7, 12, 17, 22, 27], &[32..=80]));
    let cell = listed(&[7, 16, 25, 34, 41, 48, 55, 67], &[71..=80]);
    assert_eq!((all_told(CELL), all_told(WIDE_CELL)), (cell.clone(), cell));
    let transformation = listed(&[11, 21, 31, 46], &[7..=10, 41..=45, 56..=80]);
    for row in 1..=6 {
        assert_eq!((all_told(&shifted(row)), all_told(&wide(row))), (transformation.clone(), transformation.clone()));
    }
    let numbers: Vec<u64> = (0..12).map(|index| 11 + 5 * index).collect();
    assert_eq!(all_told(&master([7; 9])), listed(&numbers, &[7..=10, 71..=80]));
    assert_eq!(all_told(&line("MODEL        1")), listed(&[11], &[7..=10, 15..=80]));
    assert_eq!(all_told(&line("END")), listed(&[], &[7..=80]));
    assert_eq!(all_told(&line("ENDMDL")), listed(&[], &[7..=80]));
}
