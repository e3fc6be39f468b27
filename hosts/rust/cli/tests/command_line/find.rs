//! `station find`.

use crate::folder::Folder;
use crate::texts::{arginine, line, three, twins};

const ARGININE: &str = "\
a.pdb: serial 32: line 2
  |ATOM     32  N  AARG A  -3      11.281  86.699  94.383  0.50 35.88           N  |
  kind                ATOM
  serial              32
  name                N
  alternate location  A
  residue name        ARG
  chain               A
  residue number      -3
  insertion code      none
  x                   11.281 angstroms
  y                   86.699 angstroms
  z                   94.383 angstroms
  occupancy           0.50
  temperature factor  35.88 square angstroms
  element             N
  charge              none
";

#[test]
fn an_atom_is_shown_with_its_fields() {
    let folder = Folder::new("find");
    folder.file("a.pdb", arginine());
    let answer = folder.station(&["find", "a.pdb", "32"]);
    assert_eq!((answer.status, answer.out.as_str(), answer.err.as_str()), (0, ARGININE, ""));
    let answer = folder.shell("$S find - 0032 < a.pdb");
    answer.is(0, &ARGININE.replace("a.pdb", "standard input"));
    let zinc = line("HETATM 1179 ZN    ZN b9999Z   -999.9999999.999   0.000  1.00-99.99          ZN2+");
    folder.file("b.pdb", zinc.repeat(2));
    let answer = folder.station(&["find", "b.pdb", "1179"]);
    answer.is(0, "b.pdb: serial 1179: line 1\n  |HETATM 1179 ZN    ZN b9999Z   -999.9999999.999");
    answer.is(0, "kind                HETATM\n");
    answer.is(0, "name                ZN\n  alternate location  none\n  residue name        ZN\n");
    answer.is(0, "residue number      9999\n  insertion code      Z\n  x                   -999.999 angstroms\n");
    answer.is(0, "z                   0.000 angstroms\n  occupancy           1.00\n");
    answer.is(0, "temperature factor  -99.99 square angstroms\n  element             ZN\n  charge              2+\n");
}

#[test]
fn several_serials() {
    let folder = Folder::new("find-several");
    folder.file("a.pdb", three());
    let answer = folder.station(&["find", "a.pdb", "4", "1", "4"]);
    let heads: Vec<&str> = answer.out.lines().filter(|line| !line.starts_with("  ")).collect();
    assert_eq!(heads, ["a.pdb: serial 4: line 5", "a.pdb: serial 1: line 2", "a.pdb: serial 4: line 5"]);
    assert_eq!((answer.status, answer.out.lines().count()), (0, 3 * 17));
    let answer = folder.station(&["find", "a.pdb", "2", "3", "99999"]);
    answer.is(1, "a.pdb: serial 2: no ATOM or HETATM line has it; looked at 9 lines\na.pdb: serial 3: line 4\n");
    answer.is(1, "a.pdb: serial 99999: no ATOM or HETATM line has it; looked at 9 lines\n");
    assert_eq!(answer.err, "");
}

#[test]
fn serials_that_no_atom_can_have() {
    let folder = Folder::new("find-none");
    folder.file("a.pdb", three());
    let find = |serial: &str| {
        let answer = folder.station(&["find", "a.pdb", "1", serial]);
        assert_eq!(answer.out, "");
        answer
    };
    find("0").is(2, "no atom can have the serial 0; they go from 1 to 99999 (see station --help)");
    find("100000").is(2, "no atom can have the serial 100000; they go from 1 to 99999");
    find("1,3").is(2, "\"1,3\" is no serial, a number from 1 to 99999");
    find("-1").is(2, "-1: no such option here");
    folder
        .station(&["find", "1", "a.pdb"])
        .is(2, "\"a.pdb\" is no serial, a number from 1 to 99999; the file comes before");
    folder.station(&["find", "a.pdb"]).is(2, "find needs a file and one or more serials");
    folder.station(&["find", "none.pdb", "1"]).is(2, "none.pdb: could not be read");
    folder.station(&["find", ".", "1"]).is(2, "it is a folder");
}

#[test]
fn a_refused_text_has_atoms_all_the_same() {
    let folder = Folder::new("find-refused");
    folder.file("twins.pdb", twins());
    folder.station(&["check", "twins.pdb"]).is(1, "line 5: refused with 21");
    let answer = folder.station(&["find", "twins.pdb", "4", "3"]);
    answer.is(0, "twins.pdb: serial 4: line 5");
    assert_eq!(answer.err, "");
    folder.file("wrong.pdb", three().replacen("  1.00", "  1.01", 1));
    folder.station(&["find", "wrong.pdb", "3"]).is(0, "wrong.pdb: serial 3: line 4");
    let answer = folder.station(&["find", "wrong.pdb", "1"]);
    answer.is(1, "wrong.pdb: serial 1: no ATOM or HETATM line has it; looked at 9 lines");
    answer
        .is(1, "a line that does not read is passed over, and this file is refused: wrong.pdb: line 2: refused with 6");
    folder.file("windows.pdb", three().replace('\n', "\r\n"));
    folder.station(&["find", "windows.pdb", "1"]).is(1, "Windows line ends");
    folder.file("short.pdb", &three()[..161]);
    folder.station(&["find", "short.pdb", "1"]).is(1, "serial 1: no ATOM or HETATM line has it; looked at 1 line\n");
    folder.file("empty.pdb", "");
    folder.station(&["find", "empty.pdb", "1"]).is(1, "looked at 0 lines");
}
