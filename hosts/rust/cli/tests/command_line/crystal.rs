//! `station cell` and `station fractional`.

use crate::fields::{CRYST1, SCALES};
use crate::folder::Folder;
use crate::texts::{atom, line, master, model};

/// HEADER, some lines of which so many are ORIGX and SCALE lines, coordinates, MASTER and END.
fn entry(lines: &[&str], rows: u32, coordinates: &str, count: u32) -> String {
    let lines: String = [&["HEADER"], lines].concat().into_iter().map(line).collect();
    let mut master = master(count, 0, 0);
    master.replace_range(45..50, &format!("{rows:5}"));
    lines + coordinates + &master + &line("END")
}

/// An oxygen at the place of the worked example, and an iron.
fn atoms() -> String {
    line("HETATM    7  O   HOH A   1      11.281  -0.500   0.007  1.00  0.00           O")
        + &line("HETATM   12 FE   HEM A   2     999.999 -99.999 500.000  1.00  0.00          FE")
}

/// The cell and the rows of the worked example, and two atoms.
fn crystal() -> String {
    entry(&[&[CRYST1][..], &SCALES].concat(), 3, &atoms(), 2)
}

/// The lines ORIGX1-3 with the numbers of SCALE1-3.
fn origx() -> Vec<String> {
    SCALES.iter().map(|row| row.replace("SCALE", "ORIGX")).collect()
}

const CELL: &str = "  edge a          52.000 angstroms
  edge b          58.600 angstroms
  edge c          61.900 angstroms
  angle alpha     90.00  degrees
  angle beta      90.00  degrees
  angle gamma     90.00  degrees
  space group  P 21 21 21
  Z            8
";

const ROWS: &str = "     row  coefficient of x      of y       of z     shift
  SCALE1          0.019231  0.000000   0.000000   0.00000
  SCALE2          0.000000  0.017065   0.000000   0.50000
  SCALE3          0.000000  0.000000  -0.016155  -0.00001
";

#[test]
fn a_crystal_frame_is_shown() {
    let folder = Folder::new("cell");
    folder.file("a.pdb", crystal());
    let answer = folder.station(&["cell", "a.pdb"]);
    let due = format!("a.pdb: crystal frame\n{CELL}{ROWS}  there are no ORIGX lines\n");
    assert_eq!((answer.status, answer.out.as_str(), answer.err.as_str()), (0, due.as_str(), ""));
    folder.shell("$S cell - < a.pdb").is(0, &due.replace("a.pdb", "standard input"));
    let widest = "CRYST199999.999    0.00199999.999   0.01 179.99   0.01            9999";
    let rows =
        ["ORIGX1", "ORIGX2", "ORIGX3"].map(|name| format!("{name}    -99.999999999.999999  0.000000     9999.99999"));
    let lines = [&[widest][..], &rows.each_ref().map(String::as_str)].concat();
    folder.file("a.pdb", entry(&lines, 3, "", 0));
    let answer = folder.station(&["cell", "a.pdb"]);
    answer.is(0, "  edge a       99999.999 angstroms\n  edge b           0.001 angstroms\n");
    answer.is(0, "  angle alpha      0.01  degrees\n  angle beta     179.99  degrees\n");
    answer.is(0, "  space group  none\n  Z            9999\n");
    answer.is(0, "  ORIGX3        -99.999999  999.999999  0.000000  9999.99999\n  there are no SCALE lines\n");
}

#[test]
fn an_entry_may_have_only_some_of_the_lines() {
    let folder = Folder::new("cell-some");
    let shown = |lines: &[&str], rows: u32, due: &str| {
        folder.file("a.pdb", entry(lines, rows, "", 0));
        let answer = folder.station(&["cell", "a.pdb"]);
        assert_eq!((answer.status, answer.out), (0, format!("a.pdb: crystal frame\n{due}")));
    };
    let none = "  no cell: there is no CRYST1 line\n";
    let (no_origx, no_scale) = ("  there are no ORIGX lines\n", "  there are no SCALE lines\n");
    let origx = origx();
    let origx: Vec<&str> = origx.iter().map(String::as_str).collect();
    let (_, scale_rows) = ROWS.split_once('\n').expect("a heading");
    let both = format!("{}{scale_rows}", ROWS.replace("SCALE", "ORIGX"));
    shown(&[], 0, &format!("{none}{no_origx}{no_scale}"));
    shown(&[CRYST1], 0, &format!("{CELL}{no_origx}{no_scale}"));
    shown(&SCALES, 3, &format!("{none}{ROWS}{no_origx}"));
    shown(&origx, 3, &format!("{none}{}{no_scale}", ROWS.replace("SCALE", "ORIGX")));
    shown(&[&origx[..], &SCALES].concat(), 6, &format!("{none}{both}"));
    shown(&[&[CRYST1][..], &origx, &SCALES].concat(), 6, &format!("{CELL}{both}"));
}

const HEADING: &str = "fractional x  fractional y  fractional z  rounded x  rounded y  rounded z\n";
const OXYGEN: &str = " 0.216944911   0.491467500  -0.000123085    0.21694    0.49147   -0.00012\n";

#[test]
fn fractional_places_of_atoms() {
    let folder = Folder::new("fractional");
    folder.file("a.pdb", crystal());
    let answer = folder.station(&["fractional", "a.pdb", "7", "12", "0007"]);
    let oxygen = format!("     7     O  {OXYGEN}");
    let iron = "    12    FE  19.230980769  -1.206482935  -8.077510000   19.23098   -1.20648   -8.07751\n";
    let due = format!("serial  name  {HEADING}{oxygen}{iron}{oxygen}");
    assert_eq!((answer.status, answer.out.as_str(), answer.err.as_str()), (0, due.as_str(), ""));
    let answer = folder.station(&["fractional", "a.pdb", "8", "7"]);
    let nowhere = "a.pdb: serial 8: no ATOM or HETATM line has it; looked at 9 lines\n";
    assert_eq!((answer.status, answer.out), (1, format!("serial  name  {HEADING}{oxygen}{nowhere}")));
    let answer = folder.station(&["fractional", "a.pdb", "8"]);
    assert_eq!((answer.status, answer.out.as_str()), (1, nowhere));
}

/// The atom of a serial is that of the first model that has it, as in `find`.
#[test]
fn fractional_places_in_models() {
    let folder = Folder::new("fractional-models");
    let models: String =
        [(1, "2.000"), (2, "5.000")].map(|(number, x)| model(number, &atom("HETATM", 3, 'A', 1, x))).concat();
    folder.file("a.pdb", entry(&SCALES, 3, &models, 1));
    folder.station(&["fractional", "a.pdb", "3"]).is(0, "     3     C   0.038462000 ");
}

#[test]
fn fractional_places_of_coordinates() {
    let folder = Folder::new("fractional-place");
    folder.file("a.pdb", crystal());
    let answer = folder.station(&["fractional", "a.pdb", "11.281", "-0.5", "0.007"]);
    let due = format!("     x       y      z  {HEADING}11.281  -0.500  0.007  {OXYGEN}");
    assert_eq!((answer.status, answer.out.as_str(), answer.err.as_str()), (0, due.as_str(), ""));
    for same in [&["--xyz", "11.281", "-0.500", "0.007"][..], &["--", "11.281", "-0.5", "0.007"]] {
        assert_eq!(folder.station(&[&["fractional", "a.pdb"], same].concat()).out, due);
    }
    let answer = folder.station(&["fractional", "a.pdb", "--xyz", "1", "2", "-3"]);
    answer.is(0, "1.000  2.000  -3.000   0.019231000   0.534130000   0.048455000    0.01923    0.53413    0.04846\n");
    folder.station(&["fractional", "a.pdb", "1", "2", "3"]).is(1, "serial 1: no ATOM or HETATM line has it");
    let ends = folder.station(&["fractional", "a.pdb", "-999.999", "9999.999", "0.0"]);
    ends.is(
        0,
        "-999.999  9999.999  0.000  -19.230980769  171.149982935  -0.000010000  -19.23098  171.14998   -0.00001\n",
    );
}

#[test]
fn words_that_are_neither_serials_nor_coordinates() {
    let folder = Folder::new("fractional-words");
    folder.file("a.pdb", crystal());
    let asked = |words: &[&str], due: &str| {
        let answer = folder.station(&[&["fractional", "a.pdb"], words].concat());
        answer.is(2, due);
        assert_eq!(answer.out, "");
    };
    asked(&["1.5", "2"], "a place is three coordinates, x, y and z; serials have no point");
    asked(&["1.5", "2", "3", "4"], "a place is three coordinates");
    asked(&["1.5", "2", "3.0001"], "\"3.0001\" is no coordinate, a number with up to three decimals such as 11.281");
    asked(&["--xyz", "1", "2", "1e3"], "\"1e3\" is no coordinate");
    asked(&["-7"], "\"-7\" is no serial");
    asked(&[], "fractional needs a file and serials, or a file and x, y, z");
}

#[test]
fn entries_without_scale_and_places_of_no_atom() {
    let folder = Folder::new("fractional-refused");
    let origx = origx();
    let origx: Vec<&str> = origx.iter().map(String::as_str).collect();
    folder.file("a.pdb", entry(&[&[CRYST1][..], &origx].concat(), 3, &atoms(), 2));
    let words = "a.pdb: refused with 29: the entry has no SCALE lines to tell a fractional place by";
    for asked in [&["7"][..], &["8"], &["1.0", "2.0", "3.0"], &["10000.0", "2.0", "3.0"]] {
        folder.station(&[&["fractional", "a.pdb"], asked].concat()).is(1, words);
    }
    folder.file("a.pdb", crystal());
    for far in ["10000.0", "-1000.0", "99999999999999999999.0", "-99999999999999999999.0"] {
        for place in [[far, "0", "0"], ["0", far, "0"], ["0", "0", far]] {
            let answer = folder.station(&[&["fractional", "a.pdb"][..], &place].concat());
            answer.is(1, "a.pdb: refused with 33: a coordinate is not from -999.999 to 9999.999");
            assert_eq!(answer.out, "");
        }
    }
}

/// Both commands refuse a refused entry as the check does.
#[test]
fn refused_entries() {
    let folder = Folder::new("crystal-refused");
    for wrong in [
        crystal().replace("  58.600", "  58.60 "),
        crystal().replace("    3    2", "    2    2"),
        crystal().replace('\n', "\r\n"),
    ] {
        folder.file("a.pdb", wrong);
        let words = folder.station(&["check", "a.pdb"]).out;
        assert!(words.contains("refused with "), "{words}");
        for command in
            [&["cell", "a.pdb"][..], &["fractional", "a.pdb", "7"], &["fractional", "a.pdb", "1.0", "2.0", "3.0"]]
        {
            let answer = folder.station(command);
            assert_eq!((answer.status, answer.out.as_str(), answer.err), (1, "", format!("station: {words}")));
        }
    }
    folder.station(&["cell", "none.pdb"]).is(2, "none.pdb: could not be read");
    folder.station(&["fractional", ".", "1"]).is(2, "it is a folder");
}
