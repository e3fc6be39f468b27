//! The column of a wrong field: what `station check` shows of it. The columns that can be named are read from `docs/FORMAT.md`.

use std::collections::BTreeSet;
use std::fs;
use std::path::Path;

use crate::fields::{
    Field, Row, ARGININE, ATOM, CHAIN, CRYST1, INSERTION, PARTNER, RESIDUE, ROWS, SCALES, SECOND, STRAND, TURN, ZEROS,
};
use crate::folder::{Answer, Folder};
use crate::texts::{arginine, line, master};

/// The columns of a list such as `7, 12..17, 18`.
fn listed(list: &str) -> BTreeSet<usize> {
    let number = |text: &str| text.parse::<usize>().expect("a column");
    let range = |part: &str| {
        let (first, last) = part.split_once("..").unwrap_or((part, part));
        number(first)..=number(last)
    };
    list.split(", ").flat_map(range).collect()
}

/// The rows of a table of the format, by its heading.
fn rows_below(heading: &str) -> Vec<String> {
    let path = Path::new(env!("CARGO_MANIFEST_DIR")).join("../../../docs/FORMAT.md");
    let format = fs::read_to_string(path).expect("the format");
    let mut lines = format.lines().skip_while(|line| !line.starts_with(heading)).skip(2);
    let rows: Vec<String> =
        lines.by_ref().map_while(|row| Some(row.strip_prefix("| ")?.strip_suffix(" |")?.to_owned())).collect();
    assert!(!rows.is_empty(), "{heading}");
    rows
}

/// The rows of the table of columns in the format: a kind, and the columns that can be named in it.
fn table() -> Vec<(String, BTreeSet<usize>)> {
    let mut rows: Vec<(String, BTreeSet<usize>)> = Vec::new();
    for row in rows_below("| Kind | Columns |") {
        let (kinds, list) = row.split_once(" | ").expect("two cells");
        let columns = match list.strip_prefix("as above, but for 42..70: ") {
            None => listed(list),
            Some(others) => {
                let above = &rows.last().expect("a row above").1;
                above.difference(&listed("42..70")).copied().chain(listed(others)).collect()
            }
        };
        let kinds = if kinds.starts_with("SHEET") { vec![kinds] } else { kinds.split(", ").collect() };
        rows.extend(kinds.into_iter().map(|kind| (kind.to_owned(), columns.clone())));
    }
    rows
}

/// A line with some bytes from a column on.
fn with(columns: &str, from: usize, bytes: &str) -> String {
    let mut damaged = line(columns);
    damaged.replace_range(from - 1..from - 1 + bytes.len(), bytes);
    damaged
}

/// A text: HEADER, some lines, and a damaged one.
fn below(above: &[&str], damaged: &str) -> String {
    let above: String = above.iter().map(|above| line(above)).collect();
    line("HEADER") + &above + damaged
}

/// A byte that no field may begin with, so that the field of a column is wrong. Columns 13-14 are held against the element, so the name
/// itself is wrong behind them only.
fn damaged(row: &Row, column: usize) -> String {
    let at = if column == 13 && matches!(row.kind, "ATOM" | "HETATM") { 15 } else { column };
    with(row.line, at, "~")
}

/// The line, the marks and the beginning of the words that are due for a column of a damaged line.
fn due(row: &Row, column: usize, damaged: &str) -> [String; 3] {
    let (last, words) = match row.fields().find(|field| field.0 == column) {
        Some(&(first, last, name, wrong)) => {
            let place = if first == last { format!("column {first}") } else { format!("columns {first}-{last}") };
            (last, format!("  {place}, {name}: \"{}\" is {wrong}", &damaged[first - 1..last]))
        }
        None => (column, format!("  column {column} must be blank, and \"~\" stands there")),
    };
    let marks: String = (1..=last).map(|at| if at < column { ' ' } else { '^' }).collect();
    [format!("  |{}|", damaged.trim_end_matches('\n')), format!("   {marks}"), words]
}

/// The fields that are due below stand in the columns that the format gives them: those of HELIX without its comment and those of CRYST1
/// without the space group, which are free, and those of SHEET with the parts of the registration.
#[test]
fn the_fields_are_those_of_the_format() {
    let range = |part: &str| {
        let (first, last) = part.split_once('-').unwrap_or((part, part));
        (first.parse::<usize>().expect("a column"), last.parse::<usize>().expect("a column"))
    };
    for row in ROWS.iter().filter(|row| !matches!(row.kind, "SHEET, strand 1" | "HETATM" | "SCALE" | "END" | "ENDMDL"))
    {
        let kind = match row.kind {
            "ATOM" => "ATOM, HETATM",
            "ORIGX" => "ORIGX1-3, SCALE1-3",
            kind => kind.trim_end_matches(", any other"),
        };
        let cells = rows_below(&format!("| {kind} | Field |"));
        let listed = cells.iter().flat_map(|cells| cells.split(" | ").next().expect("a cell").split(", ")).map(range);
        let listed: BTreeSet<(usize, usize)> =
            listed.filter(|range| !matches!(range, (41 | 42, 70) | (56, 66))).collect();
        assert_eq!(listed, row.fields().map(|field| (field.0, field.1)).collect(), "{kind}");
    }
}

/// What the damage below is done to has no wrong field itself.
#[test]
fn the_lines_are_right() {
    let folder = Folder::new("columns-right");
    for row in ROWS {
        let answer = said(&folder, row.above, &line(row.line));
        assert!(
            answer.out.starts_with("a.pdb: ") && !answer.out.contains("refused with 6"),
            "{}: {answer:?}",
            row.kind
        );
    }
}

#[test]
fn every_column_of_the_format_has_its_words() {
    let folder = Folder::new("columns");
    let table = table();
    assert!(table.iter().map(|(kind, _)| kind.as_str()).eq(ROWS.iter().map(|row| row.kind)));
    let mut expected = Vec::new();
    for (row, (kind, columns)) in ROWS.iter().zip(&table) {
        let unlisted: Vec<&Field> = row.fields().filter(|field| !columns.contains(&field.0)).collect();
        assert!(unlisted.is_empty(), "{kind}: {unlisted:?}");
        for &column in columns {
            let damaged = damaged(row, column);
            let name = format!("in/{kind} {column:02}.pdb");
            folder.file(&name, below(row.above, &damaged));
            expected.push((name, row.above.len() + 2, due(row, column, &damaged)));
        }
    }
    let answer = folder.station(&["check", "in"]);
    for (name, line, due) in &expected {
        let head = format!("{name}: line {line}: refused with 6: a field or a blank column is wrong");
        let mut lines = answer.out.lines().skip_while(|line| **line != head);
        assert_eq!(lines.next(), Some(head.as_str()), "{answer:?}");
        assert_eq!(lines.next(), Some(due[0].as_str()), "{name}");
        assert_eq!(lines.next(), Some(due[1].as_str()), "{name}");
        let words = lines.next().unwrap_or_default();
        assert!(words.starts_with(due[2].as_str()), "{name}: {words:?} does not begin with {:?}", due[2]);
    }
    let files = expected.len();
    answer.is(1, &format!("{files} files: 0 granted, {files} refused, 0 not read"));
    assert_eq!(answer.out.lines().count(), 4 * files + 1);
}

/// What the program says of a line below HEADER and others.
fn said(folder: &Folder, above: &[&str], damaged: &str) -> Answer {
    folder.file("a.pdb", below(above, damaged));
    folder.station(&["check", "a.pdb"])
}

#[test]
fn a_wrong_field_is_shown() {
    let folder = Folder::new("column-shown");
    folder.file("a.pdb", arginine().replace("  11.281", " 11.2810"));
    let answer = folder.station(&["check", "a.pdb"]);
    let expected = "\
a.pdb: line 2: refused with 6: a field or a blank column is wrong
  |ATOM     32  N  AARG A  -3     11.2810  86.699  94.383  0.50 35.88           N  |
                                 ^^^^^^^^
  columns 31-38, x: \" 11.2810\" is no Real(8.3) from -999.999 to 9999.999 (filled from the right, with digits before the point \
and 3 behind it, without plus sign, leading zero or minus on zero)
";
    assert_eq!((answer.status, answer.out.as_str(), answer.err.as_str()), (1, expected, ""));
    let answer = said(&folder, &[], &with(ARGININE, 12, "\""));
    let expected = "\
a.pdb: line 2: refused with 6: a field or a blank column is wrong
  |ATOM     32\" N  AARG A  -3      11.281  86.699  94.383  0.50 35.88           N  |
              ^
  column 12 must be blank, and \"\"\" stands there
";
    assert_eq!((answer.status, answer.out.as_str()), (1, expected));
    let answer = said(&folder, &[], &with(CRYST1, 34, " 180.00"));
    answer.is(1, "\n                                    ^^^^^^^\n  columns 34-40, angle alpha: \" 180.00\" is no Real(7.2) from 0.01 to 179.99 (");
    let answer = said(&folder, &SCALES[..2], &with(SCALES[2], 31, " -0.000000"));
    answer.is(1, "columns 31-40, coefficient of z: \" -0.000000\" is no Real(10.6) from -99.999999 to 999.999999 (");
    let answer = said(&folder, &[], &with("TER", 7, "00001"));
    answer.is(1, "\n         ^^^^^\n  columns 7-11, serial: \"00001\" is no Integer from 1 to 99999 (filled from the right, without");
    let answer = folder.station(&["draw", "a.pdb", "--svg", "a.svg"]);
    answer.is(1, "\n         ^^^^^\n  columns 7-11, serial: \"00001\" is no Integer");
}

/// Fields that are judged against an earlier one say which, and what stands there.
#[test]
fn an_earlier_field_is_told() {
    let folder = Folder::new("column-earlier");
    let told = |above: &[&str], damaged: String, words: &str| said(&folder, above, &damaged).is(1, words);
    let name =
        "columns 13-14 are the element again, or 13 is one of one letter and 14-16 are three of A-Z, 0-9, ' and *\n";
    for (columns, element) in [(" N  ", "CA"), ("HH1 ", " H"), ("CA  ", " C"), ("~N  ", " N"), ("1HH1", " H")] {
        let atom = with(&with(ARGININE, 13, columns)[..80], 77, element);
        let words = format!("columns 77-78, element: \"{element}\" is no element (");
        told(&[], atom.clone(), &words);
        told(&[], atom, &format!(", or cannot stand with \"{columns}\" in columns 13-16, name: {name}"));
    }
    let chain = "column 32, chain of the last residue: \"B\" is no chain (one of A-Z, a-z and 0-9), \
                 or cannot stand with \"A\" in column 20, chain of the first residue: the two are equal\n";
    told(&[], with(TURN, 32, "B"), chain);
    for (strand, above, sense) in [(STRAND, &[][..], "-1"), (SECOND, &[STRAND], " 0")] {
        let words = format!(
            "columns 39-40, sense: \"{sense}\" is no sense (\" 0\", \" 1\" or \"-1\"), or cannot stand with \"{}\" in columns 8-10, strand: \
             strand 1 has \" 0\", any other strand \" 1\" or \"-1\"\n",
            &strand[7..10]
        );
        told(above, with(strand, 39, sense), &words);
    }
    let manner = "(filled from the right, without plus sign, leading zero or -0)";
    let atom = "or cannot stand with \"    5\" in columns 7-11, atom: no partner is the atom itself";
    for (bonds, words) in [
        ("    5    5", format!("columns 12-16, first partner: \"    5\" is no Integer from 1 to 99999 {manner}, {atom}\n")),
        ("    5         6", format!("columns 12-16, first partner: \"     \" is no Integer from 1 to 99999 {manner}, {atom}\n")),
        ("    5    6    5", format!("columns 17-21, second partner: \"    5\" is {PARTNER} {manner}, {atom}\n")),
        (
            "    5    6         7",
            format!("columns 22-26, third partner: \"    7\" is {PARTNER} {manner}, {atom}, and none stands right of a blank one\n"),
        ),
        (
            "    5    6    6    6    5",
            format!("columns 27-31, fourth partner: \"    5\" is {PARTNER} {manner}, {atom}, and none stands right of a blank one\n"),
        ),
    ] {
        told(&[], line(&format!("CONECT{bonds}")), &words);
    }
}

#[test]
fn a_registration_is_filled_or_blank() {
    let folder = Folder::new("column-registration");
    let whole = "; columns 42-70 are all blank, or filled but for insertion codes\n";
    let strand = |from, bytes| with(&SECOND[..40], from, bytes);
    let answer = said(&folder, &[STRAND], &strand(49, "X"));
    answer.is(1, &format!("columns 42-45, registration, atom of this strand: \"    \" is {ATOM}{whole}"));
    for (from, to, words) in [
        (46, 48, format!("columns 46-48, registration, residue name of this strand: \"   \" is {RESIDUE}{whole}")),
        (50, 50, format!("column 50, registration, chain of this strand: \" \" is {CHAIN}{whole}")),
        (57, 60, format!("columns 57-60, registration, atom of the strand before: \"    \" is {ATOM}{whole}")),
        (65, 65, format!("column 65, registration, chain of the strand before: \" \" is {CHAIN}{whole}")),
    ] {
        said(&folder, &[STRAND], &with(SECOND, from, &" ".repeat(to + 1 - from))).is(1, &words);
    }
    said(&folder, &[STRAND], &with(SECOND, 70, "1")).is(1, &format!("\"1\" is {INSERTION}\n"));
    said(&folder, &[STRAND], &with(SECOND, 64, "X")).is(1, "  column 64 must be blank, and \"X\" stands there\n");
    let none = "  column 43 must be blank, and \"N\" stands there: strand 1 has no registration\n";
    said(&folder, &[], &with(STRAND, 42, " N  ")).is(1, none);
    said(&folder, &[], &with(STRAND, 71, "N")).is(1, "  column 71 must be blank, and \"N\" stands there\n");
    said(&folder, &[], &with(&with(STRAND, 8, "  0")[..80], 43, "N"))
        .is(1, "columns 8-10, strand: \"  0\" is no Integer");
}

/// The worked examples of the format, in the listing.
#[test]
fn the_report_has_the_column() {
    let folder = Folder::new("column-report");
    let listed = |above: &[&str], damaged: String, column: usize| {
        said(&folder, above, &damaged);
        let listing = format!("verdict=6\nline={}\ncolumn={column}\nlines={}\n", above.len() + 2, above.len() + 1);
        folder.station(&["check", "--report", "a.pdb"]).is(1, &listing);
    };
    let atom = |from, bytes| with(ARGININE, from, bytes);
    listed(&[], atom(31, "  -0.000"), 31);
    listed(&[], with(&atom(31, "  -0.000")[..80], 55, "  1.01"), 31);
    listed(&[], atom(55, "  1.01"), 55);
    listed(&[], atom(7, "    0"), 7);
    listed(&[], atom(77, "CA"), 77);
    listed(&[], with(&atom(13, " C A")[..80], 77, " C"), 13);
    listed(&[], atom(12, "X"), 12);
    listed(&[], line("CONECT    5    5"), 12);
    listed(&[], line("CONECT    5         6"), 12);
    listed(&[], line("CONECT    5    6         7"), 22);
    listed(&[], with(TURN, 32, "B"), 32);
    listed(&[], with(&with(TURN, 20, " ")[..80], 32, "B"), 20);
    listed(&[STRAND], with(SECOND, 39, " 0"), 39);
    listed(&[], with(STRAND, 42, " N  "), 43);
    listed(&[STRAND], with(&SECOND[..40], 49, "X"), 42);
    listed(&[], with(ZEROS, 16, "    1"), 16);
    listed(&[ZEROS], with("END", 80, "X"), 80);
    listed(&[], with(CRYST1, 41, " 180.00"), 41);
    listed(&[], with(CRYST1, 55, "X"), 55);
    listed(&[CRYST1, SCALES[0]], with(SCALES[1], 46, "  -0.00000"), 46);
    folder.file("a.pdb", atom(31, "  -0.000") + &line("HEADER"));
    folder.station(&["check", "--report", "a.pdb"]).is(1, "verdict=5\nline=1\ncolumn=0\nlines=0\n");
    folder.file("a.pdb", line("HEADER") + &master(0, 0, 0));
    folder.station(&["check", "--report", "a.pdb"]).is(1, "verdict=12\nline=3\ncolumn=0\nlines=2\n");
}
