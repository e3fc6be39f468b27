//! `station check --all`.

use std::time::{Duration, Instant};

use crate::fields::{CRYST1, SCALES};
use crate::folder::Folder;
use crate::texts::{atom, line, master, three};

/// A chain, with lines of unknown names, a wrong field, a serial that falls and a bond to no atom.
fn spoilt() -> String {
    [
        line("HEADER"),
        line("DBREF"),
        atom("ATOM", 1, 'A', 1, "0.000"),
        line("ANISOU    1"),
        atom("ATOM", 2, '?', 2, "0.000"),
        atom("ATOM", 1, 'A', 3, "0.000"),
        line("ANISOU    1"),
        atom("ATOM", 4, 'A', 4, "0.000"),
        line("TER       5      ALA A   4"),
        line("CONECT    4    9"),
        master(4, 1, 1),
        line("END"),
    ]
    .concat()
}

#[test]
fn all_offences_are_listed() {
    let folder = Folder::new("all");
    folder.file("a.pdb", spoilt());
    let first = folder.station(&["check", "a.pdb"]);
    first.is(1, "a.pdb: line 2: refused with 4");
    let answer = folder.station(&["check", "--all", "a.pdb"]);
    assert_eq!(answer.status, 1);
    let advice = answer.out.strip_prefix(first.out.as_str()).expect("the verdict comes first, and as ever");
    let expected = "\
Advice, no verdict: each line that offends is left out and the rest checked again; an offence may come from a line left out above it. Lines count by newlines.
the name DBREF is not known: 1 line, the first is line 2
the name ANISOU is not known: 2 lines, the first is line 4
line 5: refused with 6: a field or a blank column is wrong
  |ATOM      2  C   ALA ?   2       0.000   2.000   3.000  1.00  0.00           C  |
                        ^
  column 22, chain: \"?\" is no chain (one of A-Z, a-z and 0-9)
line 6: refused with 7: the serial is not above the one before
  |ATOM      1  C   ALA A   3       0.000   2.000   3.000  1.00  0.00           C  |
  the serial is 1, and line 3 has 1; 2 or more is due
line 10: refused with 9: the CONECT line is below the one before or names a number that no atom has
  |CONECT    4    9                                                                |
  9 is the serial of no atom
In all 3 offences, and 3 lines with a name that is not known.
";
    assert_eq!(advice, expected);
    folder.file("good.pdb", three());
    assert_eq!(folder.station(&["check", "--all", "good.pdb"]).out, folder.station(&["check", "good.pdb"]).out);
}

/// MASTER is no offence where the lines left out are what it lacks, and one where they are not.
#[test]
fn lines_left_out_are_counted() {
    let folder = Folder::new("all-counts");
    folder.file("a.pdb", spoilt().replace("    4    1    1    0", "    5    1    1    0"));
    let answer = folder.station(&["check", "--all", "a.pdb"]);
    answer.is(1, "line 11: refused with 11: a count on MASTER is not the true one");
    answer.is(1, "In all 4 offences");
    assert!(!answer.out.contains("line 12"), "{answer:?}");
}

/// A wrong line of a trio does not make all below it offend.
#[test]
fn trios_stay_whole() {
    let folder = Folder::new("all-trios");
    let atoms: String = (1..50).map(|serial| atom("HETATM", serial, 'A', serial as i32, "0.000")).collect();
    let mut master = master(49, 0, 0);
    master.replace_range(45..50, "    3");
    let entry =
        |lines: &[String]| [&[line("HEADER")], lines, &[atoms.clone(), master.clone(), line("END")]].concat().concat();
    let right: Vec<String> = [&[CRYST1][..], &SCALES].concat().into_iter().map(line).collect();
    folder.file("a.pdb", entry(&right));
    folder.station(&["check", "--all", "a.pdb"]).is(0, "granted: 56 lines");
    for (wrong, number) in [("SCALE2\n".to_owned(), 2), (line("SCALE2"), 6), (right[2].replace("0.0", "0\t0"), 3)] {
        let mut lines = right.clone();
        lines[2] = wrong;
        folder.file("a.pdb", entry(&lines));
        let answer = folder.station(&["check", "--all", "a.pdb"]);
        answer.is(1, &format!("a.pdb: line 4: refused with {number}: "));
        answer.is(1, "In all 1 offence, and 0 lines");
    }
    let all: Vec<String> = right.iter().map(|line| line.replace('.', ",")).collect();
    folder.file("a.pdb", entry(&all));
    let answer = folder.station(&["check", "--all", "a.pdb"]);
    answer.is(1, "lines 4 to 5, 2 of them: refused with 6");
    answer.is(1, "In all 4 offences, and 0 lines");
}

#[test]
fn offences_alike_are_told_once() {
    let folder = Folder::new("alike");
    let chain: String = (2..40).map(|serial| atom("ATOM", serial, 'B', serial as i32, "0.000")).collect();
    let ters = [line("TER      40      ALA B  39"), line("TER      41      ALA A   1")].concat();
    let head = [line("HEADER"), atom("ATOM", 1, 'A', 1, "0.000")].concat();
    folder.file("a.pdb", [head, chain, ters, master(39, 2, 0), line("END")].concat());
    let answer = folder.station(&["check", "--all", "a.pdb"]);
    answer.is(1, "lines 3 to 40, 38 of them: refused with 8");
    answer.is(1, "it is of chain B, and line 2 in the same run of chain A");
    answer.is(1, "line 41: refused with 8");
    answer.is(1, "In all 39 offences, and 0 lines with a name");
    let json = folder.station(&["check", "--all", "--json", "a.pdb"]);
    json.is(
        1,
        "\"advice\":{\"unknown\":[],\"offences\":[{\"verdict\":8,\"line\":3,\"last\":40,\"count\":38,\"column\":0,",
    );
    json.is(1, "\"ended\":null}}\n");
}

/// A text that is over, short or nothing at all.
#[test]
fn texts_without_an_end() {
    let folder = Folder::new("endless");
    folder.file("empty.pdb", "");
    folder.station(&["check", "--all", "empty.pdb"]).is(1, "In all 1 offence,");
    folder.file("over.pdb", line("HEADER") + "ATOM");
    let answer = folder.station(&["check", "--all", "over.pdb"]);
    answer.is(1, "line 3: refused with 12: the text is over before END");
    answer.is(1, "In all 2 offences");
    folder.file("windows.pdb", three().replace('\n', "\r\n"));
    let answer = folder.station(&["check", "--all", "windows.pdb"]);
    answer.is(1, "lines 1 to 9, 9 of them: refused with 2");
    answer.is(1, "Windows line ends");
}

/// A line of another width does not spoil the lines below it.
#[test]
fn lines_of_another_width() {
    let folder = Folder::new("widths");
    let short = three().replacen(&line("HEADER"), "HEADER\n", 1).replace("CONECT    3    1", "CONECT    3    1 ");
    folder.file("a.pdb", line("HEADER") + &short);
    let answer = folder.station(&["check", "--all", "a.pdb"]);
    answer.is(1, "a.pdb: line 2: refused with 2");
    answer.is(1, "\nline 8: refused with 2: the line has no newline");
    answer.is(1, "  the line goes on past column 80\nIn all 2 offences, and 0 lines");
}

/// A file in which every line has the same wrong field is told of in one sentence.
#[test]
fn a_field_that_is_wrong_throughout() {
    let folder = Folder::new("throughout");
    let atoms: String = (1..9_000).map(|serial| atom("ATOM", serial, 'A', serial as i32, "0.000")).collect();
    let text = [line("HEADER"), atoms.replace("           C", "            "), master(8_999, 0, 0), line("END")];
    folder.file("a.pdb", text.concat());
    let answer = folder.station(&["check", "--all", "a.pdb"]);
    answer.is(1, "lines 2 to 9000, 8999 of them: refused with 6");
    answer.is(1, "columns 77-78, element");
    answer.is(1, "In all 8999 offences, and 0 lines");
}

/// A hundred thousand lines of which every tenth offends, and as many of noise, in some seconds.
#[test]
fn big_files_do_not_hang() {
    let folder = Folder::new("big");
    let atoms = (1..=99_000).map(|serial| {
        let chain = if serial % 10 == 0 { '?' } else { char::from(b'A' + (serial / 9_000) as u8) };
        atom("HETATM", serial, chain, (serial % 9_000) as i32, "0.000")
    });
    let noise = (0..99_000u32).flat_map(|index| [index.wrapping_mul(2_654_435_761).to_be_bytes()[0]; 80]);
    folder.file("a.pdb", [line("HEADER"), atoms.collect(), master(99_000, 0, 0), line("END")].concat());
    folder.file("noise.pdb", noise.collect::<Vec<u8>>());
    let start = Instant::now();
    let answer = folder.station(&["check", "--all", "a.pdb"]);
    answer.is(1, "line 10001: refused with 6");
    answer.is(1, "The search was ended at line 10011; there may be more.");
    folder.station(&["check", "--all", "noise.pdb"]).is(1, "refused with 2");
    assert!(start.elapsed() < Duration::from_secs(120), "{:?}", start.elapsed());
}
