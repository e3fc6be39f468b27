//! `station check`.

use std::fs;
use std::os::unix::fs::symlink;
use std::path::Path;

use crate::folder::Folder;
use crate::texts::{arginine, atom, line, master, three, twins};

#[test]
fn check_grants() {
    let folder = Folder::new("grants");
    folder.file("a.pdb", arginine());
    let answer = folder.station(&["check", "a.pdb"]);
    answer.is(0, "a.pdb: granted: 5 lines, 1 atom, 1 TER, 0 CONECT");
    assert_eq!(answer.err, "");
}

#[test]
fn check_refuses_and_shows_the_line() {
    let folder = Folder::new("refuses");
    folder.file("a.pdb", arginine().replace("  0.50", "  1.50"));
    let answer = folder.station(&["check", "a.pdb"]);
    answer.is(1, "a.pdb: line 2: refused with 6: a field or a blank column is wrong");
    answer.is(1, "|ATOM     32  N  AARG A  -3      11.281  86.699  94.383  1.50 35.88           N  |");
    folder.file("b.pdb", arginine().replace("    1    1    0    0", "    1    2    0    3"));
    let answer = folder.station(&["check", "b.pdb"]);
    answer.is(1, "b.pdb: line 4: refused with 11: a count on MASTER is not the true one");
    answer.is(1, "the count of TER is 2, and there are 1\n  the count of SEQRES is 3, and there are 0");
}

#[test]
fn check_names_both_lines_of_an_atom() {
    let folder = Folder::new("twins");
    folder.file("a.pdb", twins());
    let answer = folder.station(&["check", "a.pdb"]);
    let expected = "\
a.pdb: line 5: refused with 21: a line above has the same atom: name, alternate location and residue
  |HETATM    4  C   ALA A   1       9.000   2.000   3.000  1.00  0.00           C  |
  line 2 has the same atom, C of ALA A 1:
  |ATOM      1  C   ALA A   1       0.000   2.000   3.000  1.00  0.00           C  |
";
    assert_eq!((answer.status, answer.out.as_str()), (1, expected));
    folder.station(&["check", "--report", "a.pdb"]).is(1, "verdict=21\nline=5\ncolumn=0\nlines=4\n");
    let other = twins().replace("HETATM    4  C   ALA", "HETATM    4  C  AALA");
    folder.file("b.pdb", other.replace("CONECT    3    1", "CONECT    3    4"));
    folder.station(&["check", "b.pdb"]).is(0, "b.pdb: granted: 9 lines, 3 atoms");
}

#[test]
fn check_lists_the_report() {
    let folder = Folder::new("report");
    folder.file("a.pdb", arginine());
    let answer = folder.station(&["check", "--report", "a.pdb"]);
    let listing =
        "verdict=0\nline=0\ncolumn=0\nlines=5\nremark=0\nhet=0\nhelix=0\nsheet=0\nxform=0\ncoord=1\nter=1\nconect=0\nseq=0\n";
    assert_eq!((answer.status, answer.out.as_str()), (0, listing));
    folder.file("long.pdb", vec![b' '; 65_530]);
    let answer = folder.station(&["check", "--report", "a.pdb", "long.pdb"]);
    answer.is(1, &format!("file=a.pdb\n{listing}file=long.pdb\nverdict=2\nline=1\n"));
}

/// The report program takes 809 lines; this command has no such limit.
#[test]
fn check_lists_long_entries() {
    let folder = Folder::new("long");
    let atoms: String = (1..=2_000).map(|serial| atom("HETATM", serial, 'A', serial as i32, "0.000")).collect();
    folder.file("a.pdb", [line("HEADER"), atoms, master(2_000, 0, 0), line("END")].concat());
    folder.station(&["check", "--report", "a.pdb"]).is(0, "verdict=0\nline=0\ncolumn=0\nlines=2003\n");
    let json = "{\"file\":\"a.pdb\",\"verdict\":0,\"line\":0,\"column\":0,\"lines\":2003,\"remark\":0,\"het\":0,\"helix\":0,\
                \"sheet\":0,\"xform\":0,\"coord\":2000,\"ter\":0,\"conect\":0,\"seq\":0,\"meaning\":\"granted\",\"cause\":null}\n";
    assert_eq!(folder.station(&["check", "--json", "a.pdb"]).out, json);
    assert_eq!(folder.station(&["check", "--json", "--all", "a.pdb"]).out, json);
}

#[test]
fn check_prints_json() {
    let folder = Folder::new("json");
    folder.file("a\"b.pdb", arginine().replace("ARG A  -3 ", "ARG \\  -3 "));
    let answer = folder.station(&["check", "--json", "a\"b.pdb", "none"]);
    answer.is(2, "{\"file\":\"a\\\"b.pdb\",\"verdict\":6,\"line\":2,\"column\":22,\"lines\":1,");
    answer.is(2, "\"cause\":\"column 22, chain: \\\"\\\\\\\" is no chain");
    answer.is(2, "\n{\"file\":\"none\",\"error\":\"none: could not be read: ");
    assert_eq!(answer.out.lines().count(), 2);
    folder.station(&["check", "--json", "--report", "none"]).is(2, "give one of them");
    folder.station(&["check", "--all", "--report", "none"]).is(2, "has no room for what --all finds; --json has");
}

#[test]
fn check_lists_what_the_report_program_prints() {
    let folder = Folder::new("cases");
    let cases = Path::new(env!("CARGO_MANIFEST_DIR")).join("../../../crates/report/cases");
    let stored = |name: &str| fs::read_to_string(cases.join(name)).expect("a stored case");
    let texts = [
        ("accepted", 0, stored("accepted.in")),
        ("refused", 1, stored("refused.in")),
        ("wrong_field", 1, stored("wrong_field.in")),
        ("wrong_scale", 1, stored("wrong_scale.in")),
        ("longest", 1, " ".repeat(65_529)),
    ];
    for (name, status, text) in texts {
        folder.file("a.pdb", text);
        let answer = folder.station(&["check", "--report", "a.pdb"]);
        assert_eq!((answer.status, answer.out), (status, stored(&format!("{name}.out"))), "{name}");
    }
}

#[test]
fn check_takes_folders_and_standard_input() {
    let folder = Folder::new("folders");
    folder.file("in/a.pdb", arginine());
    folder.file("in/deep/b.pdb", "");
    folder.file("in/deep/c.pdb", three());
    symlink(folder.0.join("in"), folder.0.join("in/loop")).expect("a link");
    let answer = folder.station(&["check", "in"]);
    answer.is(1, "3 files: 2 granted, 1 refused, 0 not read");
    let answer = folder.station(&["check", "in", "missing.pdb"]);
    answer.is(2, "4 files: 2 granted, 1 refused, 1 not read");
    answer.is(2, "missing.pdb: could not be read");
    fs::create_dir(folder.0.join("empty")).expect("a folder");
    folder.station(&["check", "empty"]).is(2, "there is no file with a name in .pdb or .ent in this folder");
    folder.shell("$S check - < in/a.pdb").is(0, "standard input: granted");
}

#[test]
fn check_passes_over_hidden_and_foreign_files() {
    let folder = Folder::new("foreign");
    let foreign =
        ["in/.b.pdb", "in/.out.pdb.station-7-0", "in/.git/c.pdb", "in/notes.txt", "in/a.svg", "in/pdb", "in/tray"];
    for name in foreign {
        folder.file(name, "no entry");
    }
    folder.station(&["check", "in"]).is(2, "there is no file with a name in .pdb or .ent in this folder");
    for name in ["in/a.pdb", "in/B.ENT", "in/deep/pdb1abc.ent"] {
        folder.file(name, arginine());
    }
    folder.file("in/packed.pdb.gz", b"\x1f\x8b\x08\x00rest");
    let answer = folder.station(&["check", "in"]);
    answer.is(1, "4 files: 3 granted, 1 refused, 0 not read");
    assert_eq!(answer.err, "");
    // What is named is read, whatever its name.
    folder.station(&["check", "in/tray"]).is(1, "in/tray: line 1: refused with 1");
}

#[test]
fn check_names_the_cause() {
    let folder = Folder::new("causes");
    folder.file("empty.pdb", "");
    folder.station(&["check", "empty.pdb"]).is(1, "the file is empty");
    folder.file("open.pdb", arginine().trim_end_matches('\n'));
    folder.station(&["check", "open.pdb"]).is(1, "the newline at the end of the file is missing");
    folder.file("windows.pdb", arginine().replace('\n', "\r\n"));
    folder.station(&["check", "windows.pdb"]).is(1, "Windows line ends");
    let trimmed: String = arginine().lines().map(|line| format!("{}\r\n", line.trim_end())).collect();
    folder.file("trimmed.pdb", trimmed);
    folder.station(&["check", "trimmed.pdb"]).is(1, "Windows line ends");
    folder.file("packed.pdb.gz", b"\x1f\x8b\x08\x00rest");
    folder.station(&["check", "packed.pdb.gz"]).is(1, "compressed (gzip)");
}
