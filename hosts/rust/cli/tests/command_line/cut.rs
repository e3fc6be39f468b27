//! `station cut`.

use std::fs;

use crate::fields::{CRYST1, SCALES};
use crate::folder::Folder;
use crate::texts::{arginine, line, master, models, three};

/// An entry as it may come from elsewhere: lines of other kinds, ends of lines cut off, no MASTER.
fn public() -> String {
    let whole = three().replace(&master(3, 1, 2), "");
    let lines = whole.replace("TER ", "ANISOU    1\nANISOU    2\nTER ").replacen('\n', "\nDBREF  1ABC\n\n", 1);
    lines.lines().map(|line| format!("{}\n", line.trim_end())).collect()
}

#[test]
fn a_public_entry_is_cut() {
    let folder = Folder::new("cut");
    folder.file("a.ent", public());
    let answer = folder.station(&["cut", "a.ent", "--out", "a.pdb"]);
    let expected = "\
a.ent: 4 lines dropped: without a name 1, ANISOU 2, DBREF 1
a.ent: 7 short lines filled up with blanks
a.pdb: granted: 9 lines, 3 atoms, 1 TER, 2 CONECT
";
    assert_eq!((answer.status, answer.out.as_str(), answer.err.as_str()), (0, expected, ""));
    assert_eq!(folder.read("a.pdb"), three());
    assert_eq!(folder.read("a.ent"), public());
    let answer = folder.shell("$S cut - --out - < a.ent");
    answer.is(0, "station: standard output: granted: 9 lines");
    assert_eq!((answer.out.as_str(), folder.names().len()), (three().as_str(), 2));
}

#[test]
fn an_accepted_entry_stays_as_it_is() {
    let folder = Folder::new("cut-accepted");
    for text in [arginine(), three(), models()] {
        folder.file("a.pdb", &text);
        folder.station(&["cut", "a.pdb", "--out", "b.pdb", "--force"]).is(0, "a.pdb: no line dropped\nb.pdb: granted");
        assert_eq!(folder.read("b.pdb"), text);
        folder.file("a.pdb", text.replace('\n', "\r\n"));
        let answer = folder.station(&["cut", "a.pdb", "--out", "b.pdb", "--force"]);
        answer.is(0, &format!("a.pdb: {} carriage returns dropped", text.lines().count() - 2));
        assert_eq!(folder.read("b.pdb"), text);
    }
}

#[test]
fn what_is_still_refused_is_written_all_the_same() {
    let folder = Folder::new("cut-refused");
    folder.file("a.ent", public().replace("HEADER\n", ""));
    let answer = folder.station(&["cut", "a.ent", "--out", "a.pdb"]);
    answer.is(1, "a.pdb: line 1: refused with 5: the line is out of place or there once too often\n  |ATOM      1");
    assert_eq!(folder.read("a.pdb"), three().replace(&line("HEADER"), ""));
    // What cutting cannot mend is not to be cut once more.
    folder.file("long.ent", public().replace("HEADER", &format!("HEADER{:80}x", "")));
    let answer = folder.station(&["cut", "long.ent", "--out", "long.pdb"]);
    answer.is(1, "long.pdb: line 1: refused with 2");
    assert!(!answer.out.contains("station cut"), "{answer:?}");
    assert!(folder.read("long.pdb").starts_with(&format!("HEADER{:80}x\nATOM", "")));
    folder.station(&["cut", "-q", "long.ent", "--out", "-"]).is(1, "standard output: line 1: refused with 2");
}

/// The lines of the crystal frame keep their columns: the code that old entries have behind them is not for a program to drop.
#[test]
fn the_crystal_frame_is_kept() {
    let folder = Folder::new("cut-crystal");
    let lines = [&[CRYST1][..], &SCALES].concat();
    let frame: String = lines.iter().copied().map(line).collect();
    let public = public().replace("HEADER\n", &format!("HEADER\n{}\n", lines.join("\n")));
    folder.file("a.ent", &public);
    folder.station(&["cut", "a.ent", "--out", "a.pdb"]).is(0, "a.pdb: granted: 13 lines");
    assert!(folder.read("a.pdb").starts_with(&(line("HEADER") + &frame)));
    let old = format!("{CRYST1:72}1ABC 123");
    folder.file("old.ent", public.replace(CRYST1, &old));
    let answer = folder.station(&["cut", "old.ent", "--out", "old.pdb"]);
    answer.is(1, "old.pdb: line 2: refused with 6: a field or a blank column is wrong\n  |CRYST1 ");
    answer.is(1, "column 73 must be blank, and \"1\" stands there: old entries have their code and a number in columns 73-80, here \"1ABC 123\"");
    assert!(folder.read("old.pdb").contains(&old));
    // A segment is no code.
    folder.file("old.ent", public.replace(CRYST1, &format!("{CRYST1:72}SEG1")));
    folder.station(&["cut", "old.ent", "--out", "old.pdb", "--force"]).is(1, "and \"S\" stands there\n");
}

#[test]
fn a_file_without_a_known_line_is_not_written() {
    let folder = Folder::new("cut-noise");
    for (text, words) in [
        (&b""[..], "a: there is no line to keep, so nothing was written\n"),
        (b"\n\n\xff\x00\r\n\x80", "a: there is no line to keep"),
        (b"MASTER\nEND\n", "a: there is no line to keep"),
        (b"\x1f\x8b\x08\x00rest", "nothing was written\n  the file is compressed (gzip); unpack it first"),
        (b"data_1ABC\nloop_\n", "this looks like mmCIF"),
    ] {
        folder.file("a", text);
        folder.station(&["cut", "a", "--out", "b"]).is(1, words);
        assert_eq!(folder.names(), ["a"]);
    }
    let noise: Vec<u8> = (0..200_000u32).map(|at| (at.wrapping_mul(2_654_435_761) >> 13) as u8).collect();
    folder.file("a", noise);
    folder.station(&["cut", "a", "--out", "b"]).is(1, "a: there is no line to keep");
    assert_eq!(folder.names(), ["a"]);
}

#[test]
fn cut_writes_as_save_does() {
    let folder = Folder::new("cut-output");
    folder.file("a.ent", public());
    folder.file("old", "old");
    fs::hard_link(folder.0.join("a.ent"), folder.0.join("hard")).expect("a link");
    let before = folder.names();
    let cut = |more: &[&str]| folder.station(&[&["cut", "a.ent"], more].concat());
    cut(&["--out", "old"]).is(2, "old: the file exists; --force replaces it");
    cut(&["--out", "hard", "--force"]).is(2, "this is the input, which is never written to");
    cut(&["--out", "."]).is(2, "this is a folder; --out needs a file");
    cut(&["--out", "none/out"]).is(2, "none/out: could not be written");
    cut(&["--out", "/dev/full"]).is(2, "/dev/full: could not be written");
    cut(&[]).is(2, "cut needs --out FILE");
    folder.shell("$S cut a.ent --out - > /dev/full").is(2, "standard output could not be written to");
    let limited = "trap '' XFSZ; ulimit -f 0; exec $S cut a.ent --force";
    folder.shell(&format!("{limited} --out new")).is(2, "could not be written");
    folder.shell(&format!("{limited} --out old")).is(2, "could not be written");
    folder.station(&["cut", "none", "--out", "b"]).is(2, "none: could not be read");
    folder.station(&["cut", ".", "--out", "b"]).is(2, "it is a folder");
    assert_eq!((folder.names(), folder.read("old").as_str()), (before, "old"));
    cut(&["--out", "old", "--force"]).is(0, "old: granted");
}

#[test]
fn check_suggests_it() {
    let folder = Folder::new("cut-suggested");
    let advice = "\n  station cut FILE --out NEW drops lines of unknown kinds and fills short lines up\n";
    folder.file("two.pdb", arginine().replace('\n', "\r\n"));
    folder.file("four.pdb", arginine().replace("TER ", "TERM"));
    folder.file("one.pdb", "HEADER\nEND\n");
    for (file, number) in [("two.pdb", 2), ("four.pdb", 4), ("one.pdb", 1)] {
        let answer = folder.station(&["check", file]);
        answer.is(1, &format!("refused with {number}: "));
        answer.is(1, advice);
    }
    folder.file("five.pdb", arginine().replace("HEADER", "TITLE "));
    folder.file("packed.pdb", b"\x1f\x8b\x08\x00rest");
    folder.file("empty.pdb", "");
    for file in ["five.pdb", "packed.pdb", "empty.pdb"] {
        let answer = folder.station(&["check", file]);
        assert!(answer.status == 1 && !answer.out.contains("station cut"), "{answer:?}");
    }
}
