//! `station fragments` and `station save`.

use std::fs;
use std::os::unix::fs::symlink;

use crate::folder::Folder;
use crate::texts::{atom, line, master, three, twins};

#[test]
fn fragments_are_listed() {
    let folder = Folder::new("fragments");
    folder.file("a.pdb", three());
    let answer = folder.station(&["fragments", "a.pdb", "--aside", "2"]);
    let expected = "\
fragment  chain  residues  atoms  first      last       where  words
       1  A             1      1  ALA 1      ALA 1      in     ALA chain:A residue:A:1
       2  B             1      1  ALA 7      ALA 7      aside  ALA ligands chain:B residue:B:7
       3  B             1      1  ALA 8      ALA 8      in     ALA ligands chain:B residue:B:8
";
    assert_eq!((answer.status, answer.out.as_str()), (0, expected));
    assert_eq!(folder.station(&["fragments", "a.pdb", "--aside", "2,2-2"]).out, expected);
    folder.station(&["fragments", "."]).is(2, "it is a folder");
    folder.station(&["fragments", "none"]).is(2, "could not be read");
}

#[test]
fn fragments_that_cannot_be_set_aside() {
    let folder = Folder::new("aside");
    folder.file("a.pdb", three());
    let aside = |list: &str| folder.station(&["fragments", "a.pdb", "--aside", list]);
    let answer = aside("4");
    answer.is(1, "a.pdb: fragment 4: refused with 15: there is no such fragment\n  the entry has 3 fragments\n");
    assert_eq!(answer.out, "");
    aside("2-4294967295").is(1, "fragment 4: refused with 15");
    aside("2-99999999999").is(2, "there is no fragment 99999999999; no entry has so many");
    aside("0").is(2, "--aside 0: there is no fragment 0; they count from 1 (see station --help)");
    aside("1,3-2").is(2, "--aside 1,3-2: the range 3-2 is the wrong way round; 2-3 would do");
    aside("1;2").is(2, "\"1;2\" is no fragment number, no range and no word; a list is such as 2,7-9,HOH,chain:B");
    folder.file("bare.pdb", [line("HEADER"), master(0, 0, 0), line("END")].concat());
    folder.station(&["fragments", "bare.pdb"]).is(0, "fragment  chain");
    folder.station(&["fragments", "bare.pdb", "--aside", "1"]).is(1, "the entry has 0 fragments");
}

/// An order for each water would judge the text 25,000 times, for a minute or more.
#[test]
fn thousands_of_waters_at_once() {
    let folder = Folder::new("waters");
    let (chains, waters) = (8, 25_002);
    let mut lines = vec![line("HEADER")];
    for (chain, serial) in ('A'..).take(chains).zip((1u32..).step_by(2)) {
        lines.push(atom("ATOM", serial, chain, 1, "0.000"));
        lines.push(line(&format!("TER   {:5}      ALA {chain}   1", serial + 1)));
    }
    let chain = lines.concat();
    // A chain has fewer numbers than there are waters.
    let chain_of = |index: u32| ['U', 'V', 'W'][index as usize / 9_999];
    let water = |index: u32| atom("HETATM", 17 + index, chain_of(index), (index % 9_999) as i32, "1.000");
    let tail: String = (0..waters).map(water).collect();
    let end = |atoms: u32| master(atoms, 8, 0) + &line("END");
    folder.file("a.pdb", chain.clone() + &tail + &end(8 + waters));
    let save = ["save", "a.pdb", "--out", "dry", "--tray", "water", "--aside", "9-25010"];
    folder.station(&save).is(0, "water: 25002 lines");
    assert!(folder.read("dry") == chain + &end(8));
    assert!(folder.read("water") == tail);
    folder.station(&["fragments", "a.pdb", "--aside", "2,5,9-25010"]).is(0, "   25010  W             1      1");
    folder.station(&["fragments", "a.pdb", "--aside", "9-25011"]).is(1, "fragment 25011: refused with 15");
}

#[test]
fn save_parts_the_entry() {
    let folder = Folder::new("save");
    folder.file("a.pdb", three());
    folder.station(&["save", "a.pdb", "--aside", "2", "--out", "out", "--tray", "tray"]).is(0, "out: 6 lines");
    let saved = [
        line("HEADER"),
        atom("ATOM", 1, 'A', 1, "0.000"),
        line("TER       2      ALA A   1"),
        atom("HETATM", 4, 'B', 8, "9.000"),
        master(2, 1, 0),
        line("END"),
    ];
    let dropped = [atom("HETATM", 3, 'B', 7, "-1.500"), line("CONECT    1    3    4"), line("CONECT    3    1")];
    assert_eq!(folder.read("out"), saved.concat());
    assert_eq!(folder.read("tray"), dropped.concat());
    folder.station(&["check", "out"]).is(0, "granted");
    assert_eq!(folder.names(), ["a.pdb", "out", "tray"]);
}

#[test]
fn save_replaces_only_when_told() {
    let folder = Folder::new("force");
    folder.file("a.pdb", three());
    folder.file("old", "old");
    let save = |more: &[&str]| folder.station(&[&["save", "a.pdb", "--aside", "1"], more].concat());
    save(&["--out", "old", "--tray", "tray"]).is(2, "old: the file exists; --force replaces it");
    save(&["--out", "out", "--tray", "old"]).is(2, "old: the file exists; --force replaces it");
    assert_eq!((folder.read("old").as_str(), folder.names().len()), ("old", 2));
    save(&["--out", "old", "--tray", "tray", "--force"]).is(0, "old: 5 lines");
    assert_eq!(folder.names(), ["a.pdb", "old", "tray"]);
    assert!(folder.read("old").starts_with("HEADER"));
    save(&["--out", "both", "--tray", "./both"]).is(2, "two outputs go to the same place");
    save(&["--out", "-", "--tray", "-"]).is(2, "two outputs go to the same place");
    save(&["--out", "both"]).is(2, "needs --tray");
    save(&["--out", ".", "--tray", "t"]).is(2, "this is a folder");
    save(&["--out", "new/", "--tray", "t"]).is(2, "new/: there is no such folder, and --out needs a file");
    save(&["--out", "none/out", "--tray", "t"]).is(2, "could not be written");
    assert_eq!(folder.names(), ["a.pdb", "old", "tray"]);
}

#[test]
fn the_input_is_never_written_to() {
    let folder = Folder::new("input");
    folder.file("a.pdb", three());
    symlink("a.pdb", folder.0.join("soft")).expect("a link");
    symlink("nothing", folder.0.join("dangling")).expect("a link");
    fs::hard_link(folder.0.join("a.pdb"), folder.0.join("hard")).expect("a link");
    let before = folder.names();
    for path in ["a.pdb", "./a.pdb", "soft", "hard"] {
        let aside = ["save", "a.pdb", "--aside", "1", "--force"];
        folder.station(&[&aside[..], &["--out", path, "--tray", "t"]].concat()).is(2, "this is the input");
        folder.station(&[&aside[..], &["--out", "o", "--tray", path]].concat()).is(2, "this is the input");
        folder.station(&["draw", "soft", "--force", "--svg", path]).is(2, "this is the input");
        folder.shell(&format!("$S save - --force --out {path} < a.pdb")).is(2, "this is the input");
    }
    folder.station(&["save", "a.pdb", "--out", "dangling"]).is(2, "a link to nothing");
    assert_eq!(folder.names(), before);
    assert_eq!(folder.read("a.pdb"), three());
}

#[test]
fn a_link_to_another_file_is_followed() {
    let folder = Folder::new("link");
    folder.file("a.pdb", three());
    folder.file("deep/old", "old");
    symlink("deep/old", folder.0.join("soft")).expect("a link");
    folder.station(&["save", "a.pdb", "--out", "soft", "--force"]).is(0, "9 lines");
    assert_eq!(folder.read("deep/old"), three());
    assert!(fs::symlink_metadata(folder.0.join("soft")).expect("the link").is_symlink());
}

/// The words are those of `check`.
#[test]
fn the_same_atom_twice_is_not_saved() {
    let folder = Folder::new("twins-unsaved");
    folder.file("a.pdb", twins());
    let words = folder.station(&["check", "a.pdb"]).out;
    assert!(words.contains("line 5: refused with 21") && words.contains("line 2 has the same atom"), "{words}");
    for command in [
        &["fragments", "a.pdb"][..],
        &["save", "a.pdb", "--out", "out"],
        &["save", "a.pdb", "--aside", "2", "--out", "out", "--tray", "tray"],
        &["draw", "a.pdb", "--svg", "svg", "--aside", "2"],
    ] {
        folder.station(command).is(1, words.trim_end());
    }
    assert_eq!(folder.names(), ["a.pdb"]);
}

#[test]
fn refused_entries_are_not_saved() {
    let folder = Folder::new("unsaved");
    folder.file("a.pdb", three().replace("CONECT    3", "CONECT    9"));
    folder.station(&["save", "a.pdb", "--out", "out"]).is(1, "line 7: refused with 9");
    folder.file("b.pdb", three());
    folder
        .station(&["save", "b.pdb", "--aside", "9", "--out", "o", "--tray", "t"])
        .is(1, "fragment 9: refused with 15");
    assert_eq!(folder.names(), ["a.pdb", "b.pdb"]);
}
