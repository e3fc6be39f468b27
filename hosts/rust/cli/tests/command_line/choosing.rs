//! Fragments by words: `--aside` and `--keep`, and what `station fragments` shows.

use crate::folder::Folder;
use crate::texts::{atom, line, master, models};

fn residue(text: String, name: &str) -> String {
    text.replace("ALA", name)
}

/// Two chains, one of them with two residues; a heme, a zinc, a residue of a name of digits and with an insertion code, two waters.
fn mixture() -> String {
    [
        line("HEADER"),
        atom("ATOM", 1, 'A', 1, "0.000"),
        residue(atom("HETATM", 2, 'A', 2, "1.000"), "MSE"),
        line("TER       3      MSE A   2"),
        atom("ATOM", 4, 'B', 1, "2.000"),
        line("TER       5      ALA B   1"),
        residue(atom("HETATM", 6, 'A', 90, "3.000"), "HEM"),
        residue(atom("HETATM", 7, 'B', 90, "4.000"), " ZN"),
        residue(atom("HETATM", 8, 'B', 7, "5.000"), "017").replace("B   7 ", "B   7A"),
        residue(atom("HETATM", 9, 'A', 91, "6.000"), "HOH"),
        residue(atom("HETATM", 10, 'B', 91, "7.000"), "HOH"),
        master(8, 2, 0),
        line("END"),
    ]
    .concat()
}

/// The numbers of the fragments that the options set aside, as the listing has them.
#[track_caller]
fn aside(folder: &Folder, options: &[&str]) -> Vec<u32> {
    let answer = folder.station(&[&["fragments", "a.pdb"], options].concat());
    assert_eq!(answer.status, 0, "{answer:?}");
    let aside = answer.out.lines().filter(|line| line.contains("  aside  "));
    aside.map(|line| line[..8].trim().parse().expect("a number")).collect()
}

#[test]
fn the_listing_has_the_words() {
    let folder = Folder::new("words");
    folder.file("a.pdb", mixture());
    let expected = "\
fragment  chain  residues  atoms  first      last       where  words
       1  A             2      2  ALA 1      MSE 2      in     chain:A
       2  B             1      1  ALA 1      ALA 1      in     ALA chain:B residue:B:1
       3  A             1      1  HEM 90     HEM 90     in     HEM ligands chain:A residue:A:90
       4  B             1      1   ZN 90      ZN 90     in     ZN ligands chain:B residue:B:90
       5  B             1      1  017 7A     017 7A     in     name:017 ligands chain:B residue:B:7A
       6  A             1      1  HOH 91     HOH 91     in     HOH waters chain:A residue:A:91
       7  B             1      1  HOH 91     HOH 91     in     HOH waters chain:B residue:B:91
";
    assert_eq!(folder.station(&["fragments", "a.pdb"]).out, expected);
    // Each of them chooses the fragment that it stands beside.
    for (number, row) in (1..).zip(expected.lines().skip(1)) {
        let words: Vec<&str> = row[62..].split_whitespace().collect();
        assert!(!words.is_empty());
        for word in words {
            assert!(aside(&folder, &["--aside", word]).contains(&number), "{number}: {word}");
        }
    }
}

#[test]
fn words_choose() {
    let folder = Folder::new("words-aside");
    folder.file("a.pdb", mixture());
    for (list, expected) in [
        ("HOH", &[6, 7][..]),
        ("waters", &[6, 7]),
        ("ligands", &[3, 4, 5]),
        ("chain:B", &[2, 4, 5, 7]),
        ("residue:B:90", &[4]),
        ("residue:B:7A", &[5]),
        ("name:017,ZN", &[4, 5]),
        ("1", &[1]),
        ("waters,HOH,6-7,chain:A,6,residue:A:91", &[1, 3, 6, 7]),
        (" 2, HEM ", &[2, 3]),
    ] {
        assert_eq!(aside(&folder, &["--aside", list]), expected, "{list}");
        let others: Vec<u32> = (1..=7).filter(|number| !expected.contains(number)).collect();
        assert_eq!(aside(&folder, &["--keep", list]), others, "{list}");
    }
    assert_eq!(aside(&folder, &["--aside", "ligands,waters", "--keep", "HEM,1,7"]), [4, 5, 6]);
    assert_eq!(aside(&folder, &["--aside", "1", "--keep", "1"]), []);
}

#[test]
fn words_in_vain() {
    let folder = Folder::new("words-vain");
    folder.file("a.pdb", mixture());
    let fragments = |list: &str| folder.station(&["fragments", "a.pdb", "--aside", list]);
    fragments("chain:Z")
        .is(1, "a.pdb: chain:Z: refused with 15: there is no such fragment\n  station fragments FILE shows");
    fragments("HEM,NAG").is(1, "a.pdb: NAG: refused with 15");
    fragments("MSE").is(1, "MSE: refused with 15: there is no such fragment\n  fragment 1 has it among other residues");
    fragments("residue:A:2").is(1, "fragment 1 has it among other residues; it can only go as a whole, by its number");
    fragments("residue:B:7").is(1, "residue:B:7: refused with 15");
    fragments("hoh").is(2, "--aside hoh: \"hoh\" is no fragment number, no range and no word");
    folder.station(&["fragments", "a.pdb", "--keep", "chain:AB"]).is(2, "--keep chain:AB: \"chain:AB\" is no fragment");
    folder.station(&["fragments", "a.pdb", "--keep", "8"]).is(1, "fragment 8: refused with 15");
    // There may be no water, and no ligand.
    folder.file("bare.pdb", [line("HEADER"), master(0, 0, 0), line("END")].concat());
    folder.station(&["fragments", "bare.pdb", "--aside", "waters,ligands"]).is(0, "fragment  chain");
}

#[test]
fn words_save_and_draw() {
    let folder = Folder::new("words-save");
    folder.file("a.pdb", mixture());
    folder.station(&["save", "a.pdb", "--aside", "waters", "--out", "dry", "--tray", "water"]).is(0, "water: 2 lines");
    folder.station(&["check", "dry"]).is(0, "dry: granted: 11 lines, 6 atoms, 2 TER, 0 CONECT");
    folder.station(&["save", "a.pdb", "--keep", "chain:A", "--out", "b", "--tray", "c"]).is(0, "c: 5 lines");
    folder.station(&["save", "a.pdb", "--keep", "chain:A", "--out", "d"]).is(2, "save needs --tray FILE");
    folder.station(&["draw", "a.pdb", "--keep", "HEM,ZN", "--svg", "a.svg"]).is(0, "a.svg: 2 dots");
    assert_eq!(folder.names(), ["a.pdb", "a.svg", "b", "c", "dry", "water"]);
}

#[test]
fn words_choose_in_every_model() {
    let folder = Folder::new("words-models");
    folder.file("a.pdb", models());
    assert_eq!(aside(&folder, &["--aside", "ligands"]), [2, 4]);
    assert_eq!(aside(&folder, &["--keep", "chain:A"]), [2, 4]);
}
