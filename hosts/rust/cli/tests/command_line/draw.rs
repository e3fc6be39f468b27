//! `station draw`.

use std::collections::BTreeSet;

use crate::folder::Folder;
use crate::texts::{line, master, three, twins};

#[test]
fn pictures() {
    let folder = Folder::new("pictures");
    folder.file("a & b.pdb", three());
    folder.station(&["draw", "a & b.pdb", "--svg", "a.svg"]).is(0, "a.svg: 3 dots, 2 strokes");
    let svg = folder.read("a.svg");
    assert_eq!((svg.matches("<circle").count(), svg.matches("<line").count()), (3, 2));
    assert!(svg.contains("viewBox=\"-3.500 -4.000 14.500 4.000\""), "{svg}");
    assert!(svg.contains("<title>a &amp; b.pdb</title>"));
    folder.station(&["draw", "a & b.pdb", "--svg", "a.svg"]).is(2, "--force replaces it");
    folder.station(&["draw", "a & b.pdb", "--svg", "b.svg", "--aside=2"]).is(0, "b.svg: 2 dots, 1 stroke");
    let svg = folder.read("b.svg");
    assert_eq!((svg.matches("<circle").count(), svg.matches("<line").count()), (2, 1));
    folder.station(&["draw", "a & b.pdb", "--svg", "c.svg", "--aside", "1-3"]).is(1, "refused with 19");
    assert_eq!(folder.names(), ["a & b.pdb", "a.svg", "b.svg"]);
}

/// A line of an atom at a place; the element is the first letter of its name.
fn at(name: &str, serial: u32, atom: &str, residue: &str, [x, y, z]: [f64; 3]) -> String {
    let element = &atom[..1];
    line(&format!("{name:6}{serial:5}  {atom:3} {residue}    {x:8.3}{y:8.3}{z:8.3}  1.00  0.00           {element}"))
}

/// A chain of two residues, a ligand of four atoms beside the first of them, an ion and a water.
fn pocket() -> String {
    let atoms = [
        at("ATOM", 1, "N", "ALA A   1", [0.0, 0.0, 0.0]),
        at("ATOM", 2, "CA", "ALA A   1", [1.4, 0.0, 0.1]),
        at("ATOM", 3, "C", "ALA A   1", [2.1, 1.3, 0.2]),
        at("ATOM", 4, "N", "GLY A   2", [3.4, 1.3, 0.3]),
        at("ATOM", 5, "CA", "GLY A   2", [4.1, 9.0, 0.4]),
        line("TER       6      GLY A   2"),
        at("HETATM", 7, "C1", "LIG A 101", [-3.0, 0.0, 1.0]),
        at("HETATM", 8, "C2", "LIG A 101", [-4.4, 0.0, 1.1]),
        at("HETATM", 9, "O1", "LIG A 101", [-5.1, 1.0, 1.2]),
        at("HETATM", 10, "O2", "LIG A 101", [-5.1, -1.0, 1.3]),
        at("HETATM", 11, "S", "ION A 102", [9.0, 9.0, 2.0]),
        at("HETATM", 12, "O", "HOH A 103", [0.0, 12.0, 0.5]),
    ];
    let bonds = line("CONECT    7    8") + &line("CONECT    8    7    9");
    [line("HEADER"), atoms.concat(), bonds, master(11, 1, 2), line("END")].concat()
}

#[test]
fn a_ligand_in_its_pocket() {
    let folder = Folder::new("pocket");
    folder.file("a.pdb", pocket());
    // N-CA, CA-C, C-N, and three within the ligand; CA of residue 2 is far from all.
    folder.station(&["draw", "a.pdb", "--svg", "a.svg"]).is(0, "a.svg: 11 dots, 2 strokes, 6 sticks\n");
    let svg = folder.read("a.svg");
    assert!(svg.contains("<rect width=\"100%\" height=\"100%\" fill=\"#ffffff\"/>"));
    for words in ["chain A", "LIG A 101", "ION A 102", "LIG A 101 and the residues round it", "water", "2 Å", "ALA A 1"]
    {
        assert!(svg.contains(&format!(">{words}</text>")), "{words}");
    }
    assert!(svg.contains("Sticks join neighbours by distance: a rule of this picture, not read from the file."));
    assert!(svg.contains("Thin black lines are the bonds of CONECT lines."));
    // The second panel has the ligand and the residue beside it once more, and not the one that is far.
    let panels: Vec<&str> = svg.split("<svg x=").skip(1).collect();
    let dots: Vec<usize> = panels.iter().map(|panel| panel.matches("<circle").count()).collect();
    assert_eq!(dots, [11, 7]);
    assert!(panels[0].contains("LIG A 101") && panels[1].contains(">ALA A 1<") && !panels[1].contains("GLY A 2"));
}

/// Nothing is moved: every dot stands where its line says, the nearer ones behind the farther, and waters are small.
#[test]
fn dots_stand_where_the_file_has_them() {
    let folder = Folder::new("places");
    folder.file("a.pdb", pocket());
    folder.station(&["draw", "a.pdb", "--svg", "a.svg"]).is(0, "11 dots");
    let svg = folder.read("a.svg");
    let value = |circle: &str, name: &str| {
        let rest = circle.split_once(&format!("{name}=\"")).expect("a value").1;
        rest.split_once('"').expect("a value").0.to_owned()
    };
    let whole = svg.split("<svg x=").nth(1).expect("a panel");
    let circles: Vec<&str> = whole.lines().filter(|line| line.starts_with("<circle")).collect();
    let places: BTreeSet<(String, String)> = circles.iter().map(|dot| (value(dot, "cx"), value(dot, "cy"))).collect();
    let lines = pocket();
    let atoms = lines.lines().filter(|line| line.starts_with("ATOM") || line.starts_with("HETATM"));
    let turned = |y: &str| match y {
        "0.000" => y.to_owned(),
        _ => y.strip_prefix('-').map_or(format!("-{y}"), str::to_owned),
    };
    let due = atoms.map(|line| (line[30..38].trim().to_owned(), turned(line[38..46].trim())));
    assert_eq!(places, due.collect());
    let order = |x: &str| circles.iter().position(|dot| value(dot, "cx") == x).expect("a dot");
    assert!(order("1.400") < order("2.100") && order("-3.000") < order("-4.400") && order("-4.400") < order("9.000"));
    let radius = |y: &str| {
        let dot = circles.iter().find(|dot| value(dot, "cy") == y).expect("a dot");
        value(dot, "r").parse::<f64>().expect("a radius")
    };
    assert!(radius("-12.000") < radius("1.000"));
}

#[test]
fn a_crowd_is_drawn_without_sticks() {
    let folder = Folder::new("crowd");
    let atoms: String = (1..=30_000u32)
        .map(|serial| {
            let residue = format!("LIG {}{:4}", char::from(b'A' + (serial / 9_000) as u8), serial % 9_000);
            at("HETATM", serial, "C", &residue, [1.0, 1.0, 1.0])
        })
        .collect();
    folder.file("a.pdb", [line("HEADER"), atoms, master(30_000, 0, 0), line("END")].concat());
    folder.station(&["draw", "a.pdb", "--svg", "a.svg"]).is(0, "a.svg: 30000 dots, 0 strokes, 0 sticks");
    assert!(folder.read("a.svg").contains("Only the largest ligands have labels."));
}

#[test]
fn pictures_of_good_lines() {
    let folder = Folder::new("good-lines");
    folder.file("a.pdb", three().replace("CONECT    3    1", "CONECT    3    2"));
    let answer = folder.station(&["draw", "a.pdb", "--svg", "a.svg"]);
    answer.is(0, "a.svg: 3 dots, 2 strokes");
    answer.is(0, "only the good lines were drawn: a.pdb: line 7: refused with 9");
    folder.station(&["draw", "a.pdb", "--svg", "b.svg", "--aside", "1"]).is(1, "in an accepted entry only");
    folder.file("twins.pdb", twins());
    let answer = folder.station(&["draw", "twins.pdb", "--svg", "twins.svg"]);
    answer.is(0, "twins.svg: 2 dots, 0 strokes");
    answer.is(0, "only the good lines were drawn: twins.pdb: line 5: refused with 21");
    answer.is(0, "line 2 has the same atom, C of ALA A 1:");
    folder.file("empty.pdb", "");
    let answer = folder.station(&["draw", "empty.pdb", "--svg", "b.svg"]);
    answer.is(1, "the file is empty");
    answer.is(1, "there is no atom among the good lines, so nothing is drawn");
    folder.file("windows.pdb", three().replace('\n', "\r\n"));
    folder.station(&["draw", "windows.pdb", "--svg", "b.svg"]).is(1, "Windows line ends");
    assert_eq!(folder.names(), ["a.pdb", "a.svg", "empty.pdb", "twins.pdb", "twins.svg", "windows.pdb"]);
}
