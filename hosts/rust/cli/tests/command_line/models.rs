//! Entries with models, in all commands.

use crate::folder::Folder;
use crate::texts::{atom, line, master, model, models, three};

#[test]
fn check_tells_how_many() {
    let folder = Folder::new("models-check");
    folder.file("a.pdb", models());
    folder
        .station(&["check", "a.pdb"])
        .is(0, "a.pdb: granted: 16 lines, 3 models (the first: 0 atoms, 0 TER), 1 CONECT");
    folder.station(&["check", "--report", "a.pdb"]).is(0, "coord=0\nter=0\nconect=1\n");
}

#[test]
fn check_tells_what_is_wrong_with_models() {
    let folder = Folder::new("models-wrong");
    let refused = |text: String, words: &str| {
        folder.file("a.pdb", text);
        folder.station(&["check", "a.pdb"]).is(1, words);
    };
    let text = models();
    let end = line("ENDMDL");
    refused(text.replace("MODEL        3", "MODEL        2"), "line 9: refused with 22: the models are not numbered");
    refused(text.replace("MODEL        3", "MODEL        2"), "the number is 2, and this is model 3");
    refused(text.replacen(&end, "", 1), "line 3: refused with 5");
    refused(text.replacen(&end, "", 1), "the model that begins at line 2 is not over; its ENDMDL is missing above");
    refused(text.replacen(&end, &end.repeat(2), 1), "there is no MODEL that it ends");
    let outside = line("HEADER") + &atom("HETATM", 1, 'A', 1, "0.000");
    refused(text.replace(&line("HEADER"), &outside), "line 2 stands in no model");
    let bond = line("CONECT    1    3");
    refused(
        text.replace(&(end.clone() + &bond), &(bond.clone() + &end)),
        "it stands in the model that begins at line 9",
    );
    let behind = end.clone() + &atom("HETATM", 9, 'C', 1, "0.000") + &bond;
    refused(text.replace(&(end + &bond), &behind), "it stands behind the model that begins at line 9");
    refused(
        text.replace(&master(0, 0, 1), &master(2, 1, 1)),
        "ATOM and HETATM is 2, and there are 0 in the first model",
    );
    let twins = text.replace("HETATM    3  C   ALA B   7", "HETATM    3  C   ALA A   1");
    refused(twins, "line 7: refused with 21");
}

#[test]
fn fragments_tell_their_model() {
    let folder = Folder::new("models-fragments");
    folder.file("a.pdb", models());
    let answer = folder.station(&["fragments", "a.pdb", "--aside", "3"]);
    let expected = "\
fragment  model  chain  residues  atoms  first      last       where  words
       1      2  A             1      1  ALA 1      ALA 1      in     ALA chain:A residue:A:1
       2      2  B             1      1  ALA 7      ALA 7      in     ALA ligands chain:B residue:B:7
       3      3  A             1      1  ALA 1      ALA 1      aside  ALA chain:A residue:A:1
       4      3  B             1      1  ALA 7      ALA 7      in     ALA ligands chain:B residue:B:7
";
    assert_eq!((answer.status, answer.out.as_str()), (0, expected));
}

#[test]
fn save_parts_models() {
    let folder = Folder::new("models-save");
    folder.file("a.pdb", models());
    let chain = |x: &str| atom("ATOM", 1, 'A', 1, x) + &line("TER       2      ALA A   1");
    let (second, third, heterogen) = (chain("0.000"), chain("5.000"), atom("HETATM", 3, 'B', 7, "-1.500"));
    let bond = line("CONECT    1    3");
    folder.station(&["save", "a.pdb", "--aside", "1", "--out", "out", "--tray", "tray"]).is(0, "tray: 8 lines");
    let kept = [line("HEADER"), model(1, ""), model(2, &heterogen), model(3, &(third.clone() + &heterogen))].concat();
    assert_eq!(folder.read("out"), [kept, bond.clone(), master(0, 0, 1), line("END")].concat());
    assert_eq!(folder.read("tray"), [model(1, ""), model(2, &second), model(3, "")].concat());
    let both = ["save", "a.pdb", "--aside", "1,3", "--out", "out", "--tray", "tray", "--force"];
    folder.station(&both).is(0, "tray: 11 lines");
    assert_eq!(folder.read("tray"), [model(1, ""), model(2, &second), model(3, &third), bond].concat());
    folder.station(&["check", "out"]).is(0, "out: granted: 11 lines, 3 models (the first: 0 atoms, 0 TER), 0 CONECT");
}

#[test]
fn one_model_is_drawn() {
    let folder = Folder::new("models-draw");
    folder.file("a.pdb", models());
    folder.station(&["draw", "a.pdb", "--svg", "a.svg"]).is(0, "a.svg: model 2: 2 dots, 1 stroke");
    let svg = folder.read("a.svg");
    assert_eq!((svg.matches("<circle").count(), svg.matches("<line").count()), (2, 1));
    assert!(svg.contains("<title>a.pdb, model 2</title>") && svg.contains("cx=\"0.000\"") && !svg.contains("5.000"));
    folder.station(&["draw", "a.pdb", "--svg", "b.svg", "--model", "3"]).is(0, "b.svg: model 3: 2 dots, 1 stroke");
    assert!(folder.read("b.svg").contains("cx=\"5.000\""));
    let aside = ["draw", "a.pdb", "--svg", "c.svg", "--aside", "1,2"];
    folder.station(&aside).is(0, "c.svg: model 3: 2 dots, 1 stroke");
    let draw = |more: &[&str]| folder.station(&[&["draw", "a.pdb", "--svg", "d.svg"], more].concat());
    draw(&["--model", "1"]).is(1, "a.pdb: model 1: refused with 19");
    draw(&["--model", "4"]).is(1, "a.pdb: there is no model 4; the entry has 3 models");
    draw(&["--aside", "1-4"]).is(1, "a.pdb: refused with 19");
    draw(&["--model", "x"]).is(2, "--model x: models have numbers from 1 to 9999");
    folder.file("bare.pdb", three());
    folder
        .station(&["draw", "bare.pdb", "--svg", "d.svg", "--model", "1"])
        .is(1, "no model 1; the entry has no models");
    assert_eq!(folder.names(), ["a.pdb", "a.svg", "b.svg", "bare.pdb", "c.svg"]);
}

#[test]
fn one_model_of_the_good_lines_is_drawn() {
    let folder = Folder::new("models-good-lines");
    folder.file("a.pdb", models().replace("CONECT    1    3", "CONECT    1    9"));
    let answer = folder.station(&["draw", "a.pdb", "--svg", "a.svg", "--model", "3"]);
    answer.is(0, "a.svg: model 3: 2 dots, 0 strokes");
    answer.is(0, "only the good lines were drawn: a.pdb: line 14: refused with 9");
    folder.station(&["draw", "a.pdb", "--svg", "b.svg"]).is(0, "b.svg: model 2: 2 dots, 0 strokes");
    let answer = folder.station(&["draw", "a.pdb", "--svg", "c.svg", "--model", "4"]);
    answer.is(1, "a.pdb: line 14: refused with 9");
    answer.is(1, "there is no model 4 among the good lines");
    folder
        .station(&["draw", "a.pdb", "--svg", "c.svg", "--model", "1"])
        .is(1, "model 1: there is no atom among the good");
}

/// The first model that has the serial is shown.
#[test]
fn an_atom_is_found_in_the_first_model_that_has_it() {
    let folder = Folder::new("models-find");
    folder.file("a.pdb", models());
    folder.station(&["find", "a.pdb", "3"]).is(0, "a.pdb: serial 3: line 7\n");
}
