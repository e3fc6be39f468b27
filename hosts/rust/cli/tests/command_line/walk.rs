//! The ten commands of `docs/ENTRIES.md`, on the entries of the repository.

use std::fs;
use std::path::{Path, PathBuf};

use crate::folder::{Answer, Folder, STATION};

fn repository(path: &str) -> PathBuf {
    Path::new(env!("CARGO_MANIFEST_DIR")).join("../../..").join(path)
}

/// The commands of the page: its lines that are set in by four blanks.
fn commands() -> Vec<String> {
    let page = fs::read_to_string(repository("docs/ENTRIES.md")).expect("the page");
    page.lines().filter_map(|line| line.strip_prefix("    ")).map(str::to_owned).collect()
}

/// Runs a command of the page in a folder, with the program on the path.
fn run(folder: &Folder, command: &str) -> Answer {
    let bin = Path::new(STATION).parent().expect("a folder").display();
    folder.shell(&format!("PATH='{bin}':$PATH; {command}"))
}

/// The names of the files in a folder, by name.
fn names(folder: &Folder, inside: &str) -> Vec<String> {
    let items = fs::read_dir(folder.0.join(inside)).expect("a folder");
    let mut names: Vec<String> =
        items.map(|item| item.expect("an item").file_name().into_string().expect("UTF-8")).collect();
    names.sort();
    names
}

/// The lines of a file but for some kinds, in the order of their bytes.
fn lines(folder: &Folder, path: &str, without: &[&str]) -> Vec<String> {
    let text = folder.read(path);
    let lines = text.lines().filter(|line| !without.iter().any(|kind| line.starts_with(kind)));
    let mut lines: Vec<String> = lines.map(str::to_owned).collect();
    lines.sort();
    lines
}

fn is_water(line: &str) -> bool {
    line.starts_with("HETATM") && &line[17..20] == "HOH"
}

#[test]
fn a_folder_of_public_entries() {
    let folder = Folder::new("walk");
    let mut packed = 0;
    for item in fs::read_dir(repository("hosts/rust/entries")).expect("the entries") {
        let path = item.expect("an item").path();
        if path.extension().is_some_and(|extension| extension == "gz") {
            folder
                .file(Path::new("incoming").join(path.file_name().expect("a name")), fs::read(path).expect("an entry"));
            packed += 1;
        }
    }
    let commands = commands();
    let answers: Vec<Answer> = commands.iter().map(|command| run(&folder, command)).collect();
    let statuses: Vec<i32> = answers.iter().map(|answer| answer.status).collect();
    assert_eq!(statuses, [0, 0, 0, 0, 1, 0, 0, 0, 0, 0], "{answers:?}");

    // Cut: all but one are granted then, and the one is told.
    let (cut, refused) = (names(&folder, "cut"), names(&folder, "refused"));
    assert_eq!((cut.len() + 1, refused), (packed, vec!["1yjp-as-is.pdb".to_owned()]));
    answers[2].is(0, "incoming/1ljo-as-is.pdb: 12 lines dropped: DBREF 1, FORMUL 3, HETNAM 2, SEQADV 2, SITE 4\n");
    answers[2]
        .is(0, "incoming/1yjp-as-is.pdb: 336 short lines filled up with blanks\ncut/1yjp-as-is.pdb: line 330: refused");
    assert_eq!(folder.read("cut/1ljo-as-is.pdb"), folder.read("incoming/1ljo.pdb"));
    answers[3].is(0, &format!("{0} files: {0} granted, 0 refused, 0 not read", cut.len()));
    answers[4].is(1, "refused/1yjp-as-is.pdb: line 330: refused with 6");

    // Parted: no water is left, and every line is in the entry or in the tray.
    assert!(folder.read("fragments.txt").contains("cut/1ubq.pdb\nfragment  chain"));
    assert_eq!((answers[6].out.as_str(), answers[7].out.as_str()), ("", ""));
    let mut waters = 0;
    for name in &cut {
        let whole = lines(&folder, &format!("cut/{name}"), &["MASTER"]);
        let mut parts = lines(&folder, &format!("dry/{name}"), &["MASTER"]);
        assert!(!parts.iter().any(|line| is_water(line)), "{name}");
        parts.extend(lines(&folder, &format!("tray/{name}"), &["MODEL", "ENDMDL"]));
        parts.sort();
        assert!(whole == parts, "{name}");
        waters += whole.iter().filter(|line| is_water(line)).count();
    }
    assert!(waters > 500, "{waters}");
    assert_eq!(answers[9].out, format!("{waters}\n"));

    // Drawn.
    assert_eq!(names(&folder, "pictures"), cut.iter().map(|name| format!("{name}.svg")).collect::<Vec<String>>());
    answers[8].is(0, "pictures/1d3z.pdb.svg: model 1: 1231 dots");
}
