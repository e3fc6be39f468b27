//! Names of files, in all commands: any bytes, also such as look like options; files that are missing, and folders.

use std::ffi::{OsStr, OsString};
use std::fs;
use std::os::unix::ffi::OsStrExt;
use std::path::Path;

use crate::folder::{Answer, Folder};
use crate::texts::three;

/// A name that is no UTF-8, and how it is shown.
const BYTES: &[u8] = b"caf\xe9\x01=.pdb";
const SHOWN: &str = "caf\u{fffd}?=.pdb";

/// The commands that write one file, with their option for it.
const WRITERS: [(&str, &str); 3] = [("cut", "--out"), ("save", "--out"), ("draw", "--svg")];

/// A command on a file, with an option that names another.
fn write(folder: &Folder, command: &str, file: &[u8], option: &str, value: &[u8]) -> Answer {
    let attached = [option.as_bytes(), b"=", value].concat();
    let words = [command.as_bytes(), &attached, b"--", file];
    folder.station(&words.map(OsStr::from_bytes))
}

#[test]
fn names_that_are_no_utf_8() {
    let folder = Folder::new("bytes");
    let path = Path::new(OsStr::from_bytes(BYTES));
    folder.file(path, three());
    let arguments = |words: &[&str]| -> Vec<OsString> {
        words.iter().map(|word| if *word == "FILE" { path.as_os_str().to_owned() } else { word.into() }).collect()
    };
    folder.station(&arguments(&["check", "FILE"])).is(0, &format!("{SHOWN}: granted: 9 lines"));
    folder.station(&arguments(&["check", "."])).is(0, &format!("{SHOWN}: granted: 9 lines"));
    folder.station(&arguments(&["find", "FILE", "3"])).is(0, &format!("{SHOWN}: serial 3: line 4"));
    folder.station(&arguments(&["fragments", "FILE"])).is(0, "ligands chain:B residue:B:7");
    for (command, option) in WRITERS {
        let target = [command.as_bytes(), BYTES].concat();
        write(&folder, command, BYTES, option, &target).is(0, &format!("{command}{SHOWN}: "));
        let written = folder.read(OsStr::from_bytes(&target));
        assert!(written.starts_with("HEADER") || written.starts_with("<svg "), "{written}");
        write(&folder, command, BYTES, option, BYTES).is(2, &format!("{SHOWN}: this is the input"));
    }
    let tray = [&b"--tray="[..], BYTES, b".tray"].concat();
    let save = [&b"save"[..], BYTES, b"--aside", b"2", b"--out", b"out", &tray];
    folder.station(&save.map(OsStr::from_bytes)).is(0, &format!("{SHOWN}.tray: 3 lines"));
    let missing = [&b"check"[..], b"\xff"].map(OsStr::from_bytes);
    folder.station(&missing).is(2, "\u{fffd}: could not be read");
    folder.station(&[&b"check"[..], b"--\xff"].map(OsStr::from_bytes)).is(2, "--\u{fffd}: no such option here");
    folder.station(&[&b"\xff"[..]].map(OsStr::from_bytes)).is(2, "\u{fffd}: no such command");
    assert_eq!(folder.names().len(), 6);
}

#[test]
fn names_that_look_like_options() {
    let folder = Folder::new("dashes");
    for name in ["-a", "--force", "--out=x", "-=", "--"] {
        folder.file(name, three());
        for (command, option) in WRITERS {
            let target = format!("{name}{command}");
            write(&folder, command, name.as_bytes(), option, target.as_bytes()).is(0, &format!("{target}: "));
            assert!(folder.0.join(target).is_file());
        }
        folder.station(&["check", "--", name]).is(0, &format!("{name}: granted"));
        // The next word is the value, whatever it looks like.
        folder.station(&["cut", "--out", name, "--", name]).is(2, &format!("{name}: this is the input"));
    }
}

#[test]
fn files_that_are_missing_and_folders() {
    let folder = Folder::new("missing");
    fs::create_dir(folder.0.join("folder")).expect("a folder");
    for (file, words) in [
        ("none", "none: could not be read: No such file"),
        ("folder", "folder: could not be read: it is a folder"),
        ("none/a", "none/a: could not be read"),
        ("", "could not be read"),
    ] {
        for (command, option) in WRITERS {
            folder.station(&[command, file, option, "out"]).is(2, words);
        }
        folder.station(&["find", file, "1"]).is(2, words);
        folder.station(&["fragments", file]).is(2, words);
    }
    folder.station(&["check", "none"]).is(2, "none: could not be read");
    folder
        .station(&["check", "folder"])
        .is(2, "folder: could not be read: there is no file with a name in .pdb or .ent in this folder");
    assert_eq!(folder.names(), ["folder"]);
}
