//! The saved entry and its tray are one thing: they come together, whoever writes and whatever ends the program.

use std::fs::{self, File};
use std::os::unix::fs::symlink;
use std::process::{Command, Stdio};

use crate::folder::{Folder, STATION};
use crate::texts::{atom, line, three};
use crate::traced::{ended_after, SIGKILL, SIGTERM};

const SAVE: [&str; 9] = ["save", "a.pdb", "--aside", "2", "--out", "out", "--tray", "tray", "--force"];
const OLD: (&str, &str) = ("an older entry", "its tray");

/// A folder with an entry and an older pair, or none.
fn folder(test: &str, old: bool) -> Folder {
    let folder = Folder::new(test);
    folder.file("a.pdb", three());
    for (name, text) in [("out", OLD.0), ("tray", OLD.1)] {
        if old {
            folder.file(name, text);
        }
    }
    folder
}

/// The pair that stands in a folder.
fn pair(folder: &Folder) -> (Option<String>, Option<String>) {
    let [out, tray] = ["out", "tray"].map(|name| fs::read_to_string(folder.0.join(name)).ok());
    (out, tray)
}

/// The pair that stands there before, and the one that is saved.
fn before_and_after(test: &str, old: bool) -> [(Option<String>, Option<String>); 2] {
    let before = folder(&format!("{test}-before"), old);
    let after = folder(&format!("{test}-after"), old);
    after.station(&SAVE).is(0, "out: 6 lines");
    [pair(&before), pair(&after)]
}

fn hidden(folder: &Folder) -> Vec<String> {
    folder.names().into_iter().filter(|name| name.starts_with('.')).collect()
}

/// Ends a save after each of its system calls in turn.
fn at_each_call(signal: i32, old: bool, look: impl Fn(&Folder)) {
    let mut calls = 0;
    loop {
        let folder = folder(&format!("pair-{signal}-{old}"), old);
        let came_so_far = ended_after(calls, signal, &folder, &SAVE);
        assert_eq!(folder.read("a.pdb"), three());
        look(&folder);
        if !came_so_far {
            break;
        }
        calls += 1;
    }
    assert!(calls > 5, "only {calls} calls");
}

/// Killed between any two system calls a save loses nothing: each file is whole, the saved entry never stands without its
/// tray, and an older tray that was replaced is still there until the whole pair is.
#[test]
fn a_kill_loses_nothing() {
    for old in [true, false] {
        let [before, after] = before_and_after("killed", old);
        at_each_call(SIGKILL, old, |folder| {
            let pair = pair(folder);
            let mixed = (before.0.clone(), after.1.clone());
            assert!([&before, &after, &mixed].contains(&&pair), "{pair:?}");
            if pair == mixed && old {
                assert!(hidden(folder).iter().any(|name| folder.read(name) == OLD.1), "{:?}", folder.names());
            }
            folder.station(&SAVE).is(0, "out: 6 lines");
            assert_eq!(self::pair(folder), after);
        });
    }
}

/// A signal that asks the program to end leaves no file beside, and both of the pair as they were or as they will be.
#[test]
fn an_end_that_is_asked_for_leaves_nothing_beside() {
    for old in [true, false] {
        let pairs = before_and_after("ended", old);
        at_each_call(SIGTERM, old, |folder| {
            assert!(pairs.contains(&pair(folder)), "{:?}", pair(folder));
            assert_eq!(hidden(folder), [""; 0]);
        });
    }
}

/// Writers at once to one pair: it is that of one of them.
#[test]
fn two_writers_do_not_mix() {
    let folder = folder("writers", true);
    let aside = ["1", "2", "3", "1-3"];
    let save = |aside: &str, out: &str, tray: &str| {
        let mut command = Command::new(STATION);
        command.args(["save", "a.pdb", "--force", "--aside", aside, "--out", out, "--tray", tray]);
        command.current_dir(&folder.0).stdout(Stdio::null()).spawn().expect("the program runs")
    };
    let each: Vec<_> = aside
        .iter()
        .map(|aside| {
            assert!(save(aside, "out", "tray").wait().expect("it ends").success());
            pair(&folder)
        })
        .collect();
    for round in 0..60 {
        // New ones too, in every third round.
        if round % 3 == 0 {
            ["out", "tray"].iter().for_each(|name| fs::remove_file(folder.0.join(name)).expect("a file"));
        }
        let writers: Vec<_> = aside.iter().map(|aside| save(aside, "out", "./tray")).collect();
        for mut writer in writers {
            assert!(writer.wait().expect("it ends").success());
        }
        assert!(each.contains(&pair(&folder)), "{round}: {:?}", pair(&folder));
        assert_eq!(folder.names(), ["a.pdb", "out", "tray"]);
    }
}

#[test]
fn a_writer_that_does_not_end_is_not_waited_for() {
    let folder = folder("locked", true);
    let other = File::open(&folder.0).expect("the folder");
    other.lock().expect("a lock");
    folder.station(&SAVE).is(2, "another writer is at work in this folder; try again");
    assert_eq!((folder.read("out"), folder.read("tray")), (OLD.0.to_owned(), OLD.1.to_owned()));
    assert_eq!(folder.names(), ["a.pdb", "out", "tray"]);
    // A single file is put in place at once and has nothing to mix with.
    folder.station(&["save", "a.pdb", "--out", "out", "--force"]).is(0, "out: 9 lines");
}

/// The tray is in place before a stream is given the entry, and taken back if that fails.
#[test]
fn streams_come_behind_the_tray() {
    let folder = folder("behind", true);
    let saved = folder.shell("$S save a.pdb --aside 2 --force --out - --tray tray | { cat >/dev/null; cat tray; }");
    saved.is(0, &atom("HETATM", 3, 'B', 7, "-1.500"));
    folder.file("tray", OLD.1);
    folder.shell("$S save a.pdb --aside 2 --force --out - --tray tray >/dev/full").is(2, "No space left");
    assert_eq!((folder.read("tray").as_str(), folder.names().len()), (OLD.1, 3));
}

/// The tray still fits, the entry does not: the older pair stays as it was.
#[test]
fn a_disk_that_fills_up_between_the_two() {
    let folder = folder("filling", true);
    let remarks = line("HEADER") + &line("REMARK").repeat(20);
    folder.file("a.pdb", three().replace(&line("HEADER"), &remarks).replace("MASTER        0", "MASTER       20"));
    let limited = format!("trap '' XFSZ; ulimit -f 1; exec $S {}", SAVE.join(" "));
    folder.shell(&limited).is(2, "out: could not be written, no file was made or changed");
    assert_eq!((folder.read("out"), folder.read("tray")), (OLD.0.to_owned(), OLD.1.to_owned()));
    assert_eq!(folder.names(), ["a.pdb", "out", "tray"]);
    folder.station(&SAVE).is(0, "out: 26 lines");
}

#[test]
fn links_and_long_names() {
    let folder = folder("pair-links", false);
    folder.file("deep/old", OLD.1);
    symlink("deep/old", folder.0.join("tray")).expect("a link");
    let long = "n".repeat(255);
    folder
        .station(&["save", "a.pdb", "--aside", "2", "--force", "--out", &long, "--tray", "tray"])
        .is(0, "tray: 3 lines");
    assert!(folder.read("deep/old").starts_with("HETATM    3"));
    assert!(fs::symlink_metadata(folder.0.join("tray")).expect("the link").is_symlink());
    assert!(folder.read(&long).starts_with(&line("HEADER")));
    assert_eq!(folder.names(), ["a.pdb", "deep", &long, "tray"]);
}
