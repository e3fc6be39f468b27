//! What all commands have in common: help, wrong arguments, noise, and places that cannot be written to.

use std::fs;
use std::process::{Command, Stdio};

use crate::folder::{Folder, STATION};
use crate::texts::{arginine, three};

#[test]
fn help_and_wrong_arguments() {
    let folder = Folder::new("help");
    for command in [
        &["--help"][..],
        &["cut", "--help"],
        &["check", "--help"],
        &["find", "-h"],
        &["cell", "--help"],
        &["fractional", "-h"],
        &["fragments", "-h"],
        &["save", "--help"],
        &["draw", "--help"],
    ] {
        let answer = folder.station(command);
        answer.is(0, "example");
        assert_eq!(answer.err, "");
    }
    for wrong in [
        &[][..],
        &["frobnicate"],
        &["cut"],
        &["cut", "a"],
        &["cut", "a", "b", "--out", "c"],
        &["cut", "a", "--out="],
        &["cut", "a", "--aside", "1", "--out", "b"],
        &["-q"],
        &["check"],
        &["check", "-q=1", "a"],
        &["check", "--force", "a"],
        &["check", "--report=1", "a"],
        &["find"],
        &["find", "a"],
        &["find", "a", "1", "b"],
        &["find", "a", "--aside", "1", "1"],
        &["cell"],
        &["cell", "a", "b"],
        &["cell", "a", "--xyz"],
        &["fractional"],
        &["fractional", "a"],
        &["fractional", "a", "x"],
        &["fractional", "a", "0"],
        &["fractional", "a", "-1"],
        &["fractional", "a", "-x"],
        &["fractional", "a", "1.0", "2.0"],
        &["fractional", "a", "1", "2", "--xyz"],
        &["fractional", "a", "--xyz=1", "2", "3", "4"],
        &["save", "a"],
        &["save", "a", "b", "--out", "c"],
        &["save", "a", "--out"],
        &["save", "a", "--out", "b", "--out", "c"],
        &["save", "a", "--out", ""],
        &["save", "a", "--out", "b", "--tray", "c", "--keep", "x"],
        &["fragments", "a", "--keep", "1", "--keep", "2"],
        &["draw", "a"],
        &["draw", "a", "--svg", "b", "--aside", "x"],
        &["draw", "a", "--svg", "b", "--model", "0"],
        &["draw", "a", "--svg", "b", "--model", "+1"],
        &["draw", "a", "--svg", "b", "--model", "10000"],
        &["fragments", "a", "--model", "1"],
    ] {
        let answer = folder.station(wrong);
        answer.is(2, "see station --help");
        assert_eq!(answer.out, "");
    }
}

#[test]
fn help_of_a_command() {
    let folder = Folder::new("help-of");
    for about in [&["help", "save"][..], &["--help", "save"], &["save", "a.pdb", "--help", "--out"]] {
        folder.station(about).is(0, "usage: station save FILE");
    }
    let answer = folder.station(&["help", "frobnicate"]);
    answer.is(0, "station COMMAND --help");
    // The list of commands and the help of each say the same.
    for command in ["cut", "check", "find", "cell", "fractional", "fragments", "save", "draw"] {
        let own = folder.station(&[command, "--help"]).out;
        let usage = own.lines().next().and_then(|line| line.strip_prefix("usage: ")).expect("a usage");
        assert!(answer.out.contains(&format!("\n  {usage}\n")), "{usage}");
    }
}

#[test]
fn the_version() {
    let folder = Folder::new("version");
    let answer = folder.station(&["--version"]);
    let version = concat!("station ", env!("CARGO_PKG_VERSION"), "\n");
    assert_eq!((answer.status, answer.out.as_str(), answer.err.as_str()), (0, version, ""));
}

#[test]
fn quiet() {
    let folder = Folder::new("quiet");
    folder.file("good.pdb", three());
    folder.file("bad.pdb", arginine().replace("HEADER", "TITLE "));
    let quiet = |arguments: &[&str]| {
        let answer = folder.station(arguments);
        assert_eq!((answer.status, answer.out.as_str(), answer.err.as_str()), (0, "", ""), "{arguments:?}");
    };
    quiet(&["check", "-q", "good.pdb", "good.pdb"]);
    quiet(&["cut", "good.pdb", "--out", "a", "-q"]);
    quiet(&["save", "good.pdb", "-q", "--aside", "1", "--out", "b", "--tray", "c"]);
    quiet(&["draw", "-q", "good.pdb", "--svg", "d"]);
    // What is refused is told all the same, and the files that were asked for are there.
    let answer = folder.station(&["check", "-q", "good.pdb", "bad.pdb"]);
    answer.is(1, "bad.pdb: line 1: refused with 5");
    assert!(!answer.out.contains("granted"), "{answer:?}");
    let answer = folder.station(&["check", "-q", "--json", "good.pdb", "bad.pdb"]);
    assert!(
        answer.out.starts_with("{\"file\":\"bad.pdb\",\"verdict\":5,") && answer.out.lines().count() == 1,
        "{answer:?}"
    );
    folder.station(&["cut", "-q", "bad.pdb", "--out", "e"]).is(1, "e: line 1: refused with 5");
    folder.station(&["save", "-q", "none", "--out", "f"]).is(2, "none: could not be read");
    let answer = folder.station(&["save", "-q", "good.pdb", "--out", "-"]);
    assert_eq!((answer.out, answer.err.as_str()), (three(), ""));
    assert_eq!(folder.names(), ["a", "b", "bad.pdb", "c", "d", "e", "good.pdb"]);
}

#[test]
fn what_goes_to_standard_output_is_alone_there() {
    let folder = Folder::new("output");
    folder.file("a.pdb", three());
    let answer = folder.station(&["save", "a.pdb", "--out", "-"]);
    answer.is(0, "station: standard output: 9 lines");
    assert_eq!(answer.out, three());
    folder
        .shell("$S save - --aside 2 --out - --tray tray < a.pdb | $S check -")
        .is(0, "standard input: granted: 6 lines");
    let answer = folder.station(&["draw", "a.pdb", "--svg", "-"]);
    assert!(answer.out.starts_with("<svg ") && answer.out.ends_with("</svg>\n"), "{answer:?}");
    assert_eq!(folder.names(), ["a.pdb", "tray"]);
}

#[test]
fn a_reader_that_goes_away_is_no_panic() {
    let folder = Folder::new("pipe");
    let file = folder.file("a.pdb", arginine());
    let mut command = Command::new(STATION);
    command.arg("check").args(std::iter::repeat_n(file, 3_000)).stdout(Stdio::piped()).stderr(Stdio::piped());
    let mut running = command.spawn().expect("the program runs");
    drop(running.stdout.take());
    let output = running.wait_with_output().expect("the program ends");
    assert_eq!(output.status.code(), Some(2));
    assert_eq!(String::from_utf8_lossy(&output.stderr), "");
}

#[test]
fn noise_of_a_hundred_megabytes() {
    let folder = Folder::new("noise");
    let mut state = 1u64;
    let noise: Vec<u8> = (0..100_000_000u32 / 8)
        .flat_map(|_| {
            state ^= state << 13;
            state ^= state >> 7;
            state ^= state << 17;
            state.to_ne_bytes()
        })
        .collect();
    folder.file("noise", &noise);
    folder.station(&["check", "noise"]).is(1, "noise: line 1: refused with 2");
    folder.station(&["find", "noise", "1"]).is(1, "serial 1: no ATOM or HETATM line has it; looked at 1234567 lines");
    folder.station(&["cell", "noise"]).is(1, "refused with 2");
    folder.station(&["fractional", "noise", "1"]).is(1, "refused with 2");
    folder.station(&["fragments", "noise"]).is(1, "refused with 2");
    folder.station(&["draw", "noise", "--svg", "noise.svg"]).is(1, "nothing is drawn");
    folder.station(&["cut", "noise", "--out", "out"]).is(1, "there is no line to keep, so nothing was written");
    folder.station(&["save", "noise", "--out", "out"]).is(1, "refused with 2");
    assert_eq!(folder.names(), ["noise"]);
}

#[test]
fn a_full_disk_leaves_nothing() {
    let folder = Folder::new("full");
    folder.file("a.pdb", three());
    folder.file("old", "old");
    let save = |more: &[&str]| folder.station(&[&["save", "a.pdb", "--aside", "1"], more].concat());
    save(&["--out", "/dev/full", "--tray", "tray"]).is(2, "/dev/full: could not be written");
    save(&["--out", "out", "--tray", "/dev/full"]).is(2, "No space left on device");
    folder.station(&["draw", "a.pdb", "--svg", "/dev/full"]).is(2, "No space left on device");
    folder.shell("$S check a.pdb > /dev/full").is(2, "standard output could not be written to");
    folder.shell("$S find a.pdb 1 > /dev/full").is(2, "standard output could not be written to");
    folder.shell("$S cell a.pdb > /dev/full").is(2, "standard output could not be written to");
    folder.shell("$S fragments a.pdb > /dev/full").is(2, "standard output could not be written to");
    folder.shell("$S save a.pdb --aside 1 --out - --tray tray > /dev/full").is(2, "standard output could not be");
    folder.shell("$S --help > /dev/full").is(2, "standard output could not be written to");
    // No byte may be written to a file, as on a disk that is full.
    let limited = "trap '' XFSZ; ulimit -f 0; exec $S save a.pdb --aside 1 --force";
    folder.shell(&format!("{limited} --out out --tray tray")).is(2, "could not be written");
    folder.shell(&format!("{limited} --out old --tray tray")).is(2, "could not be written");
    assert_eq!(folder.names(), ["a.pdb", "old"]);
    assert_eq!(folder.read("old"), "old");
    assert!(fs::metadata("/dev/full").is_ok_and(|metadata| !metadata.is_file()));
}

#[test]
fn devices_are_written_to_as_they_are() {
    let folder = Folder::new("devices");
    folder.file("a.pdb", three());
    let answer = folder.station(&["save", "a.pdb", "--aside", "2", "--out", "/dev/stdout", "--tray", "/dev/null"]);
    answer.is(0, "/dev/stdout: 6 lines");
    assert!(answer.out.starts_with("HEADER") && answer.out.len() == 6 * 81, "{answer:?}");
    assert!(fs::metadata("/dev/null").is_ok_and(|metadata| !metadata.is_file()));
}
