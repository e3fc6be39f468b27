//! `tools/station`, which proves and builds the program before it runs it: tried in a repository that has no proofs, with a toolchain that does nothing.

use std::fs;
use std::io::Write;
use std::os::unix::fs::symlink;
use std::path::{Path, PathBuf};
use std::process::{Command, Stdio};

use crate::folder::{Answer, Folder};

/// What the scripts call beside the toolchains.
const COMMANDS: [&str; 18] = [
    "sh", "awk", "cat", "chmod", "dirname", "find", "grep", "head", "mkdir", "mv", "readlink", "sed", "seq", "sleep",
    "sort", "tail", "touch", "tr",
];

/// Proves two crates in the folder of the second, each until it has been told, and makes the archive.
const RT: &str = "\
[ \"$1 ${PWD##*/}\" = 'lib station' ] || exit 1
for crate in ascii station; do
    sleep 0.1
    echo \"rt: chose --jobs 2 for $crate\"
    for wait in $(seq 100); do
        ! grep -q \"^proving $crate;\" ../../../told || break
        sleep 0.2
    done
    echo \"fn $crate::f: proved\"
done
mkdir out
: >out/libstation.a
";

/// Names what the archive has to define.
const NM: &str =
    "case $* in *--defined-only*) grep -o 'station_[a-z_]*' tools/archive | sort -u | sed 's/^/0 T /' ;; esac\n";

/// Builds a program that says its arguments.
const CARGO: &str = "\
folder=$CARGO_TARGET_DIR/release
mkdir -p \"$folder\"
printf '#!/bin/sh\\necho \"built: $*\"\\n' >\"$folder/station\"
chmod +x \"$folder/station\"
";

/// Writes a script by another process: what this one has open for writing a child that another test starts would have open too for a moment, and a script
/// that is open for writing does not run.
fn write(path: &Path, script: &str) {
    fs::create_dir_all(path.parent().expect("a folder")).expect("a folder");
    let shell =
        Command::new("sh").args(["-c", "cat >\"$0\" && chmod +x \"$0\""]).arg(path).stdin(Stdio::piped()).spawn();
    let mut shell = shell.expect("sh");
    shell.stdin.take().expect("a pipe").write_all(script.as_bytes()).expect("a script");
    assert!(shell.wait().expect("sh").success());
}

/// A repository with the scripts, and a folder of commands.
struct Bench(Folder);

impl Bench {
    fn new(test: &str) -> Bench {
        let folder = Folder::new(test);
        let tools = Path::new(env!("CARGO_MANIFEST_DIR")).join("../../../tools");
        for script in ["station", "archive", "present"] {
            let text = fs::read_to_string(tools.join(script)).expect("a script");
            write(&folder.0.join("repository/tools").join(script), &text);
        }
        folder.file("repository/crates.txt", "# one\nascii:\nstation staticlib: ascii std_io\nreport: ascii\n");
        folder.file("repository/crates/station/src/lib.rt", "");
        folder.file("repository/hosts/rust/Cargo.toml", "");
        let bench = Bench(folder);
        for command in COMMANDS {
            bench.link(command);
        }
        bench
    }

    /// A command of this machine.
    fn link(&self, command: &str) {
        let paths = std::env::var_os("PATH").expect("a path");
        let found = std::env::split_paths(&paths).map(|folder| folder.join(command)).find(|path| path.is_file());
        let place = self.command(command);
        symlink(found.unwrap_or_else(|| panic!("{command} is not installed")), place).expect("a link");
    }

    /// A command that does this.
    fn add(&self, command: &str, script: &str) {
        write(&self.command(command), &format!("#!/bin/sh\nset -eu\n{script}"));
    }

    fn command(&self, name: &str) -> PathBuf {
        let folder = self.0 .0.join("bin");
        fs::create_dir_all(&folder).expect("a folder");
        folder.join(name)
    }

    fn run(&self, command: &str) -> Answer {
        self.0.shell(&format!("PATH=$PWD/bin; export PATH; {command}"))
    }
}

#[test]
fn what_is_missing_is_named_before_anything_is_proved() {
    let bench = Bench::new("tools-missing");
    let station = || bench.run("repository/tools/station check a.pdb");
    let all = "not installed: rt (the Rattle toolchain), cargo (the Rust toolchain), cc (a C compiler), nm (of the C compiler)\n";
    let answer = station();
    assert_eq!((answer.status, answer.out.as_str(), answer.err.as_str()), (2, "", all));
    bench.add("rt", "echo proving >&2; exit 1\n");
    bench.add("cargo", "");
    bench.add("nm", "");
    let answer = station();
    assert_eq!((answer.status, answer.err.as_str()), (2, "not installed: cc (a C compiler)\n"));
    assert!(!bench.0 .0.join("repository/target").exists());
}

#[test]
fn the_first_run_tells_what_is_proved_and_the_next_only_runs() {
    let bench = Bench::new("tools-first");
    bench.add("uname", "echo x86_64\n");
    bench.add("cc", "");
    bench.add("rt", RT);
    bench.add("nm", NM);
    bench.add("cargo", CARGO);
    symlink("../repository/tools/station", bench.0 .0.join("bin/station")).expect("a link");
    let answer = bench.run("station check 'a b' 2>told");
    assert_eq!((answer.status, answer.out.as_str()), (0, "built: check a b\n"), "{answer:?}");
    let expected = "\
station: proving the library and building the program; this takes some minutes the first time
proving ascii; 2 of 2 crates left
proving station; 1 of 2 crates left
station: building the program
";
    assert_eq!(bench.0.read("told"), expected);
    let answer = bench.run("cd bin && ./station draw");
    assert_eq!((answer.status, answer.out.as_str(), answer.err.as_str()), (0, "built: draw\n", ""));
}

#[test]
fn a_proof_that_fails_is_shown() {
    let bench = Bench::new("tools-refused");
    bench.add("uname", "echo x86_64\n");
    for command in ["cc", "nm", "cargo"] {
        bench.add(command, "");
    }
    bench.add("rt", "echo 'rt: ascii NOT PROVED' >&2; exit 1\n");
    let answer = bench.run("repository/tools/station check a.pdb");
    answer.is(1, "rt: ascii NOT PROVED\n");
    assert!(!answer.err.contains("station: building the program\n"), "{answer:?}");
}
