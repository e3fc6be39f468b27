//! A folder for a test, and the program run in it.

use std::ffi::OsStr;
use std::fs;
use std::path::{Path, PathBuf};
use std::process::{Command, Output, Stdio};

pub const STATION: &str = env!("CARGO_BIN_EXE_station");

/// An empty folder of a test.
pub struct Folder(pub PathBuf);

impl Folder {
    pub fn new(test: &str) -> Folder {
        let path = Path::new(env!("CARGO_TARGET_TMPDIR")).join(format!("{test}-{}", std::process::id()));
        let _ = fs::remove_dir_all(&path);
        fs::create_dir_all(&path).expect("a folder for the test");
        Folder(path)
    }

    pub fn file(&self, name: impl AsRef<Path>, bytes: impl AsRef<[u8]>) -> PathBuf {
        let path = self.0.join(name);
        fs::create_dir_all(path.parent().expect("a folder")).expect("a folder");
        fs::write(&path, bytes).expect("a file");
        path
    }

    pub fn names(&self) -> Vec<String> {
        let items = fs::read_dir(&self.0).expect("the folder");
        let mut names: Vec<String> =
            items.map(|item| item.expect("an item").file_name().to_string_lossy().into_owned()).collect();
        names.sort();
        names
    }

    pub fn read(&self, name: impl AsRef<Path>) -> String {
        fs::read_to_string(self.0.join(name)).expect("the file")
    }

    /// Runs the program in this folder.
    pub fn station(&self, arguments: &[impl AsRef<OsStr>]) -> Answer {
        Answer::of(Command::new(STATION).args(arguments).current_dir(&self.0).stdin(Stdio::null()))
    }

    /// Runs a command of the shell in this folder, `$S` being the program.
    pub fn shell(&self, command: &str) -> Answer {
        Answer::of(Command::new("sh").args(["-c", command]).env("S", STATION).current_dir(&self.0))
    }
}

impl Drop for Folder {
    fn drop(&mut self) {
        let _ = fs::remove_dir_all(&self.0);
    }
}

/// What the program answered.
#[derive(Debug)]
pub struct Answer {
    pub status: i32,
    pub out: String,
    pub err: String,
}

impl Answer {
    fn of(command: &mut Command) -> Answer {
        let Output { status, stdout, stderr } = command.output().expect("the program runs");
        let text = |bytes| String::from_utf8(bytes).expect("UTF-8");
        let answer = Answer { status: status.code().expect("an exit status"), out: text(stdout), err: text(stderr) };
        assert!(!answer.err.contains("panicked"), "{answer:?}");
        answer
    }

    #[track_caller]
    pub fn is(&self, status: i32, words: &str) {
        assert_eq!(self.status, status, "{self:?}");
        assert!(self.out.contains(words) || self.err.contains(words), "{words:?} is not in {self:?}");
    }
}
