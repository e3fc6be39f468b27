//! Reading entries.

use std::ffi::OsStr;
use std::fs::{self, File};
use std::io::{self, Read};
use std::path::{Path, PathBuf};

use crate::problem::Problem;
use crate::words::path_name;

/// The longest text that is read, in bytes. No entry is near it; a device that never ends is.
const LONGEST: u64 = 1 << 29;

/// A text that was read, and the file it came from.
pub struct Input {
    /// Its name, to show.
    pub name: String,
    /// Its bytes.
    pub text: Vec<u8>,
    /// The file, to tell it from others; standard input has none.
    pub identity: Option<Identity>,
}

/// What tells a file from all others, whatever it is called.
#[derive(Clone, Debug, PartialEq, Eq)]
pub struct Identity {
    #[cfg(unix)]
    numbers: (u64, u64),
    #[cfg(not(unix))]
    path: PathBuf,
}

impl Identity {
    /// The file behind a path, links followed.
    pub fn of(path: &Path) -> io::Result<Identity> {
        #[cfg(unix)]
        {
            fs::metadata(path).map(|metadata| Identity::of_metadata(&metadata))
        }
        #[cfg(not(unix))]
        fs::canonicalize(path).map(|path| Identity { path })
    }

    #[cfg(unix)]
    fn of_metadata(metadata: &fs::Metadata) -> Identity {
        use std::os::unix::fs::MetadataExt;
        Identity { numbers: (metadata.dev(), metadata.ino()) }
    }

    /// The file that standard input comes from.
    fn of_standard_input() -> Option<Identity> {
        #[cfg(unix)]
        {
            use std::os::fd::AsFd;
            let file = File::from(io::stdin().as_fd().try_clone_to_owned().ok()?);
            file.metadata().ok().map(|metadata| Identity::of_metadata(&metadata))
        }
        #[cfg(not(unix))]
        None
    }
}

/// Reads a file, or standard input.
pub fn read(path: &Path) -> Result<Input, Problem> {
    let failed = |error| Problem::Read(path.to_owned(), error);
    if path == OsStr::new("-") {
        let identity = Identity::of_standard_input();
        let text = read_all(io::stdin().lock()).map_err(failed)?;
        return Ok(Input { name: "standard input".to_owned(), text, identity });
    }
    if fs::metadata(path).map_err(failed)?.is_dir() {
        return Err(failed(io::Error::other("it is a folder")));
    }
    let identity = Identity::of(path).map_err(failed)?;
    let text = read_all(File::open(path).map_err(failed)?).map_err(failed)?;
    Ok(Input { name: path_name(path), text, identity: Some(identity) })
}

fn read_all(source: impl Read) -> io::Result<Vec<u8>> {
    let mut text = Vec::new();
    source.take(LONGEST + 1).read_to_end(&mut text)?;
    if text.len() as u64 > LONGEST {
        return Err(io::Error::other("it is longer than 512 megabytes"));
    }
    Ok(text)
}

/// The files that a path stands for: itself, or the entries in a folder and its folders, by name. What cannot be looked into is
/// told apart.
pub fn files(path: &Path, problems: &mut Vec<Problem>) -> Vec<PathBuf> {
    if path == OsStr::new("-") || !path.is_dir() {
        return vec![path.to_owned()];
    }
    let before = problems.len();
    let mut found = Vec::new();
    walk(path, &mut found, problems);
    if found.is_empty() && problems.len() == before {
        let words = "there is no file with a name in .pdb or .ent in this folder";
        problems.push(Problem::Read(path.to_owned(), io::Error::other(words)));
    }
    found
}

/// Gathers the entries of a folder. Hidden files and folders are passed over, links to folders are not followed, and what is no
/// file (a pipe, a device) is left out.
fn walk(folder: &Path, found: &mut Vec<PathBuf>, problems: &mut Vec<Problem>) {
    let listed = fs::read_dir(folder).and_then(|items| items.map(|item| item.map(|item| item.path())).collect());
    let mut inside: Vec<PathBuf> = match listed {
        Ok(inside) => inside,
        Err(error) => return problems.push(Problem::Read(folder.to_owned(), error)),
    };
    inside.retain(|path| !path.file_name().is_some_and(|name| name.as_encoded_bytes().starts_with(b".")));
    inside.sort();
    for path in inside {
        let is_link = fs::symlink_metadata(&path).is_ok_and(|metadata| metadata.is_symlink());
        if path.is_file() && is_entry(&path) {
            found.push(path);
        } else if path.is_dir() && !is_link {
            walk(&path, found, problems);
        }
    }
}

/// Whether a file is an entry by its name: in .pdb or .ent, packed or not. What was packed is told to be.
fn is_entry(path: &Path) -> bool {
    let name = path.file_name().unwrap_or_default().to_string_lossy().to_ascii_lowercase();
    let name = name.strip_suffix(".gz").unwrap_or(&name);
    name.ends_with(".pdb") || name.ends_with(".ent")
}
