//! What can go wrong, in words, and the exit status it has.

use std::fmt;
use std::io;
use std::path::PathBuf;

use crate::words::path_name;

/// The exit status.
#[derive(Clone, Copy, Debug, PartialEq, Eq, PartialOrd, Ord)]
#[repr(u8)]
pub enum Status {
    /// Granted and done.
    Done = 0,
    /// Refused, or not found.
    Refused = 1,
    /// Could not be read or written, or was not understood.
    Failed = 2,
}

/// What went wrong.
#[derive(Debug)]
pub enum Problem {
    /// The arguments are not understood.
    Usage(String),
    /// Something could not be read.
    Read(PathBuf, io::Error),
    /// Something could not be written; it was left as it was.
    Write(PathBuf, io::Error),
    /// The answers could not be shown.
    Console(io::Error),
    /// Something may not be written to.
    Target(String),
    /// The station refuses.
    Refused(String),
}

impl Problem {
    /// The exit status.
    pub fn status(&self) -> Status {
        match self {
            Problem::Refused(_) => Status::Refused,
            _ => Status::Failed,
        }
    }

    /// Whether the reader of the answers has gone away, which is no error to speak of.
    pub fn is_closed_pipe(&self) -> bool {
        matches!(self, Problem::Console(error) if error.kind() == io::ErrorKind::BrokenPipe)
    }
}

impl fmt::Display for Problem {
    fn fmt(&self, f: &mut fmt::Formatter<'_>) -> fmt::Result {
        match self {
            Problem::Usage(words) => write!(f, "{words} (see station --help)"),
            Problem::Read(path, error) => write!(f, "{}: could not be read: {error}", path_name(path)),
            Problem::Write(path, error) => {
                write!(f, "{}: could not be written, no file was made or changed: {error}", path_name(path))
            }
            Problem::Console(error) => write!(f, "standard output could not be written to: {error}"),
            Problem::Target(words) | Problem::Refused(words) => f.write_str(words),
        }
    }
}
