//! Writing: answers to the console, files whole or not at all.

use std::fs::{self, OpenOptions};
use std::io::{self, BufWriter, IsTerminal, StdoutLock, Write};
use std::path::{is_separator, Path, PathBuf};

use crate::input::Identity;
use crate::lock::Lock;
use crate::placing::{folder_of, Placed, Staged};
use crate::problem::Problem;
use crate::signals;
use crate::words::{output_name, path_name};

/// Where answers go.
pub struct Console {
    out: BufWriter<StdoutLock<'static>>,
    progress: bool,
    /// Whether nothing is said of what went well.
    pub quiet: bool,
    /// Whether answers go to standard error, since standard output may have what was asked to be written.
    beside: bool,
}

impl Console {
    /// Standard output.
    pub fn new() -> Console {
        let progress = io::stderr().is_terminal();
        Console { out: BufWriter::new(io::stdout().lock()), progress, quiet: false, beside: false }
    }

    /// Shows a text as it is.
    pub fn say(&mut self, text: impl std::fmt::Display) -> Result<(), Problem> {
        write!(self.out, "{text}").map_err(Problem::Console)
    }

    /// Shows a line.
    pub fn say_line(&mut self, line: impl std::fmt::Display) -> Result<(), Problem> {
        if self.beside {
            self.note(line);
            return Ok(());
        }
        writeln!(self.out, "{line}").map_err(Problem::Console)
    }

    /// Shows a line of what went well, unless that is not wanted.
    pub fn say_done(&mut self, line: impl std::fmt::Display) -> Result<(), Problem> {
        if self.quiet {
            return Ok(());
        }
        self.say_line(line)
    }

    /// Shows a line beside the answers.
    pub fn note(&mut self, line: impl std::fmt::Display) {
        // A note that cannot be shown changes nothing.
        let _ = writeln!(io::stderr(), "station: {line}");
    }

    /// Shows how far the work is, on a terminal.
    pub fn progress(&mut self, words: &str) {
        if self.shows_progress() {
            let width = 78;
            let words: String = words.chars().take(width).collect();
            let _ = write!(io::stderr(), "\r{words:width$}\r");
        }
    }

    /// Whether progress is shown.
    pub fn shows_progress(&self) -> bool {
        self.progress && !self.quiet
    }

    /// Clears the line of progress, so that what was said so far can be seen.
    pub fn clear_progress(&mut self) -> Result<(), Problem> {
        self.progress("");
        self.finish()
    }

    /// Sees to it that everything said is out.
    pub fn finish(&mut self) -> Result<(), Problem> {
        self.out.flush().map_err(Problem::Console)
    }
}

/// A file to be written, with what is to stand in it.
pub struct Order<'a> {
    /// The option that named it, for messages.
    pub option: &'a str,
    /// Where.
    pub path: &'a Path,
    /// What.
    pub bytes: &'a [u8],
}

/// Writes files: all of them whole, or none, and puts them in place in this sequence. Files that exist are replaced only with
/// `force`, the input never. The answers of the command go beside what is written to standard output, or to anything else that is
/// no file.
pub fn write_all(
    orders: &[Order],
    input: Option<&Identity>,
    force: bool,
    console: &mut Console,
) -> Result<(), Problem> {
    let mut targets: Vec<Target> = Vec::new();
    for order in orders {
        let target = Target::of(order, input, force)?;
        if targets.iter().any(|other| !other.is_stream() && other.resolved == target.resolved) {
            return Err(Problem::Target(format!("{}: two outputs go to the same place", output_name(order.path))));
        }
        targets.push(target);
    }
    console.beside |= targets.iter().any(|target| !target.is_file());
    signals::tidy_up();
    let failed = |order: &Order, error| match order.path == Path::new("-") {
        true => Problem::Console(error),
        false => Problem::Write(order.path.to_owned(), error),
    };
    // All files are written before one is put in place or a stream is given what cannot be taken back.
    let mut waiting = Vec::new();
    for (target, order) in targets.iter().zip(orders) {
        waiting.push((target.stage(order.bytes).map_err(|error| failed(order, error))?, target, order));
    }
    let files = || targets.iter().filter(|target| target.is_file());
    let pair = files().count() > 1;
    let locked = pair.then(|| Lock::of(files().map(|target| folder_of(&target.resolved)))).transpose();
    let _lock = locked.map_err(|error| failed(&orders[0], error))?;
    let _hold = pair.then(signals::hold);
    let mut done: Vec<Placed> = Vec::new();
    for (staged, target, order) in waiting {
        let placed = match staged {
            Some(file) => file.place(force).map(|placed| done.push(placed)),
            None => target.stream(order.bytes),
        };
        if let Err(error) = placed {
            done.into_iter().rev().for_each(Placed::undo);
            return Err(failed(order, error));
        }
    }
    Ok(())
}

/// Where a file is to stand.
struct Target {
    /// The path, with links followed if it is a file's.
    resolved: PathBuf,
    kind: TargetKind,
}

enum TargetKind {
    New,
    /// A file that exists and may be replaced.
    Replaced(fs::Permissions),
    /// Something that is no file, such as a device or a pipe: it is written to as it is.
    Stream,
    /// Standard output.
    Output,
}

impl Target {
    fn is_file(&self) -> bool {
        !matches!(self.kind, TargetKind::Stream | TargetKind::Output)
    }

    fn is_stream(&self) -> bool {
        matches!(self.kind, TargetKind::Stream)
    }

    fn of(order: &Order, input: Option<&Identity>, force: bool) -> Result<Target, Problem> {
        let path = order.path;
        let refuse = |words: &str| Err(Problem::Target(format!("{}: {words}", path_name(path))));
        let failed = |error| Problem::Write(path.to_owned(), error);
        if path == Path::new("-") {
            return Ok(Target { resolved: path.to_owned(), kind: TargetKind::Output });
        }
        if input.is_some() && Identity::of(path).ok().as_ref() == input {
            return refuse("this is the input, which is never written to");
        }
        match fs::metadata(path) {
            Ok(metadata) => {
                if metadata.is_dir() {
                    refuse(&format!("this is a folder; {} needs a file", order.option))
                } else if !metadata.is_file() {
                    Ok(Target { resolved: path.to_owned(), kind: TargetKind::Stream })
                } else if force {
                    let resolved = fs::canonicalize(path).map_err(failed)?;
                    Ok(Target { resolved, kind: TargetKind::Replaced(metadata.permissions()) })
                } else {
                    refuse("the file exists; --force replaces it")
                }
            }
            Err(error) if error.kind() == io::ErrorKind::NotFound => {
                if fs::symlink_metadata(path).is_ok_and(|found| found.is_symlink()) {
                    return refuse("this is a link to nothing");
                }
                if path.as_os_str().as_encoded_bytes().last().is_some_and(|&last| is_separator(char::from(last))) {
                    return refuse(&format!("there is no such folder, and {} needs a file", order.option));
                }
                let Some(name) = path.file_name() else {
                    return refuse(&format!("{} needs the name of a file", order.option));
                };
                let folder = fs::canonicalize(folder_of(path)).map_err(failed)?;
                Ok(Target { resolved: folder.join(name), kind: TargetKind::New })
            }
            Err(error) => Err(failed(error)),
        }
    }

    /// Writes the bytes beside the target if it is a file.
    fn stage(&self, bytes: &[u8]) -> io::Result<Option<Staged>> {
        match &self.kind {
            TargetKind::New => Staged::write(&self.resolved, bytes, None).map(Some),
            TargetKind::Replaced(permissions) => Staged::write(&self.resolved, bytes, Some(permissions)).map(Some),
            TargetKind::Stream | TargetKind::Output => Ok(None),
        }
    }

    /// Writes the bytes straight to a target that is no file.
    fn stream(&self, bytes: &[u8]) -> io::Result<()> {
        let mut stream: Box<dyn Write> = match self.kind {
            TargetKind::Output => Box::new(io::stdout()),
            _ => Box::new(OpenOptions::new().write(true).open(&self.resolved)?),
        };
        stream.write_all(bytes)?;
        stream.flush()
    }
}
