//! The C compiler that shows how C reads the headers.

use std::path::{Path, PathBuf};
use std::process::Command;

/// A command that compiles a file of this folder with the headers, and fails on warnings.
pub fn compiling(file: &str) -> Command {
    let mut command = Command::new(std::env::var("CC").unwrap_or_else(|_| "cc".to_owned()));
    command.args(["-std=c11", "-Wall", "-Wextra", "-Werror", "-I"]).arg(repository("include"));
    command.arg(Path::new(env!("CARGO_MANIFEST_DIR")).join("tests/header").join(file));
    command
}

/// A file or folder of the repository.
pub fn repository(path: &str) -> PathBuf {
    Path::new(env!("CARGO_MANIFEST_DIR")).join("../../..").join(path)
}
