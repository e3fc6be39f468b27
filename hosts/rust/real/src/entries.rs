//! The list of the entries, and their texts.

use std::collections::BTreeSet;
use std::path::PathBuf;
use std::process::Command;

/// A line of `entries.txt`: a file and what is to be answered to it.
pub struct Listed {
    /// The name of the file.
    pub file: String,
    /// The number of refusal, 0 if it is granted.
    pub number: u64,
    /// The line that is refused, 0 if none is.
    pub line: u64,
    /// The good lines.
    pub good_lines: u64,
    /// The coordinates and the fragments of an accepted entry.
    pub accepted: Option<(u64, usize)>,
}

fn folder() -> PathBuf {
    PathBuf::from(env!("CARGO_MANIFEST_DIR")).join("../entries")
}

impl Listed {
    /// Reads a line of the list: file, number, line, good lines, coordinates, fragments, and where it came from.
    fn of(row: &str) -> Option<Listed> {
        let mut words = row.split_whitespace();
        let file = words.next()?.to_owned();
        let mut numbers = || words.next()?.parse().ok();
        let (number, line, good_lines) = (numbers()?, numbers()?, numbers()?);
        let accepted = if number == 0 { Some((numbers()?, usize::try_from(numbers()?).ok()?)) } else { None };
        Some(Listed { file, number, line, good_lines, accepted })
    }

    /// What is to be answered to the same coordinates as two models, if the entry is accepted: the first is counted, and each
    /// has all fragments.
    pub fn in_two_models(&self, coordinate_lines: usize) -> Option<Listed> {
        let (coordinates, fragments) = self.accepted?;
        let good_lines = self.good_lines + coordinate_lines as u64 + 4;
        let accepted = Some((coordinates, 2 * fragments));
        Some(Listed { file: format!("{} twice", self.file), number: 0, line: 0, good_lines, accepted })
    }

    /// The text of the entry. There is no library for gzip here, so the command has to do.
    pub fn unpacked(&self) -> Result<Vec<u8>, String> {
        let output = Command::new("gzip").arg("-dc").arg(folder().join(&self.file)).output();
        let output = output.map_err(|error| format!("gzip: {error}"))?;
        if output.status.success() {
            Ok(output.stdout)
        } else {
            Err(format!("gzip: {}", String::from_utf8_lossy(&output.stderr).trim_end()))
        }
    }
}

/// The list. Every packed file of the folder has to be on it.
pub fn listed() -> Result<Vec<Listed>, String> {
    let list =
        std::fs::read_to_string(folder().join("entries.txt")).map_err(|error| format!("entries.txt: {error}"))?;
    let rows = list.lines().filter(|row| !row.starts_with('#') && !row.trim().is_empty());
    let listed: Vec<Listed> = rows
        .map(|row| Listed::of(row).ok_or_else(|| format!("entries.txt: not understood: {row}")))
        .collect::<Result<_, _>>()?;
    let known: BTreeSet<&str> = listed.iter().map(|listed| listed.file.as_str()).collect();
    for found in std::fs::read_dir(folder()).map_err(|error| format!("entries: {error}"))? {
        let name = found.map_err(|error| format!("entries: {error}"))?.file_name().to_string_lossy().into_owned();
        if name.ends_with(".gz") && !known.contains(name.as_str()) {
            return Err(format!("entries.txt: does not list {name}"));
        }
    }
    Ok(listed)
}
