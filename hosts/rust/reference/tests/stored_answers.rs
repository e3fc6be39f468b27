//! The reference against the answers stored beside the library's own test programs.
//!
//! A file of cases holds each case as its length, the low byte first, and its bytes.

use std::path::{Path, PathBuf};

use reference::{check, read_line, rewrite_line, Refusal};

/// The report takes no more than this.
const REPORT_LIMIT: usize = 65_529;

/// A folder of cases beside the library.
fn stored(folder: &str) -> PathBuf {
    Path::new(env!("CARGO_MANIFEST_DIR")).join("../../../crates").join(folder)
}

/// The cases of a file whose lengths have so many bytes.
fn cases(path: &Path, width: usize) -> Vec<Vec<u8>> {
    let bytes = std::fs::read(path).unwrap_or_else(|error| panic!("{}: {error}", path.display()));
    let mut rest = &bytes[..];
    let mut found = Vec::new();
    while rest.len() >= width {
        let length = rest[..width].iter().rev().fold(0, |length, &byte| 256 * length + usize::from(byte));
        found.push(rest[width..width + length].to_vec());
        rest = &rest[width + length..];
    }
    found
}

fn lines(path: &Path) -> Vec<String> {
    let text = std::fs::read_to_string(path).unwrap_or_else(|error| panic!("{}: {error}", path.display()));
    text.lines().map(str::to_owned).collect()
}

/// The thirteen numbers of the report.
fn report(text: &[u8]) -> Vec<u64> {
    if text.len() > REPORT_LIMIT {
        return [vec![20], vec![0; 12]].concat();
    }
    let verdict = check(text);
    let number = u64::from(verdict.refusal.map_or(0, Refusal::number));
    let head = [number, verdict.line, verdict.column, verdict.good_lines];
    [&head[..], &verdict.tally.counts()].concat()
}

/// The number of a line read by itself, and at 6 its column.
fn reading(line: &[u8]) -> Vec<u64> {
    match read_line(line) {
        Ok(_) => {
            let mut out = [b'#'; 100];
            assert_eq!(rewrite_line(line, &mut out), Ok(()));
            assert_eq!(out[..80], *line);
            assert!(out[80..].iter().all(|&byte| byte == b'#'));
            vec![0]
        }
        Err(blame) if blame.refusal.number() == 6 => vec![6, blame.column],
        Err(blame) => vec![blame.refusal.number().into()],
    }
}

/// Compares all cases.
fn compare(folder: &Path, data: &str, width: usize, answer: fn(&[u8]) -> Vec<u64>) {
    let cases = cases(&folder.join("data").join(data), width);
    let labels = lines(&folder.join("labels"));
    let stored = lines(&folder.join("stdout"));
    assert!(!cases.is_empty() && cases.len() == labels.len() && cases.len() <= stored.len());
    let mut differences = 0;
    for ((case, label), stored) in cases.iter().zip(&labels).zip(&stored) {
        let own = answer(case);
        let numbers: Option<Vec<u64>> = stored.split(' ').map(|number| number.parse().ok()).collect();
        if Some(&own) != numbers.as_ref() {
            differences += 1;
            println!("{label}: stored {stored}, reference {own:?}");
        }
    }
    println!("{}: {} cases, {differences} differences", folder.display(), cases.len());
    assert_eq!(differences, 0);
}

#[test]
fn verdicts() {
    compare(&stored("verdicts"), "texts", 3, report);
}

#[test]
fn examples() {
    compare(&stored("examples"), "lines", 2, reading);
}
