//! Answers of `check` as JSON, an object for each file.

use std::fmt::Write;

use station::{Refusal, Verdict};

use crate::advice::{Advice, Offence, Unknown};
use crate::problem::Problem;
use crate::words;

/// The answer on a text: what the report lists, in the same order and under the same keys, then the words.
pub fn verdict(name: &str, text: &[u8], verdict: &Verdict, advice: Option<&Advice>) -> String {
    let mut members = vec![("file", string(name))];
    let listing = verdict.report().to_string();
    members.extend(listing.lines().filter_map(|line| line.split_once('=')).map(|(key, value)| (key, value.to_owned())));
    let cause = verdict.refusal.and_then(|refusal| words::cause(text, verdict, refusal));
    members.push(("meaning", string(verdict.refusal.map_or("granted", Refusal::meaning))));
    members.push(("cause", plain(cause.as_deref())));
    members.extend(advice.map(|advice| ("advice", self::advice(advice))));
    object(&members)
}

/// The answer on a file that could not be read.
pub fn failure(name: &str, problem: &Problem) -> String {
    object(&[("file", string(name)), ("error", string(&problem.to_string()))])
}

fn advice(advice: &Advice) -> String {
    let unknown = |unknown: &Unknown| {
        let (count, line) = (unknown.count.to_string(), unknown.first.to_string());
        object(&[("name", string(&unknown.name)), ("count", count), ("line", line)])
    };
    object(&[
        ("unknown", array(advice.unknown.iter().map(unknown))),
        ("offences", array(advice.offences.iter().map(offence))),
        ("ended", advice.ended.map_or("null".to_owned(), |line| line.to_string())),
    ])
}

fn offence(offence: &Offence) -> String {
    object(&[
        ("verdict", offence.refusal.number().to_string()),
        ("line", offence.first.to_string()),
        ("last", offence.last.to_string()),
        ("count", offence.count.to_string()),
        ("column", offence.column.to_string()),
        ("meaning", string(offence.refusal.meaning())),
        ("cause", plain(offence.cause.as_deref())),
    ])
}

/// A cause without what only helps the eye: indents, and marks under a line.
fn plain(cause: Option<&str>) -> String {
    let Some(cause) = cause else {
        return "null".to_owned();
    };
    let lines = cause.lines().map(str::trim).filter(|line| line.chars().any(|character| character != '^'));
    string(&lines.collect::<Vec<_>>().join("\n"))
}

fn object(members: &[(&str, String)]) -> String {
    let members: Vec<String> = members.iter().map(|(key, value)| format!("{}:{value}", string(key))).collect();
    format!("{{{}}}", members.join(","))
}

fn array(items: impl Iterator<Item = String>) -> String {
    format!("[{}]", items.collect::<Vec<_>>().join(","))
}

fn string(text: &str) -> String {
    let mut quoted = String::from("\"");
    for character in text.chars() {
        match character {
            '"' => quoted.push_str("\\\""),
            '\\' => quoted.push_str("\\\\"),
            '\n' => quoted.push_str("\\n"),
            _ if character.is_control() => {
                // Writing to a string does not fail.
                let _ = write!(quoted, "\\u{:04x}", u32::from(character));
            }
            _ => quoted.push(character),
        }
    }
    quoted + "\""
}

#[cfg(test)]
mod tests {
    use super::*;

    #[test]
    fn causes_are_plain() {
        assert_eq!(plain(Some("      ^^^\n  column 22: \"?\"\n  and more")), "\"column 22: \\\"?\\\"\\nand more\"");
        assert_eq!(plain(None), "null");
    }

    #[test]
    fn strings_are_quoted() {
        assert_eq!(string("a \"b\" \\ c\nd\u{7}é"), "\"a \\\"b\\\" \\\\ c\\nd\\u0007é\"");
        assert_eq!(object(&[("a", "1".to_owned()), ("b", array([].into_iter()))]), "{\"a\":1,\"b\":[]}");
    }
}
