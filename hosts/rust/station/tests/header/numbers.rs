//! The numbers of refusal: the same names, numbers and words in C and in Rust, and the rows of `docs/FORMAT.md`.

use std::fs;
use std::path::PathBuf;
use std::process::Command;

use station::{Entry, Refusal};

use crate::compiler::{compiling, repository};

/// The constants of the Rust side with their names.
macro_rules! constants {
    ($($name:ident)*) => { [$((stringify!($name), Refusal::$name)),*] };
}

fn constants() -> [(&'static str, Refusal); 24] {
    constants!(
        LENGTH NEWLINE BYTE NAME PLACE FIELD SERIAL RUN BOND SEQUENCE COUNT OVER SHORT_TABLE FULL NO_FRAGMENT
        ALREADY_THERE SHORT_OUTPUT OTHER_TABLE NOTHING_TO_FRAME LONG_INPUT SAME_ATOM MODEL NO_SCALE
        COORDINATE
    )
}

/// What the row of a number in `docs/FORMAT.md` and its words have in common, in the order of the numbers.
const COMMON: [&str; 24] = [
    "length of the line",
    "newline",
    "byte",
    "name",
    "place",
    "field or",
    "serial",
    "TER",
    "CONECT",
    "helix or sheet",
    "MASTER",
    "END",
    "fewer slots",
    "count",
    "there is no",
    "already",
    "output",
    "belong to the text",
    "no atom to frame",
    "report",
    "same atom",
    "1, 2, 3 and so on",
    "SCALE lines",
    "a coordinate is",
];

fn read(path: &str) -> String {
    fs::read_to_string(repository(path)).expect("a file of the repository")
}

/// What the enums of the header name `STATION_` and this prefix, in order, with the number where one is given.
fn in_header(prefix: &str) -> Vec<(String, Option<u32>)> {
    let header = read("include/station.h");
    let rows = header.lines().filter_map(|line| line.strip_prefix("    STATION_")?.strip_prefix(prefix));
    rows.map(|row| {
        let row = row.split([',', '/']).next().unwrap_or_default().trim();
        let (name, number) = row.split_once(" = ").map_or((row, None), |(name, number)| (name, Some(number)));
        (name.to_owned(), number.map(|number| number.parse().expect("a number")))
    })
    .collect()
}

/// Their names alone.
fn named(prefix: &str) -> Vec<String> {
    in_header(prefix).into_iter().map(|(name, _)| name).collect()
}

#[test]
fn constants_are_the_same_in_c() {
    let due = constants().map(|(name, refusal)| (name.to_owned(), Some(refusal.number())));
    assert_eq!(in_header("REFUSED_"), due);
    assert!(constants().iter().map(|(_, refusal)| *refusal).eq(Refusal::ALL));
    assert!(Refusal::ALL.iter().map(|refusal| refusal.number()).eq((1..=22).chain([29, 33])));
    assert_eq!((Refusal::numbered(0), Refusal::numbered(6)), (None, Some(Refusal::FIELD)));
}

/// The answers have the numbers of the report in its order; the check leaves the column out.
#[test]
fn answers_are_in_the_order_of_the_report() {
    let report = Entry::check(b"").report().to_string();
    let mut keys: Vec<String> =
        report.lines().filter_map(|line| Some(line.split_once('=')?.0.to_uppercase())).collect();
    keys[0] = "REFUSAL".to_owned();
    keys[3] = "GOOD_LINES".to_owned();
    keys.push("SIZE".to_owned());
    assert_eq!(named("VERDICT_"), keys);
    keys.retain(|key| key != "COLUMN");
    assert_eq!(named("CHECK_"), keys);
}

/// A row has its three coefficients and the shift; a place is told exactly and then rounded.
#[test]
fn rows_and_places_are_in_order() {
    assert_eq!(named("ROW_"), ["OF_X", "OF_Y", "OF_Z", "SHIFT", "SIZE"]);
    assert_eq!(named("PLACE_"), ["X", "Y", "Z", "ROUNDED_X", "ROUNDED_Y", "ROUNDED_Z", "SIZE"]);
}

/// The words that C has for some numbers.
fn words_in_c(numbers: &[u32]) -> Vec<String> {
    let program = PathBuf::from(env!("CARGO_TARGET_TMPDIR")).join("words");
    let status = compiling("words.c").arg("-o").arg(&program).status().expect("a C compiler");
    assert!(status.success(), "the words are not C");
    let output = Command::new(program).args(numbers.iter().map(u32::to_string)).output().expect("the words");
    String::from_utf8(output.stdout).expect("text").lines().map(str::to_owned).collect()
}

#[test]
fn words_are_the_same_in_c() {
    let numbers: Vec<u32> = (0..=40).chain([255, 256, 262, u32::MAX]).collect();
    let meaning = |number| Refusal::numbered(number).map_or("granted", Refusal::meaning);
    let due: Vec<&str> = numbers.iter().map(|&number| meaning(number)).collect();
    assert_eq!(words_in_c(&numbers), due);
}

/// The rows under the numbers of refusal, from 0 on.
fn rows() -> Vec<(u32, String)> {
    let format = read("docs/FORMAT.md");
    let section = format.split("\n## Numbers of refusal\n").nth(1).expect("the section");
    let table = section.trim_start().lines().skip(2).take_while(|line| line.starts_with('|'));
    table
        .map(|line| {
            let (number, words) = line.trim_matches('|').split_once('|').expect("two columns");
            (number.trim().parse().expect("a number"), words.trim().to_owned())
        })
        .collect()
}

#[test]
fn words_are_those_of_the_format() {
    let rows = rows();
    assert!(rows.iter().map(|(number, _)| *number).eq((0..=22).chain([29, 33])));
    assert_eq!(rows[0].1, "granted");
    for ((number, row), common) in rows[1..].iter().zip(COMMON) {
        let words = Refusal::numbered(*number).map_or("", Refusal::meaning);
        assert!(row.contains(common) && words.contains(common), "{number}: {common}: {row}: {words}");
    }
    let words: std::collections::BTreeSet<_> = Refusal::ALL.map(Refusal::meaning).into();
    assert_eq!(words.len(), Refusal::ALL.len());
}
