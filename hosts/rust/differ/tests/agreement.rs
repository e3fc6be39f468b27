//! The linked library against the reference, and the source of entries against the rules.

use differ::chance::Chance;
use differ::entry::{entry, named, text, typed_line};
use differ::names::Form;
use station::raw::LINKED;

#[test]
fn no_difference_and_every_number_reached() {
    let findings = differ::run_fenced(LINKED, 7, 0..8_000);
    assert_eq!(findings.differences, 0, "{:#?}", findings.shown);
    assert_eq!(findings.missing(), Vec::<String>::new());
}

#[test]
fn no_difference_in_the_sweep() {
    let findings = differ::sweep(LINKED);
    assert_eq!(findings.differences, 0, "{:#?}", findings.shown);
}

#[test]
fn made_up_entries_are_accepted() {
    let mut chance = Chance::new(3);
    for _ in 0..2_000 {
        let bytes = text(&entry(&mut chance));
        let verdict = reference::check(&bytes);
        assert_eq!(verdict.refusal, None, "line {}: {}", verdict.line, String::from_utf8_lossy(&bytes));
    }
}

#[test]
fn made_up_entries_have_names_of_four_columns() {
    let mut chance = Chance::new(3);
    for kind in [b"ATOM  ", b"HETATM"] {
        let filled = |line: &[u8; 80]| named(line, &[kind]) && Form::of_line(line) == Some(Form::Filled);
        let having = (0..500).filter(|_| entry(&mut chance).iter().any(filled)).count();
        assert!(having > 100, "{having} entries of 500");
    }
}

#[test]
fn made_up_lines_read() {
    let mut chance = Chance::new(4);
    for _ in 0..5_000 {
        let line = typed_line(&mut chance);
        assert!(reference::read_line(&line).is_ok(), "{}", String::from_utf8_lossy(&line));
    }
}
