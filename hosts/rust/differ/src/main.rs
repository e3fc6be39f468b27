//! The differential test: `differ --cases 200000 --seed 1`.

use std::fmt::Debug;
use std::process::ExitCode;
use std::time::Instant;

use differ::faults::Kind;
use differ::names::Form;
use differ::rows::Row;
use differ::{cells, jumps, models, places, twins, Call, Findings, Met};
use station::raw::LINKED;

const HELP: &str = "\
Holds the linked library against the reference, call by call.

usage: differ [--cases N] [--seed S] [--only CASE]

  --cases N    how many cases (200000)
  --seed S     the seed of the run (1)
  --only CASE  this one case of the seed, by its number

The cases are followed by a sweep: every byte in every column of a line of each kind, every two columns that are wrong, every
stretch that is blank, every element, atoms' names over a few bytes, two atoms that differ in one column, MODEL and ENDMDL lines in a text, every narrow number, every length, every
name, jumps to every serial, every billionth round zero.

Exit status: 0 no difference, 1 a difference, or a number of refusal, a form of an atom's name, a kind of pairs of atoms, of
models, of jumps, of wrong fields, of crystal lines or of fractional places that was not reached, 2 wrong arguments, 3 the library touched memory that was not lent to it.
Runs of fewer than 5000 cases do not ask that every number, form and kind be reached.
";

/// Runs below this are too short to reach every number.
const ENOUGH: u64 = 5_000;

struct Options {
    cases: u64,
    seed: u64,
    only: Option<u64>,
}

/// The options that were given, or help, if it is asked for.
fn options() -> Result<Option<Options>, String> {
    let mut options = Options { cases: 200_000, seed: 1, only: None };
    let mut arguments = std::env::args().skip(1);
    while let Some(name) = arguments.next() {
        if name == "--help" || name == "-h" {
            return Ok(None);
        }
        let value = arguments.next().and_then(|value| value.parse().ok());
        let value = value.ok_or_else(|| format!("differ: {name} needs a number\n\n{HELP}"))?;
        match name.as_str() {
            "--cases" => options.cases = value,
            "--seed" => options.seed = value,
            "--only" => options.only = Some(value),
            _ => return Err(format!("differ: {name} is unknown\n\n{HELP}")),
        }
    }
    Ok(Some(options))
}

/// How often each of these was met.
fn counts<T: Debug, K: Ord>(all: &[T], met: &Met<K>, key: impl Fn(&T) -> K) -> String {
    let count = |one: &T| format!("{one:?}:{}", met.get(&key(one)).unwrap_or(&0));
    all.iter().map(count).collect::<Vec<_>>().join(" ")
}

fn print(findings: &Findings) {
    for call in Call::ALL {
        let numbers = counts(call.numbers(), &findings.reached, |number| (call, *number));
        println!("{:12} {numbers}", format!("{call:?}"));
    }
    for call in Call::NAMED {
        let forms = counts(&Form::ALL, &findings.forms, |form| (call, *form));
        println!("{:12} names {forms}", format!("{call:?}"));
    }
    println!("{:12} pairs {}", "Check", counts(&twins::Kind::ALL, &findings.twins, |kind| *kind));
    println!("{:12} models {}", "All", counts(models::Kind::ALL, &findings.models, |kind| *kind));
    println!("{:12} jumps {}", "Find", counts(&jumps::Kind::ALL, &findings.jumps, |kind| *kind));
    for call in Call::TELLING {
        print_faults(findings, call);
    }
    for call in Call::FRAMING {
        print_cells(findings, call);
    }
    for call in Call::PLACING {
        let kinds = counts(&places::Kind::all(call), &findings.places, |kind| (call, *kind));
        println!("{:12} places {kinds}", format!("{call:?}"));
    }
    for difference in &findings.shown {
        println!("{difference}");
    }
}

/// How often each kind of crystal lines was met; of what may stand in a number, the one that was met least.
fn print_cells(findings: &Findings, call: Call) {
    let (numbers, others): (Vec<cells::Kind>, Vec<cells::Kind>) =
        cells::Kind::all(call).into_iter().partition(|kind| matches!(kind, cells::Kind::Number(..)));
    let times = |kind: &cells::Kind| *findings.cells.get(&(call, *kind)).unwrap_or(&0);
    let rarest: Vec<cells::Kind> = numbers.into_iter().min_by_key(times).into_iter().collect();
    let of = |kinds: &[cells::Kind]| counts(kinds, &findings.cells, |kind| (call, *kind));
    println!("{:12} lines {} numbers, the rarest {}", format!("{call:?}"), of(&others), of(&rarest));
}

/// How often each kind of wrong fields was met; of the columns, which there are many of, the one that was told least.
fn print_faults(findings: &Findings, call: Call) {
    let times = |kind: Kind| *findings.faults.get(&(call, kind)).unwrap_or(&0);
    let least = |row: Row| row.columns().into_iter().map(|column| (times(Kind::Column(row, column)), column)).min();
    let rarest = Row::ALL.map(|row| {
        let (times, column) = least(row).unwrap_or_default();
        format!("{row:?}({column}):{times}")
    });
    println!("{:12} columns, the rarest {}", format!("{call:?}"), rarest.join(" "));
    let others = Kind::all(call).into_iter().filter(|kind| !matches!(kind, Kind::Column(..)));
    let others: Vec<Kind> = others.collect();
    println!("{:12} fields {}", format!("{call:?}"), counts(&others, &findings.faults, |kind| (call, *kind)));
}

fn main() -> ExitCode {
    let options = match options() {
        Ok(Some(options)) => options,
        Ok(None) => {
            print!("{HELP}");
            return ExitCode::SUCCESS;
        }
        Err(words) => {
            eprint!("{words}");
            return ExitCode::from(2);
        }
    };
    let begun = Instant::now();
    let cases = options.only.map_or(0..options.cases, |case| case..case.saturating_add(1));
    let count = cases.end - cases.start;
    differ::fence::watch();
    let findings = differ::run_fenced(LINKED, options.seed, cases);
    let seconds = begun.elapsed().as_secs_f64();
    print(&findings);
    let swept = if options.only.is_some() { Findings::default() } else { differ::sweep(LINKED) };
    for difference in &swept.shown {
        println!("sweep: {difference}");
    }
    let missing = if count >= ENOUGH { findings.missing() } else { Vec::new() };
    for words in &missing {
        println!("{words}");
    }
    let differences = findings.differences + swept.differences;
    println!("{} calls in {seconds:.1} s, {:.0} cases/s", findings.calls, count as f64 / seconds);
    println!("{} calls of the sweep, {} differences", swept.calls, swept.differences);
    println!("{count} cases, {differences} differences");
    if differences > 0 || !missing.is_empty() {
        ExitCode::FAILURE
    } else {
        ExitCode::SUCCESS
    }
}
