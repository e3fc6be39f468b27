//! `station check`.

use std::fmt::Write;
use std::path::{Path, PathBuf};

use station::{Entry, Verdict};

use crate::advice::{Advice, Offence};
use crate::input::{self, Input};
use crate::json;
use crate::output::Console;
use crate::problem::{Problem, Status};
use crate::words::{self, several};

/// The form of the answers.
#[derive(Clone, Copy, Debug, PartialEq, Eq)]
pub enum Form {
    Words,
    Report,
    Json,
}

/// How many files there were of each sort.
#[derive(Default)]
struct Counts {
    granted: u64,
    refused: u64,
    failed: u64,
}

/// Checks files and folders; with `all` what offends below the first offence is looked for too.
pub fn run(paths: &[PathBuf], form: Form, all: bool, out: &mut Console) -> Result<Status, Problem> {
    let mut counts = Counts::default();
    let mut problems = Vec::new();
    let files: Vec<PathBuf> = paths.iter().flat_map(|path| input::files(path, &mut problems)).collect();
    for problem in problems {
        counts.failed += 1;
        out.note(problem);
    }
    let many = files.len() > 1;
    for (index, file) in files.iter().enumerate() {
        if many && out.shows_progress() {
            out.progress(&format!("{} of {}: {}", index + 1, files.len(), words::path_name(file)));
        }
        let read = input::read(file);
        let answered = read.map(|read| {
            let verdict = Entry::check(&read.text);
            (verdict.is_granted(), answer(&read, &verdict, form, all, many))
        });
        if many {
            out.clear_progress()?;
        }
        match answered {
            Ok((granted, words)) => {
                if granted {
                    counts.granted += 1;
                    out.say_done(words)?;
                } else {
                    counts.refused += 1;
                    out.say_line(words)?;
                }
            }
            Err(problem) => {
                counts.failed += 1;
                fail(file, &problem, form, out)?;
            }
        }
    }
    if many && form == Form::Words {
        let Counts { granted, refused, failed } = counts;
        let files = several(granted + refused + failed, "file");
        out.say_done(format_args!("{files}: {granted} granted, {refused} refused, {failed} not read"))?;
    }
    Ok(match counts {
        Counts { failed: 1.., .. } => Status::Failed,
        Counts { refused: 1.., .. } => Status::Refused,
        _ => Status::Done,
    })
}

/// The answer on a text, without its last newline.
fn answer(read: &Input, verdict: &Verdict, form: Form, all: bool, many: bool) -> String {
    let (name, text) = (&read.name, &read.text[..]);
    let advice = (all && !verdict.is_granted()).then(|| Advice::on(text));
    match form {
        Form::Report if many => format!("file={name}\n{}", verdict.report().to_string().trim_end()),
        Form::Report => verdict.report().to_string().trim_end().to_owned(),
        Form::Json => json::verdict(name, text, verdict, advice.as_ref()),
        Form::Words => {
            let words = words::describe(name, text, verdict);
            advice.map_or(words.clone(), |advice| words + &advised(verdict, &advice))
        }
    }
}

/// Says that a file could not be read.
fn fail(file: &Path, problem: &Problem, form: Form, out: &mut Console) -> Result<(), Problem> {
    out.finish()?;
    out.note(problem);
    match form {
        Form::Json => out.say_line(json::failure(&words::path_name(file), problem)),
        _ => Ok(()),
    }
}

/// The advice in words. The offence of the verdict itself is told already.
fn advised(verdict: &Verdict, advice: &Advice) -> String {
    let mut told = String::from(
        "\nAdvice, no verdict: each line that offends is left out and the rest checked again; an offence may come from a \
         line left out above it. Lines count by newlines.",
    );
    // Writing to a string does not fail.
    for unknown in &advice.unknown {
        let lines = several(unknown.count, "line");
        let _ = write!(told, "\nthe name {} is not known: {lines}, the first is line {}", unknown.name, unknown.first);
    }
    let known = |offence: &&Offence| offence.count > 1 || offence.first != verdict.line;
    for offence in advice.offences.iter().filter(known) {
        let lines = match offence.count {
            1 => format!("line {}", offence.first),
            count => format!("lines {} to {}, {count} of them", offence.first, offence.last),
        };
        let _ = write!(told, "\n{lines}: {}", offence.refusal);
        if let Some(shown) = &offence.shown {
            let _ = write!(told, "\n  |{shown}|");
        }
        if let Some(cause) = &offence.cause {
            let _ = write!(told, "\n  {cause}");
        }
    }
    let unknown: u64 = advice.unknown.iter().map(|unknown| unknown.count).sum();
    let _ = match advice.ended {
        Some(line) => write!(told, "\nThe search was ended at line {line}; there may be more."),
        None => {
            let offences = several(advice.count(), "offence");
            write!(told, "\nIn all {offences}, and {} with a name that is not known.", several(unknown, "line"))
        }
    };
    told
}
