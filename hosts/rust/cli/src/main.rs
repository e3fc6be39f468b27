//! The command line of the station: `station --help`.

mod advice;
mod arguments;
mod aside;
mod bonds;
mod cell;
mod check;
mod column;
mod coordinate;
mod counts;
mod cut;
mod draw;
mod fields;
mod find;
mod fractional;
mod fragments;
mod help;
mod input;
mod json;
mod labels;
mod legend;
mod list;
mod lock;
mod models;
mod output;
mod paint;
mod panel;
mod place;
mod placing;
mod problem;
mod runs;
mod same_atom;
mod save;
mod scene;
mod sequence;
mod serials;
mod signals;
mod sticks;
mod svg;
mod word;
mod words;

use std::io::Write;
use std::process::ExitCode;

use arguments::{Asked, Command};
use problem::{Problem, Status};

fn run() -> Result<Status, Problem> {
    let mut out = output::Console::new();
    let Asked { command, quiet } = arguments::parse(std::env::args_os().skip(1))?;
    out.quiet = quiet;
    let status = match command {
        Command::Show(text) => {
            out.say(text)?;
            Status::Done
        }
        Command::Cut { file, out: to, force } => cut::run(&file, &to, force, &mut out)?,
        Command::Check { files, form, all } => check::run(&files, form, all, &mut out)?,
        Command::Find { file, serials } => find::run(&file, &serials, &mut out)?,
        Command::Cell { file } => cell::run(&file, &mut out)?,
        Command::Fractional { file, of } => fractional::run(&file, &of, &mut out)?,
        Command::Fragments { file, aside } => fragments::run(&file, &aside, &mut out)?,
        Command::Save { file, aside, out: to, tray, force } => {
            save::run(&file, &aside, &to, tray.as_deref(), force, &mut out)?
        }
        Command::Draw { file, aside, model, svg, force } => draw::run(&file, &aside, model, &svg, force, &mut out)?,
    };
    out.finish()?;
    Ok(status)
}

fn main() -> ExitCode {
    let status = run().unwrap_or_else(|problem| {
        if !problem.is_closed_pipe() {
            // Where the message cannot be shown, the exit status still tells.
            let _ = writeln!(std::io::stderr(), "station: {problem}");
        }
        problem.status()
    });
    ExitCode::from(status as u8)
}
