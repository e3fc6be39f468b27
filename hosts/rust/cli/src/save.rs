//! `station save`.

use std::panic::resume_unwind;
use std::path::Path;
use std::thread;

use station::{Refusal, Table};

use crate::aside::Aside;
use crate::fragments::{self, refused};
use crate::input;
use crate::output::{write_all, Console, Order};
use crate::problem::{Problem, Status};
use crate::words::{output_name, several};

/// Saves an entry without some fragments, and the tray.
pub fn run(
    file: &Path,
    aside: &Aside,
    out: &Path,
    tray: Option<&Path>,
    force: bool,
    console: &mut Console,
) -> Result<Status, Problem> {
    let input = input::read(file)?;
    let table = fragments::load(&input, aside)?;
    let (saved, dropped) = parts(&table, tray.is_some()).map_err(|refusal| refused(&input, refusal))?;
    // The tray comes first: whoever has the saved entry has what was taken out of it, whenever the program is killed.
    let mut orders: Vec<Order> = Vec::new();
    orders.extend(tray.map(|path| Order { option: "--tray", path, bytes: &dropped }));
    orders.push(Order { option: "--out", path: out, bytes: &saved });
    write_all(&orders, input.identity.as_ref(), force, console)?;
    let lines = |bytes: &[u8]| several(bytes.len() as u64 / 81, "line");
    console.say_done(format_args!("{}: {}", output_name(out), lines(&saved)))?;
    if let Some(path) = tray {
        console.say_done(format_args!("{}: {}", output_name(path), lines(&dropped)))?;
    }
    Ok(Status::Done)
}

/// The saved entry, and the tray where it is wanted: each call judges text and table anew and writes its own bytes,
/// so the two go side by side.
fn parts(table: &Table, tray: bool) -> Result<(Vec<u8>, Vec<u8>), Refusal> {
    if !tray {
        return Ok((table.save()?, Vec::new()));
    }
    thread::scope(|scope| {
        let dropped = scope.spawn(|| table.tray());
        let saved = table.save()?;
        let dropped = dropped.join().unwrap_or_else(|panic| resume_unwind(panic))?;
        Ok((saved, dropped))
    })
}
