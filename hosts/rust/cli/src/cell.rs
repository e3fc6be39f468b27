//! `station cell`.

use std::path::Path;

use station::{pieces, Cell, Entry, Matrix, Transformation};

use crate::find::columns;
use crate::fragments::not_accepted;
use crate::input;
use crate::output::Console;
use crate::problem::{Problem, Status};
use crate::words::aligned;

/// Shows the crystal frame of an entry.
pub fn run(file: &Path, out: &mut Console) -> Result<Status, Problem> {
    let input = input::read(file)?;
    let entry = Entry::accept(&input.text).map_err(|verdict| not_accepted(&input, &verdict))?;
    let lines = || pieces(entry.text()).filter_map(|piece| piece.get(..80));
    out.say_line(format_args!("{}: crystal frame", input.name))?;
    match lines().find_map(|line| Cell::of_line(line).ok()) {
        Some(cell) => {
            for (field, value) in fields(&cell) {
                out.say_line(format_args!("  {field:11}  {value}"))?;
            }
        }
        None => out.say_line("  no cell: there is no CRYST1 line")?,
    }
    let rows: Vec<Transformation> = lines().filter_map(|line| Transformation::of_line(line).ok()).collect();
    if !rows.is_empty() {
        for line in aligned(&table(&rows)) {
            out.say_line(format_args!("  {line}"))?;
        }
    }
    for matrix in [Matrix::Origx, Matrix::Scale] {
        if !rows.iter().any(|row| row.matrix == matrix) {
            out.say_line(format_args!("  there are no {} lines", matrix.name()))?;
        }
    }
    Ok(Status::Done)
}

/// The fields of a cell, as a person writes them.
fn fields(cell: &Cell) -> [(&'static str, String); 8] {
    let [a, b, c] = cell.edges().map(|edge| format!("{edge:9} angstroms"));
    let [alpha, beta, gamma] = cell.angles().map(|angle| format!("{angle:8}  degrees"));
    [
        ("edge a", a),
        ("edge b", b),
        ("edge c", c),
        ("angle alpha", alpha),
        ("angle beta", beta),
        ("angle gamma", gamma),
        ("space group", columns(cell.space_group().as_bytes())),
        ("Z", cell.z.to_string()),
    ]
}

/// The rows of the ORIGX and SCALE lines, with a heading.
fn table(rows: &[Transformation]) -> Vec<Vec<String>> {
    let heading = ["row", "coefficient of x", "of y", "of z", "shift"].map(str::to_owned).to_vec();
    let row = |row: &Transformation| {
        let name = format!("{}{}", row.matrix.name(), row.row);
        let coefficients = row.coefficients.map(|coefficient| coefficient.to_string());
        [&[name][..], &coefficients, &[row.shift.to_string()]].concat()
    };
    std::iter::once(heading).chain(rows.iter().map(row)).collect()
}
