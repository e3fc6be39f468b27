//! `station find`.

use std::path::Path;

use station::{Entry, Hundredths, Jump, Kind, Line, Slot, Thousandths};

use crate::input;
use crate::output::Console;
use crate::problem::{Problem, Status};
use crate::words::{self, several, shown, trimmed};

/// Reads a serial. One that no atom can have is as good as none: a jump would look over the whole text for it.
pub fn serial(word: &str) -> Result<u32, String> {
    let digits = !word.is_empty() && word.bytes().all(|byte| byte.is_ascii_digit());
    match word.parse() {
        _ if !digits => Err(format!("\"{word}\" is no serial, a number from 1 to 99999; the file comes before it")),
        Ok(serial @ 1..=99_999) => Ok(serial),
        _ => Err(format!("no atom can have the serial {word}; they go from 1 to 99999")),
    }
}

/// Shows the lines of some atoms. The text need not be an entry.
pub fn run(file: &Path, serials: &[u32], out: &mut Console) -> Result<Status, Problem> {
    let input = input::read(file)?;
    let (name, text) = (&input.name, &input.text);
    let mut status = Status::Done;
    for serial in serials {
        let jump = Jump::to(text, *serial);
        match jump.line.zip(jump.piece(text)) {
            Some((line, piece)) => {
                out.say_line(format_args!("{name}: serial {serial}: line {line}"))?;
                show(piece, out)?;
            }
            None => {
                out.say_line(nowhere(name, *serial, &jump))?;
                status = Status::Refused;
            }
        }
    }
    if status == Status::Refused {
        passed_over(name, text, out);
    }
    Ok(status)
}

/// That a serial stands on no line, in words.
pub fn nowhere(name: &str, serial: u32, jump: &Jump) -> String {
    let looked = several(jump.looked, "line");
    format!("{name}: serial {serial}: no ATOM or HETATM line has it; looked at {looked}")
}

/// Shows a line, and what stands in it.
fn show(piece: &[u8], out: &mut Console) -> Result<(), Problem> {
    out.say_line(format_args!("  |{}|", shown(piece)))?;
    for (field, value) in piece.get(..80).and_then(|columns| Line::slot_of(columns).ok()).iter().flat_map(fields) {
        out.say_line(format_args!("  {field:18}  {value}"))?;
    }
    Ok(())
}

/// Where a serial was not found, a line that is refused may be why.
fn passed_over(name: &str, text: &[u8], out: &mut Console) {
    let verdict = Entry::check(text);
    if !verdict.is_granted() {
        let words = words::describe(name, text, &verdict);
        out.note(format_args!("a line that does not read is passed over, and this file is refused: {words}"));
    }
}

/// The fields of an atom's line in the order of its columns, as a person writes them.
fn fields(slot: &Slot) -> [(&'static str, String); 15] {
    let kind = if slot.kind() == Some(Kind::Hetatm) { "HETATM" } else { "ATOM" };
    let place = |thousandths: i32| format!("{} angstroms", Thousandths::of(thousandths));
    [
        ("kind", kind.to_owned()),
        ("serial", slot.serial.to_string()),
        ("name", columns(&slot.name)),
        ("alternate location", columns(&[slot.alternate])),
        ("residue name", columns(&slot.residue)),
        ("chain", columns(&[slot.chain])),
        ("residue number", slot.number.to_string()),
        ("insertion code", columns(&[slot.insertion])),
        ("x", place(slot.x)),
        ("y", place(slot.y)),
        ("z", place(slot.z)),
        ("occupancy", Hundredths::of(slot.occupancy).to_string()),
        ("temperature factor", format!("{} square angstroms", Hundredths::of(slot.temperature))),
        ("element", columns(&slot.element)),
        ("charge", columns(&slot.charge)),
    ]
}

/// Some columns in words.
pub fn columns(columns: &[u8]) -> String {
    let words = trimmed(columns);
    if words.is_empty() {
        "none".to_owned()
    } else {
        words
    }
}

#[cfg(test)]
mod tests {
    use super::*;

    #[test]
    fn serials() {
        assert_eq!(["1", "32", "00032", "99999"].map(serial), [Ok(1), Ok(32), Ok(32), Ok(99_999)]);
        for impossible in ["0", "00", "100000", "4294967297", "99999999999999999999"] {
            let words = format!("no atom can have the serial {impossible}; they go from 1 to 99999");
            assert_eq!(serial(impossible), Err(words));
        }
        for none in ["", "a", "-1", "+1", "1.0", "1,2", "1-2", " 1", "1abc.pdb"] {
            assert!(serial(none).is_err_and(|words| words.starts_with(&format!("\"{none}\" is no serial"))));
        }
    }

    #[test]
    fn values_have_all_their_places() {
        let slot = Slot { x: -999_999, y: 9_999_999, z: -1, occupancy: 5, temperature: -9_999, ..Slot::default() };
        let values = fields(&slot).map(|(_, value)| value)[8..13].to_vec();
        assert_eq!(values[..3], ["-999.999 angstroms", "9999.999 angstroms", "-0.001 angstroms"]);
        assert_eq!(values[3..], ["0.05", "-99.99 square angstroms"]);
    }
}
