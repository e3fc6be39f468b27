//! `station fractional`.

use std::path::Path;

use station::{scale, Entry, Fractional, Jump, Line, Refusal, Scale, Slot, Thousandths};

use crate::coordinate::thousandths;
use crate::find::{nowhere, serial};
use crate::fragments::{not_accepted, refused};
use crate::input::{self, Input};
use crate::output::Console;
use crate::problem::{Problem, Status};
use crate::words::{aligned, trimmed};

/// What a fractional place is asked of.
#[derive(Debug, PartialEq, Eq)]
pub enum Of {
    /// The atoms with these serials.
    Atoms(Vec<u32>),
    /// Three coordinates, in thousandths.
    Place([i32; 3]),
}

impl Of {
    /// Reads the words behind the file. They are coordinates if that is said, or if one of them has a point.
    pub fn parse(words: &[String], xyz: bool) -> Result<Of, String> {
        if !xyz && !words.iter().any(|word| word.contains('.')) {
            return words.iter().map(|word| serial(word)).collect::<Result<_, _>>().map(Of::Atoms);
        }
        let place: Vec<i32> = words.iter().map(|word| thousandths(word)).collect::<Result<_, _>>()?;
        let three = place.try_into().map_err(|_| "a place is three coordinates, x, y and z; serials have no point")?;
        Ok(Of::Place(three))
    }
}

/// Tells the fractional places of atoms, or of three coordinates, in an entry.
pub fn run(file: &Path, of: &Of, out: &mut Console) -> Result<Status, Problem> {
    let input = input::read(file)?;
    let scale = scale(&input.text).map_err(|refusal| explained(&input, refusal))?;
    match of {
        Of::Atoms(serials) => atoms(&input, &scale, serials, out),
        Of::Place(at) => {
            let row =
                [at.map(|coordinate| Thousandths::of(coordinate).to_string()).to_vec(), told(&input, &scale, *at)?];
            show(&["x", "y", "z"], &[row.concat()], out)?;
            Ok(Status::Done)
        }
    }
}

/// A refusal of an entry, in the words of the check, or of an accepted entry that has no SCALE lines.
fn explained(input: &Input, refusal: Refusal) -> Problem {
    match Entry::accept(&input.text) {
        Err(verdict) => not_accepted(input, &verdict),
        Ok(_) => refused(input, refusal),
    }
}

/// Tells the places of those atoms that are there, and then which are not.
fn atoms(input: &Input, scale: &Scale, serials: &[u32], out: &mut Console) -> Result<Status, Problem> {
    let (mut rows, mut missing) = (Vec::new(), Vec::new());
    for &serial in serials {
        let jump = Jump::to(&input.text, serial);
        match jump.piece(&input.text).and_then(slot) {
            Some(slot) => {
                let atom = vec![slot.serial.to_string(), trimmed(&slot.name)];
                rows.push([atom, told(input, scale, [slot.x, slot.y, slot.z])?].concat());
            }
            None => missing.push(nowhere(&input.name, serial, &jump)),
        }
    }
    if !rows.is_empty() {
        show(&["serial", "name"], &rows, out)?;
    }
    missing.iter().try_for_each(|words| out.say_line(words))?;
    Ok(if missing.is_empty() { Status::Done } else { Status::Refused })
}

/// The slot of the line that a jump has found.
fn slot(piece: &[u8]) -> Option<Slot> {
    Line::slot_of(piece.get(..80)?).ok()
}

/// A fractional place as a person writes it: exact, then rounded.
fn told(input: &Input, scale: &Scale, at: [i32; 3]) -> Result<Vec<String>, Problem> {
    let Fractional { exact, rounded } = scale.place(at).map_err(|refusal| refused(input, refusal))?;
    Ok([exact.map(|place| place.to_string()), rounded.map(|place| place.to_string())].concat())
}

/// Shows rows of places below a heading.
fn show(of: &[&str], rows: &[Vec<String>], out: &mut Console) -> Result<(), Problem> {
    let places = ["fractional x", "fractional y", "fractional z", "rounded x", "rounded y", "rounded z"];
    let heading = [of, &places].concat().into_iter().map(str::to_owned).collect();
    aligned(&[&[heading], rows].concat()).iter().try_for_each(|line| out.say_line(line))
}

#[cfg(test)]
mod tests {
    use super::*;

    fn asked(words: &str, xyz: bool) -> Result<Of, String> {
        Of::parse(&words.split(' ').map(str::to_owned).collect::<Vec<_>>(), xyz)
    }

    #[test]
    fn serials_and_coordinates_are_told_apart() {
        assert_eq!(asked("1179", false), Ok(Of::Atoms(vec![1_179])));
        assert_eq!(asked("1 2 3", false), Ok(Of::Atoms(vec![1, 2, 3])));
        assert_eq!(asked("1 2 3", true), Ok(Of::Place([1_000, 2_000, 3_000])));
        assert_eq!(asked("1.0 2 -3", false), Ok(Of::Place([1_000, 2_000, -3_000])));
        assert_eq!(asked("-0.5 0.007 9999.999", false), Ok(Of::Place([-500, 7, 9_999_999])));
    }

    #[test]
    fn what_is_neither() {
        for (words, xyz, due) in [
            ("1 -2 3", false, "\"-2\" is no serial"),
            ("0", false, "no atom can have the serial 0"),
            ("1.5", false, "a place is three coordinates"),
            ("1.5 2.5", false, "a place is three coordinates"),
            ("1 2 3 4", true, "a place is three coordinates"),
            ("1.5 2.5 3.5 4.5", false, "a place is three coordinates"),
            ("1.5 2.5 3.5555", false, "\"3.5555\" is no coordinate"),
            ("1 x 3", true, "\"x\" is no coordinate"),
        ] {
            let words = asked(words, xyz).expect_err("no place and no serials");
            assert!(words.starts_with(due), "{words}");
        }
    }
}
