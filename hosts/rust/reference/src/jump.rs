//! The jump: the line of an atom, by its serial.

use crate::check::pieces;
use crate::reading::read_line;
use crate::record::Record;
use crate::Serial;

/// What a jump answers.
#[derive(Clone, Copy, Debug, PartialEq, Eq)]
pub struct Jump {
    /// The line of the atom, 0 if there is none.
    pub line: u64,
    /// How many lines were looked at.
    pub looked: u64,
}

/// Finds the first line of an atom with this serial. The text need not be an entry.
pub fn find(text: &[u8], serial: Serial) -> Jump {
    let whole: Vec<&[u8]> = pieces(text).filter(|piece| piece.len() == 81).collect();
    match whole.iter().position(|piece| serial_of(piece) == Some(serial)) {
        Some(above) => {
            let line = above as u64 + 1;
            Jump { line, looked: line }
        }
        None => Jump { line: 0, looked: whole.len() as u64 },
    }
}

/// The serial of a whole line that ends in its newline and reads by itself as an atom.
fn serial_of(piece: &[u8]) -> Option<Serial> {
    match read_line(piece.strip_suffix(b"\n")?) {
        Ok(Record::Atom(atom) | Record::Hetatm(atom)) => Some(atom.serial),
        _ => None,
    }
}

#[cfg(test)]
mod tests {
    use super::*;
    use crate::samples::*;

    /// Line and lines looked at.
    fn answer(text: &[u8], serial: u32) -> (u64, u64) {
        let jump = find(text, Serial(serial));
        (jump.line, jump.looked)
    }

    /// HEADER, ATOM 5, TER 6, HETATM 8, ATOM 5 again, and 20 bytes of a further line.
    fn worked() -> Vec<u8> {
        let atom_5 = atom("ATOM", 5, 'A', 1);
        let mut text = text(&[line("HEADER"), atom_5, ter(6, 'A', 1), atom("HETATM", 8, 'B', 7), atom_5]);
        text.extend_from_slice(&atom_5[..20]);
        text
    }

    #[test]
    fn the_worked_example() {
        let mut text = worked();
        assert_eq!(answer(&text, 5), (2, 2));
        assert_eq!(answer(&text, 8), (4, 4));
        assert_eq!(answer(&text, 6), (0, 5));
        assert_eq!(answer(&text, 0), (0, 5));
        text[81 + 80] = b' ';
        assert_eq!(answer(&text, 5), (5, 5));
    }

    #[test]
    fn serials_that_stand_on_no_line() {
        for serial in [0, 1, 50, 99_999, 100_000, 100_005, u32::MAX] {
            assert_eq!(answer(&worked(), serial), (0, 5));
        }
        assert_eq!(answer(&three_fragments(&["CONECT    3    4"])[3 * 81..], 1), (0, 5));
        assert_eq!(answer(&arginine_entry(), 33), (0, 5));
        let last = text(&[changed(ARGININE, 7, b"99999")]);
        assert_eq!((answer(&last, 99_999), answer(&last, 199_999)), ((1, 1), (0, 1)));
    }

    #[test]
    fn lines_that_do_not_read_are_passed_over_and_counted() {
        for (column, bytes) in
            [(1, &b"ANISOU"[..]), (1, b"REMARK"), (30, b"x"), (55, b"  1.01"), (40, b"\n"), (80, b"+")]
        {
            let wrong = changed(ARGININE, column, bytes);
            assert_eq!(answer(&text(&[wrong, wrong]), 32), (0, 2), "column {column}");
            assert_eq!(answer(&text(&[wrong, wrong, *ARGININE, *ARGININE]), 32), (3, 3), "column {column}");
        }
    }

    #[test]
    fn whole_pieces_alone() {
        assert_eq!(answer(b"", 32), (0, 0));
        assert_eq!(answer(ARGININE, 32), (0, 0));
        assert_eq!(answer(&text(&[*ARGININE, *ARGININE])[..161], 32), (1, 1));
        assert_eq!(answer(&text(&[line("HEADER"), *ARGININE])[..161], 32), (0, 1));
        assert_eq!(answer(&text(&[line("HEADER"), *ARGININE])[1..], 32), (0, 1));
        assert_eq!(answer(&[0; 200], 32), (0, 2));
    }
}
