//! Which line above has the same atom as one that is refused for it, in words.

use station::{piece, pieces};

use crate::models;
use crate::words::{shown, trimmed};

/// Where the six fields stand that two lines may not share: atom name, alternate location and residue name, then chain,
/// residue number and insertion code.
const NAMES: std::ops::Range<usize> = 12..20;
const PLACE: std::ops::Range<usize> = 21..27;

/// The six fields of a line that has an atom.
fn label(piece: &[u8]) -> Option<(&[u8], &[u8])> {
    let has_atom = piece.starts_with(b"ATOM  ") || piece.starts_with(b"HETATM");
    has_atom.then_some((piece.get(NAMES)?, piece.get(PLACE)?))
}

/// The first line of the same model with the atom of a later one: its number, the atom, and the line itself. The later one is refused, so
/// its own number is told already.
pub fn above(text: &[u8], line: u64) -> Option<String> {
    let refused = usize::try_from(line.checked_sub(1)?).ok()?;
    let label = piece(text, line).and_then(label)?;
    let first = usize::try_from(models::first_line(text, line)).ok()? - 1;
    let mut above = pieces(text).take(refused).enumerate().skip(first);
    let (index, piece) = above.find(|(_, piece)| self::label(piece) == Some(label))?;
    Some(format!("line {} has the same atom, {}:\n  |{}|", index + 1, atom(label), shown(piece)))
}

/// An atom in words: `CA of ARG A 15`, and its alternate location if it has one.
fn atom((names, place): (&[u8], &[u8])) -> String {
    let [name, alternate, residue] = [&names[..4], &names[4..5], &names[5..]].map(trimmed);
    let [chain, number] = [&place[..1], &place[1..]].map(trimmed);
    let atom = format!("{name} of {residue} {chain} {number}");
    if alternate.is_empty() {
        atom
    } else {
        format!("{atom}, alternate location {alternate}")
    }
}

#[cfg(test)]
mod tests {
    use super::*;

    fn text(lines: &[&str]) -> Vec<u8> {
        lines.iter().map(|line| format!("{line:80}\n")).collect::<String>().into_bytes()
    }

    #[test]
    fn the_line_above_is_the_first_of_all_six_fields() {
        let refused = "HETATM   90  CA AARG A  15B";
        for other in [
            "ATOM     12  CB AARG A  15B",
            "ATOM     12 CA  AARG A  15B",
            "ATOM     12  CA  ARG A  15B",
            "ATOM     12  CA ALYS A  15B",
            "ATOM     12  CA AARG a  15B",
            "ATOM     12  CA AARG A   1B",
            "ATOM     12  CA AARG A  15 ",
            "TER      12  CA AARG A  15B",
            "ATOM     12  CA AARG",
        ] {
            let twin = "ATOM     13  CA AARG A  15B      11.281";
            let words = above(&text(&["HEADER", other, twin, twin, refused]), 5).expect("a line above");
            let expected = "line 3 has the same atom, CA of ARG A 15B, alternate location A:\n  |ATOM     13  CA AARG";
            assert!(words.starts_with(expected), "{other}: {words}");
            assert_eq!(above(&text(&["HEADER", other, refused, refused]), 3), None, "{other}");
        }
    }

    #[test]
    fn models_begin_afresh() {
        let twin = "HETATM    1  O   HOH A   7";
        let lines = ["HEADER", "MODEL        1", twin, "ENDMDL", "MODEL        2", twin, twin];
        assert!(above(&text(&lines), 7).is_some_and(|words| words.starts_with("line 6 has the same atom")));
        assert_eq!(above(&text(&lines), 6), None);
    }

    #[test]
    fn what_a_line_may_lack() {
        let twin = "HETATM    1  O    U0 9  -3";
        let words = above(&text(&["HEADER", twin, twin]), 3).expect("a line above");
        assert!(words.starts_with("line 2 has the same atom, O of U0 9 -3:\n"), "{words}");
        for (lines, line) in [(&["HEADER", twin][..], 0), (&["HEADER", twin], 9), (&["HEADER", "TER"], 2), (&[], 1)] {
            assert_eq!(above(&text(lines), line), None);
        }
        assert_eq!(above(&text(&[twin])[..20], 1), None);
    }
}
