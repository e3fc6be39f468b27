//! Which helix or strand was due, in words.

use station::{piece, pieces};

use crate::words::trimmed;

/// A strand as its line names it.
#[derive(PartialEq)]
struct Strand {
    strand: u32,
    strands: u32,
    identifier: String,
}

impl Strand {
    fn of(piece: &[u8]) -> Option<Strand> {
        let number = |columns: std::ops::Range<usize>| trimmed(piece.get(columns)?).parse().ok();
        let identifier = trimmed(piece.get(11..14)?);
        Some(Strand { strand: number(7..10)?, strands: number(14..16)?, identifier })
    }

    fn words(&self) -> String {
        format!("strand {} of {} of sheet {}", self.strand, self.strands, self.identifier)
    }
}

/// Why a line breaks the sequence of helices or strands.
pub fn why(text: &[u8], line: u64) -> Option<String> {
    let own = piece(text, line)?;
    let last = (1..line).zip(pieces(text)).filter(|(_, piece)| piece.starts_with(b"SHEET ")).last();
    let is_strand = own.starts_with(b"SHEET ");
    match last.and_then(|(number, piece)| Some((number, Strand::of(piece)?))) {
        Some((number, last)) if last.strand < last.strands => {
            let due = Strand { strand: last.strand + 1, ..last }.words();
            let is = if is_strand { format!(", and this is {}", Strand::of(own)?.words()) } else { String::new() };
            Some(format!("{due} was due after line {number}{is}"))
        }
        last if is_strand => {
            let own = Strand::of(own)?;
            Some(match last {
                Some((number, last)) if own.strand == 1 => {
                    format!("sheet {} ends with line {number}; the next has another identifier", last.identifier)
                }
                _ => format!("strand 1 of a sheet was due, and this is {}", own.words()),
            })
        }
        _ => {
            let due = (1..line).zip(pieces(text)).filter(|(_, piece)| piece.starts_with(b"HELIX ")).count() + 1;
            Some(format!("helix {due} was due, and this is {}", trimmed(own.get(7..10)?)))
        }
    }
}

#[cfg(test)]
mod tests {
    use super::*;
    use crate::words::tests::refused;
    use station::Refusal;

    fn strand(strand: u32, strands: u32, identifier: &str) -> String {
        let sense = if strand == 1 { 0 } else { 1 };
        format!("SHEET  {strand:3} {identifier:>3}{strands:2} ALA A   1  ALA A   5 {sense:2}")
    }

    fn helix(serial: u32) -> String {
        format!("HELIX  {serial:3}   A ALA A    1  ALA A    5  1{:31}    5", "")
    }

    fn words(lines: &[&str]) -> String {
        let (text, line) = refused(&[&["HEADER"], lines].concat(), Refusal::SEQUENCE);
        why(&text, line).expect("words")
    }

    #[test]
    fn the_strand_that_was_due() {
        let first = strand(1, 3, "A");
        let due = "strand 2 of 3 of sheet A was due after line 2";
        assert_eq!(words(&[&first, "CRYST1"]), due);
        for (strand, is) in [
            (strand(3, 3, "A"), "strand 3 of 3 of sheet A"),
            (strand(2, 4, "A"), "strand 2 of 4 of sheet A"),
            (strand(2, 3, "B"), "strand 2 of 3 of sheet B"),
        ] {
            assert_eq!(words(&[&first, &strand]), format!("{due}, and this is {is}"));
        }
        assert_eq!(words(&[&strand(2, 2, "A")]), "strand 1 of a sheet was due, and this is strand 2 of 2 of sheet A");
        let whole = strand(1, 1, "A");
        assert_eq!(words(&[&whole, &strand(2, 2, "B")])[..25], *"strand 1 of a sheet was d");
        assert_eq!(words(&[&whole, &whole]), "sheet A ends with line 2; the next has another identifier");
    }

    #[test]
    fn the_helix_that_was_due() {
        assert_eq!(words(&[&helix(2)]), "helix 1 was due, and this is 2");
        assert_eq!(words(&[&helix(1), &helix(1)]), "helix 2 was due, and this is 1");
    }
}
