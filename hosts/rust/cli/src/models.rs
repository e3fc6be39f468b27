//! Models in words: how many there are, and why a line is refused by them.

use station::{piece, pieces};

use crate::words::trimmed;

const MODEL: &[u8] = b"MODEL ";
const ENDMDL: &[u8] = b"ENDMDL";
const COORDINATES: [&[u8]; 3] = [b"ATOM  ", b"HETATM", b"TER   "];

/// Whether a model begins with a line.
pub fn begins(line: &[u8]) -> bool {
    line.starts_with(MODEL)
}

/// How many models a text has.
pub fn count(text: &[u8]) -> u64 {
    pieces(text).filter(|piece| begins(piece)).count() as u64
}

/// The first line that a line may be held against where models begin afresh: behind the last MODEL above it.
pub fn first_line(text: &[u8], line: u64) -> u64 {
    Above::of(text, line).last.map_or(1, |model| model + 1)
}

/// What stands above a line.
#[derive(Default)]
pub struct Above {
    /// The last MODEL line, and how many there are.
    last: Option<u64>,
    count: u64,
    /// The MODEL line of a model that is not over.
    open: Option<u64>,
    /// The first coordinate line above all models.
    bare: Option<u64>,
}

impl Above {
    pub fn of(text: &[u8], line: u64) -> Above {
        let mut above = Above::default();
        for (number, piece) in (1..line).zip(pieces(text)) {
            if begins(piece) {
                above.last = Some(number);
                above.open = above.last;
                above.count += 1;
            } else if piece.starts_with(ENDMDL) {
                above.open = None;
            } else if above.last.is_none() && is_coordinate(piece) {
                above.bare.get_or_insert(number);
            }
        }
        above
    }

    /// Whether a line of this name may stand here as far as models go.
    pub fn allows(&self, name: &[u8]) -> bool {
        let (begins, ends) = (begins(name), name.starts_with(ENDMDL));
        match self.open {
            Some(_) => ends || is_coordinate(name),
            None if self.last.is_some() => !ends && !is_coordinate(name),
            None => !ends && (!begins || self.bare.is_none()),
        }
    }
}

/// Whether a line is an ATOM, HETATM or TER.
pub fn is_coordinate(piece: &[u8]) -> bool {
    COORDINATES.iter().any(|name| piece.starts_with(name))
}

/// Why a line is out of place, if models are why.
pub fn place(text: &[u8], line: u64) -> Option<String> {
    let own = piece(text, line)?;
    let above = Above::of(text, line);
    let (begins, ends) = (begins(own), own.starts_with(ENDMDL));
    match above {
        Above { open: Some(model), .. } if begins => {
            Some(format!("the model that begins at line {model} is not over; its ENDMDL is missing above"))
        }
        Above { open: Some(model), .. } => {
            Some(format!("it stands in the model that begins at line {model}, which has to end with ENDMDL first"))
        }
        Above { bare: Some(bare), .. } if begins => Some(format!(
            "line {bare} stands in no model; an entry has all its ATOM, HETATM and TER lines in models, or none"
        )),
        _ if ends => Some("there is no MODEL that it ends".to_owned()),
        Above { last: Some(model), .. } if is_coordinate(own) => Some(format!(
            "it stands behind the model that begins at line {model}; with models, no such line stands outside"
        )),
        _ => None,
    }
}

/// Which number a MODEL line has, and which it should have.
pub fn number(text: &[u8], line: u64) -> Option<String> {
    let own = trimmed(piece(text, line)?.get(10..14)?);
    let due = Above::of(text, line).count + 1;
    Some(format!("the number is {own}, and this is model {due}"))
}

#[cfg(test)]
mod tests {
    use super::*;

    const ATOM: &str = "HETATM    1  O   HOH A   7";

    fn text(lines: &[&str]) -> Vec<u8> {
        lines.iter().map(|line| format!("{line:80}\n")).collect::<String>().into_bytes()
    }

    /// The words for the last of some lines.
    fn words(lines: &[&str]) -> String {
        place(&text(lines), lines.len() as u64).unwrap_or_default()
    }

    #[test]
    fn places_are_explained() {
        let (one, two) = ("MODEL        1", "MODEL        2");
        assert!(words(&["HEADER", one, ATOM, two]).starts_with("the model that begins at line 2 is not over"));
        assert!(words(&["HEADER", one, "REMARK"]).starts_with("it stands in the model that begins at line 2"));
        assert!(words(&["HEADER", one, "MASTER"]).starts_with("it stands in the model that begins at line 2"));
        assert!(words(&["HEADER", ATOM, one]).starts_with("line 2 stands in no model"));
        assert_eq!(words(&["HEADER", "ENDMDL"]), "there is no MODEL that it ends");
        assert_eq!(words(&["HEADER", one, "ENDMDL", "ENDMDL"]), "there is no MODEL that it ends");
        assert!(words(&["HEADER", one, "ENDMDL", ATOM]).starts_with("it stands behind the model that begins at line 2"));
        for other in [&["HEADER", "HEADER"][..], &["HEADER", one, "ENDMDL", "REMARK"], &["HEADER", "CONECT", one]] {
            assert_eq!(words(other), "", "{other:?}");
        }
    }

    #[test]
    fn numbers_are_explained() {
        let lines = ["HEADER", "MODEL        1", "ENDMDL", "MODEL        1"];
        assert_eq!(number(&text(&lines), 4).as_deref(), Some("the number is 1, and this is model 2"));
        assert_eq!((count(&text(&lines)), first_line(&text(&lines), 4), first_line(&text(&lines), 2)), (2, 3, 1));
        assert_eq!(number(&text(&lines)[..3 * 81 + 12], 4), None);
    }
}
