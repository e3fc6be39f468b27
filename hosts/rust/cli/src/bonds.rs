//! Why a CONECT line is refused, in words.

use station::{piece, pieces};

use crate::words::trimmed;

/// The columns of the numbers: the atom, then its partners.
fn numbers(piece: &[u8]) -> impl Iterator<Item = &[u8]> {
    piece.get(6..31).unwrap_or_default().chunks(5).filter(|columns| *columns != b"     ")
}

/// Why a CONECT line may not stand: its atom is below the one before, or some of its numbers are no atom's.
pub fn why(text: &[u8], line: u64) -> Option<String> {
    let own = piece(text, line)?;
    let mut words: Vec<String> = falls(text, line).into_iter().collect();
    let mut told: Vec<&[u8]> = Vec::new();
    for columns in numbers(own) {
        if !told.contains(&columns) {
            told.push(columns);
            words.extend(no_atom(text, line, columns));
        }
    }
    (!words.is_empty()).then(|| words.join("\n  "))
}

/// The CONECT before has a higher atom.
fn falls(text: &[u8], line: u64) -> Option<String> {
    let atom = |piece: &[u8]| trimmed(numbers(piece).next()?).parse::<u32>().ok();
    let own = atom(piece(text, line)?)?;
    let (number, before) = (1..line).zip(pieces(text)).filter(|(_, piece)| piece.starts_with(b"CONECT")).last()?;
    let last = atom(before)?;
    (own < last).then(|| format!("its atom is {own}, and line {number} has {last}; CONECT lines do not go back"))
}

/// Nothing if a number is an atom's; otherwise whose it is. Serials and these numbers fill their columns alike.
fn no_atom(text: &[u8], line: u64, columns: &[u8]) -> Option<String> {
    let mut ter = None;
    for (number, piece) in (1..line).zip(pieces(text)).filter(|(_, piece)| piece.get(6..11) == Some(columns)) {
        if piece.starts_with(b"ATOM  ") || piece.starts_with(b"HETATM") {
            return None;
        }
        if piece.starts_with(b"TER   ") {
            ter.get_or_insert(number);
        }
    }
    let serial = trimmed(columns);
    Some(match ter {
        Some(ter) => format!("{serial} is the serial of a TER, line {ter}, and of no atom"),
        None => format!("{serial} is the serial of no atom"),
    })
}

#[cfg(test)]
mod tests {
    use super::*;
    use crate::words::tests::refused;
    use station::Refusal;

    const LINES: [&str; 4] = [
        "HEADER",
        "ATOM      1  C   ALA A   1       1.000   2.000   3.000  1.00  0.00           C",
        "TER       2      ALA A   1",
        "HETATM    3  O   HOH A   7       1.000   2.000   3.000  1.00  0.00           O",
    ];

    fn words(bonds: &[&str]) -> String {
        let (text, line) = refused(&[&LINES[..], bonds].concat(), Refusal::BOND);
        why(&text, line).expect("words")
    }

    #[test]
    fn each_number_is_looked_for() {
        assert_eq!(words(&["CONECT    1    2"]), "2 is the serial of a TER, line 3, and of no atom");
        assert_eq!(words(&["CONECT    9    1"]), "9 is the serial of no atom");
        assert_eq!(words(&["CONECT    1    3   77    3   77"]), "77 is the serial of no atom");
        assert_eq!(
            words(&["CONECT    3    1", "CONECT    1    3"]),
            "its atom is 1, and line 5 has 3; CONECT lines do not go back"
        );
        assert_eq!(
            words(&["CONECT    3    1", "CONECT    1    4    2"]),
            "its atom is 1, and line 5 has 3; CONECT lines do not go back\n  4 is the serial of no atom\n  \
             2 is the serial of a TER, line 3, and of no atom"
        );
    }
}
