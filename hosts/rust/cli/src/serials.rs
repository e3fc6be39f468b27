//! Which line a serial fell behind, in words.

use station::{piece, pieces};

use crate::models;
use crate::words::trimmed;

/// Why the serial of a line does not rise: the coordinate line before it, in the same model, has this one or a higher.
pub fn why(text: &[u8], line: u64) -> Option<String> {
    let own = trimmed(piece(text, line)?.get(6..11)?);
    let first = models::first_line(text, line);
    let above = (1..line).zip(pieces(text)).skip(usize::try_from(first).ok()? - 1);
    let (number, before) = above.filter(|(_, piece)| models::is_coordinate(piece)).last()?;
    let last = trimmed(before.get(6..11)?);
    Some(match last.parse::<u32>().ok()? {
        99_999 => format!("the serial is {own}, and line {number} has 99999, which no serial is above"),
        last => format!("the serial is {own}, and line {number} has {last}; {} or more is due", last + 1),
    })
}

#[cfg(test)]
mod tests {
    use super::*;
    use crate::words::tests::refused;
    use station::Refusal;

    fn water(serial: u32, number: u32) -> String {
        format!("HETATM{serial:5}  O   HOH A{number:4}       1.000   2.000   3.000  1.00  0.00           O")
    }

    fn words(lines: &[&str]) -> String {
        let (text, line) = refused(lines, Refusal::SERIAL);
        why(&text, line).expect("words")
    }

    #[test]
    fn the_line_before_is_named() {
        let [five, again, last] = [water(5, 1), water(5, 2), water(99_999, 3)];
        assert_eq!(words(&["HEADER", &five, &again]), "the serial is 5, and line 2 has 5; 6 or more is due");
        assert_eq!(words(&["HEADER", &last, &five]), "the serial is 5, and line 2 has 99999, which no serial is above");
        let models = ["HEADER", "MODEL        1", &last, "ENDMDL", "MODEL        2", &five, &again];
        assert_eq!(words(&models), "the serial is 5, and line 6 has 5; 6 or more is due");
    }
}
