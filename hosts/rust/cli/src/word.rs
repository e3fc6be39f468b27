//! Words that choose fragments: what they are called, and which fragments fit.

use std::fmt;

use station::{Fragment, Kind, Slot};

/// A word of a list. It chooses whole fragments: those of which every residue fits.
#[derive(Clone, Debug, PartialEq, Eq)]
pub enum Word {
    /// A residue name, as its columns have it.
    Name([u8; 3]),
    Waters,
    Ligands,
    Chain(u8),
    Residue {
        chain: u8,
        number: i32,
        insertion: u8,
    },
}

/// What waters are called.
const WATERS: [&[u8; 3]; 4] = [b"HOH", b"DOD", b"WAT", b"H2O"];

/// Whether a line is one of a water, by its residue name.
pub fn is_water(slot: &Slot) -> bool {
    WATERS.contains(&&slot.residue)
}

impl Word {
    /// Reads a word.
    pub fn parse(text: &str) -> Option<Word> {
        match text.split_once(':') {
            None if text == "waters" => Some(Word::Waters),
            None if text == "ligands" => Some(Word::Ligands),
            // Digits alone are the number of a fragment.
            None if text.bytes().all(|byte| byte.is_ascii_digit()) => None,
            None => name(text).map(Word::Name),
            Some(("name", text)) => name(text).map(Word::Name),
            Some(("chain", text)) => chain(text).map(Word::Chain),
            Some(("residue", text)) => residue(text),
            Some(_) => None,
        }
    }

    /// The words that choose a fragment.
    pub fn of(fragment: &Fragment) -> Vec<Word> {
        let Some(&Slot { residue, chain, number, insertion, .. }) = fragment.slots.first() else {
            return Vec::new();
        };
        let residue_itself = Word::Residue { chain, number, insertion };
        let words = [Word::Name(residue), Word::Waters, Word::Ligands, Word::Chain(chain), residue_itself];
        words.into_iter().filter(|word| word.chooses(fragment)).collect()
    }

    /// Whether the word chooses a fragment.
    pub fn chooses(&self, fragment: &Fragment) -> bool {
        let is_water = *self == Word::Ligands && Word::Waters.chooses(fragment);
        !is_water && fragment.slots.iter().all(|slot| self.fits(slot))
    }

    /// Whether a fragment has what the word names, but other residues too.
    pub fn is_part_of(&self, fragment: &Fragment) -> bool {
        !self.chooses(fragment) && fragment.slots.iter().any(|slot| self.fits(slot))
    }

    /// Whether there may be none of it: an entry without waters is like any other.
    pub fn may_be_missing(&self) -> bool {
        matches!(self, Word::Waters | Word::Ligands)
    }

    /// Whether a line by itself fits.
    fn fits(&self, slot: &Slot) -> bool {
        match *self {
            Word::Name(name) => slot.residue == name,
            Word::Waters => is_water(slot),
            // A run has an ATOM and its TER.
            Word::Ligands => slot.kind() == Some(Kind::Hetatm),
            Word::Chain(chain) => slot.chain == chain,
            Word::Residue { chain, number, insertion } => {
                (slot.chain, slot.number, slot.insertion) == (chain, number, insertion)
            }
        }
    }
}

impl fmt::Display for Word {
    fn fmt(&self, f: &mut fmt::Formatter<'_>) -> fmt::Result {
        match self {
            Word::Name(columns) => {
                let name: String = columns.iter().map(|&byte| char::from(byte)).collect();
                let name = name.trim_start();
                let numeric = name.bytes().all(|byte| byte.is_ascii_digit());
                write!(f, "{}{name}", if numeric { "name:" } else { "" })
            }
            Word::Waters => f.write_str("waters"),
            Word::Ligands => f.write_str("ligands"),
            Word::Chain(chain) => write!(f, "chain:{}", char::from(*chain)),
            Word::Residue { chain, number, insertion } => {
                write!(f, "residue:{}:{number}", char::from(*chain))?;
                match insertion {
                    b' ' => Ok(()),
                    _ => write!(f, "{}", char::from(*insertion)),
                }
            }
        }
    }
}

/// A residue name, with the blanks on its left.
fn name(text: &str) -> Option<[u8; 3]> {
    let right =
        (1..=3).contains(&text.len()) && text.bytes().all(|byte| byte.is_ascii_uppercase() || byte.is_ascii_digit());
    right.then(|| format!("{text:>3}").into_bytes().try_into().ok()).flatten()
}

fn chain(text: &str) -> Option<u8> {
    match text.as_bytes() {
        [chain] if chain.is_ascii_alphanumeric() => Some(*chain),
        _ => None,
    }
}

/// A residue by its chain, its number and its insertion code: `B:7`, `B:-3`, `B:7A`.
fn residue(text: &str) -> Option<Word> {
    let (chain, number) = text.split_once(':')?;
    let (number, insertion) = match number.as_bytes().last()? {
        last if last.is_ascii_uppercase() => (&number[..number.len() - 1], *last),
        _ => (number, b' '),
    };
    let digits = number.strip_prefix('-').unwrap_or(number);
    let right = !digits.is_empty() && digits.bytes().all(|byte| byte.is_ascii_digit());
    let number = right.then(|| number.parse().ok()).flatten().filter(|number| (-999..=9_999).contains(number))?;
    Some(Word::Residue { chain: self::chain(chain)?, number, insertion })
}

#[cfg(test)]
mod tests {
    use super::*;
    use station::FragmentNumber;

    fn slot(kind: u8, residue: &[u8; 3], chain: u8, number: i32) -> Slot {
        Slot { residue: *residue, chain, number, insertion: b' ', kind, ..Slot::default() }
    }

    fn words(slots: &[Slot]) -> String {
        let words = Word::of(&Fragment { number: FragmentNumber(1), slots });
        words.iter().map(Word::to_string).collect::<Vec<String>>().join(" ")
    }

    const ATOM: u8 = 1;
    const HETATM: u8 = 2;
    const TER: u8 = 3;

    #[test]
    fn words_are_read_as_they_are_shown() {
        for word in
            ["HOH", "A", "2MG", "name:017", "waters", "ligands", "chain:B", "chain:0", "residue:B:7", "residue:0:-3A"]
        {
            assert_eq!(Word::parse(word).map(|word| word.to_string()).as_deref(), Some(word));
        }
        assert_eq!(Word::parse("name:HOH"), Word::parse("HOH"));
        assert_eq!(Word::parse("residue:B:007"), Word::parse("residue:B:7"));
    }

    #[test]
    fn no_words() {
        for word in [
            "",
            "hoh",
            "HOHO",
            "017",
            "Waters",
            "name:",
            "chain:",
            "chain:AB",
            "chain:_",
            "residue:B",
            "residue:B:",
            "residue:B:A",
            "residue:B:-",
            "residue:B:+7",
            "residue:B:7a",
            "residue:B:7AB",
            "residue:BB:7",
            "residue:B:10000",
            "residue:B:-1000",
            "water:B",
            ":",
            "é",
        ] {
            assert_eq!(Word::parse(word), None, "{word}");
        }
    }

    #[test]
    fn words_of_fragments() {
        assert_eq!(words(&[slot(HETATM, b"HOH", b'A', 301)]), "HOH waters chain:A residue:A:301");
        assert_eq!(words(&[slot(HETATM, b" ZN", b'b', -3)]), "ZN ligands chain:b residue:b:-3");
        assert_eq!(words(&[slot(HETATM, b"017", b'A', 1)]), "name:017 ligands chain:A residue:A:1");
        let run = [slot(ATOM, b"ALA", b'A', 1), slot(HETATM, b"MSE", b'A', 2), slot(TER, b"MSE", b'A', 2)];
        assert_eq!(words(&run), "chain:A");
        assert_eq!(words(&[slot(ATOM, b"HOH", b'W', 1), slot(TER, b"HOH", b'W', 1)]), "HOH waters chain:W residue:W:1");
        let run = Fragment { number: FragmentNumber(1), slots: &run };
        assert!(Word::parse("MSE").is_some_and(|word| word.is_part_of(&run) && !word.chooses(&run)));
        assert!(Word::parse("chain:A").is_some_and(|word| !word.is_part_of(&run)));
    }
}
