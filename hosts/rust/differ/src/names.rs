//! Names of atoms with their elements: right ones, and those that are nearly right. Nothing here comes from the reference.

use crate::chance::Chance;
use crate::entry::{named, put, Columns, ATOMS};

/// A name, columns 13-16 of its line, and an element, columns 77-78.
pub type Named = ([u8; 4], [u8; 2]);

/// Elements of good atoms; single lines try every pair of letters.
const ELEMENTS: [&[u8; 2]; 16] =
    [b" C", b" N", b" O", b" H", b" D", b" S", b" P", b"CA", b"FE", b"ZN", b"NA", b"CL", b"OG", b" U", b"HG", b" K"];

/// What may follow an element that stands in its own columns.
const ENDS: [&[u8; 2]; 8] = [b"  ", b"A ", b"1 ", b"' ", b"* ", b"B1", b"H1", b"''"];

/// Elements of one letter; hydrogens are those that have names of four columns.
const LETTERS: &[u8] = b"HHHHHHDDCNOSPFIKUVWYB";

const TWO_LETTERS: [&[u8; 2]; 7] = [b"CA", b"FE", b"ZN", b"HG", b"HE", b"OG", b"CD"];

/// Name characters: the ends of their ranges, and letters that elements have.
const NAME: &[u8] = b"AAEGHHZ00129'*";

/// Bytes that are no name characters; those next to the ranges are among them.
const STRANGE: &[u8] = b"!\"#&()+,-./:;@[^_`{~";

/// How a name stands that begins in column 13, or would.
#[derive(Clone, Copy, Debug, PartialEq, Eq, PartialOrd, Ord)]
pub enum Form {
    /// Four name characters, the first an element of one letter. Right.
    Filled,
    /// Four name characters, the first two an element. Right.
    FilledOfTwo,
    /// An element of one letter and two name characters.
    Three,
    /// As `Filled`, but for a blank in column 14 or 15.
    Gap,
    /// As `Filled`, but for this column, which has no name character.
    Strange(u8),
    /// As `Filled`, but for one column that has a small letter.
    Lower,
    /// Four name characters, the first not the element's letter.
    Other,
    /// Four name characters, the first that of an element of two letters, and the second another than its second.
    HalfOfTwo,
}

use Form::*;

/// What is wrong by its name alone.
const NEARLY: [Form; 8] = [Three, Gap, Strange(14), Strange(15), Strange(16), Lower, Other, HalfOfTwo];

impl Form {
    /// All forms.
    pub const ALL: [Form; 10] =
        [Filled, FilledOfTwo, Three, Gap, Strange(14), Strange(15), Strange(16), Lower, Other, HalfOfTwo];

    /// Whether such a name is right.
    pub fn right(self) -> bool {
        matches!(self, Filled | FilledOfTwo)
    }

    /// The form of a name with its element, if it is one of these.
    pub fn of((name, element): Named) -> Option<Form> {
        let filled = name.iter().all(|&byte| name_character(byte));
        match element {
            [b' ', letter] => of_one_letter(name, letter),
            [first, second] if filled && name[0] == first => {
                Some(if name[1] == second { FilledOfTwo } else { HalfOfTwo })
            }
            _ => None,
        }
    }

    /// The form of the name in an ATOM or HETATM line.
    pub fn of_line(line: &[u8]) -> Option<Form> {
        let columns: &Columns = line.try_into().ok().filter(|_| named(line, ATOMS))?;
        Form::of((std::array::from_fn(|at| columns[12 + at]), [columns[76], columns[77]]))
    }

    /// A name of this form, with its element.
    pub fn made(self, chance: &mut Chance) -> Named {
        let letter = *chance.pick(LETTERS);
        let two = **chance.pick(&TWO_LETTERS);
        let mut name = [letter, *chance.pick(NAME), *chance.pick(NAME), *chance.pick(NAME)];
        match self {
            Filled => {}
            FilledOfTwo => name[..2].copy_from_slice(&two),
            Three => name[3] = b' ',
            Gap => name[1 + chance.below(2)] = b' ',
            Strange(column) => name[usize::from(column) - 13] = *chance.pick(STRANGE),
            Lower => {
                let at = chance.below(4);
                name[at] = if at == 0 { letter.to_ascii_lowercase() } else { *chance.pick(b"ahgz") };
            }
            Other => name[0] = other_than(letter, chance),
            HalfOfTwo => (name[0], name[1]) = (two[0], other_than(two[1], chance)),
        }
        (name, if matches!(self, FilledOfTwo | HalfOfTwo) { two } else { [b' ', letter] })
    }
}

fn name_character(byte: u8) -> bool {
    byte.is_ascii_uppercase() || byte.is_ascii_digit() || byte == b'\'' || byte == b'*'
}

/// A name character that is not this one.
fn other_than(byte: u8, chance: &mut Chance) -> u8 {
    let others: Vec<u8> = NAME.iter().copied().filter(|&other| other != byte).collect();
    *chance.pick(&others)
}

/// The form of a name with an element of one letter.
fn of_one_letter(name: [u8; 4], letter: u8) -> Option<Form> {
    let first = name[0];
    let odd: Vec<usize> = (1..4).filter(|&at| !name_character(name[at])).collect();
    match odd[..] {
        [] if first == letter => Some(Filled),
        [] if first == letter.to_ascii_lowercase() => Some(Lower),
        [] if name_character(first) => Some(Other),
        [at] if first == letter => Some(match name[at] {
            b' ' if at == 3 => Three,
            b' ' => Gap,
            byte if byte.is_ascii_lowercase() => Lower,
            _ => Strange(13 + at as u8),
        }),
        _ => None,
    }
}

/// A right name, with its element.
pub fn right(chance: &mut Chance) -> Named {
    if chance.once_in(4) {
        return Filled.made(chance);
    }
    let (element, end) = (**chance.pick(&ELEMENTS), *chance.pick(&ENDS));
    ([element[0], element[1], end[0], end[1]], element)
}

/// A name that is nearly right, with its element.
pub fn nearly(chance: &mut Chance) -> Named {
    chance.pick(&NEARLY).made(chance)
}

/// Puts a name and its element into a line.
pub fn put_name(line: &mut Columns, (name, element): Named) {
    put(line, 13, &name);
    put(line, 77, &element);
}

#[cfg(test)]
mod tests {
    use super::*;

    #[test]
    fn made_names_are_of_their_form() {
        let mut chance = Chance::new(6);
        for form in Form::ALL {
            for _ in 0..500 {
                let (name, element) = form.made(&mut chance);
                assert_eq!(Form::of((name, element)), Some(form), "{}", String::from_utf8_lossy(&name));
                assert_eq!(reference::columns::atom_name(name, element), form.right(), "{form:?} {name:?}");
            }
        }
        assert!(NEARLY.iter().all(|form| !form.right()));
    }

    #[test]
    fn forms() {
        for (name, element, form) in [
            (b"HH11", b" H", Some(Filled)),
            (b"CA12", b" C", Some(Filled)),
            (b"CA12", b"CA", Some(FilledOfTwo)),
            (b"CA1 ", b" C", Some(Three)),
            (b"H#11", b" H", Some(Strange(14))),
            (b"1HH1", b" H", Some(Other)),
            (b"CB12", b"CA", Some(HalfOfTwo)),
            (b"hH11", b" H", Some(Lower)),
            (b" CA ", b" C", None),
            (b"CA  ", b"CA", None),
            (b"H  1", b" H", None),
        ] {
            assert_eq!(Form::of((*name, *element)), form, "{}", String::from_utf8_lossy(name));
        }
    }
}
