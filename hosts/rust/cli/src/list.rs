//! The list of `--aside` or `--keep`: fragments by their numbers and by words.

use station::{Fragment, FragmentNumber, Refusal};

use crate::word::Word;
use crate::words::several;

/// What a list names. A range may be far longer than any entry, so it is never written out.
#[derive(Debug)]
pub struct List(Vec<Part>);

#[derive(Debug)]
enum Part {
    /// The first and the last number of a range.
    Range(u32, u32),
    Word(Word),
}

/// What a list names in vain, in words.
pub type Vain = String;

impl List {
    /// Reads a list such as `2,9-25010,HOH,chain:B`. A fragment that is named twice is as good as named once.
    pub fn parse(list: &str) -> Result<List, String> {
        list.split(',').map(|text| part(text.trim())).collect::<Result<_, _>>().map(List)
    }

    /// Whether each of the fragments of an entry, all of them in order, is in the list; or what none of them is.
    pub fn chosen(&self, fragments: &[Fragment]) -> Result<Vec<bool>, Vain> {
        let mut chosen = vec![false; fragments.len()];
        for part in &self.0 {
            match part {
                Part::Range(first, last) => match chosen.get_mut(*first as usize - 1..*last as usize) {
                    Some(chosen) => chosen.fill(true),
                    None => return Err(no_number(*first, fragments.len())),
                },
                Part::Word(word) => choose(word, fragments, &mut chosen)?,
            }
        }
        Ok(chosen)
    }
}

/// Adds the fragments that a word chooses.
fn choose(word: &Word, fragments: &[Fragment], chosen: &mut [bool]) -> Result<(), Vain> {
    let mut found = word.may_be_missing();
    for (fragment, chosen) in fragments.iter().zip(chosen) {
        if word.chooses(fragment) {
            (*chosen, found) = (true, true);
        }
    }
    if found {
        return Ok(());
    }
    let cause = match fragments.iter().find(|fragment| word.is_part_of(fragment)) {
        Some(Fragment { number: FragmentNumber(number), .. }) => {
            format!("fragment {number} has it among other residues; it can only go as a whole, by its number")
        }
        None => "station fragments FILE shows the words of each".to_owned(),
    };
    Err(format!("{word}: {}\n  {cause}", Refusal::NO_FRAGMENT))
}

/// The first number from this one on that no fragment has.
fn no_number(first: u32, fragments: usize) -> Vain {
    let number = first.max(u32::try_from(fragments).unwrap_or(u32::MAX).saturating_add(1));
    let there = several(fragments as u64, "fragment");
    format!("fragment {number}: {}\n  the entry has {there}", Refusal::NO_FRAGMENT)
}

/// A part of a list: a number, two with a hyphen between them, or a word.
fn part(text: &str) -> Result<Part, String> {
    if let Some(word) = Word::parse(text) {
        return Ok(Part::Word(word));
    }
    let (first, last) = text.split_once('-').unwrap_or((text, text));
    let digits = |text: &str| !text.is_empty() && text.bytes().all(|byte| byte.is_ascii_digit());
    if !digits(first) || !digits(last) {
        return Err(format!(
            "\"{text}\" is no fragment number, no range and no word; a list is such as 2,7-9,HOH,chain:B"
        ));
    }
    let (first, last) = (number(first)?, number(last)?);
    if first > last {
        return Err(format!("the range {text} is the wrong way round; {last}-{first} would do"));
    }
    Ok(Part::Range(first, last))
}

/// The number of a fragment.
fn number(digits: &str) -> Result<u32, String> {
    match digits.parse() {
        Ok(0) => Err("there is no fragment 0; they count from 1".to_owned()),
        Ok(number) => Ok(number),
        Err(_) => Err(format!("there is no fragment {digits}; no entry has so many")),
    }
}

#[cfg(test)]
mod tests {
    use super::*;
    use station::Slot;

    /// The numbers that a list chooses among so many fragments, of one water each.
    fn numbers(list: &str, fragments: u32) -> Result<Vec<u32>, Vain> {
        let number_of = |number: u32| i32::try_from(number).expect("a small number");
        let slot = |number| Slot { kind: 2, residue: *b"HOH", chain: b'A', number, insertion: b' ', ..Slot::default() };
        let slots: Vec<Slot> = (1..=fragments).map(|number| slot(number_of(number))).collect();
        let fragment = |(number, slots)| Fragment { number: FragmentNumber(number), slots };
        let fragments: Vec<Fragment> = (1..).zip(slots.chunks(1)).map(fragment).collect();
        let chosen = List::parse(list).expect("a list").chosen(&fragments)?;
        assert_eq!(chosen.len(), fragments.len());
        Ok((1..).zip(chosen).filter_map(|(number, chosen)| chosen.then_some(number)).collect())
    }

    #[test]
    fn lists() {
        assert_eq!(numbers("2,5", 6), Ok(vec![2, 5]));
        assert_eq!(numbers("2, 7-9", 9), Ok(vec![2, 7, 8, 9]));
        assert_eq!(numbers("9,1-3,2,3-5,9", 9), Ok(vec![1, 2, 3, 4, 5, 9]));
        assert_eq!(numbers("5-5", 5), Ok(vec![5]));
        assert_eq!(numbers("9-25010", 25_010).map(|numbers| numbers.len()), Ok(25_002));
        assert_eq!(numbers("4,residue:A:2,2-3,residue:A:2", 5), Ok(vec![2, 3, 4]));
        assert_eq!(numbers("waters,1,HOH,chain:A", 3), Ok(vec![1, 2, 3]));
        assert_eq!(numbers("ligands", 3), Ok(vec![]));
    }

    #[test]
    fn numbers_that_are_not_there() {
        for (list, fragments, words) in [
            ("2,10", 9, "fragment 10: refused with 15: there is no such fragment\n  the entry has 9 fragments"),
            ("11-12,2", 9, "fragment 11: "),
            ("5-4294967295", 9, "fragment 10: "),
            ("1-4294967294,4294967295", 0, "fragment 1: "),
            ("2,ZN", 9, "ZN: refused with 15: there is no such fragment\n  station fragments FILE shows"),
            ("waters,chain:B", 9, "chain:B: refused with 15"),
            ("residue:A:10", 9, "residue:A:10: refused with 15"),
        ] {
            assert!(numbers(list, fragments).is_err_and(|told| told.starts_with(words)), "{list}");
        }
    }

    #[test]
    fn no_lists() {
        for (wrong, words) in [
            ("", "\"\" is no fragment number"),
            (",", "\"\" is no fragment number"),
            ("2,", "\"\" is no fragment number"),
            ("a", "\"a\" is no fragment number, no range and no word"),
            ("-1", "\"-1\" is no fragment number"),
            ("1-", "\"1-\" is no fragment number"),
            ("1-2-3", "\"1-2-3\" is no fragment number"),
            ("+1", "\"+1\" is no fragment number"),
            ("3,0", "no fragment 0; they count from 1"),
            ("0-4", "no fragment 0; they count from 1"),
            ("1,5-2", "the range 5-2 is the wrong way round; 2-5 would do"),
            ("1-99999999999", "there is no fragment 99999999999"),
        ] {
            let told = List::parse(wrong).expect_err(wrong);
            assert!(told.contains(words), "{wrong}: {told}");
        }
    }
}
