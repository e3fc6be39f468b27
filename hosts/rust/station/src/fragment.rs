//! The fragments of a table, as the library numbers them.

use crate::raw::Slot;
use crate::{FragmentNumber, Mark, ModelNumber};

/// The fragments of a table, one after the other.
#[derive(Clone, Debug)]
pub struct Fragments<'a> {
    /// The slots that have not come yet, and the numbers of their fragments.
    slots: &'a [Slot],
    numbers: std::vec::IntoIter<FragmentNumber>,
}

/// One fragment: a run with its TER, or a residue of the tail.
#[derive(Clone, Copy, Debug)]
pub struct Fragment<'a> {
    /// Its number.
    pub number: FragmentNumber,
    /// Its slots; there is at least one.
    pub slots: &'a [Slot],
}

impl<'a> Fragments<'a> {
    /// The fragments of slots with these numbers.
    pub(crate) fn of(slots: &'a [Slot], numbers: Vec<FragmentNumber>) -> Fragments<'a> {
        Fragments { slots, numbers: numbers.into_iter() }
    }
}

impl<'a> Iterator for Fragments<'a> {
    type Item = Fragment<'a>;

    fn next(&mut self) -> Option<Fragment<'a>> {
        let number = *self.numbers.as_slice().first()?;
        let length = self.numbers.as_slice().iter().take_while(|&&other| other == number).count();
        self.numbers.nth(length - 1);
        let (slots, rest) = self.slots.split_at(length.min(self.slots.len()));
        self.slots = rest;
        Some(Fragment { number, slots })
    }
}

impl Fragment<'_> {
    /// Where the fragment is.
    pub fn mark(&self) -> Option<Mark> {
        self.slots.first().and_then(Slot::mark)
    }

    /// Its model, if the entry has models. All lines of a fragment are of the same.
    pub fn model(&self) -> Option<ModelNumber> {
        self.slots.first().and_then(Slot::model)
    }

    /// Its chain. All lines of a fragment have the same.
    pub fn chain(&self) -> char {
        self.slots.first().map_or(' ', |slot| char::from(slot.chain))
    }

    /// How many ATOM and HETATM lines it has.
    pub fn atoms(&self) -> usize {
        self.slots.iter().filter(|slot| slot.is_coordinate()).count()
    }

    /// Its residues in order: the first slot of each stretch of lines that name one residue.
    pub fn residues(&self) -> impl Iterator<Item = &Slot> {
        let begins = |index: usize| index == 0 || !self.slots[index].same_residue(&self.slots[index - 1]);
        self.slots.iter().enumerate().filter(move |(index, _)| begins(*index)).map(|(_, slot)| slot)
    }
}
