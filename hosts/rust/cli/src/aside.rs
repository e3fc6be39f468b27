//! Which fragments are to be set aside: what `--aside` and `--keep` say together.

use station::{Fragment, Mark};

use crate::list::{List, Vain};

/// The two lists as they were given.
#[derive(Debug, Default)]
pub struct Aside {
    pub aside: Option<List>,
    pub keep: Option<List>,
}

impl Aside {
    /// Whether neither was given.
    pub fn is_empty(&self) -> bool {
        self.aside.is_none() && self.keep.is_none()
    }

    /// The marks of the fragments of an entry, all of them in order. What is to be kept is kept, whatever is to be set aside;
    /// where nothing is said of that, all else is set aside.
    pub fn marks(&self, fragments: &[Fragment]) -> Result<Vec<Mark>, Vain> {
        let chosen = |list: &Option<List>| list.as_ref().map(|list| list.chosen(fragments)).transpose();
        let (aside, keep) = (chosen(&self.aside)?, chosen(&self.keep)?);
        let is_aside = |index: usize| match (&aside, &keep) {
            (Some(aside), Some(keep)) => aside[index] && !keep[index],
            (Some(aside), None) => aside[index],
            (None, Some(keep)) => !keep[index],
            (None, None) => false,
        };
        Ok((0..fragments.len()).map(|index| if is_aside(index) { Mark::Aside } else { Mark::In }).collect())
    }
}

#[cfg(test)]
mod tests {
    use super::*;
    use station::{FragmentNumber, Slot};

    /// The numbers that two lists set aside among four fragments of one slot each.
    fn numbers(aside: Option<&str>, keep: Option<&str>) -> Vec<usize> {
        let slots = [Slot::default(); 4];
        let fragment = |number: u32| Fragment { number: FragmentNumber(number), slots: &slots[..1] };
        let list = |list: &str| List::parse(list).expect("a list");
        let marks = Aside { aside: aside.map(list), keep: keep.map(list) }.marks(&[1, 2, 3, 4].map(fragment));
        let marks = marks.expect("fragments that are there");
        (1..=marks.len()).filter(|number| marks[number - 1] == Mark::Aside).collect()
    }

    #[test]
    fn what_is_kept_is_kept() {
        assert_eq!(numbers(None, None), []);
        assert_eq!(numbers(Some("2,4"), None), [2, 4]);
        assert_eq!(numbers(None, Some("2,4")), [1, 3]);
        assert_eq!(numbers(Some("2-4"), Some("1,3")), [2, 4]);
        assert_eq!(numbers(Some("2"), Some("2")), []);
    }
}
