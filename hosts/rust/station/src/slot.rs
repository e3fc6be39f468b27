//! A slot: its kind, its mark, its model, and its numbers as a person writes them.

use crate::raw::Slot;
use crate::{Dot, Hundredths, Stroke, Thousandths};

/// The number of a model, from 1.
#[derive(Clone, Copy, Debug, PartialEq, Eq, PartialOrd, Ord, Hash)]
pub struct ModelNumber(pub u32);

/// The kind of line a slot was filled from.
#[derive(Clone, Copy, Debug, PartialEq, Eq)]
#[allow(missing_docs)]
pub enum Kind {
    Atom,
    Hetatm,
    Ter,
}

/// Where a fragment is.
#[derive(Clone, Copy, Debug, PartialEq, Eq)]
pub enum Mark {
    /// In the entry.
    In,
    /// Set aside.
    Aside,
}

impl Slot {
    /// The kind of the slot, unless it is damaged.
    pub fn kind(&self) -> Option<Kind> {
        match self.kind {
            1 => Some(Kind::Atom),
            2 => Some(Kind::Hetatm),
            3 => Some(Kind::Ter),
            _ => None,
        }
    }

    /// The mark of the slot, unless it is damaged.
    pub fn mark(&self) -> Option<Mark> {
        match self.mark {
            0 => Some(Mark::In),
            1 => Some(Mark::Aside),
            _ => None,
        }
    }

    /// The model of the slot, if the entry has models.
    pub fn model(&self) -> Option<ModelNumber> {
        (self.model > 0).then_some(ModelNumber(self.model))
    }

    /// Whether the slot is an ATOM or HETATM.
    pub fn is_coordinate(&self) -> bool {
        matches!(self.kind(), Some(Kind::Atom | Kind::Hetatm))
    }

    /// Whether two slots name the same residue: name, chain, number and insertion code.
    pub fn same_residue(&self, other: &Slot) -> bool {
        let residue = |slot: &Slot| (slot.residue, slot.chain, slot.number, slot.insertion);
        residue(self) == residue(other)
    }

    /// The place of an ATOM or HETATM slot, exact: x, y, z in ångström with three digits behind the point. A TER has none.
    ///
    /// ```
    /// # fn main() -> Result<(), Box<dyn std::error::Error>> {
    /// use station::Line;
    ///
    /// let line = b"ATOM     32  N  AARG A  -3      11.281  86.699  94.383  0.50 35.88           N  ";
    /// let slot = Line::read(line)?.slot()?;
    /// assert_eq!(slot.place().map(|place| place.map(|x| x.to_string()).join(" ")), Some("11.281 86.699 94.383".into()));
    /// assert_eq!(slot.angstroms(), Some([11.281, 86.699, 94.383]));
    /// assert_eq!((slot.x, slot.y, slot.z), (11_281, 86_699, 94_383));
    /// assert_eq!(slot.occupancy().map(|number| number.to_string()), Some("0.50".into()));
    /// assert_eq!(slot.temperature().map(|number| number.value()), Some(35.88));
    /// # Ok(()) }
    /// ```
    pub fn place(&self) -> Option<[Thousandths; 3]> {
        self.is_coordinate().then(|| [self.x, self.y, self.z].map(Thousandths::of))
    }

    /// The same as doubles, each the one next to the exact number.
    pub fn angstroms(&self) -> Option<[f64; 3]> {
        self.place().map(|place| place.map(Thousandths::value))
    }

    /// The occupancy of an ATOM or HETATM slot. A TER has none.
    pub fn occupancy(&self) -> Option<Hundredths> {
        self.is_coordinate().then(|| Hundredths::of(self.occupancy))
    }

    /// The temperature factor of an ATOM or HETATM slot, in square ångström. A TER has none.
    pub fn temperature(&self) -> Option<Hundredths> {
        self.is_coordinate().then(|| Hundredths::of(self.temperature))
    }

    /// The dot of the slot, if there is something to draw.
    pub fn dot(&self) -> Option<Dot> {
        Dot::of(self)
    }

    /// The stroke to another slot, if there is something to draw.
    pub fn stroke(&self, other: &Slot) -> Option<Stroke> {
        Stroke::between(self, other)
    }
}
