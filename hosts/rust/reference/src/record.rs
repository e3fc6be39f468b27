//! What a typed line says: a record.

use crate::tally::Tally;
use crate::{ModelNumber, ResidueNumber, Serial};

/// A residue: what ATOM, TER, HELIX and SHEET lines name.
#[derive(Clone, Copy, Debug, PartialEq, Eq, Hash)]
pub struct Residue {
    /// Its name, with blanks on the left.
    pub name: [u8; 3],
    /// Its chain.
    pub chain: u8,
    /// Its number in the chain.
    pub number: ResidueNumber,
    /// Its insertion code.
    pub insertion: u8,
}

/// An ATOM or HETATM line.
#[derive(Clone, Copy, Debug, PartialEq, Eq)]
pub struct Atom {
    /// The serial.
    pub serial: Serial,
    /// The name.
    pub name: [u8; 4],
    /// The alternate location.
    pub alternate: u8,
    /// The residue.
    pub residue: Residue,
    /// The place, in thousandths.
    pub position: [i32; 3],
    /// The occupancy, in hundredths.
    pub occupancy: i32,
    /// The temperature factor, in hundredths.
    pub temperature: i32,
    /// The element, its two columns.
    pub element: [u8; 2],
    /// The charge, its two columns.
    pub charge: [u8; 2],
}

/// What no two atoms of a text, or of one of its models, share: residue, name and alternate location.
#[derive(Clone, Copy, Debug, PartialEq, Eq, Hash)]
pub struct Label {
    residue: Residue,
    name: [u8; 4],
    alternate: u8,
}

impl Atom {
    /// What tells it from all other atoms of its text or model.
    pub fn label(&self) -> Label {
        Label { residue: self.residue, name: self.name, alternate: self.alternate }
    }
}

/// A TER line.
#[derive(Clone, Copy, Debug, PartialEq, Eq)]
pub struct Ter {
    /// The serial.
    pub serial: Serial,
    /// The residue that it closes.
    pub residue: Residue,
}

/// A HELIX line.
#[derive(Clone, Copy, Debug, PartialEq, Eq)]
pub struct Helix {
    /// The number of the helix.
    pub serial: i32,
    /// The identifier.
    pub identifier: [u8; 3],
    /// The first and the last residue.
    pub ends: [Residue; 2],
    /// The class.
    pub class: i32,
    /// The comment.
    pub comment: [u8; 30],
    /// The length.
    pub length: i32,
}

/// One end of a registration.
#[derive(Clone, Copy, Debug, PartialEq, Eq)]
pub struct Register {
    /// The atom.
    pub atom: [u8; 4],
    /// Its residue.
    pub residue: Residue,
}

/// A SHEET line: one strand of a sheet.
#[derive(Clone, Copy, Debug, PartialEq, Eq)]
pub struct Sheet {
    /// The number of the strand.
    pub strand: i32,
    /// The identifier of the sheet.
    pub identifier: [u8; 3],
    /// The strands in the sheet.
    pub strands: i32,
    /// The first and the last residue.
    pub ends: [Residue; 2],
    /// The sense against the strand before.
    pub sense: i32,
    /// Where this strand and the one before touch.
    pub registration: Option<[Register; 2]>,
}

/// A CONECT line.
#[derive(Clone, Copy, Debug, PartialEq, Eq)]
pub struct Conect {
    /// The atom.
    pub serial: Serial,
    /// Its partners, from the left.
    pub partners: [Option<Serial>; 4],
}

impl Conect {
    /// All numbers on the line.
    pub fn serials(&self) -> impl Iterator<Item = Serial> + '_ {
        std::iter::once(self.serial).chain(self.partners.iter().flatten().copied())
    }
}

/// A CRYST1 line: the cell of the crystal.
#[derive(Clone, Copy, Debug, PartialEq, Eq)]
pub struct Cell {
    /// The edges a, b, c, in thousandths.
    pub edges: [i32; 3],
    /// The angles alpha, beta, gamma, in hundredths of a degree.
    pub angles: [i32; 3],
    /// The space group, its eleven columns.
    pub group: [u8; 11],
    /// Z.
    pub z: u32,
}

/// An ORIGX or SCALE line: one row of a transformation.
#[derive(Clone, Copy, Debug, PartialEq, Eq)]
pub struct Transformation {
    /// Which line it is: 1 to 3 for ORIGX1 to ORIGX3, 4 to 6 for SCALE1 to SCALE3.
    pub row: u32,
    /// The coefficients of x, y, z, in millionths.
    pub coefficients: [i32; 3],
    /// The shift, in hundred-thousandths.
    pub shift: i32,
}

/// A line of one of the seventeen typed kinds.
#[derive(Clone, Copy, Debug, PartialEq, Eq)]
#[allow(missing_docs)]
pub enum Record {
    Helix(Helix),
    Sheet(Sheet),
    Cell(Cell),
    Transformation(Transformation),
    Atom(Atom),
    Hetatm(Atom),
    Ter(Ter),
    Conect(Conect),
    Master(Tally),
    End,
    Model(ModelNumber),
    Endmdl,
}
