//! Names of lines, the places they may stand in, and which count they raise.

use crate::tally::Tally;

/// The name of a line: its first six columns.
#[derive(Clone, Copy, Debug, PartialEq, Eq, PartialOrd, Ord)]
#[allow(missing_docs)]
pub enum LineName {
    Header,
    Title,
    Compnd,
    Source,
    Keywds,
    Expdta,
    Author,
    Revdat,
    Jrnl,
    Remark,
    Seqres,
    Het,
    Helix,
    Sheet,
    Cryst1,
    Origx1,
    Origx2,
    Origx3,
    Scale1,
    Scale2,
    Scale3,
    Model,
    Atom,
    Hetatm,
    Ter,
    Endmdl,
    Conect,
    Master,
    End,
}

use LineName::*;

/// All names with their six bytes, by place.
pub const NAMES: [(&[u8; 6], LineName); 29] = [
    (b"HEADER", Header),
    (b"TITLE ", Title),
    (b"COMPND", Compnd),
    (b"SOURCE", Source),
    (b"KEYWDS", Keywds),
    (b"EXPDTA", Expdta),
    (b"AUTHOR", Author),
    (b"REVDAT", Revdat),
    (b"JRNL  ", Jrnl),
    (b"REMARK", Remark),
    (b"SEQRES", Seqres),
    (b"HET   ", Het),
    (b"HELIX ", Helix),
    (b"SHEET ", Sheet),
    (b"CRYST1", Cryst1),
    (b"ORIGX1", Origx1),
    (b"ORIGX2", Origx2),
    (b"ORIGX3", Origx3),
    (b"SCALE1", Scale1),
    (b"SCALE2", Scale2),
    (b"SCALE3", Scale3),
    (b"MODEL ", Model),
    (b"ATOM  ", Atom),
    (b"HETATM", Hetatm),
    (b"TER   ", Ter),
    (b"ENDMDL", Endmdl),
    (b"CONECT", Conect),
    (b"MASTER", Master),
    (b"END   ", End),
];

/// The lines of the two trios, in the sequence in which transformations are numbered, from 1.
const TRANSFORMATIONS: [LineName; 6] = [Origx1, Origx2, Origx3, Scale1, Scale2, Scale3];

/// Lines of which the second comes right after the first, and neither without the other.
const TIED: [(LineName, LineName); 5] =
    [(Origx1, Origx2), (Origx2, Origx3), (Scale1, Scale2), (Scale2, Scale3), (Master, End)];

impl LineName {
    /// The name of a line with these bytes, if it has six and they are a known name.
    pub fn of(line: &[u8]) -> Option<LineName> {
        let six = line.get(..6)?;
        NAMES.iter().find(|(bytes, _)| *bytes == six).map(|(_, name)| *name)
    }

    /// The place of the line. Lines never go back to an earlier place.
    fn place(self) -> u8 {
        match self {
            Origx1 | Origx2 | Origx3 => Origx1 as u8,
            Scale1 | Scale2 | Scale3 => Scale1 as u8,
            Model | Atom | Hetatm | Ter | Endmdl => Model as u8,
            other => other as u8,
        }
    }

    /// Whether a line of this name may follow the line before it; `None` is the start of the text. Where it stands among
    /// the models is not looked at here.
    pub fn may_follow(self, before: Option<LineName>) -> bool {
        let Some(before) = before else {
            return self == Header;
        };
        let tied = TIED.iter().all(|&(first, second)| (before == first) == (self == second));
        let placed = match self {
            Header | Cryst1 | Origx1 | Scale1 | Master => before.place() < self.place(),
            _ => before.place() <= self.place(),
        };
        tied && placed
    }

    /// Whether a table has a slot for the line.
    pub fn slotted(self) -> bool {
        matches!(self, Atom | Hetatm | Ter)
    }

    /// Which transformation a line of this name has, from 1.
    pub fn transformation(self) -> Option<u32> {
        (1..).zip(TRANSFORMATIONS).find(|(_, name)| *name == self).map(|(row, _)| row)
    }

    /// The six bytes of the line that has this transformation.
    pub fn bytes_of_transformation(row: u32) -> Option<&'static [u8; 6]> {
        NAMES.iter().find(|(_, name)| name.transformation() == Some(row)).map(|(bytes, _)| *bytes)
    }

    /// The count of MASTER that a line of this name raises, if any. Past the first ENDMDL a line with a slot raises none.
    pub fn count(self, tally: &mut Tally, past: bool) -> Option<&mut u64> {
        match self {
            _ if past && self.slotted() => None,
            Remark => Some(&mut tally.remark),
            Het => Some(&mut tally.het),
            Helix => Some(&mut tally.helix),
            Sheet => Some(&mut tally.sheet),
            _ if self.transformation().is_some() => Some(&mut tally.xform),
            Atom | Hetatm => Some(&mut tally.coord),
            Ter => Some(&mut tally.ter),
            Conect => Some(&mut tally.conect),
            Seqres => Some(&mut tally.seq),
            _ => None,
        }
    }
}

#[cfg(test)]
mod tests {
    use super::*;

    #[test]
    fn names_are_six_bytes() {
        assert_eq!(LineName::of(b"TER   "), Some(Ter));
        assert_eq!(LineName::of(b"END   and more"), Some(End));
        assert_eq!((LineName::of(b"MODEL "), LineName::of(b"ENDMDL")), (Some(Model), Some(Endmdl)));
        for unknown in [&b"TER"[..], b"ENDMD ", b" ATOM ", b"atom  ", b"TER\n  ", b"MODEL", b"MODEL1", b"ANISOU", b""] {
            assert_eq!(LineName::of(unknown), None);
        }
        for (index, (_, name)) in NAMES.iter().enumerate() {
            assert_eq!(*name as usize, index);
        }
    }

    #[test]
    fn transformations_are_numbered() {
        assert_eq!(
            (Origx1.transformation(), Scale3.transformation(), Cryst1.transformation()),
            (Some(1), Some(6), None)
        );
        assert_eq!(
            (1..=6).filter_map(LineName::bytes_of_transformation).map(|bytes| bytes[5]).collect::<Vec<_>>(),
            b"123123"
        );
        assert_eq!((LineName::bytes_of_transformation(0), LineName::bytes_of_transformation(7)), (None, None));
    }

    /// What may follow the last place before the coordinates, and a coordinate.
    const COORDINATES_AND_ON: [LineName; 7] = [Model, Atom, Hetatm, Ter, Endmdl, Conect, Master];

    /// The lines that may follow a line, by the list of places written out.
    #[test]
    fn places() {
        let follows = |before: LineName| -> Vec<LineName> {
            NAMES.iter().map(|(_, name)| *name).filter(|name| name.may_follow(Some(before))).collect()
        };
        assert_eq!(follows(Origx1), [Origx2]);
        assert_eq!(follows(Origx2), [Origx3]);
        assert_eq!(follows(Origx3), [Scale1, Model, Atom, Hetatm, Ter, Endmdl, Conect, Master]);
        assert_eq!(follows(Scale2), [Scale3]);
        assert_eq!(follows(Scale3), COORDINATES_AND_ON);
        assert_eq!(follows(Cryst1), [Origx1, Scale1, Model, Atom, Hetatm, Ter, Endmdl, Conect, Master]);
        assert_eq!(follows(Ter), COORDINATES_AND_ON);
        assert_eq!((follows(Model), follows(Endmdl)), (COORDINATES_AND_ON.to_vec(), COORDINATES_AND_ON.to_vec()));
        assert_eq!(follows(Conect), [Conect, Master]);
        assert_eq!(follows(Master), [End]);
        assert_eq!(follows(End), []);
        assert_eq!(follows(Header).len(), 29 - 1 - 4 - 1);
        assert!(Remark.may_follow(Some(Remark)) && !Jrnl.may_follow(Some(Remark)));
        assert!(Header.may_follow(None) && !Title.may_follow(None) && !End.may_follow(None));
    }
}
