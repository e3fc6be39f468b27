//! The numbers of refusal.

/// Why something was refused. The discriminants are the numbers of refusal.
#[derive(Clone, Copy, Debug, PartialEq, Eq, PartialOrd, Ord)]
#[repr(u32)]
pub enum Refusal {
    /// A line of a text has fewer than 81 bytes; a single line has other than 80.
    Length = 1,
    /// Byte 81 of a line is no newline.
    Newline = 2,
    /// A column holds a byte outside 32-126.
    Byte = 3,
    /// The name of the line is unknown, or of a kind that the call does not take.
    Name = 4,
    /// The line stands in the wrong place or once too often.
    Place = 5,
    /// A field or a blank column is wrong.
    Field = 6,
    /// The serial is not above the one before.
    Serial = 7,
    /// The rules of runs and TER.
    Run = 8,
    /// A CONECT serial falls, or a number on the line is no atom's.
    Bond = 9,
    /// A helix or sheet is out of sequence.
    Sequence = 10,
    /// A count on MASTER is not the true one.
    Count = 11,
    /// The text is over and END has not come.
    Over = 12,
    /// The table has fewer slots than the text needs.
    ShortTable = 13,
    /// The count that the tally would raise is full.
    Full = 14,
    /// There is no fragment of this number, or a list has not one byte for each.
    NoFragment = 15,
    /// The fragment has this mark already.
    AlreadyThere = 16,
    /// The output is too short.
    ShortOutput = 17,
    /// The table does not belong to the text.
    OtherTable = 18,
    /// There is no atom to frame.
    NothingToFrame = 19,
    /// A line above, in the same model, has the same atom.
    SameAtom = 21,
    /// The number of a model is not one more than that of the model before.
    Model = 22,
    /// A fractional place is asked of an entry without SCALE lines.
    NoScale = 29,
    /// A coordinate is out of the range of its columns.
    Coordinate = 33,
}

impl Refusal {
    /// The number itself.
    pub fn number(self) -> u32 {
        self as u32
    }
}

/// The first column of the leftmost field of a line that is wrong.
#[derive(Clone, Copy, Debug, PartialEq, Eq)]
pub struct WrongAt(pub usize);

/// Why a line was refused, and where in it.
#[derive(Clone, Copy, Debug, PartialEq, Eq)]
pub struct Blame {
    /// The refusal.
    pub refusal: Refusal,
    /// The column that is wrong, where the refusal is that of a field; otherwise 0.
    pub column: u64,
}

impl From<Refusal> for Blame {
    fn from(refusal: Refusal) -> Blame {
        Blame { refusal, column: 0 }
    }
}

impl From<WrongAt> for Blame {
    fn from(WrongAt(column): WrongAt) -> Blame {
        Blame { refusal: Refusal::Field, column: column as u64 }
    }
}
