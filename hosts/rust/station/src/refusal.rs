//! The numbers of refusal.

use std::error::Error;
use std::fmt;

/// Why something was refused: a number of refusal. Shown, it gives the number and what it means.
///
/// ```
/// let refusal = station::Refusal::FIELD;
/// assert_eq!(refusal.number(), 6);
/// assert_eq!(refusal.to_string(), "refused with 6: a field or a blank column is wrong");
/// ```
#[derive(Clone, Copy, PartialEq, Eq, PartialOrd, Ord, Hash)]
pub struct Refusal(u32);

impl Refusal {
    /// The length of a line.
    pub const LENGTH: Refusal = Refusal(1);
    /// Byte 81 of a line.
    pub const NEWLINE: Refusal = Refusal(2);
    /// A byte that no column may hold.
    pub const BYTE: Refusal = Refusal(3);
    /// The name of a line.
    pub const NAME: Refusal = Refusal(4);
    /// The place of a line.
    pub const PLACE: Refusal = Refusal(5);
    /// A field or blank column.
    pub const FIELD: Refusal = Refusal(6);
    /// A serial that does not rise.
    pub const SERIAL: Refusal = Refusal(7);
    /// A run or its TER.
    pub const RUN: Refusal = Refusal(8);
    /// A CONECT line.
    pub const BOND: Refusal = Refusal(9);
    /// A helix or sheet.
    pub const SEQUENCE: Refusal = Refusal(10);
    /// A count on MASTER.
    pub const COUNT: Refusal = Refusal(11);
    /// The text is over too soon.
    pub const OVER: Refusal = Refusal(12);
    /// The table is too short.
    pub const SHORT_TABLE: Refusal = Refusal(13);
    /// A count of the tally is full.
    pub const FULL: Refusal = Refusal(14);
    /// There is no such fragment.
    pub const NO_FRAGMENT: Refusal = Refusal(15);
    /// The fragment is already there.
    pub const ALREADY_THERE: Refusal = Refusal(16);
    /// The output is too short.
    pub const SHORT_OUTPUT: Refusal = Refusal(17);
    /// The table is another text's.
    pub const OTHER_TABLE: Refusal = Refusal(18);
    /// There is nothing to frame.
    pub const NOTHING_TO_FRAME: Refusal = Refusal(19);
    /// The input is too long for the report.
    pub const LONG_INPUT: Refusal = Refusal(20);
    /// An atom that a line above, in the same model, has already.
    pub const SAME_ATOM: Refusal = Refusal(21);
    /// The number of a model.
    pub const MODEL: Refusal = Refusal(22);
    /// There are no SCALE lines to tell a fractional place by.
    pub const NO_SCALE: Refusal = Refusal(29);
    /// A coordinate that no atom can have.
    pub const COORDINATE: Refusal = Refusal(33);

    /// All of them, by their numbers.
    pub const ALL: [Refusal; 24] = {
        let mut all = [Refusal(0); 24];
        let mut number = 0;
        while number < 22 {
            all[number] = Refusal(number as u32 + 1);
            number += 1;
        }
        all[22] = Refusal::NO_SCALE;
        all[23] = Refusal::COORDINATE;
        all
    };

    /// The refusal that a number of the library is; 0 is none. A number that is not listed here is one too.
    ///
    /// ```
    /// use station::Refusal;
    ///
    /// assert_eq!(Refusal::numbered(21), Some(Refusal::SAME_ATOM));
    /// assert_eq!(Refusal::numbered(0), None);
    /// ```
    pub fn numbered(number: u32) -> Option<Refusal> {
        (number > 0).then_some(Refusal(number))
    }

    /// The number.
    pub fn number(self) -> u32 {
        self.0
    }

    /// What the number means.
    pub fn meaning(self) -> &'static str {
        match self.0 {
            1 => "the length of the line is wrong (in a text 80 columns and a newline, by itself exactly 80 columns)",
            2 => "the line has no newline behind its 80 columns",
            3 => "a column holds a byte that is not printable ASCII",
            4 => "the name in columns 1-6 is unknown or not taken here",
            5 => "the line is out of place or there once too often",
            6 => "a field or a blank column is wrong",
            7 => "the serial is not above the one before",
            8 => "the line breaks the rules of runs and TER",
            9 => "the CONECT line is below the one before or names a number that no atom has",
            10 => "a helix or sheet is out of sequence",
            11 => "a count on MASTER is not the true one",
            12 => "the text is over before END",
            13 => "the table has fewer slots than the text has coordinate and TER lines",
            14 => "the count to be raised is full",
            15 => "there is no such fragment",
            16 => "the fragment is already there",
            17 => "the output is too short",
            18 => "the table does not belong to the text",
            19 => "there is no atom to frame",
            20 => "the input is longer than the report takes",
            21 => "a line above has the same atom: name, alternate location and residue",
            22 => "the models are not numbered 1, 2, 3 and so on",
            29 => "the entry has no SCALE lines to tell a fractional place by",
            33 => "a coordinate is not from -999.999 to 9999.999",
            _ => "for a reason that this program does not know",
        }
    }

    /// What a number of the library says: granted, or refused.
    pub(crate) fn of(number: u32) -> Result<(), Refusal> {
        Refusal::numbered(number).map_or(Ok(()), Err)
    }
}

impl fmt::Display for Refusal {
    fn fmt(&self, f: &mut fmt::Formatter<'_>) -> fmt::Result {
        write!(f, "refused with {}: {}", self.number(), self.meaning())
    }
}

impl fmt::Debug for Refusal {
    fn fmt(&self, f: &mut fmt::Formatter<'_>) -> fmt::Result {
        write!(f, "Refusal({}: {})", self.number(), self.meaning())
    }
}

impl Error for Refusal {}
