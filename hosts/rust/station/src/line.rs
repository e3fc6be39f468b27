//! Single lines.

use std::error::Error;
use std::fmt;

use crate::raw::{
    station_count_line, station_count_line_past, station_read_line, station_rewrite_line, station_slot_of_line, Slot,
    Tally,
};
use crate::{ModelNumber, Refusal};

/// A line of one of the seventeen typed kinds, read by itself: 80 columns, all of them right.
///
/// ```
/// # fn main() -> Result<(), station::Refusal> {
/// use station::{Line, Refusal};
///
/// let columns = b"ATOM     32  N  AARG A  -3      11.281  86.699  94.383  0.50 35.88           N  ";
/// let line = Line::read(columns)?;
/// assert_eq!(line.name(), "ATOM");
/// let slot = line.slot()?;
/// assert_eq!((slot.x, slot.occupancy, slot.number), (11_281, 50, -3));
/// assert_eq!(Line::read(&columns[..79]), Err(Refusal::LENGTH));
/// # Ok(()) }
/// ```
#[derive(Clone, Copy, Debug, PartialEq, Eq)]
pub struct Line {
    columns: [u8; 80],
}

impl Line {
    /// Reads a line of 80 bytes, without its newline, to its record and keeps what the record writes.
    pub fn read(line: &[u8]) -> Result<Line, Refusal> {
        let mut columns = [0; 80];
        // SAFETY: line and output are as long as said and do not overlap.
        let number = unsafe { station_rewrite_line(line.as_ptr(), line.len(), columns.as_mut_ptr(), columns.len()) };
        Refusal::of(number)?;
        Ok(Line { columns })
    }

    /// Judges a line of 80 bytes, without its newline, and keeps nothing of it. It is refused where [`Line::read`] refuses
    /// it, and the refusal tells the column.
    ///
    /// ```
    /// use station::{Line, LineRefusal, Refusal};
    ///
    /// let line = format!("{:80}", "CONECT    5    5");
    /// assert_eq!(Line::judge(line.as_bytes()), Err(LineRefusal { refusal: Refusal::FIELD, column: 12 }));
    /// ```
    pub fn judge(line: &[u8]) -> Result<(), LineRefusal> {
        let mut column = 0;
        // SAFETY: the line is as long as said and does not overlap the column.
        let number = unsafe { station_read_line(line.as_ptr(), line.len(), &mut column) };
        Refusal::of(number).map_err(|refusal| LineRefusal { refusal, column })
    }

    /// The 80 columns.
    pub fn columns(&self) -> &[u8; 80] {
        &self.columns
    }

    /// The name, without the blanks behind it.
    pub fn name(&self) -> &str {
        std::str::from_utf8(&self.columns[..6]).unwrap_or_default().trim_end()
    }

    /// The slot of an ATOM, HETATM or TER line, marked in. Other kinds are refused with 4.
    pub fn slot(&self) -> Result<Slot, Refusal> {
        Line::slot_of(&self.columns)
    }

    /// The slot of an ATOM, HETATM or TER line of 80 bytes, marked in. Other kinds are refused with 4.
    pub fn slot_of(line: &[u8]) -> Result<Slot, Refusal> {
        let mut slot = Slot::default();
        // SAFETY: the line is as long as said and does not overlap the slot.
        let number = unsafe { station_slot_of_line(line.as_ptr(), line.len(), &mut slot) };
        Refusal::of(number)?;
        Ok(slot)
    }

    /// The serials on a CONECT line: the atom, then its partners. Other kinds have none.
    pub fn bonds(&self) -> Vec<u32> {
        if self.name() != "CONECT" {
            return Vec::new();
        }
        self.columns[6..31].chunks(5).map_while(number).collect()
    }

    /// The number on a MODEL line. Other kinds have none.
    ///
    /// ```
    /// # fn main() -> Result<(), station::Refusal> {
    /// use station::{Line, ModelNumber};
    ///
    /// let line = Line::read(format!("{:80}", "MODEL        2").as_bytes())?;
    /// assert_eq!(line.model(), Some(ModelNumber(2)));
    /// # Ok(()) }
    /// ```
    pub fn model(&self) -> Option<ModelNumber> {
        (self.name() == "MODEL").then(|| number(&self.columns[10..14])).flatten().map(ModelNumber)
    }
}

/// Why a line by itself was refused, and where.
#[derive(Clone, Copy, Debug, PartialEq, Eq)]
pub struct LineRefusal {
    /// The refusal.
    pub refusal: Refusal,
    /// The first column of the leftmost field that is wrong, from 1; 0 if the refusal is not [`Refusal::FIELD`].
    pub column: u64,
}

impl fmt::Display for LineRefusal {
    fn fmt(&self, f: &mut fmt::Formatter<'_>) -> fmt::Result {
        match self.column {
            0 => self.refusal.fmt(f),
            column => write!(f, "column {column}: {}", self.refusal),
        }
    }
}

impl Error for LineRefusal {}

impl From<LineRefusal> for Refusal {
    fn from(line: LineRefusal) -> Refusal {
        line.refusal
    }
}

/// The number in some columns of a line that reads.
fn number(columns: &[u8]) -> Option<u32> {
    std::str::from_utf8(columns).ok()?.trim_start().parse().ok()
}

impl Tally {
    /// Counts one more line by its first six bytes.
    ///
    /// ```
    /// # fn main() -> Result<(), station::Refusal> {
    /// use station::{Refusal, Tally};
    ///
    /// let mut tally = Tally::default();
    /// tally.count(b"HETATM")?;
    /// tally.count(b"END   ")?;
    /// assert_eq!(tally, Tally { coord: 1, ..Tally::default() });
    /// assert_eq!(tally.count(b"TER"), Err(Refusal::NAME));
    /// # Ok(()) }
    /// ```
    pub fn count(&mut self, line: &[u8]) -> Result<(), Refusal> {
        // SAFETY: the line is as long as said and does not overlap the tally.
        Refusal::of(unsafe { station_count_line(self, line.as_ptr(), line.len()) })
    }

    /// Counts one more line by its first six bytes, and by whether the first ENDMDL has gone by: the coordinates and TER
    /// lines of further models are not counted.
    ///
    /// ```
    /// # fn main() -> Result<(), station::Refusal> {
    /// use station::Tally;
    ///
    /// let (mut tally, mut past) = (Tally::default(), false);
    /// for name in [b"MODEL ", b"HETATM", b"ENDMDL", b"MODEL ", b"HETATM", b"ENDMDL", b"CONECT"] {
    ///     tally.count_past(name, past)?;
    ///     past |= name == b"ENDMDL";
    /// }
    /// assert_eq!(tally, Tally { coord: 1, conect: 1, ..Tally::default() });
    /// # Ok(()) }
    /// ```
    pub fn count_past(&mut self, line: &[u8], past: bool) -> Result<(), Refusal> {
        // SAFETY: the line is as long as said and does not overlap the tally.
        Refusal::of(unsafe { station_count_line_past(self, line.as_ptr(), line.len(), u8::from(past)) })
    }
}
