//! The crystal frame: the cell of an entry, its transformations, and fractional places.

use crate::raw::{
    station_cell_of_line, station_fractional, station_place, station_scale, station_transform_of_line, Cell, Transform,
};
use crate::{Billionths, HundredThousandths, Hundredths, Millionths, Refusal, Thousandths};

impl Cell {
    /// The cell of a CRYST1 line of 80 bytes, without its newline. Other kinds are refused with 4.
    ///
    /// ```
    /// # fn main() -> Result<(), station::Refusal> {
    /// use station::{Cell, Hundredths, Refusal, Thousandths};
    ///
    /// let columns = format!("{:80}", "CRYST1   52.000   58.600   61.900  90.00  90.00  90.00 P 21 21 21    8");
    /// let cell = Cell::of_line(columns.as_bytes())?;
    /// assert_eq!((cell.a, cell.alpha, cell.z), (52_000, 9_000, 8));
    /// assert_eq!(cell.edges(), [52_000, 58_600, 61_900].map(Thousandths::of));
    /// assert_eq!(cell.angles().map(Hundredths::value), [90.0; 3]);
    /// assert_eq!(cell.space_group(), "P 21 21 21 ");
    /// assert_eq!(Cell::of_line(columns.replace("  8 ", "  0 ").as_bytes()), Err(Refusal::FIELD));
    /// # Ok(()) }
    /// ```
    pub fn of_line(line: &[u8]) -> Result<Cell, Refusal> {
        let mut cell = Cell::default();
        // SAFETY: the line is as long as said and does not overlap the cell.
        Refusal::of(unsafe { station_cell_of_line(line.as_ptr(), line.len(), &mut cell) })?;
        Ok(cell)
    }

    /// The edges a, b, c, in ångström.
    pub fn edges(&self) -> [Thousandths; 3] {
        [self.a, self.b, self.c].map(Thousandths::of)
    }

    /// The angles alpha, beta, gamma, in degrees.
    pub fn angles(&self) -> [Hundredths; 3] {
        [self.alpha, self.beta, self.gamma].map(Hundredths::of)
    }

    /// The eleven columns of the space group as they stand, blanks included.
    pub fn space_group(&self) -> &str {
        let [group @ .., _] = &self.group;
        std::str::from_utf8(group).unwrap_or_default()
    }
}

/// The matrix that a transformation is a row of.
#[derive(Clone, Copy, Debug, PartialEq, Eq)]
pub enum Matrix {
    /// ORIGX1, ORIGX2, ORIGX3.
    Origx,
    /// SCALE1, SCALE2, SCALE3.
    Scale,
}

impl Matrix {
    /// The name of its lines, without the row.
    pub fn name(self) -> &'static str {
        match self {
            Matrix::Origx => "ORIGX",
            Matrix::Scale => "SCALE",
        }
    }
}

/// The transformation of an ORIGX or SCALE line.
#[derive(Clone, Copy, Debug, PartialEq, Eq)]
pub struct Transformation {
    /// The matrix.
    pub matrix: Matrix,
    /// Which of its rows, from 1.
    pub row: u32,
    /// The coefficients of x, y, z.
    pub coefficients: [Millionths; 3],
    /// The shift.
    pub shift: HundredThousandths,
}

impl Transformation {
    /// The transformation of an ORIGX1-3 or SCALE1-3 line of 80 bytes, without its newline. Other kinds are refused with 4.
    ///
    /// ```
    /// # fn main() -> Result<(), station::Refusal> {
    /// use station::{HundredThousandths, Matrix, Millionths, Transformation};
    ///
    /// let columns = format!("{:80}", "SCALE2      0.000000  0.017065  0.000000        0.50000");
    /// let row = Transformation::of_line(columns.as_bytes())?;
    /// assert_eq!((row.matrix, row.row), (Matrix::Scale, 2));
    /// assert_eq!((row.coefficients[1], row.shift), (Millionths::of(17_065), HundredThousandths::of(50_000)));
    /// # Ok(()) }
    /// ```
    pub fn of_line(line: &[u8]) -> Result<Transformation, Refusal> {
        let mut found = Transform::default();
        // SAFETY: the line is as long as said and does not overlap the transformation.
        Refusal::of(unsafe { station_transform_of_line(line.as_ptr(), line.len(), &mut found) })?;
        let (coefficients, shift) = (found.m.map(Millionths::of), HundredThousandths::of(found.t));
        let (matrix, row) = if found.row > 3 { (Matrix::Scale, found.row - 3) } else { (Matrix::Origx, found.row) };
        Ok(Transformation { matrix, row, coefficients, shift })
    }
}

/// The rows of the SCALE lines of an entry: of each the coefficients of x, y, z in millionths, then the shift in
/// hundred-thousandths. They may also be made up: nothing overflows.
///
/// ```
/// # fn main() -> Result<(), station::Refusal> {
/// use station::{Billionths, HundredThousandths, Refusal, Scale};
///
/// let scale = Scale([[19_231, 0, 0, 0], [0, 17_065, 0, 50_000], [0, 0, -16_155, -1]]);
/// let place = scale.place([11_281, -500, 7])?;
/// assert_eq!(place.exact, [216_944_911, 491_467_500, -123_085].map(Billionths::of));
/// assert_eq!(place.rounded, [21_694, 49_147, -12].map(HundredThousandths::of));
/// assert_eq!(place.exact[0].to_string(), "0.216944911");
/// assert_eq!(scale.place([10_000_000, 0, 0]), Err(Refusal::COORDINATE));
/// # Ok(()) }
/// ```
#[derive(Clone, Copy, Debug, PartialEq, Eq)]
pub struct Scale(pub [[i32; 4]; 3]);

/// The SCALE rows of a text, which has to be an accepted entry that has them.
///
/// ```
/// # fn main() -> Result<(), station::Refusal> {
/// use station::{scale, Refusal, Scale};
///
/// let entry = |rows: &[&str]| {
///     let count = rows.len();
///     let master = format!("MASTER    {}{count:5}{}", "    0".repeat(7), "    0".repeat(4));
///     [&["HEADER"], rows, &[&master, "END"]].concat().iter().map(|line| format!("{line:80}\n")).collect::<String>()
/// };
/// let rows = [
///     "SCALE1      0.019231  0.000000  0.000000        0.00000",
///     "SCALE2      0.000000  0.017065  0.000000        0.50000",
///     "SCALE3      0.000000  0.000000 -0.016155       -0.00001",
/// ];
/// let rows = scale(entry(&rows).as_bytes())?;
/// assert_eq!(rows, Scale([[19_231, 0, 0, 0], [0, 17_065, 0, 50_000], [0, 0, -16_155, -1]]));
/// assert_eq!(scale(entry(&[]).as_bytes()), Err(Refusal::NO_SCALE));
/// # Ok(()) }
/// ```
pub fn scale(text: &[u8]) -> Result<Scale, Refusal> {
    let mut rows = [[0; 4]; 3];
    // SAFETY: the text is as long as said and does not overlap the rows, which have room for twelve numbers.
    Refusal::of(unsafe { station_scale(text.as_ptr(), text.len(), rows.as_flattened_mut().as_mut_ptr()) })?;
    Ok(Scale(rows))
}

impl Scale {
    /// The fractional place of x, y, z, in thousandths. Each is from -999,999 to 9,999,999, or refused with 33.
    pub fn place(&self, at: [i32; 3]) -> Result<Fractional, Refusal> {
        let rows = self.0.as_flattened();
        // SAFETY: there are twelve numbers and three, and the output does not overlap them.
        Fractional::written(|out| unsafe { station_place(rows.as_ptr(), at.as_ptr(), out) })
    }
}

/// The fractional place of x, y, z, in thousandths, in a text: that of its SCALE rows.
///
/// ```
/// assert_eq!(station::fractional(b"", [0, 0, 0]), Err(station::Refusal::OVER));
/// ```
pub fn fractional(text: &[u8], at: [i32; 3]) -> Result<Fractional, Refusal> {
    // SAFETY: the text is as long as said, there are three coordinates, and the output does not overlap them.
    Fractional::written(|out| unsafe { station_fractional(text.as_ptr(), text.len(), at.as_ptr(), out) })
}

/// A fractional place, by the three rows.
#[derive(Clone, Copy, Debug, PartialEq, Eq)]
pub struct Fractional {
    /// As it is.
    pub exact: [Billionths; 3],
    /// The nearest with five digits; a half is rounded away from zero.
    pub rounded: [HundredThousandths; 3],
}

impl Fractional {
    /// What a call writes to room for six numbers.
    fn written(call: impl FnOnce(*mut i64) -> u32) -> Result<Fractional, Refusal> {
        let mut out = [0; 6];
        Refusal::of(call(out.as_mut_ptr()))?;
        let [x, y, z, near_x, near_y, near_z] = out;
        let (exact, rounded) = ([x, y, z].map(Billionths::of), [near_x, near_y, near_z].map(HundredThousandths::of));
        Ok(Fractional { exact, rounded })
    }
}
