//! A whole text: the check.

use std::error::Error;
use std::fmt;

use crate::raw::station_verdict;
use crate::{Jump, Refusal, Table};

/// The bytes of a line with its newline.
const PIECE: usize = 81;

/// The nine counts of MASTER over the good lines of a text.
#[derive(Clone, Copy, Debug, Default, PartialEq, Eq)]
pub struct Counts {
    /// REMARK lines.
    pub remark: u64,
    /// HET lines.
    pub het: u64,
    /// HELIX lines.
    pub helix: u64,
    /// SHEET lines.
    pub sheet: u64,
    /// ORIGX and SCALE lines.
    pub xform: u64,
    /// ATOM and HETATM lines, with models those of the first alone.
    pub coord: u64,
    /// TER lines, likewise.
    pub ter: u64,
    /// CONECT lines.
    pub conect: u64,
    /// SEQRES lines.
    pub seq: u64,
}

/// What the check answers. Shown, it says in one line whether the text is granted or where and why it is refused; so a
/// refused one is an error that keeps the line.
///
/// ```
/// # fn main() -> Result<(), Box<dyn std::error::Error>> {
/// use station::{Entry, Verdict};
///
/// fn lines(text: &[u8]) -> Result<u64, Box<dyn std::error::Error>> {
///     Ok(Entry::accept(text)?.verdict().good_lines)
/// }
///
/// let error = lines(b"HEADER").expect_err("a short line");
/// assert!(error.to_string().starts_with("line 1: refused with 1: the length of the line is wrong"));
/// assert_eq!(error.downcast_ref::<Verdict>().map(|verdict| verdict.line), Some(1));
/// # Ok(()) }
/// ```
#[derive(Clone, Copy, Debug, PartialEq, Eq)]
pub struct Verdict {
    /// The refusal, if the text is refused.
    pub refusal: Option<Refusal>,
    /// The line that is refused, from 1; 0 if none is.
    pub line: u64,
    /// The first column of the leftmost field of that line that is wrong, from 1; 0 if the refusal is not
    /// [`Refusal::FIELD`].
    pub column: u64,
    /// The good lines.
    pub good_lines: u64,
    /// The counts over the good lines.
    pub counts: Counts,
}

impl Verdict {
    /// Whether the text is an accepted entry.
    pub fn is_granted(&self) -> bool {
        self.refusal.is_none()
    }

    /// The verdict as a result, for `?`.
    pub fn granted(self) -> Result<(), Verdict> {
        if self.is_granted() {
            Ok(())
        } else {
            Err(self)
        }
    }

    /// The verdict as the report lists it: thirteen lines of key and value.
    pub fn report(&self) -> Report {
        Report(*self)
    }
}

impl fmt::Display for Verdict {
    fn fmt(&self, f: &mut fmt::Formatter<'_>) -> fmt::Result {
        let Some(refusal) = self.refusal else {
            return f.write_str("granted");
        };
        match (self.line, self.column) {
            (0, _) => refusal.fmt(f),
            (line, 0) => write!(f, "line {line}: {refusal}"),
            (line, column) => write!(f, "line {line}, column {column}: {refusal}"),
        }
    }
}

impl Error for Verdict {}

/// A verdict that shows itself as the report does.
#[derive(Clone, Copy, Debug)]
pub struct Report(Verdict);

impl fmt::Display for Report {
    fn fmt(&self, f: &mut fmt::Formatter<'_>) -> fmt::Result {
        let Verdict { refusal, line, column, good_lines, counts } = self.0;
        let values = [
            ("verdict", u64::from(refusal.map_or(0, Refusal::number))),
            ("line", line),
            ("column", column),
            ("lines", good_lines),
            ("remark", counts.remark),
            ("het", counts.het),
            ("helix", counts.helix),
            ("sheet", counts.sheet),
            ("xform", counts.xform),
            ("coord", counts.coord),
            ("ter", counts.ter),
            ("conect", counts.conect),
            ("seq", counts.seq),
        ];
        values.iter().try_for_each(|(key, value)| writeln!(f, "{key}={value}"))
    }
}

/// A text that the check has granted.
#[derive(Clone, Copy, Debug)]
pub struct Entry<'t> {
    text: &'t [u8],
    verdict: Verdict,
}

impl<'t> Entry<'t> {
    /// Checks a text.
    ///
    /// ```
    /// use station::{Entry, Refusal};
    ///
    /// let verdict = Entry::check(b"");
    /// assert_eq!(verdict.refusal, Some(Refusal::OVER));
    /// assert_eq!((verdict.line, verdict.column), (1, 0));
    /// let verdict = Entry::check(format!("{:80}\n{:80}\n", "HEADER", "TER      0").as_bytes());
    /// assert_eq!(verdict.refusal, Some(Refusal::FIELD));
    /// assert_eq!((verdict.line, verdict.column), (2, 7));
    /// ```
    pub fn check(text: &[u8]) -> Verdict {
        let mut answer = [0; 13];
        // SAFETY: the text is as long as said, and the answer has room for thirteen numbers.
        let number = unsafe { station_verdict(text.as_ptr(), text.len(), answer.as_mut_ptr()) };
        let [_, line, column, good_lines, remark, het, helix, sheet, xform, coord, ter, conect, seq] = answer;
        let counts = Counts { remark, het, helix, sheet, xform, coord, ter, conect, seq };
        Verdict { refusal: Refusal::of(number).err(), line, column, good_lines, counts }
    }

    /// Checks a text and takes it as an entry if it is granted.
    ///
    /// ```
    /// # fn main() -> Result<(), station::Verdict> {
    /// let zeros = format!("MASTER    {}", "    0".repeat(12));
    /// let text = format!("{:80}\n{zeros:80}\n{:80}\n", "HEADER", "END");
    /// let entry = station::Entry::accept(text.as_bytes())?;
    /// assert_eq!(entry.verdict().good_lines, 3);
    /// # Ok(()) }
    /// ```
    pub fn accept(text: &'t [u8]) -> Result<Entry<'t>, Verdict> {
        let verdict = Entry::check(text);
        verdict.granted().map(|()| Entry { text, verdict })
    }

    /// The text.
    pub fn text(&self) -> &'t [u8] {
        self.text
    }

    /// The verdict.
    pub fn verdict(&self) -> Verdict {
        self.verdict
    }

    /// The table of its coordinates.
    pub fn load(&self) -> Result<Table<'t>, Verdict> {
        Table::load(self.text)
    }

    /// The line of the atom with a serial.
    pub fn find(&self, serial: u32) -> Jump {
        Jump::to(self.text, serial)
    }
}

/// The lines of a text as the check cuts it: 81 bytes each, but for a shorter last one.
pub fn pieces(text: &[u8]) -> impl DoubleEndedIterator<Item = &[u8]> + ExactSizeIterator {
    text.chunks(PIECE)
}

/// One of these lines by its number, from 1.
pub fn piece(text: &[u8], line: u64) -> Option<&[u8]> {
    pieces(text).nth(usize::try_from(line.checked_sub(1)?).ok()?)
}
