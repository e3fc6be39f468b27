//! The table of an entry's coordinates: orders, arrangements, saving.

use std::borrow::Cow;
use std::error::Error;
use std::fmt;

use crate::raw::{station_arrange, station_fragments, station_load, station_order, station_save, station_tray, Slot};
use crate::{pieces, Entry, Fragments, Frame, Mark, Refusal, Verdict};

/// The number of a fragment, from 1.
#[derive(Clone, Copy, Debug, PartialEq, Eq, PartialOrd, Ord, Hash)]
pub struct FragmentNumber(pub u32);

/// The coordinates of an accepted entry, a slot for each ATOM, HETATM and TER line, and the text that they are of, lent
/// or its own.
///
/// ```
/// # fn main() -> Result<(), Box<dyn std::error::Error>> {
/// use station::{FragmentNumber, Mark, Refusal, Table};
///
/// let atom = |name: &str, serial: u32, chain: char, number: i32| {
///     format!("{name:6}{serial:5}  C   ALA {chain}{number:4}       1.000   2.000   3.000  1.00  0.00           C  \n")
/// };
/// let master = |coordinates: u32| {
///     let zeros = "    0".repeat(8);
///     format!("{:80}\n", format!("MASTER    {zeros}{coordinates:5}    1    0    0"))
/// };
/// let head = format!("{:80}\n{}{:80}\n", "HEADER", atom("ATOM", 1, 'A', 1), "TER       2      ALA A   1");
/// let (second, third) = (atom("HETATM", 3, 'B', 7), atom("HETATM", 4, 'B', 8));
/// let end = format!("{:80}\n", "END");
/// let text = format!("{head}{second}{third}{}{end}", master(3));
///
/// let mut table = Table::load(text.as_bytes())?;
/// assert_eq!(table.fragments()?.count(), 3);
/// table.set_aside(FragmentNumber(2))?;
/// assert_eq!(table.set_aside(FragmentNumber(2)), Err(Refusal::ALREADY_THERE));
/// assert_eq!(table.save()?, format!("{head}{third}{}{end}", master(2)).into_bytes());
/// assert_eq!(table.tray()?, second.as_bytes());
/// table.put_back(FragmentNumber(2))?;
/// assert_eq!(table.save()?, text.as_bytes());
/// table.arrange(&[Mark::In, Mark::Aside, Mark::In])?;
/// assert_eq!(table.tray()?, second.into_bytes());
/// # Ok(()) }
/// ```
#[derive(Clone, Debug)]
pub struct Table<'t> {
    text: Cow<'t, [u8]>,
    slots: Vec<Slot>,
}

/// A table that has its text for its own: it may outlive all else, be kept in a struct or go to another thread.
pub type OwnedTable = Table<'static>;

impl OwnedTable {
    /// Loads a text that is given away, every fragment in. If it is refused, it comes back with the verdict.
    ///
    /// ```
    /// # fn main() -> Result<(), Box<dyn std::error::Error>> {
    /// use station::{OwnedTable, RefusedText, Table};
    ///
    /// struct Opened {
    ///     table: OwnedTable,
    /// }
    ///
    /// let zeros = format!("MASTER    {}", "    0".repeat(12));
    /// let text = format!("{:80}\n{zeros:80}\n{:80}\n", "HEADER", "END").into_bytes();
    /// let opened = Opened { table: Table::of(text)? };
    /// assert_eq!(opened.table.text().len(), 3 * 81);
    ///
    /// let RefusedText { verdict, text } = Table::of(b"HEADER".to_vec()).expect_err("a short line");
    /// assert_eq!((verdict.line, text.as_slice()), (1, &b"HEADER"[..]));
    /// # Ok(()) }
    /// ```
    // The verdict is little beside the text that comes back with it.
    #[allow(clippy::result_large_err)]
    pub fn of(text: Vec<u8>) -> Result<OwnedTable, RefusedText> {
        match loaded(&text) {
            Ok(slots) => Ok(Table { text: Cow::Owned(text), slots }),
            Err(verdict) => Err(RefusedText { verdict, text }),
        }
    }
}

impl<'t> Table<'t> {
    /// Loads a text, every fragment in. If it is refused, the verdict tells its line and column.
    ///
    /// ```
    /// let text = format!("{:80}\n{:80}\n", "HEADER", "TER      0");
    /// let verdict = station::Table::load(text.as_bytes()).expect_err("a serial of 0");
    /// assert_eq!(verdict.to_string(), "line 2, column 7: refused with 6: a field or a blank column is wrong");
    /// ```
    pub fn load(text: &'t [u8]) -> Result<Table<'t>, Verdict> {
        Ok(Table { slots: loaded(text)?, text: Cow::Borrowed(text) })
    }

    /// The same table with a text of its own, copied if it was lent.
    pub fn into_owned(self) -> OwnedTable {
        Table { text: Cow::Owned(self.text.into_owned()), slots: self.slots }
    }

    /// The text it was loaded from.
    pub fn text(&self) -> &[u8] {
        &self.text
    }

    /// The slots.
    pub fn slots(&self) -> &[Slot] {
        &self.slots
    }

    /// The slots of each model that has some, in order; without models, of the whole entry. An empty model is not among
    /// them.
    pub fn models(&self) -> impl Iterator<Item = &[Slot]> {
        self.slots.chunk_by(|a, b| a.model == b.model)
    }

    /// Marks one whole fragment.
    pub fn order(&mut self, fragment: FragmentNumber, mark: Mark) -> Result<(), Refusal> {
        let (text, slots) = (&self.text, &mut self.slots);
        let aside = u8::from(mark == Mark::Aside);
        // SAFETY: text and table are as long as said and do not overlap.
        let number =
            unsafe { station_order(text.as_ptr(), text.len(), slots.as_mut_ptr(), slots.len(), fragment.0, aside) };
        Refusal::of(number)
    }

    /// Sets a fragment aside.
    pub fn set_aside(&mut self, fragment: FragmentNumber) -> Result<(), Refusal> {
        self.order(fragment, Mark::Aside)
    }

    /// Puts a fragment back.
    pub fn put_back(&mut self, fragment: FragmentNumber) -> Result<(), Refusal> {
        self.order(fragment, Mark::In)
    }

    /// Marks every fragment at once, from the first on. The list has a mark for each.
    pub fn arrange(&mut self, marks: &[Mark]) -> Result<(), Refusal> {
        let (text, slots) = (&self.text, &mut self.slots);
        let aside: Vec<u8> = marks.iter().map(|&mark| u8::from(mark == Mark::Aside)).collect();
        // SAFETY: text, table and list are as long as said, and the table overlaps neither of the others.
        let number = unsafe {
            let (table, count) = (slots.as_mut_ptr(), slots.len());
            station_arrange(text.as_ptr(), text.len(), table, count, aside.as_ptr(), aside.len())
        };
        Refusal::of(number)
    }

    /// The number of its fragment, for each slot.
    pub fn fragment_numbers(&self) -> Result<Vec<FragmentNumber>, Refusal> {
        let (text, slots) = (&self.text, &self.slots);
        let mut out = vec![0; slots.len()];
        let mut count = 0;
        // SAFETY: text, table, output and count are as long as said, and no two of them overlap.
        let number = unsafe {
            let (table, room) = (slots.as_ptr(), out.len());
            station_fragments(text.as_ptr(), text.len(), table, slots.len(), out.as_mut_ptr(), room, &mut count)
        };
        Refusal::of(number)?;
        out.truncate(usize::try_from(count).unwrap_or(slots.len()));
        Ok(out.into_iter().map(FragmentNumber).collect())
    }

    /// The fragments, in order.
    pub fn fragments(&self) -> Result<Fragments<'_>, Refusal> {
        Ok(Fragments::of(&self.slots, self.fragment_numbers()?))
    }

    /// The entry without what is set aside. A CONECT line goes if one of its numbers is no longer that of an atom that is in, in
    /// whichever model.
    pub fn save(&self) -> Result<Vec<u8>, Refusal> {
        self.written(station_save)
    }

    /// The lines that saving leaves out, and a copy of every MODEL and ENDMDL line.
    pub fn tray(&self) -> Result<Vec<u8>, Refusal> {
        self.written(station_tray)
    }

    /// What one of the two calls writes. Neither writes more bytes than the text has.
    fn written(&self, call: Write) -> Result<Vec<u8>, Refusal> {
        let (text, slots) = (&self.text, &self.slots);
        let mut out = vec![0; text.len()];
        let mut count = 0;
        // SAFETY: text, table, output and count are as long as said, and no two of them overlap.
        let number = unsafe {
            call(text.as_ptr(), text.len(), slots.as_ptr(), slots.len(), out.as_mut_ptr(), out.len(), &mut count)
        };
        Refusal::of(number)?;
        out.truncate(usize::try_from(count).unwrap_or(text.len()));
        Ok(out)
    }

    /// The frame of the atoms that are in.
    pub fn frame(&self) -> Result<Frame, Refusal> {
        Frame::of(&self.slots)
    }
}

type Write = unsafe extern "C" fn(*const u8, usize, *const Slot, usize, *mut u8, usize, *mut u64) -> u32;

/// The slots of a text, all in.
fn loaded(text: &[u8]) -> Result<Vec<Slot>, Verdict> {
    let mut slots = vec![Slot::default(); slotted(text)];
    let mut count = 0;
    // SAFETY: text, table and count are as long as said, and no two of them overlap.
    let number = unsafe { station_load(text.as_ptr(), text.len(), slots.as_mut_ptr(), slots.len(), &mut count) };
    // Loading answers a number alone; the check tells the line. It goes over a refused text only.
    if let Some(refusal) = Refusal::numbered(number) {
        return Err(Verdict { refusal: Some(refusal), ..Entry::check(text) });
    }
    slots.truncate(usize::try_from(count).unwrap_or(slots.len()));
    Ok(slots)
}

/// How many lines have a name that a table has slots for. An accepted text needs so many slots; any other is refused
/// before the table's length is looked at.
fn slotted(text: &[u8]) -> usize {
    const NAMES: [&[u8]; 3] = [b"ATOM  ", b"HETATM", b"TER   "];
    pieces(text).filter(|piece| NAMES.iter().any(|name| piece.starts_with(name))).count()
}

/// A text that was given away to be loaded and is refused: it comes back.
#[derive(Clone, Debug, PartialEq, Eq)]
pub struct RefusedText {
    /// Why, and where.
    pub verdict: Verdict,
    /// The text.
    pub text: Vec<u8>,
}

impl fmt::Display for RefusedText {
    fn fmt(&self, f: &mut fmt::Formatter<'_>) -> fmt::Result {
        self.verdict.fmt(f)
    }
}

impl Error for RefusedText {}
