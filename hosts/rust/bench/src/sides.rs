//! The calls that are measured, on the library and on the reference.

use std::hint::black_box;

use station::raw::{
    station_arrange, station_check, station_find, station_fragments, station_frame, station_load, station_order,
    station_save, station_tray,
};

/// The fragment that is aside when saving, and the one that orders move.
const ASIDE: u32 = 2;
const MOVED: u32 = 3;

/// A call.
#[derive(Clone, Copy, Debug, PartialEq, Eq)]
#[allow(missing_docs)]
pub enum Call {
    Check,
    Load,
    Order,
    Arrange,
    Fragments,
    Save,
    Tray,
    Find,
    Frame,
}

impl Call {
    /// All of them, in the order of the tables.
    pub const ALL: [Call; 9] = [
        Call::Check,
        Call::Load,
        Call::Order,
        Call::Arrange,
        Call::Fragments,
        Call::Save,
        Call::Tray,
        Call::Find,
        Call::Frame,
    ];

    /// Its name in the tables.
    pub fn name(self) -> String {
        format!("{self:?}").to_lowercase()
    }
}

/// The serial of the atom in the middle line of a text, or in the first one below it.
fn middle(text: &[u8]) -> u32 {
    let lines = station::pieces(text);
    let half = lines.len() / 2;
    let mut slots = lines.skip(half).filter_map(|piece| station::Line::slot_of(piece.get(..80)?).ok());
    slots.find(station::Slot::is_coordinate).expect("an atom in the lower half").serial
}

/// Who answers the calls.
pub trait Side {
    /// Makes a call. It has to be granted; an order moves its fragment to where it is not, an arrangement all of them. The
    /// jump goes to the middle of the text, and has to find a line there.
    fn call(&mut self, call: Call);
}

/// The library, with the memory it is lent.
pub struct Library<'t> {
    text: &'t [u8],
    /// The table, one fragment aside.
    pub table: Vec<station::Slot>,
    /// The table that loading fills.
    pub loaded: Vec<station::Slot>,
    /// What was written last.
    pub out: Vec<u8>,
    /// How many bytes, slots or lines.
    pub count: u64,
    /// The last frame.
    pub frame: [f64; 9],
    /// The table that is arranged.
    pub arranged: Vec<station::Slot>,
    /// The fragments of the slots.
    pub numbers: Vec<u32>,
    /// A byte for each fragment.
    list: Vec<u8>,
    answer: [u64; 12],
    /// Whether the fragment that orders move is aside.
    moved: bool,
    /// The atom that is jumped to.
    serial: u32,
}

impl<'t> Library<'t> {
    /// The library on an accepted text.
    pub fn on(text: &'t [u8]) -> Library<'t> {
        let mut table = station::Table::load(text).expect("an accepted entry");
        table.set_aside(station::FragmentNumber(ASIDE)).expect("a second fragment");
        let fragments = table.fragments().expect("its own table").count();
        let table = table.slots().to_vec();
        Library {
            text,
            loaded: table.clone(),
            out: vec![0; text.len()],
            count: 0,
            frame: [0.0; 9],
            arranged: table.clone(),
            numbers: vec![0; table.len()],
            list: vec![0; fragments],
            answer: [0; 12],
            moved: false,
            serial: middle(text),
            table,
        }
    }

    /// The number that the library answers.
    fn number(&mut self, call: Call) -> u32 {
        let Library { text, table, loaded, out, count, frame, arranged, numbers, list, answer, moved, serial } = self;
        let (text, n) = (text.as_ptr(), text.len());
        let (slots, length) = (table.as_mut_ptr(), table.len());
        // SAFETY: all memory is as long as said, and no two pieces of it overlap.
        unsafe {
            match call {
                Call::Check => station_check(text, n, answer.as_mut_ptr()),
                Call::Load => station_load(text, n, loaded.as_mut_ptr(), loaded.len(), count),
                Call::Order => {
                    *moved = !*moved;
                    station_order(text, n, slots, length, MOVED, u8::from(*moved))
                }
                Call::Arrange => {
                    list.iter_mut().for_each(|byte| *byte ^= 1);
                    station_arrange(text, n, arranged.as_mut_ptr(), length, list.as_ptr(), list.len())
                }
                Call::Fragments => {
                    station_fragments(text, n, slots, length, numbers.as_mut_ptr(), numbers.len(), count)
                }
                Call::Save => station_save(text, n, slots, length, out.as_mut_ptr(), out.len(), count),
                Call::Tray => station_tray(text, n, slots, length, out.as_mut_ptr(), out.len(), count),
                Call::Find => u32::from(station_find(text, n, *serial, count) == 0),
                Call::Frame => station_frame(slots, length, frame.as_mut_ptr()),
            }
        }
    }
}

impl Side for Library<'_> {
    fn call(&mut self, call: Call) {
        assert_eq!(self.number(call), 0, "{call:?}");
        black_box(self);
    }
}

/// The reference, with the memory it is lent.
pub struct Reference<'t> {
    text: &'t [u8],
    /// The table, one fragment aside.
    pub table: Vec<reference::Slot>,
    /// The table that loading fills.
    pub loaded: Vec<reference::Slot>,
    /// What was written last.
    pub out: Vec<u8>,
    /// How many bytes, slots or lines.
    pub count: usize,
    /// The last frame.
    pub frame: [f64; 9],
    /// The table that is arranged.
    pub arranged: Vec<reference::Slot>,
    /// The fragments of the slots.
    pub numbers: Vec<u32>,
    /// A mark for each fragment.
    list: Vec<reference::Mark>,
    /// Whether the fragment that orders move is aside.
    moved: bool,
    /// The atom that is jumped to.
    serial: reference::Serial,
}

impl<'t> Reference<'t> {
    /// The reference on an accepted text.
    pub fn on(text: &'t [u8]) -> Reference<'t> {
        let loaded = reference::table::loaded(text).expect("an accepted entry");
        let mut table = loaded.clone();
        reference::order(text, &mut table, reference::FragmentNumber(ASIDE), reference::Mark::Aside)
            .expect("a second fragment");
        Reference {
            text,
            loaded,
            out: vec![0; text.len()],
            count: 0,
            frame: [0.0; 9],
            arranged: table.clone(),
            numbers: vec![0; table.len()],
            list: vec![reference::Mark::In; reference::fragments(&table).len()],
            moved: false,
            serial: reference::Serial(middle(text)),
            table,
        }
    }

    fn number(&mut self, call: Call) -> Result<(), reference::Refusal> {
        match call {
            Call::Check => black_box(reference::check(self.text)).accepted()?,
            Call::Load => self.count = reference::load(self.text, &mut self.loaded)?,
            Call::Order => {
                self.moved = !self.moved;
                let mark = if self.moved { reference::Mark::Aside } else { reference::Mark::In };
                reference::order(self.text, &mut self.table, reference::FragmentNumber(MOVED), mark)?;
            }
            Call::Arrange => {
                self.list.iter_mut().for_each(|mark| *mark = reference::Mark::asked(1 - mark.byte()));
                reference::arrange(self.text, &mut self.arranged, &self.list)?;
            }
            Call::Fragments => self.count = reference::fragment_numbers(self.text, &self.table, &mut self.numbers)?,
            Call::Save => self.count = reference::save(self.text, &self.table, &mut self.out)?,
            Call::Tray => self.count = reference::tray(self.text, &self.table, &mut self.out)?,
            Call::Find => self.count = reference::find(self.text, self.serial).looked as usize,
            Call::Frame => {
                let reference::Frame { lowest, highest, middle } = reference::frame(&self.table)?;
                let axis = |index: usize| [lowest, highest, middle][index / 3][index % 3];
                self.frame = std::array::from_fn(axis);
            }
        }
        Ok(())
    }
}

impl Side for Reference<'_> {
    fn call(&mut self, call: Call) {
        assert_eq!(self.number(call), Ok(()), "{call:?}");
        black_box(self);
    }
}

/// Makes each call once on both sides and sees to it that they answer alike: only then are their times worth comparing.
pub fn agree(library: &mut Library, reference: &mut Reference) {
    for call in Call::ALL {
        library.call(call);
        reference.call(call);
        if matches!(call, Call::Load | Call::Fragments | Call::Save | Call::Tray | Call::Find) {
            assert_eq!(library.count, reference.count as u64, "{call:?}");
            assert!(library.out == reference.out, "{call:?} differs");
        }
    }
    let same = |(a, b): (&station::Slot, &reference::Slot)| (a.serial, a.mark, a.x) == (b.serial, b.mark, b.x);
    assert!(library.table.iter().zip(&reference.table).all(same));
    assert!(library.loaded.iter().zip(&reference.loaded).all(same));
    assert!(library.arranged.iter().zip(&reference.arranged).all(same));
    assert!(library.numbers == reference.numbers, "the fragments of the slots differ");
    assert_eq!(library.frame, reference.frame);
}
