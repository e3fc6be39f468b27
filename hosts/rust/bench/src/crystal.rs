//! The calls of the crystal frame: those of a text against the check of the same text, the place by itself.

use std::hint::black_box;

use station::raw::{station_check, station_fractional, station_place, station_scale};

use crate::clock::Best;
use crate::entry::{Chance, Entry};
use crate::measure::ROUNDS;
use crate::{search, stack};

/// How many coordinates the place is asked of, each in its turn.
const PLACES: usize = 4_096;

/// A call.
#[derive(Clone, Copy, Debug, PartialEq, Eq)]
#[allow(missing_docs)]
pub enum Call {
    Check,
    Scale,
    Fractional,
    Place,
}

impl Call {
    /// All of them, in the order of the tables.
    pub const ALL: [Call; 4] = [Call::Check, Call::Scale, Call::Fractional, Call::Place];

    /// Its name in the tables.
    pub fn name(self) -> String {
        format!("{self:?}").to_lowercase()
    }
}

/// What the calls take on one entry.
pub struct Times {
    /// The entry's name.
    pub name: String,
    /// Its lines.
    pub lines: usize,
    /// Its bytes.
    pub bytes: usize,
    /// Nanoseconds, in the order of [`Call::ALL`]: of a text for all of it, of the place for one.
    pub best: [Best; Call::ALL.len()],
    /// Bytes of stack, likewise.
    pub stack: [Option<usize>; Call::ALL.len()],
}

impl Times {
    /// A call's time.
    pub fn of(&self, call: Call) -> f64 {
        self.best[call as usize].0
    }

    /// A fractional place by the text, in checks.
    pub fn fractional(&self) -> f64 {
        self.of(Call::Fractional) / self.of(Call::Check)
    }
}

/// The library, with the memory it is lent.
struct Library<'t> {
    text: &'t [u8],
    answer: [u64; 12],
    rows: [i32; 12],
    out: [i64; 6],
    places: Vec<[i32; 3]>,
}

impl<'t> Library<'t> {
    /// The library on an accepted text, with the rows of another one that has some.
    fn on(text: &'t [u8], rows: reference::Rows) -> Library<'t> {
        let mut chance = Chance::default();
        let mut place = |_| [(); 3].map(|()| chance.below(10_999_999) as i32 - 999_999);
        let rows = std::array::from_fn(|index| rows[index / 4][index % 4]);
        Library { text, answer: [0; 12], rows, out: [0; 6], places: (0..PLACES).map(&mut place).collect() }
    }

    /// The number that the library answers; the place is asked of all coordinates.
    fn call(&mut self, call: Call) -> u32 {
        let Library { text, answer, rows, out, places } = black_box(self);
        let (text, n) = (text.as_ptr(), text.len());
        // SAFETY: all memory is as long as said, and no two pieces of it overlap.
        unsafe {
            match call {
                Call::Check => station_check(text, n, answer.as_mut_ptr()),
                Call::Scale => station_scale(text, n, rows.as_mut_ptr()),
                Call::Fractional => station_fractional(text, n, places[0].as_ptr(), out.as_mut_ptr()),
                Call::Place => {
                    places.iter().map(|at| station_place(rows.as_ptr(), at.as_ptr(), out.as_mut_ptr())).sum()
                }
            }
        }
    }

    /// Sees to it that the library answers as the reference does: only then are its times worth anything.
    fn agree(&mut self, rows: reference::Rows) {
        let number = |answer: Result<(), reference::Refusal>| answer.err().map_or(0, reference::Refusal::number);
        let at = self.places[0];
        let of_text = reference::fractional(self.text, at);
        let expected = [number(reference::check(self.text).accepted()), number(of_text.map(|_| ()))];
        assert_eq!([Call::Check, Call::Fractional].map(|call| self.call(call)), expected);
        assert_eq!(self.out, of_text.map_or([0; 6], six), "of the text");
        assert_eq!(self.call(Call::Scale), expected[1]);
        assert_eq!(self.rows, std::array::from_fn(|index| rows[index / 4][index % 4]), "the rows");
        for at in self.places.clone() {
            // SAFETY: as above.
            let came = unsafe { station_place(self.rows.as_ptr(), at.as_ptr(), self.out.as_mut_ptr()) };
            assert_eq!((came, Ok(self.out)), (0, reference::place(&rows, at).map(six)), "{at:?}");
        }
    }
}

/// A fractional place as it is written.
fn six(place: reference::Fractional) -> [i64; 6] {
    let ([a, b, c], [d, e, f]) = (place.billionths, place.hundred_thousandths);
    [a, b, c, d, e, f]
}

/// Measures the calls on an entry of so many lines with CRYST1, ORIGX and SCALE lines, on one that lacks the last, and on one
/// of those texts for which the check looks at lines to come.
pub fn times(lines: usize) -> [Times; 3] {
    let [with, without] = [true, false].map(|scale| Entry::of_crystal(lines, scale));
    let rows = reference::crystal::rows(&with.text).expect("an accepted entry with SCALE lines");
    [with, without, search::falling(10_000)].map(|entry| times_of(&entry, rows))
}

fn times_of(entry: &Entry, rows: reference::Rows) -> Times {
    let mut library = Library::on(&entry.text, rows);
    library.agree(rows);
    let mut best = [Best::default(); Call::ALL.len()];
    for _ in 0..ROUNDS {
        for (call, best) in Call::ALL.into_iter().zip(&mut best) {
            best.turn(|| library.call(call));
        }
    }
    best[Call::Place as usize].0 /= PLACES as f64;
    let used = |call| stack::used(|| _ = black_box(library.call(call)));
    let (name, lines, bytes) = (entry.name.clone(), entry.lines(), entry.text.len());
    Times { name, lines, bytes, best, stack: Call::ALL.map(used) }
}
