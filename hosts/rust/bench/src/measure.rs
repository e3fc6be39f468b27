//! Takes the times of one entry.

use std::hint::black_box;
use std::time::{Duration, Instant};

use crate::clock::Best;
use crate::entry::Entry;
use crate::peers::{plain_frame, printable, Gemmi};
use crate::sides::{agree, Call, Library, Reference, Side};
use crate::stack;

/// Turns that each call has. Between two of them all others have one, so that a busy minute meets all alike.
pub const ROUNDS: usize = 8;

/// The times of one entry, in nanoseconds.
pub struct Times {
    /// The entry's name.
    pub name: String,
    /// Its lines.
    pub lines: usize,
    /// Its bytes.
    pub bytes: usize,
    /// Each call on the library and on the reference.
    pub calls: Vec<(Call, Best, Best)>,
    /// The loop over the bytes.
    pub byte_loop: Best,
    /// The loop over the slots.
    pub plain_frame: Best,
    /// gemmi, if it is there.
    pub gemmi: Option<Best>,
}

impl Times {
    /// A call's time on the library.
    pub fn library(&self, call: Call) -> Option<f64> {
        self.calls.iter().find(|(found, _, _)| *found == call).map(|(_, library, _)| library.0)
    }
}

/// Measures some calls on an entry.
pub fn times(entry: &Entry, calls: &[Call]) -> Times {
    let mut library = Library::on(&entry.text);
    let mut reference = Reference::on(&entry.text);
    agree(&mut library, &mut reference);
    assert_eq!(plain_frame(&library.table).map(f64::from), library.frame[..6]);
    let gemmi = Gemmi::on(&entry.text, entry.atoms);
    let mut times = Times {
        name: entry.name.clone(),
        lines: entry.lines(),
        bytes: entry.text.len(),
        calls: calls.iter().map(|&call| (call, Best::default(), Best::default())).collect(),
        byte_loop: Best::default(),
        plain_frame: Best::default(),
        gemmi: gemmi.as_ref().map(|_| Best::default()),
    };
    for _ in 0..ROUNDS {
        for (call, by_library, by_reference) in &mut times.calls {
            turn(by_library, &mut library, *call);
            turn(by_reference, &mut reference, *call);
        }
        times.byte_loop.turn(|| printable(black_box(&entry.text)));
        times.plain_frame.turn(|| plain_frame(black_box(&library.table)));
        if let (Some(gemmi), Some(best)) = (&gemmi, &mut times.gemmi) {
            best.turn(|| gemmi.read());
        }
    }
    times
}

fn turn(best: &mut Best, side: &mut impl Side, call: Call) {
    best.turn(|| side.call(call));
}

/// A text that took so long has had its turns, whatever comes of the others.
const PATIENCE: Duration = Duration::from_secs(5);

/// The times of the check alone on some entries, in nanoseconds.
pub fn checks(entries: &[Entry]) -> Vec<Best> {
    let mut times = vec![(Best::default(), Duration::ZERO); entries.len()];
    for entry in entries {
        let granted =
            reference::check(&entry.text).refusal.is_none() && station::Entry::check(&entry.text).is_granted();
        assert!(granted, "{} is refused", entry.name);
    }
    for _ in 0..ROUNDS {
        for (entry, (best, taken)) in entries.iter().zip(&mut times).filter(|(_, (_, taken))| *taken < PATIENCE) {
            let begun = Instant::now();
            best.turn(|| station::Entry::check(black_box(&entry.text)));
            *taken += begun.elapsed();
        }
    }
    times.into_iter().map(|(best, _)| best).collect()
}

/// The stack that the calls of the library use on one entry.
pub struct Stacks {
    /// The entry's name.
    pub name: String,
    /// Bytes, in the order of [`Call::ALL`].
    pub used: [Option<usize>; Call::ALL.len()],
}

/// Measures the stack of each call on an entry.
pub fn stacks(entry: &Entry) -> Stacks {
    let mut library = Library::on(&entry.text);
    Stacks { name: entry.name.clone(), used: Call::ALL.map(|call| stack::used(|| library.call(call))) }
}
