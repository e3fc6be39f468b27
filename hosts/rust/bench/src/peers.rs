//! What the library is held against beside the reference.

use station::Slot;

/// The bytes within 32-126. The compiler adds two at a time.
pub fn printable(text: &[u8]) -> usize {
    text.iter().filter(|byte| (32..=126).contains(*byte)).count()
}

/// The lowest x, y, z and the highest of the atoms that are in: the frame as one would write it without a contract.
pub fn plain_frame(slots: &[Slot]) -> [i32; 6] {
    let (mut low, mut high) = ([i32::MAX; 3], [i32::MIN; 3]);
    for slot in slots.iter().filter(|slot| (slot.kind == 1 || slot.kind == 2) && slot.mark == 0) {
        for (axis, value) in [slot.x, slot.y, slot.z].into_iter().enumerate() {
            low[axis] = low[axis].min(value);
            high[axis] = high[axis].max(value);
        }
    }
    [low[0], low[1], low[2], high[0], high[1], high[2]]
}

#[cfg(gemmi)]
extern "C" {
    fn bench_gemmi_keep(text: *const u8, n: usize);
    fn bench_gemmi_read() -> usize;
}

/// gemmi on a text that it keeps. There is one such text at a time.
pub struct Gemmi(());

impl Gemmi {
    /// gemmi, if the benchmark was built with it and it finds all the atoms.
    #[cfg(gemmi)]
    pub fn on(text: &[u8], atoms: usize) -> Option<Gemmi> {
        // SAFETY: the text is as long as said, and it is copied.
        unsafe { bench_gemmi_keep(text.as_ptr(), text.len()) };
        (Gemmi(()).read() == atoms).then_some(Gemmi(()))
    }

    /// None: the benchmark was built without it.
    #[cfg(not(gemmi))]
    pub fn on(_text: &[u8], _atoms: usize) -> Option<Gemmi> {
        None
    }

    /// Reads the kept text to a model and counts its atoms.
    pub fn read(&self) -> usize {
        #[cfg(gemmi)]
        // SAFETY: it reads only what it has kept, and the benchmark has one thread.
        return unsafe { bench_gemmi_read() };
        #[cfg(not(gemmi))]
        0
    }
}
