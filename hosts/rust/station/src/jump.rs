//! The jump: the line of an atom, by its serial.

use crate::piece;
use crate::raw::station_find;

/// Where the atom with a serial stands in a text, which need not be an entry. Nothing is refused: a line that does not
/// read is passed over.
///
/// ```
/// use station::Jump;
///
/// let text = b"ATOM     32  N  AARG A  -3      11.281  86.699  94.383  0.50 35.88           N  \n";
/// assert_eq!(Jump::to(text, 32), Jump { line: Some(1), looked: 1 });
/// assert_eq!(Jump::to(text, 33), Jump { line: None, looked: 1 });
/// assert_eq!(Jump::to(&text[..80], 32), Jump { line: None, looked: 0 });
/// ```
#[derive(Clone, Copy, Debug, PartialEq, Eq)]
pub struct Jump {
    /// The first ATOM or HETATM line with the serial, from 1.
    pub line: Option<u64>,
    /// The lines looked at: up to this one, or all whole lines.
    pub looked: u64,
}

impl Jump {
    /// Jumps to the atom with a serial.
    pub fn to(text: &[u8], serial: u32) -> Jump {
        let mut looked = 0;
        // SAFETY: the text is as long as said and does not overlap the count.
        let line = unsafe { station_find(text.as_ptr(), text.len(), serial, &mut looked) };
        Jump { line: (line > 0).then_some(line), looked }
    }

    /// The line itself with its newline, in the text that was jumped in.
    pub fn piece<'t>(&self, text: &'t [u8]) -> Option<&'t [u8]> {
        piece(text, self.line?)
    }
}
