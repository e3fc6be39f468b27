//! The feed to the renderer. All places are in thousandths.

use crate::raw::{station_dot, station_frame, station_stroke, Slot};
use crate::Refusal;

/// The place of an atom that is in: x, y, z.
#[derive(Clone, Copy, Debug, PartialEq)]
pub struct Dot(pub [f64; 3]);

impl Dot {
    /// The dot of a slot, if there is something to draw.
    pub fn of(slot: &Slot) -> Option<Dot> {
        let mut out = [0.0; 3];
        // SAFETY: the output has room for three doubles.
        let drawn = unsafe { station_dot(slot, out.as_mut_ptr()) };
        (drawn == 1).then_some(Dot(out))
    }
}

/// The places of two atoms that are in.
#[derive(Clone, Copy, Debug, PartialEq)]
pub struct Stroke {
    /// Where it begins.
    pub from: Dot,
    /// Where it ends.
    pub to: Dot,
}

impl Stroke {
    /// The stroke between two slots, if there is something to draw.
    pub fn between(a: &Slot, b: &Slot) -> Option<Stroke> {
        let mut out = [0.0; 6];
        // SAFETY: the output has room for six doubles.
        let drawn = unsafe { station_stroke(a, b, out.as_mut_ptr()) };
        let [ax, ay, az, bx, by, bz] = out;
        (drawn == 1).then_some(Stroke { from: Dot([ax, ay, az]), to: Dot([bx, by, bz]) })
    }
}

/// The box round the atoms that are in.
#[derive(Clone, Copy, Debug, PartialEq)]
pub struct Frame {
    /// The lowest x, y, z.
    pub lowest: [f64; 3],
    /// The highest x, y, z.
    pub highest: [f64; 3],
    /// Half of lowest plus highest.
    pub middle: [f64; 3],
}

impl Frame {
    /// The frame of the atoms that are in among some slots.
    ///
    /// ```
    /// # fn main() -> Result<(), station::Refusal> {
    /// use station::{Frame, Refusal, Slot};
    ///
    /// let at = |x, y, z| Slot { kind: 1, x, y, z, ..Slot::default() };
    /// assert_eq!(Frame::of(&[at(-1, 0, 5), at(2, 0, 5)])?.middle, [0.5, 0.0, 5.0]);
    /// assert_eq!(Frame::of(&[]), Err(Refusal::NOTHING_TO_FRAME));
    /// # Ok(()) }
    /// ```
    pub fn of(slots: &[Slot]) -> Result<Frame, Refusal> {
        let mut out = [0.0; 9];
        // SAFETY: the slots are as many as said, and the output has room for nine doubles.
        let number = unsafe { station_frame(slots.as_ptr(), slots.len(), out.as_mut_ptr()) };
        Refusal::of(number)?;
        let [lx, ly, lz, hx, hy, hz, mx, my, mz] = out;
        Ok(Frame { lowest: [lx, ly, lz], highest: [hx, hy, hz], middle: [mx, my, mz] })
    }
}
