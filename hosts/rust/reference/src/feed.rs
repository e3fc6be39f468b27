//! The feed to the renderer.

use crate::table::{Mark, Slot};
use crate::Refusal;

/// The box round the drawn atoms, in thousandths.
#[derive(Clone, Copy, Debug, PartialEq)]
pub struct Frame {
    /// The lowest x, y and z.
    pub lowest: [f64; 3],
    /// The highest x, y and z.
    pub highest: [f64; 3],
    /// Half of lowest plus highest.
    pub middle: [f64; 3],
}

/// The place of a drawn atom: one that is "in".
fn drawn(slot: &Slot) -> Option<[i32; 3]> {
    (slot.is_coordinate() && slot.mark() == Some(Mark::In)).then_some([slot.x, slot.y, slot.z])
}

/// The dot of a slot, if there is something to draw.
pub fn dot(slot: &Slot) -> Option<[f64; 3]> {
    drawn(slot).map(|place| place.map(f64::from))
}

/// The stroke of a pair of slots, if there is something to draw.
pub fn stroke(a: &Slot, b: &Slot) -> Option<[f64; 6]> {
    let ([ax, ay, az], [bx, by, bz]) = (dot(a)?, dot(b)?);
    Some([ax, ay, az, bx, by, bz])
}

/// The frame of the drawn atoms among the slots.
pub fn frame(slots: &[Slot]) -> Result<Frame, Refusal> {
    let places: Vec<[i32; 3]> = slots.iter().filter_map(drawn).collect();
    let axis = |index: usize| {
        let values = places.iter().map(|place| place[index]);
        let lowest = values.clone().min().ok_or(Refusal::NothingToFrame)?;
        let highest = values.max().ok_or(Refusal::NothingToFrame)?;
        let sum = i64::from(lowest) + i64::from(highest);
        Ok((f64::from(lowest), f64::from(highest), sum as f64 / 2.0))
    };
    let (x, y, z) = (axis(0)?, axis(1)?, axis(2)?);
    Ok(Frame { lowest: [x.0, y.0, z.0], highest: [x.1, y.1, z.1], middle: [x.2, y.2, z.2] })
}

#[cfg(test)]
mod tests {
    use super::*;
    use crate::table::{ATOM, HETATM, TER};

    fn at(kind: u8, x: i32, y: i32, z: i32) -> Slot {
        Slot { kind, x, y, z, ..Slot::default() }
    }

    #[test]
    fn dots_and_strokes() {
        let (a, b) = (at(ATOM, 11_281, 0, -1), at(HETATM, 1, 2, 3));
        assert_eq!(dot(&a), Some([11_281.0, 0.0, -1.0]));
        assert_eq!(stroke(&a, &b), Some([11_281.0, 0.0, -1.0, 1.0, 2.0, 3.0]));
        let aside = Slot { mark: 1, ..a };
        let damaged = Slot { mark: 2, ..a };
        for none in [aside, damaged, at(TER, 1, 1, 1), at(0, 1, 1, 1), at(4, 1, 1, 1)] {
            assert_eq!(dot(&none), None);
            assert_eq!(stroke(&a, &none), None);
            assert_eq!(stroke(&none, &a), None);
        }
    }

    #[test]
    fn frames() {
        let pair = [at(ATOM, -1, 0, 5), at(TER, 100, 100, 100), at(HETATM, 2, 0, 5)];
        let expected = Frame { lowest: [-1.0, 0.0, 5.0], highest: [2.0, 0.0, 5.0], middle: [0.5, 0.0, 5.0] };
        assert_eq!(frame(&pair), Ok(expected));
        assert_eq!(frame(&pair[1..2]), Err(Refusal::NothingToFrame));
        assert_eq!(frame(&[]), Err(Refusal::NothingToFrame));
        let wide = frame(&[at(ATOM, i32::MIN, 5, -5), at(ATOM, i32::MAX, 5, 5)]).expect("two atoms");
        assert_eq!(wide.middle, [-0.5, 5.0, 0.0]);
        assert!(wide.middle[2].is_sign_positive());
    }
}
