//! Kinds of fractional places: by their numbers, by their coordinates, and by the text that they are asked of.

use std::collections::BTreeSet;

use reference::{Fractional, Refusal, Rows};

use crate::entry::{named, PIECE};
use crate::findings::Call;
use crate::models::MODEL;
use crate::rows::TRANSFORMS;

/// An end of the range of a coordinate.
#[derive(Clone, Copy, Debug, PartialEq, Eq, PartialOrd, Ord)]
#[allow(missing_docs)]
pub enum End {
    Low,
    High,
}

/// What a fractional place may be like.
#[derive(Clone, Copy, Debug, PartialEq, Eq, PartialOrd, Ord)]
pub enum Kind {
    /// A half of a hundred-thousandth, above zero. A place is told in this kind and in those that follow up to `AtEnd`.
    Half,
    /// Below zero.
    NegativeHalf,
    /// A billionth more or less than a half, above zero.
    NearHalf,
    /// Below zero.
    NegativeNearHalf,
    /// No hundred-thousandths, though not zero.
    Vanishing,
    /// Zero.
    Zero,
    /// By its shift alone.
    ShiftAlone,
    /// More billionths than a double counts one by one.
    BeyondDoubles,
    /// By a row with the smallest number of 32 bits.
    LeastOfBits,
    /// By a row with the largest.
    MostOfBits,
    /// A coordinate of this axis is at an end of its range.
    AtEnd(usize, End),
    /// One past it, as the only cause of a refusal with 33.
    PastEnd(usize, End),
    /// The smallest or the largest number of 32 bits as a coordinate: refused with 33.
    FarOff,
    /// All three coordinates are out of their range.
    AllOut,
    /// Asked of a granted text with CRYST1. The text is granted and has SCALE lines in this kind and in those that follow up to
    /// `OfAtom`.
    WithCell,
    /// Without CRYST1.
    WithoutCell,
    /// With ORIGX lines.
    WithOrigx,
    /// Without ORIGX lines.
    WithoutOrigx,
    /// With models.
    InModels,
    /// For the coordinates of one of its atoms.
    OfAtom,
    /// Refused with 29 without CRYST1 and ORIGX lines.
    Bare,
    /// Refused with 29, with ORIGX lines.
    BareWithOrigx,
    /// Refused with 29, with CRYST1.
    BareWithCell,
    /// Refused with 29, and a coordinate is out of its range.
    BareAndOut,
    /// Refused with a number of the text, and a coordinate is out of its range.
    RefusedAndOut,
    /// Refused with a number of the text below right SCALE lines.
    RefusedBelow,
    /// Refused with 6 in this SCALE line.
    WrongScale(usize),
}

use Kind::*;

/// The ends of the range of a coordinate, in thousandths.
pub const RANGE: (i32, i32) = (-999_999, 9_999_999);

impl Kind {
    /// All kinds that a call has to meet.
    pub fn all(call: Call) -> Vec<Kind> {
        let ends = (0..3).flat_map(|axis| [End::Low, End::High].map(|end| (axis, end)));
        let mut kinds: Vec<Kind> = ends.flat_map(|(axis, end)| [AtEnd(axis, end), PastEnd(axis, end)]).collect();
        kinds.extend([Half, NegativeHalf, NearHalf, NegativeNearHalf, Zero, BeyondDoubles, FarOff, AllOut]);
        kinds.extend(match call {
            Call::Place => vec![Vanishing, ShiftAlone, LeastOfBits, MostOfBits],
            _ => vec![
                WithCell,
                WithoutCell,
                WithOrigx,
                WithoutOrigx,
                InModels,
                OfAtom,
                Bare,
                BareWithOrigx,
                BareWithCell,
                BareAndOut,
                RefusedAndOut,
                RefusedBelow,
                WrongScale(1),
                WrongScale(2),
                WrongScale(3),
            ],
        });
        kinds
    }
}

/// Whether a coordinate is out of its range.
fn out(coordinate: i32) -> bool {
    !(RANGE.0..=RANGE.1).contains(&coordinate)
}

/// The kinds of a place by rows.
pub fn met(rows: &Rows, at: [i32; 3], answer: &Result<Fractional, Refusal>) -> BTreeSet<Kind> {
    match answer {
        Ok(place) => of_granted(rows, at, place),
        Err(_) => of_out(at),
    }
}

fn of_granted(rows: &Rows, at: [i32; 3], place: &Fractional) -> BTreeSet<Kind> {
    let mut kinds: BTreeSet<Kind> = place.billionths.into_iter().filter_map(of_number).collect();
    let has = |number: i32| rows.iter().flatten().any(|&own| own == number);
    let shifted = at == [0; 3] && rows.iter().any(|row| row[3] != 0);
    let beyond = place.billionths.iter().any(|number| number.unsigned_abs() > 1 << f64::MANTISSA_DIGITS);
    let all =
        [(shifted, ShiftAlone), (beyond, BeyondDoubles), (has(i32::MIN), LeastOfBits), (has(i32::MAX), MostOfBits)];
    kinds.extend(all.into_iter().filter_map(|(is, kind)| is.then_some(kind)));
    for (axis, coordinate) in at.into_iter().enumerate() {
        kinds.extend((coordinate == RANGE.0).then_some(AtEnd(axis, End::Low)));
        kinds.extend((coordinate == RANGE.1).then_some(AtEnd(axis, End::High)));
    }
    kinds
}

/// The kind of one of the three numbers, in billionths.
fn of_number(billionths: i64) -> Option<Kind> {
    match (billionths, billionths.unsigned_abs() % 10_000) {
        (0, _) => Some(Zero),
        (1.., 5_000) => Some(Half),
        (_, 5_000) => Some(NegativeHalf),
        (1.., 4_999 | 5_001) => Some(NearHalf),
        (_, 4_999 | 5_001) => Some(NegativeNearHalf),
        (-4_998..=4_998, _) => Some(Vanishing),
        _ => None,
    }
}

/// The kinds of coordinates of which one at least is out of its range.
fn of_out(at: [i32; 3]) -> BTreeSet<Kind> {
    let outer: Vec<usize> = (0..3).filter(|&axis| out(at[axis])).collect();
    let mut kinds = BTreeSet::new();
    if let [axis] = outer[..] {
        kinds.extend((at[axis] == RANGE.0 - 1).then_some(PastEnd(axis, End::Low)));
        kinds.extend((at[axis] == RANGE.1 + 1).then_some(PastEnd(axis, End::High)));
    }
    kinds.extend((outer.len() == 3).then_some(AllOut));
    kinds.extend(at.iter().any(|coordinate| matches!(*coordinate, i32::MIN | i32::MAX)).then_some(FarOff));
    kinds
}

/// The kinds of a text that coordinates are asked of with this answer.
pub fn of_text(text: &[u8], at: [i32; 3], answer: &Result<Fractional, Refusal>) -> BTreeSet<Kind> {
    let has = |names: &[&[u8; 6]]| text.chunks(PIECE).any(|line| named(line, names));
    let (cell, origx, is_out) = (has(&[b"CRYST1"]), has(&TRANSFORMS[..3]), at.into_iter().any(out));
    let all = match answer {
        Ok(_) => vec![
            (true, if cell { WithCell } else { WithoutCell }),
            (true, if origx { WithOrigx } else { WithoutOrigx }),
            (has(&[MODEL]), InModels),
            (places(text).contains(&at), OfAtom),
        ],
        Err(Refusal::NoScale) => {
            vec![(!cell && !origx, Bare), (origx, BareWithOrigx), (cell, BareWithCell), (is_out, BareAndOut)]
        }
        Err(Refusal::Coordinate) => vec![],
        Err(refusal) => of_refused(text, *refusal, is_out),
    };
    all.into_iter().filter_map(|(is, kind)| is.then_some(kind)).collect()
}

/// The kinds of a text that is refused, and whether it has them.
fn of_refused(text: &[u8], refusal: Refusal, is_out: bool) -> Vec<(bool, Kind)> {
    let line = reference::check(text).line as usize;
    let good = &text[..(PIECE * line.saturating_sub(1)).min(text.len())];
    let scaled = good.chunks(PIECE).any(|line| named(line, &[b"SCALE3"]));
    let wrong = |row: usize| refusal == Refusal::Field && text[good.len()..].starts_with(TRANSFORMS[row + 2]);
    let mut all: Vec<(bool, Kind)> = (1..=3).map(|row| (wrong(row), WrongScale(row))).collect();
    all.extend([(is_out, RefusedAndOut), (scaled, RefusedBelow)]);
    all
}

/// The coordinates of the atoms of a text whose lines read by themselves, in thousandths.
pub fn places(text: &[u8]) -> Vec<[i32; 3]> {
    let lines = text.chunks_exact(PIECE).filter_map(|piece| reference::slot_of_line(&piece[..PIECE - 1]).ok());
    lines.filter(|slot| slot.is_coordinate()).map(|slot| [slot.x, slot.y, slot.z]).collect()
}

#[cfg(test)]
mod tests {
    use super::*;

    /// The kinds of a place by one row and two of zeros.
    fn kinds(row: [i32; 4], at: [i32; 3]) -> Vec<Kind> {
        let rows = [row, [0; 4], [0; 4]];
        met(&rows, at, &reference::place(&rows, at)).into_iter().filter(|kind| *kind != Zero).collect()
    }

    #[test]
    fn by_numbers() {
        assert_eq!(
            (kinds([1, 0, 0, 0], [5_000, 0, 0]), kinds([0, 1, 0, 1], [0, -15_000, 0])),
            (vec![Half], vec![NegativeHalf])
        );
        assert_eq!(
            (kinds([1, 0, 0, 0], [4_999, 0, 0]), kinds([-1, 0, 0, 0], [5_001, 0, 0])),
            (vec![NearHalf], vec![NegativeNearHalf])
        );
        assert_eq!((kinds([3, 0, 0, 0], [7, 0, 0]), kinds([0, 0, 0, 9], [0; 3])), (vec![Vanishing], vec![ShiftAlone]));
        assert_eq!(kinds([i32::MAX, 0, 0, 0], [RANGE.1, 1, 0]), [BeyondDoubles, MostOfBits, AtEnd(0, End::High)]);
        assert_eq!(kinds([0, 0, i32::MIN, 0], [0, 0, 1]), [LeastOfBits]);
    }

    #[test]
    fn by_coordinates() {
        assert_eq!(kinds([1; 4], [0, RANGE.0 - 1, 0]), [PastEnd(1, End::Low)]);
        assert_eq!(kinds([1; 4], [RANGE.1 + 1, 0, RANGE.1 + 1]), []);
        assert_eq!(kinds([1; 4], [i32::MIN, 10_000_000, i32::MAX]), [FarOff, AllOut]);
    }
}
