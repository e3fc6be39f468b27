//! Fractional places in texts and by rows of any numbers: coordinates at the ends of their range and past them, and those that
//! come to a half.

use crate::chance::Chance;
use crate::harness::Harness;
use crate::places::{places, RANGE};

/// How many places a case has.
const PLACES: usize = 40;

/// Numbers of 32 bits, and those at the ends of what columns hold.
const ENDS: [i32; 6] = [i32::MIN, i32::MAX, i32::MIN + 1, -99_999_999, 999_999_999, -1];

/// Places by rows of any numbers.
pub fn some_places(harness: &mut Harness, chance: &mut Chance) {
    for _ in 0..PLACES {
        let rows = any_rows(chance);
        let at = coordinates(chance, &rows);
        harness.place(&rows, at);
    }
}

/// The rows of a text, and a place by them.
pub fn a_place_in(harness: &mut Harness, chance: &mut Chance, text: &[u8]) {
    harness.scale(text);
    let rows = reference::rows(text).unwrap_or_default();
    let atoms = places(text);
    let at = if atoms.is_empty() || !chance.once_in(4) { coordinates(chance, &rows) } else { *chance.pick(&atoms) };
    harness.fractional(text, at);
}

/// Rows of numbers as entries have them, of small ones, of any, or of the ends alone.
fn any_rows(chance: &mut Chance) -> reference::Rows {
    let sort = chance.below(8);
    let mut number = |usual: i64| match sort {
        0 => chance.within(-12, 12) as i32 * i32::from(usual != 50_000),
        1 => *chance.pick(&ENDS[..2]),
        2 => chance.bits() as i32,
        3 | 4 => *chance.pick(&[0, 1, -1, 5, 250, -16_155, 999_999_999, i32::MAX, i32::MIN]),
        _ => chance.within(-usual, usual) as i32,
    };
    [(); 3].map(|()| [number(60_000), number(60_000), number(60_000), number(50_000)])
}

/// Three coordinates, for these rows.
fn coordinates(chance: &mut Chance, rows: &reference::Rows) -> [i32; 3] {
    let (low, high) = (i64::from(RANGE.0), i64::from(RANGE.1));
    let any = [(); 3].map(|()| chance.within(low, high) as i32);
    let axis = chance.below(3);
    match chance.below(12) {
        0 => any.map(|_| *chance.pick(&[RANGE.0, RANGE.1, 0, 1, -1])),
        1 => with(any, axis, *chance.pick(&[RANGE.0, RANGE.1])),
        2 | 3 => with(any, axis, *chance.pick(&[RANGE.0 - 1, RANGE.1 + 1])),
        4 => with(any, axis, *chance.pick(&[i32::MIN, i32::MAX])),
        5 => any.map(|_| *chance.pick(&[i32::MIN, i32::MAX, RANGE.0 - 1, RANGE.1 + 1])),
        6 => any.map(|_| chance.bits() as i32),
        7 => any.map(|_| chance.within(-12, 12) as i32),
        8 => [0; 3],
        9 => any,
        _ => {
            let row = *chance.pick(rows);
            at_half(chance, row, any).unwrap_or(any)
        }
    }
}

/// Coordinates with another one on an axis.
fn with(mut at: [i32; 3], axis: usize, coordinate: i32) -> [i32; 3] {
    at[axis] = coordinate;
    at
}

/// Coordinates that come to a half by a row, or to a billionth beside it: one of the three is looked for.
fn at_half(chance: &mut Chance, row: [i32; 4], at: [i32; 3]) -> Option<[i32; 3]> {
    let at = if chance.once_in(2) { [0; 3] } else { at };
    let due = *chance.pick(&[5_000, 5_000, 4_999, 5_001]);
    let first = chance.below(3);
    (first..first + 3).find_map(|axis| {
        let axis = axis % 3;
        let others: i64 = (0..3).filter(|&other| other != axis).map(|other| product(row, at, other)).sum();
        let comes = |coordinate: &i32| (others + product(row, [*coordinate; 3], axis)).rem_euclid(10_000) == due;
        let found = (0..10_000).find(comes)?;
        Some(with(at, axis, found + 10_000 * chance.within(-99, 998) as i32))
    })
}

/// A coefficient times its coordinate.
fn product(row: [i32; 4], at: [i32; 3], axis: usize) -> i64 {
    i64::from(row[axis]) * i64::from(at[axis])
}

#[cfg(test)]
mod tests {
    use super::*;

    #[test]
    fn halves_are_halves() {
        let mut chance = Chance::new(2);
        let row = [19_231, -16_155, 7, -1];
        for _ in 0..200 {
            let at = at_half(&mut chance, row, [123, -4_567, 89]).expect("an odd coefficient");
            let place = reference::place(&[row; 3], at).expect("coordinates of the range");
            assert!(matches!(place.billionths[0].rem_euclid(10_000), 4_999..=5_001), "{at:?}");
        }
        assert_eq!(at_half(&mut chance, [20, 4, 0, 1], [1; 3]).map(|at| at.len()), None);
    }
}
