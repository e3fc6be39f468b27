//! Neighbours by distance. Which atoms are joined by a stick is a rule of the picture: the format says nothing of it, and no
//! verdict depends on it.

use std::collections::HashMap;

/// Atoms are looked for in boxes of this many thousandths. No two that are joined are farther apart.
const BOX: f64 = 4_500.0;

/// In a box with more atoms than matter has room for nothing is looked for: every pair in it would be one.
const CROWD: usize = 400;

/// How much longer than the two radii a stick may be, and the shortest one, in thousandths.
const SLACK: f64 = 450.0;
const SHORTEST: f64 = 400.0;

/// The radius by which an atom is joined, in thousandths. Metals are joined to nothing.
pub fn radius(element: [u8; 2]) -> Option<f64> {
    Some(match &element {
        b" H" | b" D" => 310.0,
        b" B" => 840.0,
        b" C" => 760.0,
        b" N" => 710.0,
        b" O" => 660.0,
        b" F" => 570.0,
        b"SI" => 1_110.0,
        b" P" => 1_070.0,
        b" S" => 1_050.0,
        b"CL" => 1_020.0,
        b"SE" | b"BR" => 1_200.0,
        b" I" => 1_390.0,
        _ => return None,
    })
}

/// Whether two atoms at a distance are joined. Hydrogens are not joined to one another.
pub fn joined(a: [u8; 2], b: [u8; 2], distance: f64) -> bool {
    let hydrogen = |element: [u8; 2]| matches!(&element, b" H" | b" D");
    match (radius(a), radius(b)) {
        (Some(of_a), Some(of_b)) if !(hydrogen(a) && hydrogen(b)) => {
            (SHORTEST..=of_a + of_b + SLACK).contains(&distance)
        }
        _ => false,
    }
}

/// How far apart two places are.
pub fn distance(a: [f64; 3], b: [f64; 3]) -> f64 {
    a.iter().zip(b).map(|(a, b)| (a - b) * (a - b)).sum::<f64>().sqrt()
}

type Corner = [i64; 3];

/// Places by the boxes that they are in.
pub struct Boxes<'p> {
    places: &'p [[f64; 3]],
    boxes: HashMap<Corner, Vec<usize>>,
}

impl<'p> Boxes<'p> {
    pub fn of(places: &'p [[f64; 3]]) -> Boxes<'p> {
        let mut boxes: HashMap<Corner, Vec<usize>> = HashMap::new();
        for (index, place) in places.iter().enumerate() {
            boxes.entry(corner(*place)).or_default().push(index);
        }
        boxes.retain(|_, inside| inside.len() <= CROWD);
        Boxes { places, boxes }
    }

    /// The places not farther from one than a box is long, and how far they are; itself is one of them.
    pub fn near(&self, place: [f64; 3]) -> impl Iterator<Item = (usize, f64)> + '_ {
        let [x, y, z] = corner(place);
        let around =
            (-1..=1).flat_map(move |i| (-1..=1).flat_map(move |j| (-1..=1).map(move |k| [x + i, y + j, z + k])));
        let inside = around.filter_map(|corner| self.boxes.get(&corner)).flatten();
        inside.map(move |&index| (index, distance(place, self.places[index]))).filter(|(_, distance)| *distance <= BOX)
    }
}

fn corner(place: [f64; 3]) -> Corner {
    place.map(|thousandths| (thousandths / BOX).floor() as i64)
}

#[cfg(test)]
mod tests {
    use super::*;

    #[test]
    fn neighbours_are_joined() {
        assert!(joined(*b" C", *b" C", 1_540.0) && joined(*b" C", *b" H", 1_090.0) && joined(*b" S", *b" S", 2_050.0));
        for (a, b, distance) in
            [(b" C", b" C", 2_500.0), (b" H", b" H", 700.0), (b"ZN", b" N", 2_000.0), (b" C", b" C", 0.0)]
        {
            assert!(!joined(*a, *b, distance), "{distance}");
        }
    }

    #[test]
    fn near_is_what_a_walk_over_all_finds() {
        let places: Vec<[f64; 3]> = (0..400)
            .map(|n| [n * 7_919, n * 104_729, n * 1_299_709].map(|far| f64::from(far % 20_000 - 10_000)))
            .collect();
        let boxes = Boxes::of(&places);
        for place in &places {
            let mut near: Vec<usize> = boxes.near(*place).map(|(index, _)| index).collect();
            near.sort_unstable();
            let all: Vec<usize> = (0..places.len()).filter(|&index| distance(*place, places[index]) <= BOX).collect();
            assert_eq!(near, all);
        }
        let crowd = vec![[0.0; 3]; 100_000];
        assert_eq!(Boxes::of(&crowd).near([0.0; 3]).count(), 0);
    }
}
