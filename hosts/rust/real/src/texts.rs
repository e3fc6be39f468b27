//! Texts made of an entry, and what is looked for in them.

use differ::chance::Chance;
use differ::entry::{named, ATOMS, COORDINATES};
use differ::jumps::serial_of;
use station::pieces;

/// How many sets of fragments are made up.
const SETS: usize = 3;

/// The lines of a text that have the name of an atom, from 1, each with its serial.
pub fn atoms(text: &[u8]) -> Vec<(u64, u32)> {
    let lines = pieces(text).zip(1..).filter(|(piece, _)| named(piece, ATOMS));
    lines.filter_map(|(piece, line)| Some((line, serial_of(piece)?))).collect()
}

/// Sets of fragments to set aside: the first, the last, one in the middle, some by chance, all.
pub fn choices(chance: &mut Chance, count: usize) -> Vec<Vec<u32>> {
    let all: Vec<u32> = (1..).take(count).collect();
    let (Some(&first), Some(&last)) = (all.first(), all.last()) else {
        return Vec::new();
    };
    let middle = all.get(1 + chance.below(count.saturating_sub(2))).copied().unwrap_or(first);
    let mut choices = vec![vec![first], vec![last], vec![middle]];
    choices.extend((0..SETS).map(|_| all.iter().copied().filter(|_| chance.once_in(2)).collect()));
    choices.push(all);
    choices
}

/// The text with one thing wrong, mostly: a byte, a line that is gone, there twice or too early, or the end missing.
pub fn damaged(chance: &mut Chance, text: &[u8]) -> Vec<u8> {
    let mut lines: Vec<Vec<u8>> = pieces(text).map(<[u8]>::to_vec).collect();
    if lines.len() < 2 {
        return Vec::new();
    }
    let at = chance.below(lines.len() - 1);
    match chance.below(6) {
        0 => drop(lines.remove(at)),
        1 => lines.insert(at, lines[at].clone()),
        2 => lines.swap(at, at + 1),
        3 => lines.truncate(at),
        kind => {
            let column = chance.below(lines[at].len());
            lines[at][column] = if kind == 4 { chance.printable() } else { chance.byte() };
        }
    }
    lines.concat()
}

/// The text with one of its atoms twice in a model, and the line that is refused for it, from 1.
pub fn with_twins(chance: &mut Chance, text: &[u8]) -> Option<(Vec<u8>, u64)> {
    let lines: Vec<&[u8]> = pieces(text).collect();
    let ends = |line: &&[u8]| line.starts_with(b"ENDMDL");
    let atoms = |from: usize, to: usize| (from..to).filter(|&at| named(lines[at], ATOMS)).collect::<Vec<usize>>();
    let a = *chance.pick(&atoms(0, lines.len()));
    let start = lines[..a].iter().rposition(ends).map_or(0, |end| end + 1);
    let end = lines[a..].iter().position(ends).map_or(lines.len(), |end| a + end);
    let b = *chance.pick(&atoms(start, end));
    let (first, second) = (a.min(b), a.max(b));
    // In a closed run another chain would be refused with 8.
    let closed = lines[second..end].iter().any(|line| line.starts_with(b"TER   "));
    let fits = first < second && (!closed || lines[first][21] == lines[second][21]);
    let mut twins = text.to_vec();
    for columns in [12..27, 76..78] {
        twins.copy_within(81 * first + columns.start..81 * first + columns.end, 81 * second + columns.start);
    }
    fits.then_some((twins, second as u64 + 1))
}

/// Whether a line of the text begins a model.
pub fn has_models(text: &[u8]) -> bool {
    pieces(text).any(|line| line.starts_with(b"MODEL "))
}

/// An accepted entry without models once more: its coordinates are then those of two models that are alike.
pub fn in_two_models(text: &[u8]) -> Vec<u8> {
    let lines: Vec<&[u8]> = pieces(text).collect();
    let is_coordinate = |line: &&[u8]| named(line, COORDINATES);
    let start = lines.iter().position(is_coordinate).unwrap_or(lines.len());
    let end = lines.iter().rposition(is_coordinate).map_or(start, |last| last + 1);
    let [one, two, over] =
        ["MODEL        1", "MODEL        2", "ENDMDL"].map(|name| format!("{name:80}\n").into_bytes());
    let coordinates = lines[start..end].concat();
    let models = [&one, &coordinates, &over, &two, &coordinates, &over].map(Vec::as_slice).concat();
    [lines[..start].concat(), models, lines[end..].concat()].concat()
}
