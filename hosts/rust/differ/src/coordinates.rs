//! The coordinates of an entry that obeys the rules.

use std::collections::BTreeSet;

use crate::chance::Chance;
use crate::entry::{atom, chain, residue, ter, Columns, Residue};
use crate::twins::{label, Label};

/// A good ATOM or HETATM line with an atom that the entry has not yet.
fn new_atom(chance: &mut Chance, labels: &mut BTreeSet<Label>, name: &str, serial: i64, residue: &Residue) -> Columns {
    loop {
        let line = atom(chance, name, serial, residue);
        if labels.insert(label(&line)) {
            return line;
        }
    }
}

/// Coordinates of an entry without models, or of a model: closed runs, then a tail of heterogens.
pub fn coordinates(chance: &mut Chance, lines: &mut Vec<Columns>, most: usize) {
    let mut labels = BTreeSet::new();
    let mut serial = if chance.once_in(20) { 99_000 } else { chance.within(0, 40) };
    let mut next = |chance: &mut Chance| {
        serial += if chance.once_in(4) { chance.within(1, 9) } else { 1 };
        serial
    };
    for _ in 0..chance.below(4) {
        let chain = chain(chance);
        let length = 1 + chance.below(most);
        let first_atom = chance.below(length);
        let mut place = residue(chance, chain);
        for index in 0..length {
            if chance.once_in(2) {
                place = residue(chance, chain);
            }
            let name =
                if index == first_atom || (index > first_atom && !chance.once_in(4)) { "ATOM" } else { "HETATM" };
            let serial = next(chance);
            lines.push(new_atom(chance, &mut labels, name, serial, &place));
        }
        lines.push(ter(next(chance), &place));
    }
    let chain_of_tail = chain(chance);
    let mut place = residue(chance, chain_of_tail);
    for _ in 0..chance.below(most) {
        match chance.below(6) {
            0 => place = residue(chance, place.chain),
            1 => place.number = (place.number + 1).min(9_999),
            2 => place.insertion = *chance.pick(b" AB"),
            3 => place.chain = chain(chance),
            _ => {}
        }
        let serial = next(chance);
        lines.push(new_atom(chance, &mut labels, "HETATM", serial, &place));
    }
}
