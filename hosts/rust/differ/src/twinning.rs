//! Makes pairs of atoms that share all six fields, or all but one, out of the atoms of an entry.

use std::collections::BTreeSet;

use crate::chance::Chance;
use crate::entry::{named, put, put_number, Columns, ATOMS};
use crate::models::ENDMDL;
use crate::names::{put_name, right, Named};
use crate::twins::{label, put_label, residue, Label, ALTERNATE, CHAIN, INSERTION, NUMBER, RESIDUE};

/// Names that are right with two elements.
const OF_TWO_ELEMENTS: [(&[u8; 4], &[u8; 2], &[u8; 2]); 5] = [
    (b"CA12", b" C", b"CA"),
    (b"HG21", b" H", b"HG"),
    (b"CD1*", b" C", b"CD"),
    (b"HE''", b" H", b"HE"),
    (b"NAH1", b" N", b"NA"),
];

/// Names that have the same characters in other columns.
const SHIFTED: [[Named; 2]; 3] = [
    [(*b" CA ", *b" C"), (*b"CA  ", *b"CA")],
    [(*b" HG ", *b" H"), (*b"HG  ", *b"HG")],
    [(*b" NA1", *b" N"), (*b"NA1 ", *b"NA")],
];

/// Where the atoms stand among the lines.
fn atoms(lines: &[Columns]) -> Vec<usize> {
    (0..lines.len()).filter(|&at| named(&lines[at], ATOMS)).collect()
}

/// The atoms of one of the models, or of an entry without.
fn atoms_of_one(chance: &mut Chance, lines: &[Columns]) -> Vec<usize> {
    let mut from = 0;
    let models = lines.split_inclusive(|line| named(line, &[ENDMDL])).map(|part| {
        from += part.len();
        atoms(part).into_iter().map(|at| at + from - part.len()).collect::<Vec<usize>>()
    });
    let filled: Vec<Vec<usize>> = models.filter(|atoms| !atoms.is_empty()).collect();
    if filled.is_empty() {
        Vec::new()
    } else {
        chance.pick(&filled).clone()
    }
}

/// Whether a TER comes further below in the model: the chain of such a line is that of its run.
fn closed(lines: &[Columns], at: usize) -> bool {
    let mut below = lines[at..].iter().take_while(|line| !named(&line[..], &[ENDMDL]));
    below.any(|line| named(line, &[b"TER   "]))
}

/// Two of the atoms of a model, the upper one first: neighbours, the first and the last, or any.
fn two(chance: &mut Chance, lines: &[Columns]) -> Option<(usize, usize)> {
    let atoms = atoms_of_one(chance, lines);
    let (&first, &last) = (atoms.first()?, atoms.last()?);
    let (from, to) = match chance.below(4) {
        0 => {
            let at = chance.below(atoms.len() - 1);
            (atoms[at], *atoms.get(at + 1)?)
        }
        1 => (first, last),
        _ => {
            let (a, b) = (*chance.pick(&atoms), *chance.pick(&atoms));
            (a.min(b), a.max(b))
        }
    };
    (from < to).then_some((from, to))
}

/// Gives a line another atom, and the TER right below it the residue.
fn give(lines: &mut [Columns], at: usize, label: &Label) {
    put_label(&mut lines[at], label);
    if let Some(ter) = lines.get_mut(at + 1).filter(|line| named(&line[..], &[b"TER   "])) {
        put(ter, 18, &label[RESIDUE]);
        put(ter, 22, &label[CHAIN.start..]);
    }
}

/// The name and the element of a line.
fn name_of(line: &Columns) -> Named {
    (std::array::from_fn(|at| line[12 + at]), [line[76], line[77]])
}

/// Makes twins. The chain may be a wrong one for the run of the second.
fn twins(lines: &mut [Columns], from: usize, to: usize) {
    let (twin, name) = (label(&lines[from]), name_of(&lines[from]));
    put_name(&mut lines[to], name);
    give(lines, to, &twin);
}

/// Something, if the lower of two atoms may have the chain of the upper one.
fn right_run(lines: &[Columns], from: usize, to: usize) -> Option<()> {
    (!closed(lines, to) || lines[from][21] == lines[to][21]).then_some(())
}

/// Damages an entry by twins that are as far apart as they can be, or nearly so.
pub fn damage_far(chance: &mut Chance, lines: &mut [Columns]) -> Option<()> {
    let atoms = atoms_of_one(chance, lines);
    let near = 1 + atoms.len() / 10;
    let from = *atoms.get(chance.below(near))?;
    let to = *atoms.iter().rev().nth(chance.below(near)).filter(|&&to| from < to)?;
    right_run(lines, from, to)?;
    twins(lines, from, to);
    Some(())
}

/// Two atoms of a model, the lower one behind another in a run of another chain.
fn in_the_wrong_run(chance: &mut Chance, lines: &[Columns]) -> Option<(usize, usize)> {
    let atoms = atoms_of_one(chance, lines);
    let behind = |to: &usize| *to > 0 && named(&lines[to - 1], ATOMS) && closed(lines, *to);
    let chain = |at: usize| lines[at][21];
    let pairs = atoms.iter().filter(|to| behind(to)).flat_map(|&to| {
        let others = atoms.iter().filter(move |&&from| from < to && chain(from) != chain(to));
        others.map(move |&from| (from, to))
    });
    let pairs: Vec<(usize, usize)> = pairs.collect();
    (!pairs.is_empty()).then(|| *chance.pick(&pairs))
}

/// Damages an entry by twins, and sometimes by something else that has to be told from them.
pub fn damage(chance: &mut Chance, lines: &mut [Columns]) -> Option<()> {
    if chance.once_in(8) {
        let (from, to) = in_the_wrong_run(chance, lines)?;
        twins(lines, from, to);
        return Some(());
    }
    let (from, to) = two(chance, lines)?;
    right_run(lines, from, to)?;
    twins(lines, from, to);
    match chance.below(8) {
        0 => {
            let (name, one, other) = *chance.pick(&OF_TWO_ELEMENTS);
            put_name(&mut lines[from], (*name, *one));
            put_name(&mut lines[to], (*name, *other));
        }
        1 => {
            let serial = lines[from][6..11].to_vec();
            put(&mut lines[to], 7, &serial);
        }
        2 => {
            let bonds: Vec<usize> = (0..lines.len()).filter(|&at| named(&lines[at], &[b"CONECT"])).collect();
            if !bonds.is_empty() {
                put_number(&mut lines[*chance.pick(&bonds)], 12, 16, chance.within(90_000, 99_999));
            }
        }
        3 => {
            // The alternate location is the least that may be different.
            let alternate = *chance.pick(b" AB0");
            put(&mut lines[to], 17, &[alternate]);
        }
        4 => {
            // A count that is wrong as well, further down.
            if let Some(master) = lines.iter_mut().find(|line| named(&line[..], &[b"MASTER"])) {
                put_number(master, 11, 15, 99_999);
            }
        }
        _ => {}
    }
    Some(())
}

/// Makes two atoms that differ in one field, if there is a place for them: the entry stays one that is accepted.
pub fn nearly(chance: &mut Chance, lines: &mut Vec<Columns>) {
    let mut likened = lines.clone();
    if try_nearly(chance, &mut likened).is_some() && all_differ(&likened) {
        *lines = likened;
    }
}

fn try_nearly(chance: &mut Chance, lines: &mut [Columns]) -> Option<()> {
    if chance.once_in(6) {
        return two_ters(chance, lines);
    }
    let (from, to) = two(chance, lines)?;
    let own = label(&lines[to]);
    twins(lines, from, to);
    let mut other = label(&lines[to]);
    if closed(lines, to) {
        other[CHAIN].copy_from_slice(&own[CHAIN]);
    }
    match chance.below(8) {
        0 => {
            let [one, another] = *chance.pick(&SHIFTED);
            put_name(&mut lines[from], one);
            put_name(&mut lines[to], another);
            other[..4].copy_from_slice(&another.0);
        }
        1 => {
            let name = right(chance);
            put_name(&mut lines[to], name);
            other[..4].copy_from_slice(&name.0);
        }
        2 => other[RESIDUE].copy_from_slice(*chance.pick(&[b"ALA", b"  A", b"HOH"])),
        3 => other[NUMBER].copy_from_slice(*chance.pick(&[b"   1", b"  -1", b"9999", b"  12"])),
        4 => other[INSERTION][0] = *chance.pick(b" ABZ"),
        5 if !closed(lines, to) => other[CHAIN][0] = *chance.pick(b"ABa0"),
        _ => other[ALTERNATE][0] = *chance.pick(b" AB19"),
    }
    give(lines, to, &other);
    Some(())
}

/// A run goes to the chain of the first one, and its last atom and its TER to the residue of the first TER.
fn two_ters(chance: &mut Chance, lines: &mut [Columns]) -> Option<()> {
    let ters: Vec<usize> = (0..lines.len()).filter(|&at| named(&lines[at], &[b"TER   "])).collect();
    let (&first, others) = ters.split_first().filter(|(_, others)| !others.is_empty())?;
    let run = chance.below(others.len());
    let (before, end) = (ters[run], others[run]);
    let ter = label(&lines[first]);
    for line in &mut lines[before + 1..end] {
        put(line, 22, &ter[CHAIN]);
    }
    let mut last = label(&lines[end - 1]);
    last[RESIDUE.start..].copy_from_slice(residue(&ter));
    give(lines, end - 1, &last);
    Some(())
}

/// Whether no two atoms are the same.
fn all_differ(lines: &[Columns]) -> bool {
    let mut seen = BTreeSet::new();
    atoms(lines).into_iter().all(|at| seen.insert(label(&lines[at])))
}
