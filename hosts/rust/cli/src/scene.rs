//! What is drawn: the atoms that are in, what each is part of, and which are joined.

use station::{Kind, Slot};

use crate::sticks::{joined, Boxes};
use crate::word::is_water;

/// A ligand of fewer atoms than this, an ion for one, is shown but has no pocket.
const POCKETED: usize = 4;

/// What an atom is part of.
#[derive(Clone, Copy, Debug, PartialEq, Eq)]
pub enum Role {
    /// A run with an ATOM line.
    Chain,
    /// Any other residue but water.
    Ligand,
    Water,
}

/// An atom that is in.
pub struct Atom<'s> {
    pub slot: &'s Slot,
    /// x, y, z in thousandths, as the library tells them.
    pub place: [f64; 3],
    pub role: Role,
    /// Whether its residue lies round a ligand.
    pub in_pocket: bool,
}

/// Atoms by their indices.
pub struct Scene<'s> {
    pub atoms: Vec<Atom<'s>>,
    /// Neighbours by distance.
    pub sticks: Vec<(usize, usize)>,
    /// The bonds of the CONECT lines, each pair once.
    pub bonds: Vec<(usize, usize)>,
    /// The residues that are ligands, in order.
    pub ligands: Vec<Vec<usize>>,
}

impl<'s> Scene<'s> {
    /// The scene of the slots of one model; the bonds are pairs of serials.
    pub fn of(slots: &'s [Slot], bonds: impl Iterator<Item = (u32, u32)>) -> Scene<'s> {
        let drawn = slots.iter().zip(roles(slots)).filter_map(|(slot, role)| Some((slot, slot.dot()?.0, role)));
        let mut atoms: Vec<Atom> =
            drawn.map(|(slot, place, role)| Atom { slot, place, role, in_pocket: false }).collect();
        let places: Vec<[f64; 3]> = atoms.iter().map(|atom| atom.place).collect();
        let boxes = Boxes::of(&places);
        let sticks = sticks(&atoms, &boxes);
        let ligands = ligands(&atoms);
        mark_pockets(&mut atoms, &ligands, &boxes);
        // Serials rise in a model.
        let index = |serial: u32| atoms.binary_search_by_key(&serial, |atom| atom.slot.serial).ok();
        let bonds = bonds.filter_map(|(a, b)| Some((index(a)?, index(b)?))).collect();
        Scene { atoms, sticks, bonds, ligands }
    }

    /// The ligand with the most atoms, if it has a pocket.
    pub fn pocketed(&self) -> Option<&[usize]> {
        let most = self.ligands.iter().rev().max_by_key(|ligand| ligand.len())?;
        (most.len() >= POCKETED).then_some(&most[..])
    }

    /// The atoms of the residues round a ligand, itself among them.
    pub fn pocket(&self, ligand: &[usize]) -> Vec<usize> {
        let places: Vec<[f64; 3]> = self.atoms.iter().map(|atom| atom.place).collect();
        let boxes = Boxes::of(&places);
        let mut inside = vec![false; self.atoms.len()];
        round(&self.atoms, ligand, &boxes, &mut inside);
        (0..inside.len()).filter(|&index| inside[index]).collect()
    }
}

/// The role of each slot. Slots are cut at TER, as runs are; a TER counts to what it closes.
fn roles(slots: &[Slot]) -> Vec<Role> {
    let is_ter = |slot: &Slot| slot.kind() == Some(Kind::Ter);
    let runs = slots.chunk_by(|before, _| !is_ter(before));
    runs.flat_map(|run| {
        let chain = run.iter().any(|slot| slot.kind() == Some(Kind::Atom));
        run.iter().map(move |slot| match is_water(slot) {
            _ if chain => Role::Chain,
            true => Role::Water,
            false => Role::Ligand,
        })
    })
    .collect()
}

/// The pairs of neighbours. Waters are joined within themselves alone, and alternate locations not to one another.
fn sticks(atoms: &[Atom], boxes: &Boxes) -> Vec<(usize, usize)> {
    let mut sticks = Vec::new();
    for (index, atom) in atoms.iter().enumerate() {
        for (other, distance) in boxes.near(atom.place).filter(|(other, _)| *other > index) {
            let (own, slot) = (atom.slot, atoms[other].slot);
            let alike = own.alternate == slot.alternate || own.alternate == b' ' || slot.alternate == b' ';
            let water = atom.role == Role::Water || atoms[other].role == Role::Water;
            if alike && (!water || own.same_residue(slot)) && joined(own.element, slot.element, distance) {
                sticks.push((index, other));
            }
        }
    }
    sticks
}

/// The stretches of ligand atoms that name one residue.
fn ligands(atoms: &[Atom]) -> Vec<Vec<usize>> {
    let indices: Vec<usize> = (0..atoms.len()).filter(|&index| atoms[index].role == Role::Ligand).collect();
    let together = |a: &usize, b: &usize| b - a == 1 && atoms[*a].slot.same_residue(atoms[*b].slot);
    indices.chunk_by(together).map(<[usize]>::to_vec).collect()
}

fn mark_pockets(atoms: &mut [Atom], ligands: &[Vec<usize>], boxes: &Boxes) {
    let mut inside = vec![false; atoms.len()];
    for ligand in ligands.iter().filter(|ligand| ligand.len() >= POCKETED) {
        round(atoms, ligand, boxes, &mut inside);
    }
    atoms.iter_mut().zip(inside).for_each(|(atom, inside)| atom.in_pocket = inside);
}

/// Marks the residues with an atom near a ligand, whole.
fn round(atoms: &[Atom], ligand: &[usize], boxes: &Boxes, inside: &mut [bool]) {
    let near: Vec<usize> =
        ligand.iter().flat_map(|&atom| boxes.near(atoms[atom].place)).map(|(near, _)| near).collect();
    for near in near {
        if !inside[near] {
            let same = |&index: &usize| atoms[index].slot.same_residue(atoms[near].slot);
            (near..atoms.len()).take_while(same).for_each(|index| inside[index] = true);
            (0..near).rev().take_while(same).for_each(|index| inside[index] = true);
        }
    }
}
