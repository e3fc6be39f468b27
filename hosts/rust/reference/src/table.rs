//! The table of coordinates: slots, fragments, orders, arrangements.

use std::ops::Range;

use crate::check::{walk, GoodLine};
use crate::line::LineName;
use crate::reading::read_taken;
use crate::record::{Atom, Record, Residue, Ter};
use crate::{FragmentNumber, Refusal, ResidueNumber};

/// The kind of an ATOM slot.
pub const ATOM: u8 = 1;
/// The kind of a HETATM slot.
pub const HETATM: u8 = 2;
/// The kind of a TER slot.
pub const TER: u8 = 3;

/// One slot of the table, laid out as in C. A foreign table may hold any bytes at all.
#[derive(Clone, Copy, Debug, Default, PartialEq, Eq)]
#[repr(C)]
#[allow(missing_docs)]
pub struct Slot {
    pub serial: u32,
    pub number: i32,
    pub x: i32,
    pub y: i32,
    pub z: i32,
    pub occupancy: i32,
    pub temperature: i32,
    pub kind: u8,
    pub mark: u8,
    pub name: [u8; 4],
    pub alternate: u8,
    pub residue: [u8; 3],
    pub chain: u8,
    pub insertion: u8,
    pub element: [u8; 2],
    pub charge: [u8; 2],
    pub model: u32,
}

/// Where a fragment is.
#[derive(Clone, Copy, Debug, PartialEq, Eq)]
pub enum Mark {
    /// In the entry.
    In,
    /// Set aside.
    Aside,
}

impl Slot {
    fn of_atom(kind: u8, atom: &Atom) -> Slot {
        let [x, y, z] = atom.position;
        Slot {
            serial: atom.serial.0,
            number: atom.residue.number.0,
            x,
            y,
            z,
            occupancy: atom.occupancy,
            temperature: atom.temperature,
            kind,
            mark: Mark::In.byte(),
            name: atom.name,
            alternate: atom.alternate,
            residue: atom.residue.name,
            chain: atom.residue.chain,
            insertion: atom.residue.insertion,
            element: atom.element,
            charge: atom.charge,
            model: 0,
        }
    }

    fn of_ter(ter: &Ter) -> Slot {
        Slot {
            serial: ter.serial.0,
            number: ter.residue.number.0,
            kind: TER,
            mark: Mark::In.byte(),
            name: [b' '; 4],
            alternate: b' ',
            residue: ter.residue.name,
            chain: ter.residue.chain,
            insertion: ter.residue.insertion,
            element: [b' '; 2],
            charge: [b' '; 2],
            ..Slot::default()
        }
    }

    /// The slot of a record, if it is one of the three kinds. By itself it stands in no model.
    pub fn of_record(record: &Record) -> Option<Slot> {
        match record {
            Record::Atom(atom) => Some(Slot::of_atom(ATOM, atom)),
            Record::Hetatm(atom) => Some(Slot::of_atom(HETATM, atom)),
            Record::Ter(ter) => Some(Slot::of_ter(ter)),
            _ => None,
        }
    }

    /// The residue in the slot.
    pub fn residue(&self) -> Residue {
        Residue { name: self.residue, chain: self.chain, number: ResidueNumber(self.number), insertion: self.insertion }
    }

    /// Whether the slot holds a coordinate.
    pub fn is_coordinate(&self) -> bool {
        self.kind == ATOM || self.kind == HETATM
    }

    /// Where the slot is, unless its mark is damaged.
    pub fn mark(&self) -> Option<Mark> {
        match self.mark {
            0 => Some(Mark::In),
            1 => Some(Mark::Aside),
            _ => None,
        }
    }
}

impl Mark {
    /// The byte of the mark in a slot.
    pub fn byte(self) -> u8 {
        match self {
            Mark::In => 0,
            Mark::Aside => 1,
        }
    }

    /// The mark that a byte of an order or of a list asks for.
    pub fn asked(byte: u8) -> Mark {
        match byte {
            0 => Mark::In,
            _ => Mark::Aside,
        }
    }
}

/// The slot of one line read by itself, marked "in".
pub fn slot_of_line(line: &[u8]) -> Result<Slot, Refusal> {
    let record = read_taken(line, LineName::slotted)?;
    Slot::of_record(&record).ok_or(Refusal::Name)
}

/// The slots of an accepted text, all marked "in".
pub fn loaded(text: &[u8]) -> Result<Vec<Slot>, Refusal> {
    let (verdict, lines) = walk(text);
    verdict.accepted()?;
    let slot = |line: &GoodLine| Some(Slot { model: line.model.0, ..Slot::of_record(line.record.as_ref()?)? });
    Ok(lines.iter().filter_map(slot).collect())
}

/// Fills the table from the text and tells how many slots were filled.
pub fn load(text: &[u8], table: &mut [Slot]) -> Result<usize, Refusal> {
    let slots = loaded(text)?;
    let needed = table.get_mut(..slots.len()).ok_or(Refusal::ShortTable)?;
    needed.copy_from_slice(&slots);
    Ok(slots.len())
}

/// The fragments of a table, as ranges of slots. None goes over from one model to the next.
pub fn fragments(slots: &[Slot]) -> Vec<Range<usize>> {
    let mut found = Vec::new();
    let mut above = 0;
    for model in slots.chunk_by(|a, b| a.model == b.model) {
        let of_model = fragments_of_model(model);
        found.extend(of_model.into_iter().map(|fragment| above + fragment.start..above + fragment.end));
        above += model.len();
    }
    found
}

/// The fragments of one model, or of an entry without models.
fn fragments_of_model(slots: &[Slot]) -> Vec<Range<usize>> {
    let mut found = Vec::new();
    let mut start = 0;
    for (index, slot) in slots.iter().enumerate() {
        if slot.kind == TER {
            found.push(start..index + 1);
            start = index + 1;
        }
    }
    while start < slots.len() {
        let residue = slots[start].residue();
        let length = slots[start..].iter().take_while(|slot| slot.residue() == residue).count();
        found.push(start..start + length);
        start += length;
    }
    found
}

/// The part of a table that a text needs, if the table belongs to it.
pub fn belonging(text: &[u8], table: &[Slot]) -> Result<Vec<Slot>, Refusal> {
    let fresh = loaded(text)?;
    let own = table.get(..fresh.len()).ok_or(Refusal::ShortTable)?;
    let equal = own.iter().zip(&fresh).all(|(slot, fresh)| Slot { mark: fresh.mark, ..*slot } == *fresh);
    let marked = own.iter().all(|slot| slot.mark().is_some());
    let agreeing =
        fragments(&fresh).into_iter().all(|fragment| own[fragment].windows(2).all(|pair| pair[0].mark == pair[1].mark));
    if equal && marked && agreeing {
        Ok(own.to_vec())
    } else {
        Err(Refusal::OtherTable)
    }
}

/// Marks one whole fragment.
pub fn order(text: &[u8], table: &mut [Slot], fragment: FragmentNumber, mark: Mark) -> Result<(), Refusal> {
    let own = belonging(text, table)?;
    let range = (fragment.0 as usize)
        .checked_sub(1)
        .and_then(|index| fragments(&own).get(index).cloned())
        .ok_or(Refusal::NoFragment)?;
    if own[range.start].mark() == Some(mark) {
        return Err(Refusal::AlreadyThere);
    }
    for slot in &mut table[range] {
        slot.mark = mark.byte();
    }
    Ok(())
}

/// Marks every fragment at once, by a list of one mark each.
pub fn arrange(text: &[u8], table: &mut [Slot], marks: &[Mark]) -> Result<(), Refusal> {
    let fragments = fragments(&belonging(text, table)?);
    if marks.len() != fragments.len() {
        return Err(Refusal::NoFragment);
    }
    for (range, mark) in fragments.into_iter().zip(marks) {
        for slot in &mut table[range] {
            slot.mark = mark.byte();
        }
    }
    Ok(())
}

/// Writes the number of its fragment for each slot that the text needs, and tells how many numbers.
pub fn fragment_numbers(text: &[u8], table: &[Slot], out: &mut [u32]) -> Result<usize, Refusal> {
    let own = belonging(text, table)?;
    let place = out.get_mut(..own.len()).ok_or(Refusal::ShortOutput)?;
    for (range, number) in fragments(&own).into_iter().zip(1..) {
        place[range].fill(number);
    }
    Ok(own.len())
}

#[cfg(test)]
mod tests {
    use super::*;
    use crate::samples::*;

    fn table(text: &[u8]) -> Vec<Slot> {
        loaded(text).expect("an accepted entry")
    }

    #[test]
    fn a_slot_has_48_bytes() {
        assert_eq!(std::mem::size_of::<Slot>(), 48);
    }

    #[test]
    fn loading() {
        let entry = arginine_entry();
        let mut slots = [Slot { serial: 9, ..Slot::default() }; 4];
        assert_eq!(load(&entry, &mut slots[..1]), Err(Refusal::ShortTable));
        assert_eq!(slots[0].serial, 9);
        assert_eq!(load(&entry, &mut slots), Ok(2));
        assert_eq!((slots[0].kind, slots[0].x, slots[0].number), (ATOM, 11_281, -3));
        assert_eq!((slots[1].kind, slots[1].serial, slots[1].x, slots[1].element), (TER, 33, 0, *b"  "));
        assert_eq!(slots[2].serial, 9);
        assert_eq!(load(&entry[81..], &mut slots), Err(Refusal::Place));
    }

    #[test]
    fn three() {
        let slots = table(&three_fragments(&[]));
        assert_eq!(fragments(&slots), [0..2, 2..3, 3..4]);
    }

    #[test]
    fn stretches_of_the_tail() {
        let mut slots = table(&three_fragments(&[]));
        let water = slots[3];
        slots.truncate(2);
        slots.extend([water, water, Slot { number: 9, ..water }, water, Slot { insertion: b'A', ..water }]);
        assert_eq!(fragments(&slots), [0..2, 2..4, 4..5, 5..6, 6..7]);
    }

    #[test]
    fn orders() {
        let entry = three_fragments(&[]);
        let mut slots = table(&entry);
        let fresh = slots.clone();
        let mut give = |number, mark| order(&entry, &mut slots, FragmentNumber(number), mark);
        assert_eq!(give(0, Mark::Aside), Err(Refusal::NoFragment));
        assert_eq!(give(4, Mark::Aside), Err(Refusal::NoFragment));
        assert_eq!(give(2, Mark::In), Err(Refusal::AlreadyThere));
        assert_eq!(give(1, Mark::Aside), Ok(()));
        assert_eq!(give(1, Mark::Aside), Err(Refusal::AlreadyThere));
        assert_eq!(slots.iter().map(|slot| slot.mark).collect::<Vec<_>>(), [1, 1, 0, 0]);
        slots[0].mark = 0;
        assert_eq!(order(&entry, &mut slots, FragmentNumber(9), Mark::Aside), Err(Refusal::OtherTable));
        assert_eq!(order(&entry, &mut slots[..3], FragmentNumber(9), Mark::Aside), Err(Refusal::ShortTable));
        let mut odd = fresh.clone();
        odd[2].mark = 2;
        assert_eq!(order(&entry, &mut odd, FragmentNumber(1), Mark::Aside), Err(Refusal::OtherTable));
        let mut spare = fresh;
        spare.push(Slot { mark: 77, ..Slot::default() });
        assert_eq!(order(&entry, &mut spare, FragmentNumber(3), Mark::Aside), Ok(()));
    }

    #[test]
    fn arrangements() {
        let entry = three_fragments(&[]);
        let mut slots = table(&entry);
        let mut arranged = |bytes: &[u8]| {
            let marks: Vec<Mark> = bytes.iter().copied().map(Mark::asked).collect();
            let answer = arrange(&entry, &mut slots, &marks);
            answer.map(|()| slots.iter().map(|slot| slot.mark).collect::<Vec<_>>())
        };
        assert_eq!(arranged(&[0, 1, 0]), Ok(vec![0, 0, 1, 0]));
        assert_eq!(arranged(&[0, 1, 0]), Ok(vec![0, 0, 1, 0]));
        for wrong in [&[][..], &[0, 1], &[0; 4]] {
            assert_eq!(arranged(wrong), Err(Refusal::NoFragment));
        }
        assert_eq!(arranged(&[1, 0, 255]), Ok(vec![1, 1, 0, 1]));
        assert_eq!(arrange(&entry, &mut slots[..3], &[]), Err(Refusal::ShortTable));
        slots[0].mark = 0;
        assert_eq!(arrange(&entry, &mut slots, &[]), Err(Refusal::OtherTable));
        let bare = text(&[line("HEADER"), master([0; 9]), line("END")]);
        assert_eq!(arrange(&bare, &mut [], &[]), Ok(()));
        assert_eq!(arrange(&bare, &mut [], &[Mark::In]), Err(Refusal::NoFragment));
    }

    #[test]
    fn numbers_of_fragments() {
        let entry = three_fragments(&[]);
        let mut slots = table(&entry);
        let mut out = [77; 6];
        assert_eq!(fragment_numbers(&entry, &slots, &mut out[..3]), Err(Refusal::ShortOutput));
        assert_eq!(fragment_numbers(&entry, &slots[..3], &mut out), Err(Refusal::ShortTable));
        assert_eq!(out, [77; 6]);
        order(&entry, &mut slots, FragmentNumber(2), Mark::Aside).expect("a fragment");
        slots.push(Slot { mark: 77, ..Slot::default() });
        assert_eq!(fragment_numbers(&entry, &slots, &mut out), Ok(4));
        assert_eq!(out, [1, 1, 2, 3, 77, 77]);
        slots[1].mark = 1;
        assert_eq!(fragment_numbers(&entry, &slots, &mut []), Err(Refusal::OtherTable));
    }

    #[test]
    fn single_lines() {
        assert_eq!(slot_of_line(ARGININE).map(|slot| slot.z), Ok(94_383));
        assert_eq!(slot_of_line(&ter(7, 'A', 1)).map(|slot| slot.kind), Ok(TER));
        assert_eq!(slot_of_line(&line("CONECT")), Err(Refusal::Name));
        assert_eq!(slot_of_line(&line("END")), Err(Refusal::Name));
        assert_eq!(slot_of_line(&line("TER")), Err(Refusal::Field));
        assert_eq!(slot_of_line(&line("REMARK")), Err(Refusal::Name));
        assert_eq!(slot_of_line(b"TER"), Err(Refusal::Length));
    }
}
