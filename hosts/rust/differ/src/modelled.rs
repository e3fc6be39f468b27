//! Kinds of models that other calls than the check come across: tables, saved texts and trays, single lines, tallies.

use std::collections::{BTreeMap, BTreeSet};

use reference::Slot;

use crate::entry::named;
use crate::models::{bond, those_met, Kind, ENDMDL, ENDS, MODEL};
use crate::twins::lines;

use Kind::*;

/// The kinds of a table that is refused with 18 for this text.
pub fn of_other_table(text: &[u8], table: &[Slot]) -> BTreeSet<Kind> {
    let Ok(fresh) = reference::table::loaded(text) else { return BTreeSet::new() };
    let mended: Vec<Slot> =
        table.iter().zip(&fresh).map(|(slot, fresh)| Slot { model: fresh.model, ..*slot }).collect();
    let own = reference::table::belonging(text, &mended).is_ok();
    those_met(&[(OtherModel, own)])
}

/// The kinds of what is saved of a text with a table of its own.
pub fn of_saved(text: &[u8], table: &[Slot], saved: &[u8]) -> BTreeSet<Kind> {
    let bonds = |text| -> Vec<Vec<u32>> {
        lines(text).into_iter().filter(|line| named(&line[..], &[b"CONECT"])).map(bond).collect()
    };
    let serials = |mark: u8, coordinates: bool| -> Vec<u32> {
        let those = table.iter().filter(|slot| slot.mark == mark && slot.is_coordinate() == coordinates);
        those.map(|slot| slot.serial).collect()
    };
    let (ins, ters) = (BTreeSet::from_iter(serials(0, true)), BTreeSet::from_iter(serials(0, false)));
    let mut asides: BTreeMap<u32, usize> = BTreeMap::new();
    for serial in serials(1, true) {
        *asides.entry(serial).or_insert(0) += 1;
    }
    let (all, kept) = (bonds(text), bonds(saved));
    let gone: Vec<u32> = all.into_iter().flatten().filter(|number| !ins.contains(number)).collect();
    let (first, later): (Vec<&Slot>, Vec<&Slot>) =
        table.iter().filter(|slot| slot.mark == 1 && slot.model > 0).partition(|slot| slot.model == 1);
    let emptied = table.chunk_by(|a, b| a.model == b.model).any(|model| model.iter().all(|slot| slot.mark == 1));
    those_met(&[
        (BondStays, kept.iter().flatten().any(|number| asides.contains_key(number))),
        (BondGoes, gone.iter().any(|number| asides.get(number).is_some_and(|&count| count > 1))),
        (BondGoesFromTer, gone.iter().any(|number| ters.contains(number))),
        (FirstLess, !first.is_empty()),
        (LaterLess, first.is_empty() && !later.is_empty()),
        (Emptied, emptied && table.iter().any(|slot| slot.model > 0)),
    ])
}

/// The kinds of a tray.
pub fn of_tray(tray: &[u8]) -> BTreeSet<Kind> {
    let lines = lines(tray);
    those_met(&[(BareTray, !lines.is_empty() && lines.iter().all(|line| named(&line[..], ENDS)))])
}

/// The kinds of a line by itself that is rewritten with this number.
pub fn of_line(line: &[u8], number: u32) -> BTreeSet<Kind> {
    let (begins, ends) = (named(line, &[MODEL]), named(line, &[ENDMDL]));
    those_met(&[
        (ModelReads, begins && number == 0),
        (ModelFails, begins && number == 6),
        (EndReads, ends && number == 0),
        (EndFails, ends && number == 6),
    ])
}

/// The kinds of a line by itself that a slot is asked of.
pub fn of_slot(line: &[u8], number: u32) -> BTreeSet<Kind> {
    those_met(&[(NoSlot, number == 4 && named(line, ENDS) && reference::read_line(line).is_ok())])
}

/// The kinds of a line in a tally: whether it was granted, whether it changed a count, whether it would have been refused
/// above the first ENDMDL.
pub fn of_tally(line: &[u8], past: bool, number: u32, counted: bool, full: bool) -> BTreeSet<Kind> {
    let slotted = named(line, crate::entry::COORDINATES);
    those_met(&[
        (Tallied, number == 0 && named(line, ENDS)),
        (Past, number == 0 && past && slotted),
        (PastFull, number == 0 && past && slotted && full),
        (PastCounted, past && counted),
    ])
}
