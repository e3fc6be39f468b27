//! Makes entries with models, damages them, and arranges what is in models alike. Nothing here comes from the reference.

use std::collections::BTreeSet;

use station::raw::Slot;

use crate::chance::Chance;
use crate::coordinates::coordinates;
use crate::damage::{damage_line, named_line, one_of, repeat};
use crate::entry::{
    atom, chain, line, master_of_all, named, put, put_number, put_real, residue, Columns, ATOMS, COORDINATES,
};
use crate::jumps::serial_of;
use crate::models::{bond, ENDMDL, ENDS, MODEL};
use crate::rows::TRANSFORMS;
use crate::twins::lines;

/// A good MODEL line.
pub fn model(number: i64) -> Columns {
    let mut line = line("MODEL");
    put_number(&mut line, 11, 14, number);
    line
}

/// Makes the coordinates behind the head of an entry, which are its last lines, the first of several models.
pub fn in_models(chance: &mut Chance, lines: &mut Vec<Columns>, head: usize, most: usize) {
    let first = lines.split_off(head);
    let count = if first.len() < 40 && chance.once_in(12) { 10 + chance.below(3) } else { 1 + chance.below(4) };
    for number in 1..=count {
        let list = if number == 1 && !chance.once_in(4) { first.clone() } else { another(chance, &first, most) };
        lines.push(model(number as i64));
        lines.extend(list);
        lines.push(line("ENDMDL"));
    }
}

/// The lines of a further model: mostly the same atoms at other places.
fn another(chance: &mut Chance, first: &[Columns], most: usize) -> Vec<Columns> {
    let mut list = first.to_vec();
    match chance.below(12) {
        0 | 1 => list.clear(),
        2 => list = vec![lone(chance, first)],
        3 => {
            list.clear();
            coordinates(chance, &mut list, most);
        }
        4 => without_a_run(chance, &mut list),
        5 | 6 => {
            let most = *chance.pick(&[1, 3, 300]);
            shift_serials(&mut list, chance.within(1, most));
        }
        _ => {}
    }
    for line in list.iter_mut().filter(|line| named(&line[..], ATOMS)) {
        put_real(line, 31, 38, 3, chance.within(-999_999, 9_999_999));
    }
    list
}

/// One heterogen: the last line of the first model, if it is one, or any.
fn lone(chance: &mut Chance, first: &[Columns]) -> Columns {
    if let Some(last) = first.last().filter(|line| named(&line[..], &[b"HETATM"])) {
        return *last;
    }
    let chain = chain(chance);
    let place = residue(chance, chain);
    let serial = chance.within(1, 60);
    atom(chance, "HETATM", serial, &place)
}

/// Takes a run with its TER out, or the last line of the tail.
fn without_a_run(chance: &mut Chance, list: &mut Vec<Columns>) {
    let Some(end) = one_of(chance, list, &[b"TER   "]) else {
        list.pop();
        return;
    };
    let start = list[..end].iter().rposition(|line| named(line, &[b"TER   "])).map_or(0, |ter| ter + 1);
    list.drain(start..=end);
}

/// Lets the serials begin higher up, as long as they fit their columns.
fn shift_serials(list: &mut [Columns], by: i64) {
    let serials: Vec<i64> = list.iter().filter_map(|line| Some(i64::from(serial_of(line)?) + by)).collect();
    if serials.len() == list.len() && serials.iter().all(|&serial| serial <= 99_999) {
        for (line, serial) in list.iter_mut().zip(serials) {
            put_number(line, 7, 11, serial);
        }
    }
}

/// The serials of all atoms, rising.
pub fn serials(lines: &[Columns]) -> Vec<i64> {
    let atoms = lines.iter().filter(|line| named(&line[..], ATOMS));
    atoms.filter_map(|line| serial_of(line)).map(i64::from).collect::<BTreeSet<i64>>().into_iter().collect()
}

/// Somewhere among the coordinates, or right before or behind them: before the first of them more often.
fn somewhere(chance: &mut Chance, lines: &[Columns]) -> Option<usize> {
    let near: Vec<usize> =
        (0..lines.len()).filter(|&at| named(&lines[at], COORDINATES) || named(&lines[at], ENDS)).collect();
    let (&first, &last) = (near.first()?, near.last()?);
    Some(if chance.once_in(4) { first } else { first + chance.below(last + 2 - first) })
}

/// Damages an entry by its MODEL and ENDMDL lines, or what may stand between them.
pub fn damage(chance: &mut Chance, lines: &mut Vec<Columns>) -> Option<()> {
    match chance.below(24) {
        0..=2 => {
            // A number that is repeated, skipped, fallen, or far off.
            let at = one_of(chance, lines, &[MODEL])?;
            let own = 1 + lines[..at].iter().filter(|line| named(&line[..], &[MODEL])).count() as i64;
            let number = *chance.pick(&[own - 2, own - 2, own - 1, own - 1, own + 1, 0, 9_999]);
            put_number(&mut lines[at], 11, 14, number);
        }
        3 => {
            let at = one_of(chance, lines, ENDS)?;
            lines.remove(at);
        }
        4 => {
            let at = one_of(chance, lines, ENDS)?;
            repeat(lines, at, 1);
        }
        5 => {
            let (from, to) = (one_of(chance, lines, ENDS)?, somewhere(chance, lines)?);
            let moved = lines.remove(from);
            lines.insert(to.min(lines.len()), moved);
        }
        6 => {
            let number = chance.within(1, 3);
            let new = if chance.once_in(2) { line("ENDMDL") } else { model(number) };
            let at = somewhere(chance, lines).unwrap_or(lines.len().min(1));
            lines.insert(at, new);
        }
        7 => {
            let at = one_of(chance, lines, &[b"CONECT", b"MASTER"])?;
            lines.insert(at + 1, model(1));
        }
        8 | 9 => {
            // A coordinate line outside, behind a model or before the first.
            let names = if chance.once_in(2) { COORDINATES } else { &[b"TER   "] };
            let from = one_of(chance, lines, names)?;
            let outside = if chance.once_in(4) { one_of(chance, lines, &[MODEL])? } else { behind(chance, lines)? };
            lines.insert(outside, lines[from]);
        }
        10 | 11 => {
            let inside = behind(chance, lines)? - 1;
            let other = *chance.pick(&["REMARK", "CONECT    1    2", "END", "SCALE1", "HEADER"]);
            let master = master_of_all(lines);
            lines.insert(inside, if chance.once_in(4) { master } else { line(other) });
        }
        12 | 13 => {
            // An open chain before an ENDMDL.
            let ends = (0..lines.len()).filter(|&at| named(&lines[at], &[ENDMDL]));
            let closed: Vec<(usize, usize)> = ends.filter_map(|end| Some((last_ter(&lines[..end])?, end))).collect();
            if closed.is_empty() {
                return None;
            }
            let (ter, end) = *chance.pick(&closed);
            lines.drain(ter..if chance.once_in(4) { ter + 1 } else { end });
        }
        14 | 15 => {
            // A run that another model has closed.
            let (from, to) = (one_of(chance, lines, &[b"TER   "])?, one_of(chance, lines, &[MODEL])?);
            lines.insert(to + 1, lines[from]);
        }
        16 | 17 => {
            let at = one_of(chance, lines, &[b"MASTER"])?;
            lines[at] = master_of_all(lines);
        }
        18 => {
            // Strands are missing when the first model begins. Crystal lines above it would come first.
            lines.retain(|line| !named(line, &[b"CRYST1"]) && !named(line, &TRANSFORMS));
            let at = lines.iter().position(|line| named(line, &[MODEL]))?;
            lines.insert(at, line("SHEET    1   A 2 THR A 107  ARG A 110  0"));
        }
        19 => {
            // A serial of the line before, once more.
            let at = one_of(chance, lines, COORDINATES)?.max(1);
            let serial = lines[at - 1][6..11].to_vec();
            put(&mut lines[at], 7, &serial);
        }
        20 => put_number(named_line(chance, lines, &[b"CONECT"])?, 12, 16, chance.within(1, 99_999)),
        21 => lines.truncate(somewhere(chance, lines)?),
        22 => lines.truncate(behind(chance, lines)?),
        _ => {
            let at = one_of(chance, lines, ENDS)?;
            damage_line(chance, &mut lines[at]);
        }
    }
    Some(())
}

/// The last TER of the last of these models: nothing but heterogens stands behind it.
fn last_ter(lines: &[Columns]) -> Option<usize> {
    let model = lines.iter().rposition(|line| named(line, &[MODEL]))?;
    let ter = lines.iter().rposition(|line| named(line, &[b"TER   "]))?;
    (ter > model).then_some(ter)
}

/// Right behind an ENDMDL.
fn behind(chance: &mut Chance, lines: &[Columns]) -> Option<usize> {
    one_of(chance, lines, &[ENDMDL]).map(|end| end + 1)
}

/// A list for an arrangement that sets aside the fragments with the atom of one serial, in all models or in all but one: a
/// serial of a bond where there is one, and of such one that a TER has too, which does not make the bond stay.
pub fn list_of_one_serial(chance: &mut Chance, text: &[u8], slots: &[Slot], fragments: &[u32]) -> Vec<u8> {
    let mut list = vec![0; fragments.last().map_or(0, |&last| last as usize)];
    let bonds = lines(text).into_iter().filter(|line| named(&line[..], &[b"CONECT"]));
    let bonded: Vec<u32> = bonds.flat_map(bond).collect();
    let has_ter = |serial: &u32| slots.iter().any(|slot| slot.kind == 3 && slot.serial == *serial);
    let with_ter: Vec<u32> = bonded.iter().copied().filter(has_ter).collect();
    let all: Vec<u32> = slots.iter().map(|slot| slot.serial).collect();
    let serials = [with_ter, bonded, all].into_iter().find(|serials| !serials.is_empty());
    let Some(serial) = serials.map(|serials| *chance.pick(&serials)) else { return list };
    let atom = |slot: &Slot| slot.kind != 3 && slot.serial == serial;
    let mut having: Vec<u32> =
        slots.iter().zip(fragments).filter(|(slot, _)| atom(slot)).map(|(_, &fragment)| fragment).collect();
    if chance.once_in(2) && having.len() > 1 {
        having.remove(chance.below(having.len()));
    }
    for fragment in having {
        list[fragment as usize - 1] = 1;
    }
    list
}
