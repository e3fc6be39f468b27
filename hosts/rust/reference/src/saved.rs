//! Saving an entry without what was set aside, and the tray with what was.

use std::collections::BTreeSet;

use crate::check::{walk, GoodLine};
use crate::line::LineName;
use crate::record::Record;
use crate::table::{belonging, Mark, Slot};
use crate::tally::Counting;
use crate::writing::line_of;
use crate::{Refusal, Serial};

/// Writes the entry without what was set aside, MASTER counted again, and tells how many bytes.
pub fn save(text: &[u8], table: &[Slot], out: &mut [u8]) -> Result<usize, Refusal> {
    let (kept, _) = parted(text, table)?;
    let mut counting = Counting::default();
    let mut saved = Vec::new();
    for line in kept {
        counting.add(line.name);
        if line.name == LineName::Master {
            let master = line_of(&Record::Master(counting.tally)).ok_or(Refusal::Field)?;
            saved.extend(master);
            saved.push(b'\n');
        } else {
            saved.extend(line.bytes);
        }
    }
    give(&saved, out)
}

/// Writes the lines that saving leaves out, with a copy of the MODEL and ENDMDL lines, and tells how many bytes.
pub fn tray(text: &[u8], table: &[Slot], out: &mut [u8]) -> Result<usize, Refusal> {
    let (_, tray) = parted(text, table)?;
    let tray: Vec<u8> = tray.iter().flat_map(|line| line.bytes).copied().collect();
    give(&tray, out)
}

fn give(bytes: &[u8], out: &mut [u8]) -> Result<usize, Refusal> {
    let place = out.get_mut(..bytes.len()).ok_or(Refusal::ShortOutput)?;
    place.copy_from_slice(bytes);
    Ok(bytes.len())
}

/// The lines that are kept and the lines that go to the tray. MODEL and ENDMDL lines are both.
fn parted<'t>(text: &'t [u8], table: &[Slot]) -> Result<(Vec<GoodLine<'t>>, Vec<GoodLine<'t>>), Refusal> {
    let own = belonging(text, table)?;
    let (_, lines) = walk(text);
    let is_in = |slot: &Slot| slot.mark() == Some(Mark::In);
    let atoms = own.iter().filter(|slot| slot.is_coordinate() && is_in(slot));
    let atoms: BTreeSet<Serial> = atoms.map(|slot| Serial(slot.serial)).collect();
    let mut slots = own.iter();
    let (mut kept, mut tray) = (Vec::new(), Vec::new());
    for line in lines {
        let stays = match line.record {
            Some(Record::Atom(_) | Record::Hetatm(_) | Record::Ter(_)) => slots.next().is_some_and(is_in),
            Some(Record::Conect(conect)) => conect.serials().all(|serial| atoms.contains(&serial)),
            _ => true,
        };
        if stays {
            kept.push(line);
        }
        if !stays || matches!(line.record, Some(Record::Model(_) | Record::Endmdl)) {
            tray.push(line);
        }
    }
    Ok((kept, tray))
}

#[cfg(test)]
mod tests {
    use super::*;
    use crate::samples::*;
    use crate::table::loaded;
    use crate::{arrange, check, fragment_numbers, load, order, FragmentNumber};

    #[test]
    fn second_of_three() {
        let (kept, dropped) = saved(&three_fragments(&["CONECT    1    3", "CONECT    1    4"]), &[2]);
        let expected = text(&[
            line("HEADER"),
            atom("ATOM", 1, 'A', 1),
            ter(2, 'A', 1),
            atom("HETATM", 4, 'B', 8),
            line("CONECT    1    4"),
            master([0, 0, 0, 0, 0, 2, 1, 1, 0]),
            line("END"),
        ]);
        assert_eq!(kept, expected);
        assert_eq!(dropped, text(&[atom("HETATM", 3, 'B', 7), line("CONECT    1    3")]));
        assert_eq!(check(&kept).refusal, None);
    }

    #[test]
    fn nothing_aside() {
        let entry = three_fragments(&["CONECT    1    3"]);
        assert_eq!(saved(&entry, &[]), (entry, vec![]));
        let slots = loaded(&arginine_entry()).expect("an accepted entry");
        assert_eq!(tray(&arginine_entry(), &slots, &mut []), Ok(0));
        assert_eq!(tray(&arginine_entry(), &slots[..1], &mut []), Err(Refusal::ShortTable));
    }

    /// 21 comes before 13, 18 and 17, and nothing is written.
    #[test]
    fn the_same_atom_in_every_call() {
        let entry = three_fragments(&[]);
        let mut slots = loaded(&entry).expect("an accepted entry");
        let fresh = slots.clone();
        let (first, second) = (atom("HETATM", 3, 'B', 7), atom("HETATM", 4, 'B', 7));
        let twins = [&entry[..3 * 81], &text(&[first, second]), &entry[5 * 81..]].concat();
        let twice = Err(Refusal::SameAtom);
        let (mut out, mut numbers) = ([7; 9], [7; 9]);
        assert_eq!(load(&twins, &mut slots[..1]), twice);
        assert_eq!(order(&twins, &mut slots, FragmentNumber(9), Mark::Aside), Err(Refusal::SameAtom));
        assert_eq!(arrange(&twins, &mut slots, &[]), Err(Refusal::SameAtom));
        assert_eq!(fragment_numbers(&twins, &slots, &mut numbers), twice);
        assert_eq!((save(&twins, &slots, &mut out), tray(&twins, &slots, &mut out)), (twice, twice));
        assert_eq!((slots, out, numbers), (fresh, [7; 9], [7; 9]));
    }

    #[test]
    fn everything_aside() {
        let entry = three_fragments(&["CONECT    1    3"]);
        let (kept, dropped) = saved(&entry, &[3, 1, 2]);
        assert_eq!(kept, text(&[line("HEADER"), master([0; 9]), line("END")]));
        assert_eq!(dropped, entry[81..entry.len() - 2 * 81]);
    }
}
