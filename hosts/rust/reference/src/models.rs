//! Models: where a text stands among its MODEL and ENDMDL lines.

use crate::line::LineName;
use crate::record::Record;
use crate::ModelNumber;

/// What a line has to know of the models above it.
#[derive(Clone, Copy, Debug, Default)]
pub struct Models {
    stand: Stand,
    /// The number of the last MODEL, 0 before the first.
    last: u32,
}

/// Where a text stands.
#[derive(Clone, Copy, Debug, Default, PartialEq, Eq)]
enum Stand {
    /// Before all coordinates and models.
    #[default]
    Before,
    /// Behind a coordinate line that stands in no model: none will come.
    Without,
    /// Between a MODEL and its ENDMDL.
    Within,
    /// Behind an ENDMDL.
    Behind,
}

impl Models {
    /// 5: whether a line of this name may stand here.
    pub fn allow(&self, name: LineName) -> bool {
        match name {
            LineName::Model => matches!(self.stand, Stand::Before | Stand::Behind),
            LineName::Endmdl => self.stand == Stand::Within,
            _ if name.slotted() => self.stand != Stand::Behind,
            _ => self.stand != Stand::Within,
        }
    }

    /// 22: models are numbered 1, 2, 3 and so on.
    pub fn count_on(&self, record: Option<Record>) -> bool {
        match record {
            Some(Record::Model(number)) => number.0 == self.last + 1,
            _ => true,
        }
    }

    /// The number of the model that a line stands in, 0 if it stands in none.
    pub fn number(&self) -> ModelNumber {
        ModelNumber(if self.stand == Stand::Within { self.last } else { 0 })
    }

    /// Takes a good line in.
    pub fn add(&mut self, name: LineName) {
        match name {
            LineName::Model => {
                self.stand = Stand::Within;
                self.last += 1;
            }
            LineName::Endmdl => self.stand = Stand::Behind,
            _ if name.slotted() && self.stand == Stand::Before => self.stand = Stand::Without,
            _ => {}
        }
    }
}

#[cfg(test)]
mod tests {
    use crate::samples::*;
    use crate::table::{fragments, loaded};
    use crate::{check, find, order, save, FragmentNumber, Mark, Refusal, Serial};

    fn model(number: u32) -> [u8; 80] {
        line(&format!("MODEL     {number:4}"))
    }

    /// Number and line of a text: HEADER, and some lines more.
    fn answer(more: &[[u8; 80]]) -> (u32, u64) {
        let verdict = check(&text(&[&[line("HEADER")], more].concat()));
        (verdict.refusal.map_or(0, Refusal::number), verdict.line)
    }

    fn counts(coord: u32, ter: u32, conect: u32) -> [u8; 80] {
        master([0, 0, 0, 0, 0, coord, ter, conect, 0])
    }

    #[test]
    fn worked_texts() {
        let (end, heterogen) = (line("ENDMDL"), atom("HETATM", 5, 'A', 7));
        assert_eq!(answer(&[model(2)]), (22, 2));
        assert_eq!(answer(&[model(1), end, model(1)]), (22, 4));
        assert_eq!(answer(&[heterogen, model(1)]), (5, 3));
        assert_eq!(answer(&[model(1), end, heterogen]), (5, 4));
        assert_eq!(answer(&[model(1), master([0; 9])]), (5, 3));
        assert_eq!(answer(&[model(1), atom("ATOM", 5, 'A', 7), end]), (8, 4));
        assert_eq!(answer(&[end]), (5, 2));
        let both = [model(1), heterogen, end, model(2), heterogen, end];
        assert_eq!(answer(&[&both[..], &[counts(1, 0, 0), line("END")]].concat()), (0, 0));
        assert_eq!(answer(&[&both[..], &[counts(2, 0, 0), line("END")]].concat()), (11, 8));
    }

    #[test]
    fn places() {
        let (end, heterogen) = (line("ENDMDL"), atom("HETATM", 5, 'A', 7));
        assert_eq!(answer(&[model(1), model(2)]), (5, 3));
        assert_eq!(answer(&[model(1), heterogen, end, end]), (5, 5));
        assert_eq!(answer(&[heterogen, end]), (5, 3));
        for inner in ["REMARK", "CONECT    5    6", "MASTER", "END", "HEADER", "SCALE1"] {
            assert_eq!(answer(&[model(1), line(inner)]), (5, 3), "{inner}");
            assert_eq!(answer(&[model(1), heterogen, line(inner)]), (5, 4), "{inner}");
        }
        assert_eq!(answer(&[model(1), end, line("REMARK")]), (5, 4));
        assert_eq!(answer(&[model(1), end, line("CONECT    5    6")]), (9, 4));
        assert_eq!(answer(&[model(1), heterogen, end, line("TER       6      ALA A   7")]), (5, 5));
        assert_eq!(answer(&[shifted(1), model(1)]), (5, 3));
        assert_eq!(answer(&[model(1), end, counts(0, 0, 0), model(2)]), (5, 5));
        assert_eq!(answer(&[model(1)]), (12, 3));
        assert_eq!(answer(&[model(1), end]), (12, 4));
    }

    /// 5 comes before 6, 6 before 22, 22 before 10, and at ENDMDL 6 before 8.
    #[test]
    fn sequence() {
        let (end, wrong) = (line("ENDMDL"), line("MODEL        0"));
        assert_eq!(answer(&[wrong]), (6, 2));
        assert_eq!(answer(&[model(1), wrong]), (5, 3));
        assert_eq!(answer(&[model(1), end, changed(&model(1), 80, b"x")]), (6, 4));
        assert_eq!((answer(&[*STRAND_1, model(1)]), answer(&[*STRAND_1, model(2)])), ((10, 3), (22, 3)));
        let open = [model(1), atom("ATOM", 5, 'A', 7)];
        assert_eq!(answer(&[&open[..], &[changed(&end, 80, b"x")]].concat()), (6, 4));
        assert_eq!(answer(&[&open[..], &[counts(1, 0, 0)]].concat()), (5, 4));
        assert_eq!(answer(&[&open[..], &[model(3)]].concat()), (5, 4));
    }

    #[test]
    fn what_begins_afresh() {
        let (end, chain, closed) = (line("ENDMDL"), atom("ATOM", 5, 'A', 7), ter(6, 'A', 7));
        let first = [model(1), chain, closed, end, model(2)];
        let with = |more: &[[u8; 80]]| answer(&[&first[..], more].concat());
        assert_eq!(with(&[chain, closed, end, counts(1, 1, 0), line("END")]), (0, 0));
        assert_eq!(with(&[atom("ATOM", 1, 'B', 7), ter(2, 'B', 7), end, counts(1, 1, 0), line("END")]), (0, 0));
        assert_eq!(with(&[chain, chain]), (7, 8));
        assert_eq!(with(&[chain, atom("ATOM", 6, 'A', 7)]), (21, 8));
        assert_eq!(with(&[closed]), (8, 7));
        let tail = [model(1), atom("HETATM", 5, 'A', 7), end, model(2)];
        assert_eq!(answer(&[&tail[..], &[atom("ATOM", 5, 'B', 7), ter(6, 'A', 7)]].concat()), (8, 7));
        assert_eq!(answer(&[&tail[..], &[atom("ATOM", 5, 'B', 7), ter(6, 'B', 7)]].concat()), (12, 8));
    }

    #[test]
    fn empty_models() {
        let (end, heterogen) = (line("ENDMDL"), atom("HETATM", 5, 'A', 7));
        assert_eq!(answer(&[model(1), end, counts(0, 0, 0), line("END")]), (0, 0));
        let late = [model(1), end, model(2), heterogen, end];
        assert_eq!(answer(&[&late[..], &[counts(0, 0, 0), line("END")]].concat()), (0, 0));
        assert_eq!(answer(&[&late[..], &[counts(1, 0, 0), line("END")]].concat()), (11, 7));
    }

    #[test]
    fn bonds_of_whichever_model() {
        let (end, closed) = (line("ENDMDL"), ter(2, 'A', 1));
        let both = [model(1), atom("ATOM", 1, 'A', 1), closed, end, model(2), atom("HETATM", 2, 'A', 1), end];
        let with = |bond: &str| answer(&[&both[..], &[line(bond), counts(1, 1, 1), line("END")]].concat()).0;
        assert_eq!((with("CONECT    1    2"), with("CONECT    2    1")), (0, 0));
        assert_eq!(with("CONECT    1    3"), 9);
    }

    /// Two models of two heterogens each, and a bond.
    fn worked() -> Vec<u8> {
        let pair = [atom("HETATM", 1, 'A', 7), atom("HETATM", 2, 'A', 8), line("ENDMDL")];
        let end = [line("CONECT    1    2"), counts(2, 0, 1), line("END")];
        text(&[&[line("HEADER"), model(1)], &pair[..], &[model(2)], &pair, &end].concat())
    }

    #[test]
    fn the_worked_entry() {
        let entry = worked();
        let slots = loaded(&entry).expect("an accepted entry");
        assert_eq!(slots.iter().map(|slot| slot.model).collect::<Vec<_>>(), [1, 1, 2, 2]);
        assert_eq!(fragments(&slots), [0..1, 1..2, 2..3, 3..4]);
        let (first, second, end) = (atom("HETATM", 1, 'A', 7), atom("HETATM", 2, 'A', 8), line("ENDMDL"));
        let bond = line("CONECT    1    2");
        let (kept, dropped) = saved(&entry, &[1]);
        let head = [line("HEADER"), model(1), second, end, model(2)];
        assert_eq!(kept, text(&[&head[..], &[first, second, end, bond, counts(1, 0, 1), line("END")]].concat()));
        assert_eq!(dropped, text(&[model(1), first, end, model(2), end]));
        assert_eq!(check(&kept).refusal, None);
        let (kept, dropped) = saved(&entry, &[1, 3]);
        assert_eq!(check(&kept).refusal, None);
        assert_eq!(kept, text(&[&head[..], &[second, end, counts(1, 0, 0), line("END")]].concat()));
        assert_eq!(dropped, text(&[model(1), first, end, model(2), first, end, bond]));
        assert_eq!(saved(&entry, &[]), (entry, text(&[model(1), end, model(2), end])));
    }

    /// A TER that has the number is no atom that is in.
    #[test]
    fn a_bond_goes_though_a_ter_has_its_number() {
        let closed = [atom("ATOM", 1, 'A', 1), ter(2, 'A', 1), line("ENDMDL")];
        let other = [model(2), atom("HETATM", 2, 'A', 1), line("ENDMDL"), line("CONECT    1    2")];
        let entry = text(&[&[line("HEADER"), model(1)], &closed[..], &other, &[counts(1, 1, 1), line("END")]].concat());
        assert!(saved(&entry, &[2]).1.ends_with(&text(&[line("CONECT    1    2")])));
    }

    #[test]
    fn a_fragment_ends_with_its_model() {
        let tail = [atom("HETATM", 1, 'A', 7), changed(&atom("HETATM", 2, 'A', 7), 13, b" CA "), line("ENDMDL")];
        let entry = [&[line("HEADER"), model(1)], &tail[..], &[model(2)], &tail, &[counts(2, 0, 0), line("END")]];
        let slots = loaded(&text(&entry.concat())).expect("an accepted entry");
        assert_eq!(fragments(&slots), [0..2, 2..4]);
    }

    #[test]
    fn a_wrong_model_is_another_table() {
        let entry = worked();
        for (index, model) in [(0, 0), (0, 2), (3, 1), (3, u32::MAX)] {
            let mut slots = loaded(&entry).expect("an accepted entry");
            slots[index].model = model;
            assert_eq!(order(&entry, &mut slots, FragmentNumber(1), Mark::Aside), Err(Refusal::OtherTable));
        }
        let mut bare = loaded(&three_fragments(&[])).expect("an accepted entry");
        assert!(bare.iter().all(|slot| slot.model == 0));
        bare[0].model = 1;
        assert_eq!(save(&three_fragments(&[]), &bare, &mut []), Err(Refusal::OtherTable));
    }

    #[test]
    fn a_jump_goes_to_the_first_model_that_has_the_serial() {
        assert_eq!(find(&worked(), Serial(2)).line, 4);
        let late = [line("HEADER"), model(1), line("ENDMDL"), model(2), atom("HETATM", 2, 'A', 8)];
        assert_eq!(find(&text(&late), Serial(2)).line, 5);
    }
}
