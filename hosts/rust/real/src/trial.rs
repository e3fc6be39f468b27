//! What is asked of an entry.

use std::collections::{BTreeMap, BTreeSet};
use std::fmt::Display;

use differ::chance::Chance;
use differ::entry::{named, COORDINATES};
use differ::models::ENDS;
use differ::places::places;
use differ::rows::TRANSFORMS;
use differ::slots::to_reference;
use reference::{Mark, Serial, Slot};
use station::{pieces, FragmentNumber, Jump, Line, Table};

use crate::answers::{
    by_number, line_of_library, line_of_reference, of_library, of_reference, own_by_number, wrapped_alike, written,
};
use crate::crystal::{
    cell_of_library, cell_of_reference, place_by_rows, place_of_library, rows_of_library, transform_of_library,
    transform_of_reference,
};
use crate::entries::Listed;
use crate::texts::{atoms, choices, damaged, with_twins};

const SEED: u64 = 1;
/// How many times an entry is damaged.
const DAMAGES: usize = 60;
/// How many times an accepted entry is given one of its atoms twice.
const TWINS: usize = 20;
/// How many atoms get a fractional place.
const PLACES: usize = 12;

const CELL: &[&[u8; 6]] = &[b"CRYST1"];

/// The other lines with typed columns, those of the crystal frame left out.
const OTHER_TYPED: [&[u8; 6]; 7] = [b"HELIX ", b"SHEET ", b"MODEL ", b"ENDMDL", b"CONECT", b"MASTER", b"END   "];

/// A line without its newline.
fn columns(piece: &[u8]) -> &[u8] {
    piece.strip_suffix(b"\n").unwrap_or(piece)
}

/// One entry under trial.
pub struct Trial<'e> {
    listed: &'e Listed,
    text: &'e [u8],
    chance: Chance,
    /// How many sets of fragments were set aside.
    choices: usize,
    /// The numbers that the damaged texts were answered with.
    reached: BTreeMap<u64, usize>,
    /// The columns that were told of them.
    told: BTreeSet<u64>,
    /// How many crystal lines were written as they were, and how many atoms were given a fractional place.
    crystal: (usize, usize),
    /// What was found, in words.
    pub differences: Vec<String>,
}

impl<'e> Trial<'e> {
    pub fn new(listed: &'e Listed, text: &'e [u8]) -> Trial<'e> {
        let chance = Chance::of_case(SEED, text.len() as u64);
        Trial {
            listed,
            text,
            chance,
            choices: 0,
            reached: BTreeMap::new(),
            told: BTreeSet::new(),
            crystal: (0, 0),
            differences: Vec::new(),
        }
    }

    /// What was done, in words.
    pub fn summary(&self) -> String {
        let reached: Vec<String> = self.reached.iter().map(|(number, count)| format!("{number}:{count}")).collect();
        let (good, told, (lines, places)) = (self.listed.good_lines, self.told.len(), self.crystal);
        let crystal = format!("{lines} crystal lines, {places} places");
        format!(
            "{good:3} good lines, {crystal}, {} sets aside, damaged {}, {told} columns told",
            self.choices,
            reached.join(" ")
        )
    }

    fn hold(&mut self, what: impl Display, holds: bool) {
        if !holds {
            self.differences.push(what.to_string());
        }
    }

    /// Everything.
    pub fn run(&mut self) {
        self.verdict();
        self.single_lines();
        if self.listed.accepted.is_some() {
            self.fragments();
            self.twins();
        }
        self.places();
        self.jumps();
        self.damage();
    }

    /// The verdict is the one in the list, on both sides.
    fn verdict(&mut self) {
        let (library, reference) = (of_library(self.text), of_reference(self.text));
        self.hold(format_args!("check: library {library:?}, reference {reference:?}"), library == reference);
        let Listed { number, line, good_lines, accepted, .. } = *self.listed;
        self.hold(
            format_args!("check: {library:?} is not as listed"),
            [library[0], library[1], library[3]] == [number, line, good_lines],
        );
        self.hold("check: the wrapper says otherwise", wrapped_alike(self.text, &library));
        if let Some((coordinates, _)) = accepted {
            self.hold(format_args!("{} coordinates, not as listed", library[9]), library[9] == coordinates);
            self.hold("not all lines are good", good_lines == pieces(self.text).len() as u64);
        }
    }

    /// Each line by itself is answered alike; a line that is read is written as it was. All typed lines of an accepted
    /// entry are read.
    fn single_lines(&mut self) {
        for (index, piece) in pieces(self.text).enumerate() {
            let (line, number) = (columns(piece), index + 1);
            self.line_alike(line);
            let library = by_number(Line::read(line)).map(|line| *line.columns());
            let mut out = [0; 80];
            let reference = own_by_number(reference::rewrite_line(line, &mut out)).map(|()| out);
            self.hold(format_args!("line {number} rewritten: sides differ"), library == reference);
            let crystal = named(piece, CELL) || named(piece, &TRANSFORMS);
            self.crystal.0 += usize::from(crystal && library.is_ok());
            let typed = crystal || named(piece, COORDINATES) || named(piece, &OTHER_TYPED);
            match library {
                Ok(rewritten) => self.hold(format_args!("line {number}: rewritten otherwise"), rewritten == line),
                Err(refused) => {
                    let right = self.listed.accepted.is_none() || (!typed && refused == 4);
                    self.hold(format_args!("line {number}: read by itself refused with {refused}"), right);
                }
            }
            let library = by_number(Line::slot_of(line)).map(|slot| to_reference(&slot));
            let reference = own_by_number(reference::slot_of_line(line));
            self.hold(format_args!("line {number}: slots differ"), library == reference);
            let (library, reference) = (cell_of_library(line), cell_of_reference(line));
            self.hold(format_args!("line {number}: cells {library:?} and {reference:?}"), library == reference);
            let (library, reference) = (transform_of_library(line), transform_of_reference(line));
            self.hold(format_args!("line {number}: rows {library:?} and {reference:?}"), library == reference);
        }
    }

    /// The first atoms have the same fractional place on both sides, in one call and in two; an entry that is refused has none.
    fn places(&mut self) {
        let (rows, reference) = (rows_of_library(self.text), own_by_number(reference::rows(self.text)));
        self.hold(format_args!("rows: library {rows:?}, reference {reference:?}"), rows == reference);
        let atoms = places(self.text);
        let due = atoms.len().min(PLACES);
        self.hold("there are no atoms", due > 0 || self.listed.accepted.is_none());
        for &at in atoms.iter().take(PLACES).chain([&[i32::MAX; 3]]) {
            let library = place_of_library(self.text, at);
            let reference = own_by_number(reference::fractional(self.text, at));
            let by_rows = rows.and_then(|rows| place_by_rows(&rows, at));
            let alike = library == reference && library == by_rows;
            self.hold(format_args!("place of {at:?}: {library:?}, {by_rows:?} and {reference:?}"), alike);
            self.crystal.1 += usize::from(library.is_ok());
        }
        let told = self.crystal.1;
        let right = if self.listed.accepted.is_some() { told == due } else { told == 0 };
        self.hold(format_args!("{told} of {due} atoms have a fractional place"), right);
    }

    /// A line by itself is answered alike, with the same column.
    fn line_alike(&mut self, line: &[u8]) -> (u32, u64) {
        let (library, reference) = (line_of_library(line), line_of_reference(line));
        self.hold(format_args!("read by itself: library {library:?}, reference {reference:?}"), library == reference);
        library
    }

    /// Loads the entry, and tries the sets of fragments.
    fn fragments(&mut self) {
        let mut table = match Table::load(self.text) {
            Ok(table) => table,
            Err(refusal) => return self.hold(format_args!("load: {refusal}"), false),
        };
        let mut own = vec![Slot::default(); table.slots().len()];
        let loaded = own_by_number(reference::load(self.text, &mut own));
        self.hold(format_args!("load: reference {loaded:?}"), loaded == Ok(own.len()));
        self.same_slots(&table, &own);
        let count = self.numbers(&table, &own);
        self.hold(
            format_args!("{count} fragments, not as listed"),
            self.listed.accepted.map(|(_, n)| n) == Some(count),
        );
        for choice in choices(&mut self.chance, count) {
            self.choices += 1;
            self.set_aside(&mut table, &mut own, &choice);
        }
    }

    /// How many fragments there are, by the numbers that both sides give to the slots.
    fn numbers(&mut self, table: &Table<'_>, own: &[Slot]) -> usize {
        let library = by_number(table.fragment_numbers())
            .map(|numbers| numbers.into_iter().map(|number| number.0).collect::<Vec<_>>());
        let mut out = vec![0; own.len()];
        let reference = own_by_number(reference::fragment_numbers(self.text, own, &mut out)).map(|_| out);
        self.hold("the fragments of the slots differ", library == reference);
        library.ok().and_then(|numbers| numbers.last().copied()).unwrap_or(0) as usize
    }

    fn same_slots(&mut self, table: &Table<'_>, own: &[Slot]) {
        self.hold("the tables differ", table.slots().iter().map(to_reference).eq(own.iter().copied()));
    }

    /// One order on both sides.
    fn order(&mut self, table: &mut Table<'_>, own: &mut [Slot], fragment: u32, mark: Mark, due: Result<(), u32>) {
        let library = by_number(match mark {
            Mark::Aside => table.set_aside(FragmentNumber(fragment)),
            Mark::In => table.put_back(FragmentNumber(fragment)),
        });
        let reference = own_by_number(reference::order(self.text, own, reference::FragmentNumber(fragment), mark));
        let right = library == due && reference == due;
        self.hold(format_args!("fragment {fragment} {mark:?}: library {library:?}, reference {reference:?}"), right);
    }

    /// Save and tray, equal on both sides.
    fn outputs(&mut self, table: &Table<'_>, own: &[Slot]) -> Option<(Vec<u8>, Vec<u8>)> {
        let library = (by_number(table.save()), by_number(table.tray()));
        let reference = (written(self.text, own, reference::save), written(self.text, own, reference::tray));
        self.hold("save or tray differ", library == reference);
        match library {
            (Ok(saved), Ok(tray)) => Some((saved, tray)),
            (saved, tray) => {
                let numbers = (saved.err(), tray.err());
                self.hold(format_args!("save and tray are refused with {numbers:?}"), false);
                None
            }
        }
    }

    /// Sets some fragments aside, looks at what is saved and at the tray, and puts them back.
    fn set_aside(&mut self, table: &mut Table<'_>, own: &mut [Slot], choice: &[u32]) {
        for &fragment in choice {
            self.order(table, own, fragment, Mark::Aside, Ok(()));
        }
        if let Some(&fragment) = choice.first() {
            self.order(table, own, fragment, Mark::Aside, Err(16));
        }
        self.same_slots(table, own);
        self.arranged(table, choice);
        if let Some((saved, tray)) = self.outputs(table, own) {
            let (library, reference) = (of_library(&saved), of_reference(&saved));
            self.hold(format_args!("saved: {library:?} and {reference:?}"), library == reference && library[0] == 0);
            self.parted(&saved, &tray);
            self.in_the_tray(table, choice, &tray);
        }
        for &fragment in choice.iter().rev() {
            self.order(table, own, fragment, Mark::In, Ok(()));
        }
        if let Some((saved, tray)) = self.outputs(table, own) {
            let bare = pieces(&tray).all(|piece| named(piece, ENDS));
            self.hold("put back, another entry is saved", saved == self.text && bare);
        }
    }

    /// The same fragments set aside at once give the same table, from whatever it was before.
    fn arranged(&mut self, table: &Table<'_>, choice: &[u32]) {
        let count = self.numbers(table, &table.slots().iter().map(to_reference).collect::<Vec<_>>());
        let mark = |aside: bool| if aside { station::Mark::Aside } else { station::Mark::In };
        let marks: Vec<_> = (1..=count as u32).map(|number| mark(choice.contains(&number))).collect();
        let others: Vec<_> = marks.iter().map(|&other| mark(other == station::Mark::In)).collect();
        let mut fresh = table.clone();
        for (list, same) in [(&others, false), (&marks, true), (&marks, true)] {
            let answer = by_number(fresh.arrange(list));
            let alike = fresh.slots() == table.slots();
            self.hold(format_args!("arranged: {answer:?}, alike: {alike}"), answer.is_ok() && alike == same);
        }
    }

    /// Each line stands once, in the saved entry or in the tray, in order; MODEL and ENDMDL lines stand in both. Only MASTER may
    /// be another.
    fn parted(&mut self, saved: &[u8], tray: &[u8]) {
        let (mut kept, mut dropped) = (pieces(saved).peekable(), pieces(tray).peekable());
        let copies = pieces(self.text).filter(|piece| named(piece, ENDS)).count();
        self.hold("the lines do not add up", kept.len() + dropped.len() == pieces(self.text).len() + copies);
        let (mut seen, mut coordinates) = (0, 0);
        for piece in pieces(self.text) {
            let master = piece.starts_with(b"MASTER");
            let taken = if master {
                kept.next_if(|line| line.starts_with(b"MASTER"))
            } else if named(piece, ENDS) {
                kept.next_if_eq(&piece).and_then(|_| dropped.next_if_eq(&piece))
            } else {
                kept.next_if_eq(&piece).or_else(|| dropped.next_if_eq(&piece))
            };
            seen += usize::from(taken.is_some());
            coordinates += usize::from(taken.is_some() && named(piece, COORDINATES));
        }
        let all = pieces(self.text).filter(|piece| named(piece, COORDINATES)).count();
        self.hold(format_args!("{coordinates} of {all} coordinate lines are found"), coordinates == all);
        self.hold(format_args!("{seen} lines are found"), seen == pieces(self.text).len());
        self.hold("lines that the entry does not have", kept.next().is_none() && dropped.next().is_none());
    }

    /// The coordinate lines in the tray are those of the fragments, and its other lines are CONECT, MODEL and ENDMDL lines.
    fn in_the_tray(&mut self, table: &Table<'_>, choice: &[u32], tray: &[u8]) {
        let mut coordinates = pieces(self.text).filter(|piece| named(piece, COORDINATES));
        let mut due = Vec::new();
        for fragment in table.fragments().into_iter().flatten() {
            let lines = coordinates.by_ref().take(fragment.slots.len());
            if choice.contains(&fragment.number.0) {
                due.extend(lines);
            } else {
                lines.for_each(drop);
            }
        }
        let (lines, others): (Vec<_>, Vec<_>) = pieces(tray).partition(|piece| named(piece, COORDINATES));
        self.hold("other coordinate lines in the tray", lines == due);
        let right = |piece: &&[u8]| piece.starts_with(b"CONECT") || named(piece, ENDS);
        self.hold("the tray has other lines", others.iter().all(right));
    }

    /// An atom that comes twice is found, wherever the two stand.
    fn twins(&mut self) {
        for _ in 0..TWINS {
            // A few pairs do not fit.
            let made = (0..50).find_map(|_| with_twins(&mut self.chance, self.text));
            let Some((text, line)) = made else { return self.hold("there are no two atoms", false) };
            let (library, reference) = (of_library(&text), of_reference(&text));
            let right = library == reference && library[..4] == [21, line, 0, line - 1];
            self.hold(format_args!("twins at {line}: library {library:?}, reference {reference:?}"), right);
            *self.reached.entry(library[0]).or_default() += 1;
        }
    }

    /// A jump, equal on both sides.
    fn jump(&mut self, text: &[u8], serial: u32) -> Option<u64> {
        let library = Jump::to(text, serial);
        let own = reference::find(text, Serial(serial));
        let alike = (library.line.unwrap_or(0), library.looked) == (own.line, own.looked);
        self.hold(format_args!("jump to {serial}: library {library:?}, reference {own:?}"), alike);
        library.line
    }

    /// The first atom, one in the middle and the last are where they stand, in an accepted entry, in the first model that has
    /// their serial; serials that no atom has are nowhere.
    fn jumps(&mut self) {
        let atoms = atoms(self.text);
        for at in [0, atoms.len() / 2, atoms.len().saturating_sub(1)] {
            let Some(&(_, serial)) = atoms.get(at) else { continue };
            let line = atoms.iter().find(|(_, other)| *other == serial).map_or(0, |(line, _)| *line);
            let found = self.jump(self.text, serial);
            let right = self.listed.accepted.is_none() || found == Some(line);
            self.hold(format_args!("jump to {serial}: {found:?}, and it stands in line {line}"), right);
        }
        let free = (1..).find(|serial| !atoms.iter().any(|(_, other)| other == serial)).unwrap_or_default();
        for serial in [0, free, 100_000, u32::MAX] {
            let found = self.jump(self.text, serial);
            self.hold(format_args!("jump to {serial}: {found:?}, and no atom has it"), found.is_none());
        }
    }

    /// Damaged texts are answered alike.
    fn damage(&mut self) {
        for index in 0..DAMAGES {
            let text = damaged(&mut self.chance, self.text);
            if let Some(&(_, serial)) = atoms(self.text).get(index) {
                self.jump(&text, serial);
            }
            let (library, reference) = (of_library(&text), of_reference(&text));
            self.hold(
                format_args!("damage {index}: library {library:?}, reference {reference:?}"),
                library == reference,
            );
            self.hold(format_args!("damage {index}: the wrapper says otherwise"), wrapped_alike(&text, &library));
            self.refused_line(&text, library[0], library[1], library[2]);
            *self.reached.entry(library[0]).or_default() += 1;
        }
    }

    /// The line that a text is refused at: by itself it has the column that the text was told of, and no other text is told of
    /// one.
    fn refused_line(&mut self, text: &[u8], number: u64, line: u64, column: u64) {
        let by_itself = match pieces(text).nth((line as usize).saturating_sub(1)) {
            Some(piece) if line > 0 => self.line_alike(columns(piece)),
            _ => (0, 0),
        };
        let right = if number == 6 { by_itself == (6, column) } else { column == 0 };
        self.hold(format_args!("{number} and column {column} in line {line}, by itself {by_itself:?}"), right);
        self.told.extend((column > 0).then_some(column));
    }
}
