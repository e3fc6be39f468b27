//! One call through the C names and through the reference, and all that may differ.

use reference::{FragmentNumber, Mark, Refusal, Serial};
use station::raw::{Library, Slot};

use crate::findings::{Call, Findings};
use crate::jumps;
use crate::lent::{Lent, Sides};
use crate::modelled;
use crate::names::{put_name, Form};
use crate::slots::{to_library, to_reference};

/// The two sides of the comparison.
pub struct Harness {
    /// The library, through its C names.
    pub library: Library,
    /// What was found.
    pub findings: Findings,
    /// The case at hand, for the words of a difference.
    pub case: u64,
    /// What the guards are filled with.
    pub guard: u8,
    /// What stands at the sides of all buffers.
    pub sides: Sides,
}

pub(crate) fn number<T>(answer: &Result<T, Refusal>) -> u32 {
    answer.as_ref().map_or_else(|refusal| refusal.number(), |_| 0)
}

/// Makes a table, and what it has to be where it was lent, the reference's own.
fn settle(table: &mut [Slot], own: &[reference::Slot], lent: &mut Lent<Slot>) {
    for (slot, own) in table.iter_mut().zip(own) {
        *slot = to_library(own);
    }
    lent.due().copy_from_slice(table);
}

/// Whether a line is refused for the name of its atom alone: with another name it reads.
fn wrong_by_name(line: &[u8]) -> bool {
    let mended = line.try_into().map(|mut columns| {
        put_name(&mut columns, (*b" N  ", *b" N"));
        columns
    });
    mended.is_ok_and(|columns| reference::read_line(&columns).is_ok())
}

impl Harness {
    /// A harness for a library.
    pub fn new(library: Library) -> Harness {
        Harness { library, findings: Findings::default(), case: 0, guard: 0, sides: Sides::Guards }
    }

    fn guard_slot(&self) -> Slot {
        let serial = u32::from_ne_bytes([self.guard; 4]);
        Slot { serial, kind: self.guard, mark: self.guard, name: [self.guard; 4], ..Slot::default() }
    }

    pub(crate) fn lend<T: Copy + PartialEq>(&self, content: &[T], guard: T) -> Lent<T> {
        Lent::new(content, guard, self.sides)
    }

    pub(crate) fn lend_text(&self, text: &[u8]) -> Lent<u8> {
        self.lend(text, self.guard)
    }

    fn lend_table(&self, table: &[Slot]) -> Lent<Slot> {
        self.lend(table, self.guard_slot())
    }

    /// A lent place for one count, holding anything before.
    pub(crate) fn lend_count(&self) -> Lent<u64> {
        self.lend(&[u64::from_ne_bytes([self.guard ^ 0x5a; 8])], u64::from_ne_bytes([self.guard; 8]))
    }

    /// Lent room for doubles, by their bits, holding anything before.
    fn lend_doubles(&self, count: usize) -> Lent<u64> {
        let bits = u64::from_ne_bytes([self.guard ^ 0xa5; 8]);
        self.lend(&vec![bits; count], u64::from_ne_bytes([self.guard; 8]))
    }

    /// Takes down one call: the number that is due, the number that came, and where memory is wrong.
    pub(crate) fn note(
        &mut self,
        call: Call,
        due: impl Into<u64>,
        came: impl Into<u64>,
        memory: &[(&str, Option<isize>)],
    ) {
        self.findings.note(self.case, call, due.into(), came.into(), memory);
    }

    /// Takes down the form of the atom's name in a line that was granted, or refused with 6.
    pub(crate) fn note_form(&mut self, call: Call, line: &[u8], number: u32) {
        if let Some(form) = Form::of_line(line) {
            let met = if form.right() { number == 0 } else { number == 6 && wrong_by_name(line) };
            if met {
                *self.findings.forms.entry((call, form)).or_insert(0) += 1;
            }
        }
    }

    /// Loads a text into a table, which then holds what is due.
    pub fn load(&mut self, text: &[u8], table: &mut [Slot]) -> u32 {
        let lent = self.lend_text(text);
        let mut slots = self.lend_table(table);
        let mut count = self.lend_count();
        let room = slots.len();
        // SAFETY: all that is lent is as long as said.
        let came = unsafe { (self.library.load)(lent.start(), lent.len(), slots.start_mut(), room, count.start_mut()) };
        let mut own: Vec<reference::Slot> = table.iter().map(to_reference).collect();
        let answer = reference::load(text, &mut own);
        settle(table, &own, &mut slots);
        count.due()[0] = answer.map_or(0, |filled| filled as u64);
        let memory = [("text", lent.first_wrong()), ("table", slots.first_wrong()), ("count", count.first_wrong())];
        self.note(Call::Load, number(&answer), came, &memory);
        number(&answer)
    }

    /// Orders a fragment aside or back in a table, which then holds what is due.
    pub fn order(&mut self, text: &[u8], table: &mut [Slot], fragment: u32, aside: u8) -> u32 {
        let lent = self.lend_text(text);
        let mut slots = self.lend_table(table);
        let room = slots.len();
        // SAFETY: all that is lent is as long as said.
        let came = unsafe { (self.library.order)(lent.start(), lent.len(), slots.start_mut(), room, fragment, aside) };
        let mut own: Vec<reference::Slot> = table.iter().map(to_reference).collect();
        let answer = reference::order(text, &mut own, FragmentNumber(fragment), Mark::asked(aside));
        settle(table, &own, &mut slots);
        let memory = [("text", lent.first_wrong()), ("table", slots.first_wrong())];
        self.note(Call::Order, number(&answer), came, &memory);
        if answer == Err(Refusal::OtherTable) {
            self.findings.note_models(modelled::of_other_table(text, &own));
        }
        number(&answer)
    }

    /// Arranges every fragment of a table by a list of bytes; the table then holds what is due. Orders one by one have to
    /// leave the same table.
    pub fn arrange(&mut self, text: &[u8], table: &mut [Slot], aside: &[u8]) -> u32 {
        let lent = self.lend_text(text);
        let list = self.lend(aside, self.guard);
        let mut slots = self.lend_table(table);
        let mut ordered = self.lend_table(table);
        let (room, n, fragments) = (slots.len(), lent.len(), list.len());
        // SAFETY: all that is lent is as long as said.
        let came = unsafe { (self.library.arrange)(lent.start(), n, slots.start_mut(), room, list.start(), fragments) };
        let mut own: Vec<reference::Slot> = table.iter().map(to_reference).collect();
        let marks: Vec<Mark> = aside.iter().copied().map(Mark::asked).collect();
        let answer = reference::arrange(text, &mut own, &marks);
        settle(table, &own, &mut slots);
        if answer.is_ok() {
            for (&byte, fragment) in aside.iter().zip(1..) {
                // A fragment that is already there is refused, and its slots stay as they are.
                // SAFETY: all that is lent is as long as said.
                unsafe { (self.library.order)(lent.start(), n, ordered.start_mut(), room, fragment, byte) };
            }
            ordered.due().copy_from_slice(table);
        }
        let memory = [
            ("text", lent.first_wrong()),
            ("list", list.first_wrong()),
            ("table", slots.first_wrong()),
            ("table by orders", ordered.first_wrong()),
        ];
        self.note(Call::Arrange, number(&answer), came, &memory);
        number(&answer)
    }

    /// The fragments of the slots, into a room of so many numbers.
    pub fn fragments(&mut self, text: &[u8], table: &[Slot], room: usize) -> u32 {
        let lent = self.lend_text(text);
        let slots = self.lend_table(table);
        let found = u32::from_ne_bytes([self.guard ^ 0x3c; 4]);
        let mut out = self.lend(&vec![found; room], u32::from_ne_bytes([self.guard; 4]));
        let mut count = self.lend_count();
        let (n, length) = (lent.len(), slots.len());
        // SAFETY: all that is lent is as long as said.
        let came = unsafe {
            let name = self.library.fragments;
            name(lent.start(), n, slots.start(), length, out.start_mut(), room, count.start_mut())
        };
        let own: Vec<reference::Slot> = table.iter().map(to_reference).collect();
        let answer = reference::fragment_numbers(text, &own, out.due());
        count.due()[0] = answer.map_or(0, |numbers| numbers as u64);
        let memory = [
            ("text", lent.first_wrong()),
            ("table", slots.first_wrong()),
            ("numbers", out.first_wrong()),
            ("count", count.first_wrong()),
        ];
        self.note(Call::Fragments, number(&answer), came, &memory);
        number(&answer)
    }

    /// Saves into a room of so many bytes.
    pub fn save(&mut self, text: &[u8], table: &[Slot], room: usize) -> u32 {
        self.written(Call::Save, text, table, room)
    }

    /// Writes the tray into a room of so many bytes.
    pub fn tray(&mut self, text: &[u8], table: &[Slot], room: usize) -> u32 {
        self.written(Call::Tray, text, table, room)
    }

    fn written(&mut self, call: Call, text: &[u8], table: &[Slot], room: usize) -> u32 {
        let lent = self.lend_text(text);
        let slots = self.lend_table(table);
        let mut out = self.lend(&vec![self.guard ^ 0x3c; room], self.guard);
        let mut count = self.lend_count();
        let name = if call == Call::Save { self.library.save } else { self.library.tray };
        // SAFETY: all that is lent is as long as said.
        let came = unsafe {
            name(lent.start(), lent.len(), slots.start(), slots.len(), out.start_mut(), room, count.start_mut())
        };
        let own: Vec<reference::Slot> = table.iter().map(to_reference).collect();
        let answer = if call == Call::Save {
            reference::save(text, &own, out.due())
        } else {
            reference::tray(text, &own, out.due())
        };
        count.due()[0] = answer.map_or(0, |bytes| bytes as u64);
        let memory = [
            ("text", lent.first_wrong()),
            ("table", slots.first_wrong()),
            ("output", out.first_wrong()),
            ("count", count.first_wrong()),
        ];
        self.note(call, number(&answer), came, &memory);
        if let Ok(bytes) = answer {
            let written = &out.due()[..bytes];
            self.findings.note_models(match call {
                Call::Save => modelled::of_saved(text, &own, written),
                _ => modelled::of_tray(written),
            });
        }
        number(&answer)
    }

    /// Fills a slot from a line.
    pub fn slot_of_line(&mut self, line: &[u8], before: Slot) -> u32 {
        let lent = self.lend_text(line);
        let mut slot = self.lend_table(&[before]);
        // SAFETY: all that is lent is as long as said.
        let came = unsafe { (self.library.slot_of_line)(lent.start(), lent.len(), slot.start_mut()) };
        let answer = reference::slot_of_line(line);
        if let Ok(filled) = &answer {
            slot.due()[0] = to_library(filled);
        }
        self.note(
            Call::SlotOfLine,
            number(&answer),
            came,
            &[("line", lent.first_wrong()), ("slot", slot.first_wrong())],
        );
        self.note_form(Call::SlotOfLine, line, number(&answer));
        self.findings.note_models(modelled::of_slot(line, number(&answer)));
        number(&answer)
    }

    /// Reads a line and writes its record into a room of so many bytes.
    pub fn rewrite_line(&mut self, line: &[u8], room: usize) -> u32 {
        let lent = self.lend_text(line);
        let mut out = self.lend(&vec![self.guard ^ 0x3c; room], self.guard);
        // SAFETY: all that is lent is as long as said.
        let came = unsafe { (self.library.rewrite_line)(lent.start(), lent.len(), out.start_mut(), room) };
        let answer = reference::rewrite_line(line, out.due());
        self.note(
            Call::RewriteLine,
            number(&answer),
            came,
            &[("line", lent.first_wrong()), ("output", out.first_wrong())],
        );
        self.findings.note_models(modelled::of_line(line, number(&answer)));
        number(&answer)
    }

    /// Jumps to the atom with a serial.
    pub fn find(&mut self, text: &[u8], serial: u32) {
        let lent = self.lend_text(text);
        let mut looked = self.lend_count();
        // SAFETY: all that is lent is as long as said.
        let came = unsafe { (self.library.find)(lent.start(), lent.len(), serial, looked.start_mut()) };
        let jump = reference::find(text, Serial(serial));
        looked.due()[0] = jump.looked;
        let memory = [("text", lent.first_wrong()), ("looked", looked.first_wrong())];
        self.note(Call::Find, jump.line, came, &memory);
        for kind in jumps::met(text, serial, jump.line) {
            *self.findings.jumps.entry(kind).or_insert(0) += 1;
        }
    }

    /// The dot of a slot.
    pub fn dot(&mut self, slot: &Slot) {
        let lent = self.lend_table(&[*slot]);
        let mut out = self.lend_doubles(3);
        // SAFETY: all that is lent is as long as said.
        let came = unsafe { (self.library.dot)(lent.start(), out.start_mut().cast()) };
        let due = reference::dot(&to_reference(slot));
        if let Some(doubles) = due {
            out.due().copy_from_slice(&doubles.map(f64::to_bits));
        }
        let memory = [("slot", lent.first_wrong()), ("doubles", out.first_wrong())];
        self.note(Call::Dot, u32::from(due.is_some()), came, &memory);
    }

    /// The stroke of two slots, or of one with itself.
    pub fn stroke(&mut self, a: &Slot, b: Option<&Slot>) {
        let first = self.lend_table(&[*a]);
        let second = self.lend_table(&[*b.unwrap_or(a)]);
        let mut out = self.lend_doubles(6);
        let to = if b.is_some() { second.start() } else { first.start() };
        // SAFETY: all that is lent is as long as said.
        let came = unsafe { (self.library.stroke)(first.start(), to, out.start_mut().cast()) };
        let due = reference::stroke(&to_reference(a), &to_reference(b.unwrap_or(a)));
        if let Some(doubles) = due {
            out.due().copy_from_slice(&doubles.map(f64::to_bits));
        }
        let memory = [
            ("first slot", first.first_wrong()),
            ("second slot", second.first_wrong()),
            ("doubles", out.first_wrong()),
        ];
        self.note(Call::Stroke, u32::from(due.is_some()), came, &memory);
    }

    /// The frame of some slots.
    pub fn frame(&mut self, table: &[Slot]) {
        let slots = self.lend_table(table);
        let mut out = self.lend_doubles(9);
        // SAFETY: all that is lent is as long as said.
        let came = unsafe { (self.library.frame)(slots.start(), slots.len(), out.start_mut().cast()) };
        let own: Vec<reference::Slot> = table.iter().map(to_reference).collect();
        let answer = reference::frame(&own);
        if let Ok(frame) = &answer {
            for (place, doubles) in out.due().chunks_mut(3).zip([frame.lowest, frame.highest, frame.middle]) {
                place.copy_from_slice(&doubles.map(f64::to_bits));
            }
        }
        self.note(
            Call::Frame,
            number(&answer),
            came,
            &[("table", slots.first_wrong()), ("doubles", out.first_wrong())],
        );
    }
}
