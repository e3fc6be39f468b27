//! The crystal frame, through the C names and through the reference.

use station::raw::{Cell, Transform};

use crate::findings::Call;
use crate::harness::{number, Harness};
use crate::slots::{cell_to_library, transform_to_library};
use crate::{cells, places};

/// A cell of one byte.
fn cell_of(byte: u8) -> Cell {
    let number = i32::from_ne_bytes([byte; 4]);
    let z = u32::from_ne_bytes([byte; 4]);
    Cell { a: number, b: number, c: number, alpha: number, beta: number, gamma: number, z, group: [byte; 12] }
}

/// A transformation of one byte.
fn transform_of(byte: u8) -> Transform {
    let number = i32::from_ne_bytes([byte; 4]);
    Transform { m: [number; 3], t: number, row: u32::from_ne_bytes([byte; 4]) }
}

/// A fractional place as it is written: billionths, then hundred-thousandths.
fn six(place: &reference::Fractional) -> [i64; 6] {
    let ([a, b, c], [d, e, f]) = (place.billionths, place.hundred_thousandths);
    [a, b, c, d, e, f]
}

impl Harness {
    /// Fills a cell from a line.
    pub fn cell_of_line(&mut self, line: &[u8]) -> u32 {
        let lent = self.lend_text(line);
        let mut cell = self.lend(&[cell_of(self.guard ^ 0x3c)], cell_of(self.guard));
        // SAFETY: all that is lent is as long as said.
        let came = unsafe { (self.library.cell_of_line)(lent.start(), lent.len(), cell.start_mut()) };
        let answer = reference::cell_of_line(line);
        if let Ok(filled) = &answer {
            cell.due()[0] = cell_to_library(filled);
        }
        self.line_taken(Call::CellOfLine, line, number(&answer), came, [lent.first_wrong(), cell.first_wrong()])
    }

    /// Fills a transformation from a line.
    pub fn transform_of_line(&mut self, line: &[u8]) -> u32 {
        let lent = self.lend_text(line);
        let mut transform = self.lend(&[transform_of(self.guard ^ 0x3c)], transform_of(self.guard));
        // SAFETY: all that is lent is as long as said.
        let came = unsafe { (self.library.transform_of_line)(lent.start(), lent.len(), transform.start_mut()) };
        let answer = reference::transformation_of_line(line);
        if let Ok(filled) = &answer {
            transform.due()[0] = transform_to_library(filled);
        }
        self.line_taken(
            Call::TransformOfLine,
            line,
            number(&answer),
            came,
            [lent.first_wrong(), transform.first_wrong()],
        )
    }

    /// Takes down a call that takes a line of some kinds, and where the line and what is filled from it are wrong.
    fn line_taken(&mut self, call: Call, line: &[u8], due: u32, came: u32, wrong: [Option<isize>; 2]) -> u32 {
        self.note(call, due, came, &[("line", wrong[0]), ("record", wrong[1])]);
        self.findings.note_cells(call, cells::met(call, line, due));
        due
    }

    /// The SCALE rows of a text.
    pub fn scale(&mut self, text: &[u8]) -> u32 {
        let lent = self.lend_text(text);
        let found = i32::from_ne_bytes([self.guard ^ 0x3c; 4]);
        let mut rows = self.lend(&[found; 12], i32::from_ne_bytes([self.guard; 4]));
        // SAFETY: all that is lent is as long as said.
        let came = unsafe { (self.library.scale)(lent.start(), lent.len(), rows.start_mut()) };
        let answer = reference::rows(text);
        if let Ok(own) = &answer {
            rows.due().copy_from_slice(own.as_flattened());
        }
        let memory = [("text", lent.first_wrong()), ("rows", rows.first_wrong())];
        self.note(Call::Scale, number(&answer), came, &memory);
        number(&answer)
    }

    /// The fractional place of coordinates by rows.
    pub fn place(&mut self, rows: &reference::Rows, at: [i32; 3]) -> u32 {
        let guard = i32::from_ne_bytes([self.guard; 4]);
        let (lent, lent_at) = (self.lend(rows.as_flattened(), guard), self.lend(&at, guard));
        let mut out = self.lend(&[i64::from_ne_bytes([self.guard ^ 0x3c; 8]); 6], i64::from_ne_bytes([self.guard; 8]));
        // SAFETY: all that is lent is as long as said.
        let came = unsafe { (self.library.place)(lent.start(), lent_at.start(), out.start_mut()) };
        let answer = reference::place(rows, at);
        if let Ok(place) = &answer {
            out.due().copy_from_slice(&six(place));
        }
        let memory =
            [("rows", lent.first_wrong()), ("coordinates", lent_at.first_wrong()), ("place", out.first_wrong())];
        self.note(Call::Place, number(&answer), came, &memory);
        self.findings.note_places(Call::Place, places::met(rows, at, &answer));
        number(&answer)
    }

    /// The fractional place of coordinates by the rows of a text. The library has to answer as it does when the rows are asked
    /// for first.
    pub fn fractional(&mut self, text: &[u8], at: [i32; 3]) -> u32 {
        let (lent, lent_at) = (self.lend_text(text), self.lend(&at, i32::from_ne_bytes([self.guard; 4])));
        let before = [i64::from_ne_bytes([self.guard ^ 0x3c; 8]); 6];
        let mut out = self.lend(&before, i64::from_ne_bytes([self.guard; 8]));
        // SAFETY: all that is lent is as long as said.
        let came = unsafe { (self.library.fractional)(lent.start(), lent.len(), lent_at.start(), out.start_mut()) };
        let rows = reference::rows(text);
        let answer = rows.and_then(|rows| reference::place(&rows, at));
        if let Ok(place) = &answer {
            out.due().copy_from_slice(&six(place));
        }
        let memory =
            [("text", lent.first_wrong()), ("coordinates", lent_at.first_wrong()), ("place", out.first_wrong())];
        self.note(Call::Fractional, number(&answer), came, &memory);
        let (once, twice) = ((came, out.held().to_vec()), self.in_two_calls(text, at, before));
        if once != (twice.0, twice.1.to_vec()) {
            self.findings.differ(self.case, &format!("Fractional answers {once:?}, and Scale and Place {twice:?}"));
        }
        if let Ok(rows) = &rows {
            self.findings.note_places(Call::Fractional, places::met(rows, at, &answer));
        }
        self.findings.note_places(Call::Fractional, places::of_text(text, at, &answer));
        number(&answer)
    }

    /// What the library answers when it is asked for the rows of a text, and then for a place by them.
    fn in_two_calls(&self, text: &[u8], at: [i32; 3], before: [i64; 6]) -> (u32, [i64; 6]) {
        let (mut rows, mut out) = ([0; 12], before);
        // SAFETY: all that is lent is as long as said.
        unsafe {
            let number = match (self.library.scale)(text.as_ptr(), text.len(), rows.as_mut_ptr()) {
                0 => (self.library.place)(rows.as_ptr(), at.as_ptr(), out.as_mut_ptr()),
                refused => refused,
            };
            (number, out)
        }
    }
}
