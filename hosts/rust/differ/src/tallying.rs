//! A line in a tally, through the C names and through the reference.

use station::raw::Tally;

use crate::findings::Call;
use crate::harness::{number, Harness};
use crate::modelled;

/// The tally of the reference.
fn to_reference(tally: &Tally) -> reference::Tally {
    reference::Tally {
        remark: tally.remark.into(),
        het: tally.het.into(),
        helix: tally.helix.into(),
        sheet: tally.sheet.into(),
        xform: tally.xform.into(),
        coord: tally.coord.into(),
        ter: tally.ter.into(),
        conect: tally.conect.into(),
        seq: tally.seq.into(),
    }
}

impl Harness {
    /// Counts a line in a tally, which then holds what is due.
    pub fn count_line(&mut self, tally: &mut Tally, line: &[u8]) {
        self.tallied(tally, line, None);
    }

    /// Counts a line in a tally by whether the first ENDMDL has gone by: any byte but 0 says so.
    pub fn count_line_past(&mut self, tally: &mut Tally, line: &[u8], past: u8) {
        self.tallied(tally, line, Some(past));
    }

    fn tallied(&mut self, tally: &mut Tally, line: &[u8], past: Option<u8>) {
        let lent = self.lend_text(line);
        let guard = u32::from_ne_bytes([self.guard; 4]);
        let guard = Tally { remark: guard, seq: guard, ..Tally::default() };
        let mut counts = self.lend(&[*tally], guard);
        let (start, n) = (lent.start(), lent.len());
        // SAFETY: all that is lent is as long as said.
        let (call, came) = unsafe {
            match past {
                None => (Call::CountLine, (self.library.count_line)(counts.start_mut(), start, n)),
                Some(past) => (Call::CountLinePast, (self.library.count_line_past)(counts.start_mut(), start, n, past)),
            }
        };
        let before = to_reference(tally);
        let (mut own, is_past) = (before, past.unwrap_or(0) != 0);
        let answer = reference::count_line_past(&mut own, line, is_past);
        let full = reference::count_line(&mut before.clone(), line) == Err(reference::Refusal::Full);
        let [remark, het, helix, sheet, xform, coord, ter, conect, seq] = own.counts().map(|count| count as u32);
        *tally = Tally { remark, het, helix, sheet, xform, coord, ter, conect, seq };
        counts.due()[0] = *tally;
        let memory = [("line", lent.first_wrong()), ("tally", counts.first_wrong())];
        self.note(call, number(&answer), came, &memory);
        self.findings.note_models(modelled::of_tally(line, is_past, number(&answer), own != before, full));
    }
}
