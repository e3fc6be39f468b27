//! What is judged: a text, with the column of a wrong field and without, and a line by itself.

use reference::{Refusal, Verdict};

use crate::findings::Call;
use crate::harness::{number, Harness};
use crate::twins::{self, Kind};
use crate::{cells, faults, models};

impl Harness {
    /// Takes down the forms of all names in a text that was granted, or of the one in the line refused with 6.
    fn note_forms(&mut self, text: &[u8], number: u32, line: u64) {
        for (piece, at) in text.chunks(81).zip(1..) {
            if number == 0 || (number == 6 && at == line) {
                self.note_form(Call::Check, &piece[..piece.len().min(80)], number);
            }
        }
    }

    /// Takes down the kinds of pairs of atoms in a text.
    fn note_twins(&mut self, text: &[u8], number: u32, line: u64) {
        let mut met = twins::met(text, number, line);
        let mended = (number == 21).then(|| reference::check(&twins::mended(text, line)));
        if mended.is_some_and(|verdict| verdict.refusal == Some(Refusal::Bond)) {
            met.insert(Kind::BondBelow);
        }
        for kind in met {
            *self.findings.twins.entry(kind).or_insert(0) += 1;
        }
    }

    /// Checks a text, without the column and with it. Apart from the column the library has to answer the same.
    pub fn check(&mut self, text: &[u8]) -> u32 {
        let verdict = reference::check(text);
        let due = verdict.refusal.map_or(0, Refusal::number);
        let Verdict { line, column, good_lines, tally, .. } = verdict;
        let counts = tally.counts();
        let short = self.judged(Call::Check, text, &[&[u64::from(due), line, good_lines][..], &counts].concat());
        let mut long =
            self.judged(Call::Verdict, text, &[&[u64::from(due), line, column, good_lines][..], &counts].concat());
        long.remove(2);
        if long != short {
            self.findings
                .differ(self.case, &format!("Check answers {short:?}, and Verdict {long:?} beside the column"));
        }
        self.note_forms(text, due, line);
        self.note_twins(text, due, line);
        self.findings.note_models(models::met(text, due, line));
        self.findings.note_faults(Call::Verdict, faults::of_text(text, due, line, column));
        self.findings.note_cells(Call::Verdict, cells::of_text(text, due, line));
        due
    }

    /// One of the two ways to check a text, and the numbers that came: those that are due, of which the first is that of the
    /// refusal.
    fn judged(&mut self, call: Call, text: &[u8], due: &[u64]) -> Vec<u64> {
        let lent = self.lend_text(text);
        let mut answer = self.lend(&vec![u64::from(self.guard) + 1; due.len()], u64::from(self.guard));
        let name = if call == Call::Check { self.library.check } else { self.library.verdict };
        // SAFETY: all that is lent is as long as said.
        let came = unsafe { name(lent.start(), lent.len(), answer.start_mut()) };
        answer.due().copy_from_slice(due);
        self.note(call, due[0], came, &[("text", lent.first_wrong()), ("answer", answer.first_wrong())]);
        answer.held().to_vec()
    }

    /// Reads a line by itself.
    pub fn read_line(&mut self, line: &[u8]) -> u32 {
        let lent = self.lend_text(line);
        let mut column = self.lend_count();
        // SAFETY: all that is lent is as long as said.
        let came = unsafe { (self.library.read_line)(lent.start(), lent.len(), column.start_mut()) };
        let answer = reference::read_line(line);
        let told = answer.map_or_else(|blame| blame.column, |_| 0);
        let due = number(&answer.map_err(|blame| blame.refusal));
        column.due()[0] = told;
        self.note(Call::ReadLine, due, came, &[("line", lent.first_wrong()), ("column", column.first_wrong())]);
        self.findings.note_faults(Call::ReadLine, faults::of_line(line, due, told));
        due
    }
}
