//! What either side answers, in a form that can be compared.

use reference::Slot;
use station::raw::LINKED;
use station::{Entry, Refusal};

/// What the check answers: number, line, column, good lines, nine counts.
pub type Answer = [u64; 13];

/// The answer of the library.
pub fn of_library(text: &[u8]) -> Answer {
    let mut answer = [0; 13];
    // SAFETY: the text is as long as said, and the answer has room for thirteen numbers.
    unsafe { (LINKED.verdict)(text.as_ptr(), text.len(), answer.as_mut_ptr()) };
    answer
}

/// The answer of the reference.
pub fn of_reference(text: &[u8]) -> Answer {
    let verdict = reference::check(text);
    let number = verdict.refusal.map_or(0, reference::Refusal::number);
    let mut answer = [0; 13];
    answer[..4].copy_from_slice(&[u64::from(number), verdict.line, verdict.column, verdict.good_lines]);
    answer[4..].copy_from_slice(&verdict.tally.counts());
    answer
}

/// Whether the safe wrapper says the same of a text as the library itself, the column left out.
pub fn wrapped_alike(text: &[u8], answer: &Answer) -> bool {
    let verdict = Entry::check(text);
    let number = u64::from(verdict.refusal.map_or(0, Refusal::number));
    let c = verdict.counts;
    [answer[0], answer[1], answer[3]] == [number, verdict.line, verdict.good_lines]
        && answer[4..] == [c.remark, c.het, c.helix, c.sheet, c.xform, c.coord, c.ter, c.conect, c.seq]
}

/// Number and column of a line that the library reads by itself.
pub fn line_of_library(line: &[u8]) -> (u32, u64) {
    let mut column = u64::MAX;
    // SAFETY: the line is as long as said, and there is room for a number.
    let number = unsafe { (LINKED.read_line)(line.as_ptr(), line.len(), &mut column) };
    (number, column)
}

/// Number and column of a line that the reference reads by itself.
pub fn line_of_reference(line: &[u8]) -> (u32, u64) {
    reference::read_line(line).map_or_else(|blame| (blame.refusal.number(), blame.column), |_| (0, 0))
}

/// A result of the library by its number of refusal.
pub fn by_number<T>(result: Result<T, Refusal>) -> Result<T, u32> {
    result.map_err(Refusal::number)
}

/// A result of the reference by its number of refusal.
pub fn own_by_number<T>(result: Result<T, reference::Refusal>) -> Result<T, u32> {
    result.map_err(reference::Refusal::number)
}

/// Save or tray of the reference.
type Write = fn(&[u8], &[Slot], &mut [u8]) -> Result<usize, reference::Refusal>;

/// What the reference writes.
pub fn written(text: &[u8], table: &[Slot], call: Write) -> Result<Vec<u8>, u32> {
    let mut out = vec![0; text.len()];
    let count = own_by_number(call(text, table, &mut out))?;
    out.truncate(count);
    Ok(out)
}
