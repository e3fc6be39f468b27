//! The tally: the nine counts of MASTER, brought up to date one line at a time.

use crate::line::LineName;
use crate::Refusal;

/// The nine counts of MASTER.
#[derive(Clone, Copy, Debug, Default, PartialEq, Eq)]
pub struct Tally {
    /// REMARK lines.
    pub remark: u64,
    /// HET lines.
    pub het: u64,
    /// HELIX lines.
    pub helix: u64,
    /// SHEET lines.
    pub sheet: u64,
    /// ORIGX and SCALE lines.
    pub xform: u64,
    /// ATOM and HETATM lines.
    pub coord: u64,
    /// TER lines.
    pub ter: u64,
    /// CONECT lines.
    pub conect: u64,
    /// SEQRES lines.
    pub seq: u64,
}

impl Tally {
    /// The counts in the order of the report.
    pub fn counts(&self) -> [u64; 9] {
        let Tally { remark, het, helix, sheet, xform, coord, ter, conect, seq } = *self;
        [remark, het, helix, sheet, xform, coord, ter, conect, seq]
    }
}

/// The most that five columns hold.
const FULL: u64 = 99_999;

/// Counts of lines from the top of a text, which know when the first ENDMDL has gone by.
#[derive(Default)]
pub struct Counting {
    /// The counts so far.
    pub tally: Tally,
    past: bool,
}

impl Counting {
    /// Counts the next line.
    pub fn add(&mut self, name: LineName) {
        if let Some(count) = name.count(&mut self.tally, self.past) {
            *count += 1;
        }
        self.past |= name == LineName::Endmdl;
    }
}

/// Counts one more line, by its first six bytes.
pub fn count_line(tally: &mut Tally, line: &[u8]) -> Result<(), Refusal> {
    count_line_past(tally, line, false)
}

/// Counts one more line, by its first six bytes and by whether the first ENDMDL has gone by.
pub fn count_line_past(tally: &mut Tally, line: &[u8], past: bool) -> Result<(), Refusal> {
    let name = LineName::of(line).ok_or(Refusal::Name)?;
    match name.count(tally, past) {
        Some(count) if *count >= FULL => Err(Refusal::Full),
        Some(count) => {
            *count += 1;
            Ok(())
        }
        None => Ok(()),
    }
}

#[cfg(test)]
mod tests {
    use super::*;

    #[test]
    fn counting() {
        let mut tally = Tally { ter: 99_998, seq: 100_000, ..Tally::default() };
        let before = tally;
        assert_eq!(count_line(&mut tally, b"TER  "), Err(Refusal::Name));
        assert_eq!(count_line(&mut tally, b"ANISOU"), Err(Refusal::Name));
        assert_eq!(count_line(&mut tally, b"SEQRES"), Err(Refusal::Full));
        for uncounted in [&b"MASTER\xff"[..], b"MODEL ", b"ENDMDL"] {
            assert_eq!(count_line(&mut tally, uncounted), Ok(()));
        }
        assert_eq!(tally, before);
        assert_eq!(count_line(&mut tally, b"TER   \n"), Ok(()));
        assert_eq!(count_line(&mut tally, b"TER   "), Err(Refusal::Full));
        assert_eq!(count_line(&mut tally, b"HETATM"), Ok(()));
        assert_eq!(count_line(&mut tally, b"SCALE3"), Ok(()));
        assert_eq!(tally, Tally { ter: 99_999, coord: 1, xform: 1, ..before });
    }

    #[test]
    fn past_the_first_model() {
        let mut tally = Tally { ter: 99_999, conect: 99_999, ..Tally::default() };
        let before = tally;
        for uncounted in [&b"ATOM  "[..], b"HETATM", b"TER   ", b"MODEL ", b"ENDMDL", b"END   "] {
            assert_eq!(count_line_past(&mut tally, uncounted, true), Ok(()));
        }
        assert_eq!(tally, before);
        assert_eq!(count_line_past(&mut tally, b"TER   ", false), Err(Refusal::Full));
        assert_eq!(count_line_past(&mut tally, b"CONECT", true), Err(Refusal::Full));
        assert_eq!(count_line_past(&mut tally, b"TER  ", true), Err(Refusal::Name));
        assert_eq!(count_line_past(&mut tally, b"ATOM  ", false), Ok(()));
        assert_eq!(count_line_past(&mut tally, b"REMARK", true), Ok(()));
        assert_eq!(tally, Tally { coord: 1, remark: 1, ..before });
    }
}
