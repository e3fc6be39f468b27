//! Kinds of jumps: where the line of the atom stands, and what is passed over on the way to it, or instead of it.

use std::cmp::Ordering;
use std::collections::BTreeSet;

use reference::{Record, Refusal, Serial};

use crate::entry::{named, ATOMS, PIECE};
use crate::models::MODEL;

/// Why a line is passed over that has the serial in columns 7-11.
#[derive(Clone, Copy, Debug, PartialEq, Eq, PartialOrd, Ord)]
pub enum Why {
    /// An atom's line that ends in another byte than its newline, and is right otherwise.
    End,
    /// An atom's line with a byte that no column may hold.
    Byte,
    /// An atom's line with another field wrong.
    Field,
    /// A TER.
    Ter,
    /// A CONECT.
    Conect,
    /// A line of a name that does not read by itself, such as ANISOU or REMARK.
    Name,
}

/// What a jump may be like.
#[derive(Clone, Copy, Debug, PartialEq, Eq, PartialOrd, Ord)]
pub enum Kind {
    /// To an ATOM line. A line is answered in this kind and in those that follow up to `Above`.
    Atom,
    /// To a HETATM line.
    Hetatm,
    /// To the first line of the text.
    FirstLine,
    /// To its last whole line.
    LastLine,
    /// To the first of several lines that would do.
    Again,
    /// To the first of several models that have the serial, in a text that is granted.
    OfSeveral,
    /// To a later model, in a text that is granted: the first has not the serial.
    OfLater,
    /// In a text that is granted.
    Granted,
    /// In a text that is refused, above the line that is.
    Good,
    /// To the line that is refused.
    Refused,
    /// Below it.
    Behind,
    /// Past a line that is passed over for this.
    Above(Why),
    /// To no line, and one is passed over for this. No line is answered in the kinds that follow either.
    Alone(Why),
    /// To the serial 0.
    Zero,
    /// To a serial that has too many digits for its columns.
    TooLarge,
    /// To the largest number that can be asked for.
    Largest,
    /// To a serial that stands in columns 7-11 of no line.
    Nowhere,
    /// In a text that has a short rest.
    Rest,
    /// In a text whose rest is the line of the atom, but for its newline.
    AtomInRest,
    /// In a text with a whole line that does not end in a newline.
    OtherEnd,
    /// In a text without a whole line.
    NoLine,
    /// In a text where the line of the atom begins where no line does.
    Shifted,
}

use Kind::*;

impl Kind {
    /// All kinds.
    #[rustfmt::skip]
    pub const ALL: [Kind; 32] = [
        Atom, Hetatm, FirstLine, LastLine, Again, OfSeveral, OfLater, Granted, Good, Refused, Behind,
        Above(Why::End), Above(Why::Byte), Above(Why::Field), Above(Why::Ter), Above(Why::Conect), Above(Why::Name),
        Alone(Why::End), Alone(Why::Byte), Alone(Why::Field), Alone(Why::Ter), Alone(Why::Conect), Alone(Why::Name),
        Zero, TooLarge, Largest, Nowhere, Rest, AtomInRest, OtherEnd, NoLine, Shifted,
    ];
}

/// The serial in columns 7-11 of a line, whatever else stands in it.
pub fn serial_of(line: &[u8]) -> Option<u32> {
    std::str::from_utf8(line.get(6..11)?).ok()?.trim_start().parse().ok()
}

/// Whether columns 7-11 have this serial.
fn has(line: &[u8], serial: &str) -> bool {
    line.get(6..11) == Some(serial.as_bytes())
}

/// Why a whole line is passed over, if columns 7-11 have this serial.
fn why(piece: &[u8], serial: &str) -> Option<Why> {
    let (columns, end) = piece.split_at_checked(PIECE - 1).filter(|_| has(piece, serial))?;
    match (reference::read_line(columns).map_err(|blame| blame.refusal), end == b"\n") {
        (Ok(Record::Atom(_) | Record::Hetatm(_)), false) => Some(Why::End),
        (Ok(Record::Ter(_)), true) => Some(Why::Ter),
        (Ok(Record::Conect(_)), true) => Some(Why::Conect),
        (Err(Refusal::Byte), true) if named(columns, ATOMS) => Some(Why::Byte),
        (Err(Refusal::Field), true) if named(columns, ATOMS) => Some(Why::Field),
        (Err(Refusal::Name), true) => Some(Why::Name),
        _ => None,
    }
}

/// The kinds of a jump to a serial that is answered with this line, or with 0.
pub fn met(text: &[u8], serial: u32, line: u64) -> BTreeSet<Kind> {
    let columns = format!("{serial:5}");
    let pieces: Vec<&[u8]> = text.chunks_exact(PIECE).collect();
    let passed = |until: usize| pieces[..until].iter().filter_map(|piece| why(piece, &columns));
    match usize::try_from(line) {
        Ok(line @ 1..) => passed(line - 1).map(Above).chain(to_line(text, serial, line)).collect(),
        _ => passed(pieces.len()).map(Alone).chain(to_none(text, serial, &columns)).collect(),
    }
}

/// The kinds of a jump to a line.
fn to_line(text: &[u8], serial: u32, line: usize) -> Vec<Kind> {
    let verdict = reference::check(text);
    let place = match line.cmp(&(verdict.line as usize)) {
        _ if verdict.line == 0 => Granted,
        Ordering::Less => Good,
        Ordering::Equal => Refused,
        Ordering::Greater => Behind,
    };
    let below = &text[PIECE * line..];
    let name = if text[PIECE * (line - 1)..].starts_with(b"ATOM") { Atom } else { Hetatm };
    let again = reference::find(below, Serial(serial)).line > 0;
    let models = text[..PIECE * line].chunks(PIECE).filter(|piece| named(piece, &[MODEL])).count();
    let others = [
        (FirstLine, line == 1),
        (LastLine, below.len() < PIECE),
        (Again, again),
        (OfSeveral, place == Granted && again),
        (OfLater, place == Granted && models > 1),
    ];
    [name, place].into_iter().chain(those_met(&others)).collect()
}

/// The kinds of a jump to no line, but for the lines that are passed over.
fn to_none(text: &[u8], serial: u32, columns: &str) -> Vec<Kind> {
    let mut pieces = text.chunks_exact(PIECE);
    let rest = pieces.remainder();
    let with_newline = [rest, b"\n"].concat();
    let is_line = |piece: &[u8]| has(piece, columns) && reference::find(piece, Serial(serial)).line == 1;
    those_met(&[
        (Zero, serial == 0),
        (TooLarge, serial > 99_999),
        (Largest, serial == u32::MAX),
        (Nowhere, !pieces.clone().any(|piece| has(piece, columns))),
        (Rest, !rest.is_empty()),
        (AtomInRest, is_line(&with_newline)),
        (NoLine, pieces.len() == 0),
        (OtherEnd, pieces.any(|piece| !piece.ends_with(b"\n"))),
        (Shifted, text.windows(PIECE).any(is_line)),
    ])
}

fn those_met(kinds: &[(Kind, bool)]) -> Vec<Kind> {
    kinds.iter().filter(|(_, met)| *met).map(|(kind, _)| *kind).collect()
}

#[cfg(test)]
mod tests {
    use super::*;
    use crate::entry::{line, text, Columns};

    const HIT: &str = "ATOM     32  N  AARG A  -3      11.281  86.699  94.383  0.50 35.88           N";

    /// The kinds of the jump to 32 in a text of lines, answered as the reference does.
    fn kinds(lines: &[&str]) -> Vec<Kind> {
        let columns: Vec<Columns> = lines.iter().map(|columns| line(columns)).collect();
        of_text(&text(&columns), 32)
    }

    fn of_text(text: &[u8], serial: u32) -> Vec<Kind> {
        met(text, serial, reference::find(text, Serial(serial)).line).into_iter().collect()
    }

    #[test]
    fn where_the_line_stands() {
        let other = HIT.replace("   32", "   31").replace("A  -3", "A  -4");
        assert_eq!(kinds(&["HEADER", &other, HIT, "REMARK"]), [Atom, Good]);
        assert_eq!(kinds(&["HEADER", HIT]), [Atom, LastLine, Good]);
        assert_eq!(kinds(&[HIT, "END"]), [Atom, FirstLine, Refused]);
        assert_eq!(kinds(&["HEADER", "HEADER", HIT, HIT]), [Atom, Again, Behind]);
        let hetatm = HIT.replace("ATOM  ", "HETATM");
        let master = "MASTER        0    0    0    0    0    0    0    0    1    0    0    0";
        assert_eq!(kinds(&["HEADER", &hetatm, master, "END"]), [Hetatm, Granted]);
        let (one, two) = ("MODEL        1", "MODEL        2");
        let both = ["HEADER", one, &hetatm, "ENDMDL", two, &hetatm, "ENDMDL", master, "END"];
        assert_eq!(kinds(&both), [Hetatm, Again, OfSeveral, Granted]);
        let empty = master.replace("    1    0    0    0", "    0    0    0    0");
        let later = ["HEADER", one, "ENDMDL", two, &hetatm, "ENDMDL", &empty, "END"];
        assert_eq!(kinds(&later), [Hetatm, OfLater, Granted]);
    }

    #[test]
    fn what_is_passed_over() {
        for (passed, why) in [
            (HIT.replace("0.50", "1.50"), Why::Field),
            (HIT.replace("ARG", "\tRG"), Why::Byte),
            (HIT.replace("ATOM  ", "ANISOU"), Why::Name),
            (HIT.replace("ATOM  ", "REMARK"), Why::Name),
            ("TER      32      ARG A  -3".to_owned(), Why::Ter),
            ("CONECT   32    1".to_owned(), Why::Conect),
        ] {
            assert_eq!(kinds(&["HEADER", &passed]), [Alone(why)]);
            assert_eq!(kinds(&[&passed, HIT, "END"])[..1], [Atom]);
            assert!(kinds(&[&passed, HIT, "END"]).contains(&Above(why)));
        }
        let mut ends_otherwise = text(&[line(HIT), line(HIT)]);
        ends_otherwise[80] = b' ';
        assert_eq!(of_text(&ends_otherwise, 32), [Atom, LastLine, Behind, Above(Why::End)]);
        assert_eq!(of_text(&ends_otherwise[..81], 32), [Alone(Why::End), OtherEnd]);
        assert_eq!(kinds(&["TER      32", "CONECT   32", "HELIX    32"]), []);
    }

    #[test]
    fn where_there_is_none() {
        let hit = text(&[line("HEADER"), line(HIT)]);
        assert_eq!(of_text(&hit, 0), [Zero, Nowhere]);
        assert_eq!(of_text(&hit, 100_032), [TooLarge, Nowhere]);
        assert_eq!(of_text(&hit, u32::MAX), [TooLarge, Largest, Nowhere]);
        assert_eq!(of_text(&hit, 33), [Nowhere]);
        assert_eq!(of_text(&hit[..100], 32), [Nowhere, Rest]);
        assert_eq!(of_text(&hit[..161], 32), [Nowhere, Rest, AtomInRest]);
        assert_eq!(of_text(&hit[..80], 32), [Nowhere, Rest, NoLine]);
        assert_eq!(of_text(&hit[1..], 32), [Nowhere, Rest, OtherEnd, Shifted]);
    }
}
