//! Kinds of CRYST1, ORIGX and SCALE lines: what a call that takes one by itself, or in a text, may come across.

use std::collections::BTreeSet;

use crate::chance::Chance;
use crate::entry::{put, real_text, Columns, PIECE};
use crate::faults::sample;
use crate::fields::{fields, Sort};
use crate::findings::Call;
use crate::rows::{field, Row};

/// A field: first and last column, and sort.
type Field = (usize, usize, Sort);

/// The rows of the seven kinds of line.
pub const NUMBERED: [Row; 7] = [
    Row::Cryst1,
    Row::Transform(1),
    Row::Transform(2),
    Row::Transform(3),
    Row::Transform(4),
    Row::Transform(5),
    Row::Transform(6),
];

/// What stands in the columns of a number.
#[derive(Clone, Copy, Debug, PartialEq, Eq, PartialOrd, Ord)]
pub enum Found {
    /// The smallest number.
    Least,
    /// The largest number.
    Most,
    /// One more than that, where there is room for it.
    Over,
    /// Zero.
    Zero,
    /// Zero with a minus.
    MinusZero,
    /// A number with a blank inside.
    Gap,
}

/// What may be met: in a line that is granted, or as what it is refused for.
#[derive(Clone, Copy, Debug, PartialEq, Eq, PartialOrd, Ord)]
pub enum Kind {
    /// The field of this row that begins in this column is so.
    Number(Row, usize, Found),
    /// The space group is blank.
    BlankGroup,
    /// It fills its columns.
    FullGroup,
    /// It has a blank inside.
    GroupWithBlank,
    /// A line of another kind that reads by itself: refused with 4.
    OtherKind,
    /// A line of another kind with a wrong field: refused with 4.
    OtherKindWrong,
}

use Found::*;
use Kind::*;

/// The text of a number in a field, without the blanks before it.
fn written(decimals: usize, value: i64) -> String {
    if decimals == 0 {
        value.to_string()
    } else {
        real_text(decimals, value)
    }
}

impl Found {
    /// All of them.
    pub const ALL: [Found; 6] = [Least, Most, Over, Zero, MinusZero, Gap];

    /// The text of this in a field, if it is not one of many, and there is room for it.
    fn text(self, (from, to, sort): Field) -> Option<String> {
        let (decimals, low, high) = sort.range()?;
        let text = match self {
            Least => written(decimals, low),
            Most => written(decimals, high),
            Over => written(decimals, high + 1),
            Zero => written(decimals, 0),
            MinusZero => format!("-{}", written(decimals, 0)),
            Gap => return None,
        };
        Some(text).filter(|text| text.len() <= to + 1 - from)
    }

    /// Whether a field can have this.
    fn possible(self, own: Field) -> bool {
        own.2.range().is_some() && (self == Gap || self.text(own).is_some())
    }

    /// One that a field can have, if it is that of a number.
    pub fn any(chance: &mut Chance, own: Field) -> Option<Found> {
        let possible: Vec<Found> = Found::ALL.into_iter().filter(|found| found.possible(own)).collect();
        (!possible.is_empty()).then(|| *chance.pick(&possible))
    }

    /// Puts it into a field.
    pub fn put(self, chance: &mut Chance, line: &mut Columns, own: Field) {
        let (from, to, _) = own;
        let width = to + 1 - from;
        match self.text(own) {
            Some(text) => put(line, from, format!("{text:>width$}").as_bytes()),
            None => {
                // A blank for a column behind the first that is filled.
                let text = Most.text(own).unwrap_or_default();
                put(line, from, format!("{text:>width$}").as_bytes());
                put(line, to + 2 - text.len() + chance.below(text.len() - 2), b" ");
            }
        }
    }

    /// What stands in a field, if it is one of these.
    fn of(line: &Columns, own: Field) -> Option<Found> {
        let (from, to, _) = own;
        let text = std::str::from_utf8(field(line, from, to)).ok()?.trim_start_matches(' ');
        let fixed = Found::ALL.into_iter().find(|found| found.text(own).as_deref() == Some(text));
        fixed.or((own.2.range().is_some() && text.trim_end_matches(' ').contains(' ')).then_some(Gap))
    }
}

impl Kind {
    /// All kinds that a call has to meet.
    pub fn all(call: Call) -> Vec<Kind> {
        let mut kinds = if call == Call::Verdict { vec![] } else { vec![OtherKind, OtherKindWrong] };
        for row in NUMBERED.into_iter().filter(|&row| takes(call, row)) {
            for &own in fields(&sample(row)) {
                let possible = Found::ALL.into_iter().filter(|found| found.possible(own));
                kinds.extend(possible.map(|found| Number(row, own.0, found)));
            }
        }
        if takes(call, Row::Cryst1) {
            kinds.extend([BlankGroup, FullGroup, GroupWithBlank]);
        }
        kinds
    }
}

/// Whether a call takes lines of a row.
fn takes(call: Call, row: Row) -> bool {
    match call {
        Call::CellOfLine => row == Row::Cryst1,
        Call::TransformOfLine => matches!(row, Row::Transform(_)),
        _ => NUMBERED.contains(&row),
    }
}

/// The kinds of a line that a call answers with this number.
pub fn met(call: Call, line: &[u8], number: u32) -> BTreeSet<Kind> {
    let Ok(columns) = line.try_into() else { return BTreeSet::new() };
    let Some(row) = Row::of(columns) else { return BTreeSet::new() };
    let wrong = reference::read_line(line).err();
    if !takes(call, row) {
        return BTreeSet::from_iter((number == 4).then_some(if wrong.is_some() { OtherKindWrong } else { OtherKind }));
    }
    let decides = |from: usize| number == 0 || wrong.is_some_and(|blame| blame.column == from as u64);
    let own = fields(columns).iter().filter(|(from, ..)| decides(*from));
    let mut kinds: BTreeSet<Kind> = own.filter_map(|&own| Some(Number(row, own.0, Found::of(columns, own)?))).collect();
    if number == 0 && row == Row::Cryst1 {
        kinds.extend(of_group(field(columns, 56, 66)));
    }
    kinds
}

/// The kinds of the good lines of a text that is answered with this number and line, and of the one that is refused with 6.
pub fn of_text(text: &[u8], number: u32, line: u64) -> BTreeSet<Kind> {
    let refused = if number == 0 { usize::MAX } else { line as usize };
    let pieces =
        (1..).zip(text.chunks_exact(PIECE)).take_while(|(at, _)| *at < refused || (*at == refused && number == 6));
    pieces.flat_map(|(at, piece)| met(Call::Verdict, &piece[..PIECE - 1], if at == refused { 6 } else { 0 })).collect()
}

/// The kind of a space group.
fn of_group(group: &[u8]) -> Option<Kind> {
    let text = group.trim_ascii();
    match text.len() {
        0 => Some(BlankGroup),
        _ if text.contains(&b' ') => Some(GroupWithBlank),
        11 => Some(FullGroup),
        _ => None,
    }
}

#[cfg(test)]
mod tests {
    use super::*;
    use crate::entry::{good_line, line, text};

    #[test]
    fn what_is_put_is_found_and_decides() {
        let mut chance = Chance::new(9);
        for (row, call) in NUMBERED.into_iter().flat_map(|row| [(row, Call::CellOfLine), (row, Call::TransformOfLine)])
        {
            let good = good_line(&mut chance, row);
            let possible = |&own: &Field| {
                Found::ALL.into_iter().filter(move |found| found.possible(own)).map(move |found| (own, found))
            };
            for (own, found) in fields(&good).iter().flat_map(possible) {
                let mut line = good;
                found.put(&mut chance, &mut line, own);
                assert_eq!(Found::of(&line, own), Some(found), "{row:?} {own:?}");
                let answer = reference::read_line(&line);
                let number = if !takes(call, row) { 4 } else { answer.map_or(6, |_| 0) };
                let due = if takes(call, row) {
                    Number(row, own.0, found)
                } else {
                    [OtherKind, OtherKindWrong][usize::from(answer.is_err())]
                };
                assert!(met(call, &line, number).contains(&due), "{}", String::from_utf8_lossy(&line));
            }
        }
    }

    #[test]
    fn what_has_to_be_met() {
        let all = Kind::all(Call::CellOfLine);
        assert!(all.contains(&Number(Row::Cryst1, 34, Over)) && !all.contains(&Number(Row::Cryst1, 7, Over)));
        assert_eq!((all.len(), Kind::all(Call::TransformOfLine).len()), (2 + 7 * 5 + 3 + 3, 2 + 6 * 4 * 5));
        assert_eq!(Kind::all(Call::Verdict).len(), all.len() + 6 * 4 * 5 - 2);
    }

    #[test]
    fn in_a_text() {
        let (right, mut wrong) = (sample(Row::Cryst1), sample(Row::Transform(1)));
        put(&mut wrong, 46, b"   0.00000");
        put(&mut wrong, 11, b" -0.000000");
        let bytes = text(&[line("HEADER"), right, wrong, wrong]);
        let due = [Number(Row::Cryst1, 67, Least), Number(Row::Transform(1), 11, MinusZero), GroupWithBlank];
        assert_eq!(of_text(&bytes, 6, 3), BTreeSet::from(due));
        assert_eq!(of_text(&bytes, 5, 2), BTreeSet::new());
    }

    #[test]
    fn groups() {
        let of = |group: &str| {
            let text = format!("CRYST1    1.000    1.000    1.000  90.00  90.00  90.00 {group:11}   1");
            met(Call::CellOfLine, &line(&text), 0).into_iter().find(|kind| !matches!(kind, Number(..)))
        };
        assert_eq!((of(""), of("P1"), of("P 1")), (Some(BlankGroup), None, Some(GroupWithBlank)));
        assert_eq!(of("I-43d:12345"), Some(FullGroup));
    }
}
