//! The table of the columns that can be named, row by row. Nothing here comes from the reference.

use crate::entry::Columns;

/// A row of the table.
#[derive(Clone, Copy, Debug, PartialEq, Eq, PartialOrd, Ord)]
#[allow(missing_docs)]
pub enum Row {
    Atom,
    Hetatm,
    Ter,
    Helix,
    /// Strand 1 of a sheet.
    FirstStrand,
    /// Any other strand.
    Strand,
    Conect,
    Master,
    Cryst1,
    /// ORIGX1 to ORIGX3 are 1 to 3, SCALE1 to SCALE3 are 4 to 6.
    Transform(u8),
    Model,
    End,
    Endmdl,
}

/// The names of the lines of the two trios, in this sequence.
pub const TRANSFORMS: [&[u8; 6]; 6] = [b"ORIGX1", b"ORIGX2", b"ORIGX3", b"SCALE1", b"SCALE2", b"SCALE3"];

use Row::*;

impl Row {
    /// All rows.
    #[rustfmt::skip]
    pub const ALL: [Row; 18] = [
        Atom, Hetatm, Ter, Helix, FirstStrand, Strand, Conect, Master, Cryst1, Transform(1), Transform(2), Transform(3),
        Transform(4), Transform(5), Transform(6), Model, End, Endmdl,
    ];

    /// The row of a line. A line whose strand is wrong has that of the strand that its sense is right for.
    pub fn of(line: &Columns) -> Option<Row> {
        Some(match &line[..6] {
            b"ATOM  " => Atom,
            b"HETATM" => Hetatm,
            b"TER   " => Ter,
            b"HELIX " => Helix,
            b"SHEET " if strand(line).map_or(field(line, 39, 40) == b" 0", |strand| strand == 1) => FirstStrand,
            b"SHEET " => Strand,
            b"CONECT" => Conect,
            b"MASTER" => Master,
            b"CRYST1" => Cryst1,
            b"MODEL " => Model,
            b"END   " => End,
            b"ENDMDL" => Endmdl,
            name => Transform((1..).zip(TRANSFORMS).find(|(_, own)| *own == name)?.0),
        })
    }

    /// The columns that can be named, as `docs/FORMAT.md` writes them.
    fn written(self) -> &'static [&'static str] {
        const STRANDS: &str = "7, 8, 11, 12, 15, 17, 18, 21, 22, 23, 27, 28, 29, 32, 33, 34, 38, 39, 41";
        match self {
            Atom | Hetatm => &["7, 12, 13, 17, 18, 21, 22, 23, 27, 28..30, 31, 39, 47, 55, 61, 67..76, 77, 79"],
            Ter => &["7, 12..17, 18, 21, 22, 23, 27, 28..80"],
            Helix => &["7, 8, 11, 12, 15, 16, 19, 20, 21, 22, 26, 27, 28, 31, 32, 33, 34, 38, 39, 71, 72, 77..80"],
            FirstStrand => &[STRANDS, "42..70", "71..80"],
            Strand => &[STRANDS, "42, 46, 49, 50, 51, 55, 56, 57, 61, 64, 65, 66, 70", "71..80"],
            Conect => &["7, 12, 17, 22, 27, 32..80"],
            Master => &["7..10, 11, 16, 21, 26, 31, 36, 41, 46, 51, 56, 61, 66, 71..80"],
            Cryst1 => &["7, 16, 25, 34, 41, 48, 55, 67, 71..80"],
            Transform(_) => &["7..10, 11, 21, 31, 41..45, 46, 56..80"],
            Model => &["7..10, 11, 15..80"],
            End | Endmdl => &["7..80"],
        }
    }

    /// The columns that can be named.
    pub fn columns(self) -> Vec<usize> {
        let number = |text: &str| text.parse::<usize>().expect("a column");
        let parts = self.written().iter().flat_map(|part| part.split(", "));
        let columns = parts.flat_map(|part| match part.split_once("..") {
            Some((from, to)) => number(from)..=number(to),
            None => number(part)..=number(part),
        });
        columns.collect()
    }

    /// All rows, each with each of its columns.
    pub fn listed() -> Vec<(Row, usize)> {
        Row::ALL.into_iter().flat_map(|row| row.columns().into_iter().map(move |column| (row, column))).collect()
    }
}

/// The bytes in the columns `from` to `to`, both included.
pub fn field(line: &Columns, from: usize, to: usize) -> &[u8] {
    &line[from - 1..to]
}

/// Whether columns are blank.
pub fn blank(line: &Columns, from: usize, to: usize) -> bool {
    field(line, from, to).iter().all(|&byte| byte == b' ')
}

/// A number without a sign, right-justified and without a needless zero.
pub fn count(field: &[u8]) -> Option<u32> {
    let (text, width) = (std::str::from_utf8(field).ok()?, field.len());
    text.trim_start().parse().ok().filter(|number: &u32| format!("{number:width$}") == text)
}

/// The strand of a SHEET line, if it is right.
pub fn strand(line: &Columns) -> Option<u32> {
    count(field(line, 8, 10)).filter(|&strand| strand > 0)
}

#[cfg(test)]
mod tests {
    use super::*;
    use crate::entry::line;

    /// The rows of the table in the description of the format, each as its kind and its columns.
    fn described() -> Vec<(String, String)> {
        let format = include_str!("../../../../docs/FORMAT.md");
        let table = format.split("The columns that can be named").nth(1).expect("the table of columns");
        let rows = table.lines().skip_while(|line| !line.starts_with('|')).take_while(|line| line.starts_with('|'));
        let cells = |row: &str| {
            let (kind, columns) = row.trim_matches(['|', ' ']).split_once(" | ").expect("two cells");
            (kind.to_owned(), columns.to_owned())
        };
        rows.filter(|row| !row.starts_with("|---")).skip(1).map(cells).collect()
    }

    #[test]
    fn as_described() {
        let row = |row: Row| row.written().join(", ");
        let strand = format!("as above, but for 42..70: {}", Strand.written()[1]);
        let rows = [
            ("ATOM, HETATM", row(Atom)),
            ("TER", row(Ter)),
            ("HELIX", row(Helix)),
            ("SHEET, strand 1", row(FirstStrand)),
            ("SHEET, any other", strand),
            ("CONECT", row(Conect)),
            ("MASTER", row(Master)),
            ("CRYST1", row(Cryst1)),
            ("ORIGX, SCALE", row(Transform(1))),
            ("MODEL", row(Model)),
            ("END, ENDMDL", row(End)),
        ];
        assert_eq!(described(), rows.map(|(kind, columns)| (kind.to_owned(), columns)));
    }

    #[test]
    fn rows_of_lines() {
        for (text, row) in [
            ("ATOM", Some(Atom)),
            ("ENDMDL", Some(Endmdl)),
            ("REMARK", None),
            ("CRYST1", Some(Cryst1)),
            ("ORIGX1", Some(Transform(1))),
            ("SCALE3", Some(Transform(6))),
            ("SCALE4", None),
            ("SHEET    1", Some(FirstStrand)),
            ("SHEET   10", Some(Strand)),
            ("SHEET    2                             0", Some(Strand)),
            ("SHEET   01                             0", Some(FirstStrand)),
            ("SHEET    0                             1", Some(Strand)),
        ] {
            assert_eq!(Row::of(&line(text)), row, "{text}");
        }
        assert!(Row::ALL.iter().all(|row| row.columns().is_sorted()));
        assert_eq!(Row::listed().len(), 2 * 29 + 65 + 25 + 58 + 42 + 54 + 26 + 18 + 6 * 38 + 71 + 2 * 74);
    }
}
