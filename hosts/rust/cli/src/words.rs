//! Verdicts in words.

use std::fmt::Write;
use std::path::Path;

use station::{piece, Refusal, Verdict};

use crate::{bonds, column, counts, models, place, runs, same_atom, sequence, serials};

/// What the check found, and what may be done about it.
pub fn describe(name: &str, text: &[u8], verdict: &Verdict) -> String {
    let found = found(name, text, verdict);
    match verdict.refusal {
        Some(Refusal::LENGTH | Refusal::NEWLINE | Refusal::NAME) if !text.is_empty() && foreign(text).is_none() => {
            format!("{found}\n  {CUT}")
        }
        _ => found,
    }
}

const CUT: &str = "station cut FILE --out NEW drops lines of unknown kinds and fills short lines up";

/// What the check found, in words: one line, and for a refusal the line that is refused and a cause.
pub fn found(name: &str, text: &[u8], verdict: &Verdict) -> String {
    let Some(refusal) = verdict.refusal else {
        let counts = &verdict.counts;
        let coordinates = [several(counts.coord, "atom"), several(counts.ter, "TER")].join(", ");
        let coordinates = match models::count(text) {
            0 => coordinates,
            count => format!("{} (the first: {coordinates})", several(count, "model")),
        };
        let [lines, bonds] = [several(verdict.good_lines, "line"), several(counts.conect, "CONECT")];
        return format!("{name}: granted: {lines}, {coordinates}, {bonds}");
    };
    let mut words = format!("{name}: line {}: {refusal}", verdict.line);
    // There is no such line if the text is over too soon.
    if let Some(piece) = piece(text, verdict.line) {
        // Writing to a string does not fail.
        let _ = write!(words, "\n  |{}|", shown(piece));
    }
    if let Some(cause) = cause(text, verdict, refusal) {
        let _ = write!(words, "\n  {cause}");
    }
    words
}

/// The name of a file, to show: a name may hold bytes that would upset a terminal or a listing.
pub fn path_name(path: &Path) -> String {
    let name = path.display().to_string();
    name.chars().map(|character| if character.is_control() { '?' } else { character }).collect()
}

/// The name of a file that is written, to show.
pub fn output_name(path: &Path) -> String {
    if path == Path::new("-") {
        "standard output".to_owned()
    } else {
        path_name(path)
    }
}

/// A number of things.
pub fn several(count: u64, thing: &str) -> String {
    match (count, thing) {
        (1, _) | (_, "TER" | "CONECT") => format!("{count} {thing}"),
        _ => format!("{count} {thing}s"),
    }
}

/// A line with its bytes made visible; its newline is left out.
pub fn shown(piece: &[u8]) -> String {
    let columns = if piece.len() == 81 && piece[80] == b'\n' { &piece[..80] } else { piece };
    let mut shown = String::new();
    for &byte in columns {
        match byte {
            b'\n' => shown.push_str("\\n"),
            b'\r' => shown.push_str("\\r"),
            b'\t' => shown.push_str("\\t"),
            32..=126 => shown.push(char::from(byte)),
            _ => {
                let _ = write!(shown, "\\x{byte:02x}");
            }
        }
    }
    shown
}

/// Some columns without the blanks at their sides.
pub fn trimmed(columns: &[u8]) -> String {
    shown(columns).trim().to_owned()
}

/// Rows of words, each column as wide as its widest word and filled from the right.
pub fn aligned(rows: &[Vec<String>]) -> Vec<String> {
    let width = |column: usize| rows.iter().filter_map(|row| row.get(column)).map(String::len).max().unwrap_or(0);
    let cell = |(column, word): (usize, &String)| format!("{word:>0$}", width(column));
    rows.iter().map(|row| row.iter().enumerate().map(cell).collect::<Vec<_>>().join("  ")).collect()
}

/// Thousandths as a number of angstroms. Zero has no minus.
pub fn angstroms(thousandths: f64) -> String {
    let text = format!("{:.3}", thousandths / 1_000.0);
    if text == "-0.000" {
        "0.000".to_owned()
    } else {
        text
    }
}

/// Beginnings of files that are no PDB entries at all, and what they are.
const FOREIGN: [(&[u8], &str); 7] = [
    (b"\x1f\x8b", "the file is compressed (gzip); unpack it first"),
    (b"PK\x03\x04", "the file is an archive (zip); unpack it first"),
    (b"BZh", "the file is compressed (bzip2); unpack it first"),
    (b"\xef\xbb\xbf", "the file begins with a byte order mark (UTF-8); it has to be plain ASCII"),
    (b"\xff\xfe", "the file is in UTF-16; it has to be plain ASCII"),
    (b"\xfe\xff", "the file is in UTF-16; it has to be plain ASCII"),
    (b"data_", "this looks like mmCIF; only the PDB format is read"),
];

/// What a file is that is no PDB entry at all.
pub fn foreign(text: &[u8]) -> Option<&'static str> {
    FOREIGN.iter().find(|(start, _)| text.starts_with(start)).map(|(_, words)| *words)
}

/// What is likely behind a refusal, where the number alone does not say.
pub fn cause(text: &[u8], verdict: &Verdict, refusal: Refusal) -> Option<String> {
    if text.is_empty() {
        return Some("the file is empty".to_owned());
    }
    if let Some(words) = foreign(text) {
        return Some(words.to_owned());
    }
    let piece = piece(text, verdict.line)?;
    match refusal {
        Refusal::LENGTH | Refusal::NEWLINE | Refusal::BYTE => form(text, verdict, piece),
        Refusal::NAME => piece.get(..6).map(|name| format!("the name is \"{}\"", shown(name))),
        Refusal::PLACE => place::why(text, verdict.line),
        Refusal::FIELD => column::wrong(piece.first_chunk()?, verdict.column),
        Refusal::MODEL => models::number(text, verdict.line),
        Refusal::SERIAL => serials::why(text, verdict.line),
        Refusal::RUN => runs::why(text, verdict.line),
        Refusal::SAME_ATOM => same_atom::above(text, verdict.line),
        Refusal::BOND => bonds::why(text, verdict.line),
        Refusal::SEQUENCE => sequence::why(text, verdict.line),
        Refusal::COUNT => counts::wrong(piece.first_chunk()?, &verdict.counts, models::count(text) > 0),
        _ => None,
    }
}

/// What is wrong with the form of a line.
fn form(text: &[u8], verdict: &Verdict, piece: &[u8]) -> Option<String> {
    let index = usize::try_from(verdict.line.checked_sub(1)?).ok()?;
    let behind = &text[(81 * index).min(text.len())..];
    let with_next = &behind[..behind.len().min(piece.len() + 1)];
    if with_next.windows(2).any(|pair| pair == b"\r\n") {
        return Some(
            "the file has Windows line ends (carriage return and newline); a line ends with a newline alone".to_owned(),
        );
    }
    let foreign = piece.iter().take(80).position(|&byte| byte != b'\n' && !(32..=126).contains(&byte));
    let ends = piece.iter().take(80).position(|&byte| byte == b'\n');
    if let Some(columns) = ends.filter(|&ends| foreign.is_none_or(|foreign| ends < foreign)) {
        return Some(match (columns, piece.len()) {
            (0, 1) => "there is a newline too many at the end of the file".to_owned(),
            _ => format!(
                "the line ends after {}; it has to be filled up with blanks to 80",
                several(columns as u64, "column")
            ),
        });
    }
    if let Some(at) = foreign {
        let byte = piece[at];
        let what = match byte {
            b'\t' => "a tab".to_owned(),
            b'\r' => "a carriage return".to_owned(),
            128.. => format!("a byte that is not ASCII (0x{byte:02x})"),
            _ => format!("a control byte (0x{byte:02x})"),
        };
        return Some(format!("column {} holds {what}", at + 1));
    }
    match piece.len() {
        80 => Some("the newline at the end of the file is missing".to_owned()),
        81 => Some("the line goes on past column 80".to_owned()),
        length => Some(format!("the file ends after {} of the line", several(length as u64, "column"))),
    }
}

#[cfg(test)]
pub mod tests {
    use super::*;
    use station::Entry;

    /// A line of the crystal frame of which the name alone is given, with numbers; any other as it is.
    pub fn filled(line: &str) -> String {
        match line {
            "CRYST1" => format!("CRYST1{}{} P 1           1", "    9.000".repeat(3), "  90.00".repeat(3)),
            "ORIGX1" | "ORIGX2" | "ORIGX3" | "SCALE1" | "SCALE2" | "SCALE3" => {
                format!("{line}    {}        0.00000", "  0.111111".repeat(3))
            }
            _ => line.to_owned(),
        }
    }

    /// A text of some lines, those of the crystal frame filled.
    pub fn text(lines: &[&str]) -> Vec<u8> {
        lines.iter().map(|line| format!("{:80}\n", filled(line))).collect::<String>().into_bytes()
    }

    /// A text of some lines that the library refuses with a number at the last of them, and that line.
    pub fn refused(lines: &[&str], refusal: Refusal) -> (Vec<u8>, u64) {
        let text = text(lines);
        let verdict = Entry::check(&text);
        assert_eq!((verdict.refusal, verdict.line), (Some(refusal), lines.len() as u64), "{lines:?}");
        (text, verdict.line)
    }

    fn words(text: &[u8]) -> String {
        describe("f", text, &Entry::check(text))
    }

    fn padded(line: &str, end: &str) -> String {
        format!("{line:80}{end}")
    }

    #[test]
    fn causes_are_named() {
        let header = padded("HEADER", "\n");
        for (text, cause) in [
            (String::new(), "the file is empty"),
            (padded("HEADER", "\r\n") + &padded("END", "\r\n"), "Windows line ends"),
            ("HEADER\r\nTITLE\r\n".to_owned(), "Windows line ends"),
            ("HEADER\nTITLE\nEND\n".to_owned(), "ends after 6 columns"),
            (padded("HEADER", ""), "newline at the end of the file is missing"),
            (header.clone() + "TITLE", "ends after 5 columns of the line"),
            (header.clone() + "\n", "a newline too many"),
            (padded("HEADER  \t", "\n"), "column 9 holds a tab"),
            (padded("HEADER  x", "x"), "goes on past column 80"),
            (header.clone() + &padded("MODEL        2", "\n"), "the number is 2, and this is model 1"),
            (header.clone() + &padded("ENDMDL", "\n"), "there is no MODEL that it ends"),
            (header + &padded("DBREF", "\n"), "the name is \"DBREF \""),
            ("data_1ABC\n".to_owned(), "mmCIF"),
        ] {
            let words = words(text.as_bytes());
            assert!(words.contains(cause), "{words}");
        }
        assert!(words(&[200; 100]).contains("not ASCII (0xc8)"));
        assert!(words(b"HEADER \x07 and\nTITLE\n").contains("column 8 holds a control byte (0x07)"));
        assert!(words(b"HEADER and\nTITLE \x07\n").contains("ends after 10 columns"));
    }

    #[test]
    fn every_refusal_of_noise_has_words() {
        for length in 0..300 {
            for byte in [0, 9, 10, 13, 32, 65, 255] {
                assert!(words(&vec![byte; length]).starts_with("f: line 1: refused with "));
            }
        }
    }

    /// An accepted entry with lines of every kind, but for models.
    pub fn every_kind() -> Vec<String> {
        let atom = |name: &str, serial: u32, chain: char, number: u32| {
            format!("{name:6}{serial:5}  C   ALA {chain}{number:4}       1.000   2.000   3.000  1.00  0.00           C")
        };
        let strand = |strand: u32, strands: u32, sheet: &str, sense: u32| {
            format!("SHEET  {strand:3} {sheet}{strands:2} ALA A   1  ALA A   5 {sense:2}")
        };
        let helix = |serial: u32| format!("HELIX  {serial:3}   A ALA A    1  ALA A    5  1{:31}    5", "");
        let mut lines: Vec<String> =
            ["HEADER", "TITLE", "REMARK", "REMARK", "SEQRES", "HET"].map(str::to_owned).to_vec();
        lines.extend([helix(1), helix(2), strand(1, 2, "  A", 0), strand(2, 2, "  A", 1), strand(1, 1, "  B", 0)]);
        lines.extend(["CRYST1", "ORIGX1", "ORIGX2", "ORIGX3", "SCALE1", "SCALE2", "SCALE3"].map(filled));
        lines.extend([atom("ATOM", 1, 'A', 1), atom("ATOM", 2, 'A', 2), "TER       3      ALA A   2".to_owned()]);
        lines.extend([atom("ATOM", 4, 'B', 1), "TER       5      ALA B   1".to_owned(), atom("HETATM", 6, 'C', 1)]);
        lines.extend(["CONECT    1    2    6", "CONECT    6    1"].map(str::to_owned));
        lines.extend(
            ["MASTER        2    0    1    2    3    0    0    6    4    2    2    1", "END"].map(str::to_owned),
        );
        lines
    }

    /// Every line of an entry left out, moved and doubled, everywhere: whatever is refused with 5, or 7 to 10, has words.
    #[test]
    fn rules_between_lines_have_words() {
        let lines = every_kind();
        let whole = |lines: &[String]| lines.iter().map(|line| format!("{line:80}\n")).collect::<String>().into_bytes();
        assert!(Entry::check(&whole(&lines)).is_granted(), "{}", words(&whole(&lines)));
        let mut met = std::collections::BTreeSet::new();
        for from in 0..lines.len() {
            for to in 0..=lines.len() {
                let mut doubled = lines.clone();
                doubled.insert(to, lines[from].clone());
                let mut moved = doubled.clone();
                moved.remove(if to <= from { from + 1 } else { from });
                let mut short = lines.clone();
                short.remove(from);
                for text in [whole(&doubled), whole(&moved), whole(&short)] {
                    let verdict = Entry::check(&text);
                    let Some(refusal) = verdict.refusal else { continue };
                    if matches!(refusal.number(), 5 | 7..=10) {
                        met.insert(refusal.number());
                        assert!(cause(&text, &verdict, refusal).is_some(), "{}", words(&text));
                    }
                }
            }
        }
        assert_eq!(met.into_iter().collect::<Vec<_>>(), [5, 7, 8, 9, 10]);
    }
}
