//! The column that a line is refused for, in words. The library names the column; what follows from it is looked up in the table of
//! fields, and nothing is judged again.

use std::fmt;

use crate::fields::{named, Allowed, Beside, Field, Named};
use crate::words::shown;

/// Marks what a column of a line names, which stands behind a bar, and says what is wrong there.
pub fn wrong(line: &[u8; 80], column: u64) -> Option<String> {
    let column = usize::try_from(column).ok()?;
    let (last, words) = match named(line, column)? {
        Named::Field(field) => (field.last, sentence(line, field)),
        Named::Blank => (column, blank(line, column)),
        Named::NoRegistration => (column, blank(line, column) + ": strand 1 has no registration"),
    };
    let marks = "^".repeat(last + 1 - column);
    Some(format!("{}{marks}\n  {words}", " ".repeat(column)))
}

/// What is wrong with a field.
fn sentence(line: &[u8; 80], field: &Field) -> String {
    let Field { first, last, name, allowed, beside } = field;
    let (place, stands) = (place(*first, *last), quoted(line, *first, *last));
    format!("{place}, {name}: {stands} is {allowed}{}", against(line, beside))
}

/// What a field is judged against.
fn against(line: &[u8; 80], beside: &Beside) -> String {
    match *beside {
        Beside::Nothing => String::new(),
        Beside::Earlier(column, rule) => match named(line, column) {
            Some(Named::Field(Field { first, last, name, .. })) => {
                let (place, stands) = (place(*first, *last), quoted(line, *first, *last));
                format!(", or cannot stand with {stands} in {place}, {name}: {rule}")
            }
            _ => String::new(),
        },
        Beside::Registration => "; columns 42-70 are all blank, or filled but for insertion codes".to_owned(),
    }
}

fn blank(line: &[u8; 80], column: usize) -> String {
    let words = format!("column {column} must be blank, and {} stands there", quoted(line, column, column));
    if column == CODE && has_code(line) {
        let stands = shown(&line[CODE - 1..]);
        return format!("{words}: old entries have their code and a number in columns 73-80, here \"{stands}\"");
    }
    words
}

/// The first column of the code that old entries have at the end of each line.
const CODE: usize = 73;

/// Whether a line ends as those of old entries do: in the code of the entry, a digit first, and the number of the line.
fn has_code(line: &[u8; 80]) -> bool {
    let ([first, code @ ..], number) = line[CODE - 1..].split_at(4) else {
        return false;
    };
    let right = |byte: &u8| byte.is_ascii_uppercase() || byte.is_ascii_digit();
    first.is_ascii_digit() && code.iter().all(right) && number.iter().all(|byte| byte.is_ascii_digit() || *byte == b' ')
}

fn place(first: usize, last: usize) -> String {
    if first == last {
        format!("column {first}")
    } else {
        format!("columns {first}-{last}")
    }
}

fn quoted(line: &[u8; 80], first: usize, last: usize) -> String {
    format!("\"{}\"", shown(&line[first - 1..last]))
}

/// What stands in a field is wrong because it is this.
impl fmt::Display for Allowed {
    fn fmt(&self, f: &mut fmt::Formatter<'_>) -> fmt::Result {
        const MANNER: &str = "filled from the right, without plus sign, leading zero or -0";
        match self {
            Allowed::Integer(lowest, highest) => write!(f, "no Integer from {lowest} to {highest} ({MANNER})"),
            Allowed::IntegerOrBlank(lowest, highest) => {
                write!(f, "neither blank nor an Integer from {lowest} to {highest} ({MANNER})")
            }
            Allowed::Real(width, digits, lowest, highest) => write!(
                f,
                "no Real({width}.{digits}) from {lowest} to {highest} (filled from the right, with digits before the point \
                 and {digits} behind it, without plus sign, leading zero or minus on zero)"
            ),
            Allowed::Words(words) => f.write_str(words),
            Allowed::Free => f.write_str("free"),
        }
    }
}

#[cfg(test)]
mod tests {
    use super::*;
    use station::Line;

    /// A right line of each kind.
    const RIGHT: [&str; 14] = [
        "ATOM     32  N  AARG A  -3      11.281  86.699  94.383  0.50 35.88           N",
        "HETATM   40 HH11 HEM b9999Z   -999.9999999.999   0.000  1.00-99.99           H3+",
        "TER      33      ARG A  -3",
        "HELIX    1   A ALA A    1  GLY A    9  1 and so on                         9",
        "SHEET    1   A 2 ALA A   1  GLY A   5  0",
        "SHEET    2   A 2 ALA A   7  GLY B   9 -1  N  ALA A   7   O  GLY A   5",
        "CRYST1   52.000   58.600   61.900  90.00  90.00  90.00 P 21 21 21    8",
        "ORIGX2      0.000000  1.000000  0.000000        0.00000",
        "SCALE3     -0.000001-99.999999999.999999     -999.99999",
        "CONECT    5    6    7    8    9",
        "MASTER        0    0    0    0    0    0    0    0    0    0    0    0",
        "MODEL        1",
        "ENDMDL",
        "END",
    ];

    fn columns(line: &str) -> [u8; 80] {
        format!("{line:80}").as_bytes().try_into().expect("80 columns")
    }

    /// Whatever one byte does to a line, there are words for the column that the library names, and for none if it names none.
    #[test]
    fn every_column_that_is_named_has_words() {
        for right in RIGHT {
            assert_eq!(Line::judge(&columns(right)), Ok(()), "{right}");
            for (at, byte) in (0..80).flat_map(|at| (32..=126).map(move |byte| (at, byte))) {
                let mut line = columns(right);
                line[at] = byte;
                let column = Line::judge(&line).map_or_else(|refused| refused.column, |()| 0);
                let words = wrong(&line, column);
                assert_eq!(words.is_some(), column > 0, "{}: {column}", shown(&line));
            }
        }
    }

    #[test]
    fn a_column_that_names_nothing_has_no_words() {
        let atom = columns(RIGHT[0]);
        for column in [0, 1, 6, 8, 14, 38, 78, 80, 81, 1_000, u64::MAX] {
            assert_eq!(wrong(&atom, column), None, "{column}");
        }
        for column in [41, 42, 70] {
            assert_eq!(wrong(&columns(RIGHT[3]), column), None, "the comment of a helix is free: {column}");
        }
        for column in [56, 57, 66] {
            assert_eq!(wrong(&columns(RIGHT[6]), column), None, "the space group is free: {column}");
        }
        assert_eq!(wrong(&columns("REMARK"), 7), None);
        assert_eq!(wrong(&columns(""), 7), None);
    }
}
