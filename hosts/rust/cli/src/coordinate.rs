//! Coordinates as they are given on the command line.

/// Reads a coordinate in angstroms to thousandths. One that does not fit is the largest or lowest that does: neither is
/// that of an atom.
pub fn thousandths(word: &str) -> Result<i32, String> {
    let none = || format!("\"{word}\" is no coordinate, a number with up to three decimals such as 11.281 or -0.5");
    let (minus, size) = word.strip_prefix('-').map_or((false, word), |size| (true, size));
    let (whole, rest) = size.split_once('.').unwrap_or((size, "0"));
    let digits = |part: &str| !part.is_empty() && part.bytes().all(|byte| byte.is_ascii_digit());
    if !digits(whole) || !digits(rest) || rest.len() > 3 {
        return Err(none());
    }
    let size: i32 = format!("{whole}{rest:0<3}").parse().unwrap_or(i32::MAX);
    Ok(if minus { -size } else { size })
}

#[cfg(test)]
mod tests {
    use station::Thousandths;

    use super::*;

    #[test]
    fn coordinates_are_read() {
        for (word, due) in [
            ("11.281", 11_281),
            ("-0.5", -500),
            ("0.007", 7),
            ("-0.0", 0),
            ("7", 7_000),
            ("007.10", 7_100),
            ("-999.999", -999_999),
            ("9999.999", 9_999_999),
            ("10000.0", 10_000_000),
            ("99999999999999999999.0", i32::MAX),
            ("-99999999999999999999.0", -i32::MAX),
        ] {
            assert_eq!(thousandths(word), Ok(due), "{word}");
        }
        for none in ["", "-", ".", "1.", ".5", "+1.0", "--1.0", "1.0000", "1,5", "1e3", "1.5.2", " 1.0", "1.-5", "x"] {
            assert!(thousandths(none).is_err_and(|words| words.starts_with(&format!("\"{none}\" is no coord"))));
        }
    }

    /// What is written reads back.
    #[test]
    fn there_and_back() {
        for value in [-999_999, -500, -1, 0, 1, 99, 11_281, 9_999_999] {
            assert_eq!(thousandths(&Thousandths::of(value).to_string()), Ok(value));
        }
    }
}
