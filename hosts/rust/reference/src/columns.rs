//! Fields: the bytes of some columns, and the value they hold if they are right.
//!
//! A line is 80 bytes. Columns count from 1, as in the format.

/// A line by itself: 80 columns, without a newline.
pub type Columns = [u8; 80];

/// The bytes in the columns `from` to `to`, both included.
pub fn field(line: &Columns, from: usize, to: usize) -> &[u8] {
    &line[from - 1..to]
}

/// The byte in one column.
pub fn column(line: &Columns, at: usize) -> u8 {
    line[at - 1]
}

/// The bytes of a field of `N` columns that begins at `from`.
pub fn bytes<const N: usize>(line: &Columns, from: usize) -> [u8; N] {
    std::array::from_fn(|i| line[from - 1 + i])
}

/// Whether all of these columns are blank.
pub fn blank(bytes: &[u8]) -> bool {
    bytes.iter().all(|&byte| byte == b' ')
}

/// The columns without the blanks on their left. A right-justified field is right if this is.
fn unpadded(field: &[u8]) -> &[u8] {
    let blanks = field.iter().take_while(|&&byte| byte == b' ').count();
    &field[blanks..]
}

/// The number of a run of digits, or nothing if the run is empty or holds another byte.
fn digits(run: &[u8]) -> Option<i64> {
    if run.is_empty() {
        return None;
    }
    run.iter().try_fold(0i64, |number, &byte| byte.is_ascii_digit().then(|| 10 * number + i64::from(byte - b'0')))
}

/// Whether a run of digits begins with a zero that is not needed.
fn needless_zero(run: &[u8]) -> bool {
    run.len() > 1 && run[0] == b'0'
}

/// A minus in front, and the rest.
fn sign(field: &[u8]) -> (bool, &[u8]) {
    match field.split_first() {
        Some((b'-', rest)) => (true, rest),
        _ => (false, field),
    }
}

/// The value with its sign. Zero has no minus.
fn signed(minus: bool, size: i64) -> Option<i64> {
    match (minus, size) {
        (true, 0) => None,
        (true, _) => Some(-size),
        (false, _) => Some(size),
    }
}

/// An integer: right-justified, without plus, leading zero or minus zero.
pub fn integer(field: &[u8]) -> Option<i64> {
    let (minus, run) = sign(unpadded(field));
    if needless_zero(run) {
        return None;
    }
    signed(minus, digits(run)?)
}

/// An integer within a range.
pub fn integer_in(field: &[u8], low: i64, high: i64) -> Option<i64> {
    integer(field).filter(|value| (low..=high).contains(value))
}

/// A real with so many decimals, as a whole number of its last place.
pub fn real(field: &[u8], decimals: usize) -> Option<i64> {
    let (minus, run) = sign(unpadded(field));
    let point = run.iter().position(|&byte| byte == b'.')?;
    let (whole, rest) = (&run[..point], &run[point + 1..]);
    if rest.len() != decimals || needless_zero(whole) {
        return None;
    }
    let scale = 10i64.pow(u32::try_from(decimals).ok()?);
    signed(minus, digits(whole)? * scale + digits(rest)?)
}

/// A real within a range of its last place.
pub fn real_in(field: &[u8], decimals: usize, low: i64, high: i64) -> Option<i64> {
    real(field, decimals).filter(|value| (low..=high).contains(value))
}

/// A capital letter or a digit.
fn capital_or_digit(byte: u8) -> bool {
    byte.is_ascii_uppercase() || byte.is_ascii_digit()
}

/// A character of an atom name.
fn name_character(byte: u8) -> bool {
    capital_or_digit(byte) || byte == b'\'' || byte == b'*'
}

/// One or more bytes of a sort, with blanks only on the left.
fn right_justified(field: &[u8], sort: fn(u8) -> bool) -> bool {
    let rest = unpadded(field);
    !rest.is_empty() && rest.iter().all(|&byte| sort(byte))
}

/// Bytes of a sort (none too), then blanks.
fn then_blanks(field: &[u8], sort: fn(u8) -> bool) -> bool {
    let filled = field.iter().take_while(|&&byte| sort(byte)).count();
    blank(&field[filled..])
}

/// A residue name.
pub fn residue_name(field: &[u8]) -> bool {
    right_justified(field, capital_or_digit)
}

/// The identifier of a helix or sheet.
pub fn identifier(field: &[u8]) -> bool {
    right_justified(field, |byte| (33..=126).contains(&byte))
}

/// A chain.
pub fn chain(byte: u8) -> bool {
    byte.is_ascii_alphanumeric()
}

/// An insertion code.
pub fn insertion(byte: u8) -> bool {
    byte == b' ' || byte.is_ascii_uppercase()
}

/// An alternate location.
pub fn alternate(byte: u8) -> bool {
    byte == b' ' || capital_or_digit(byte)
}

/// A charge.
pub fn charge(field: [u8; 2]) -> bool {
    field == *b"  " || ((b'1'..=b'9').contains(&field[0]) && matches!(field[1], b'+' | b'-'))
}

/// The last two columns of an atom's name, whatever its element is.
pub fn ends_atom_name(end: [u8; 2]) -> bool {
    then_blanks(&end, name_character)
}

/// The name of an atom of this element.
pub fn atom_name(name: [u8; 4], element: [u8; 2]) -> bool {
    let in_its_columns = name[..2] == element && ends_atom_name([name[2], name[3]]);
    in_its_columns || from_column_13(name, element)
}

/// A name that fills its columns and begins with the letter of an element of one letter.
fn from_column_13(name: [u8; 4], element: [u8; 2]) -> bool {
    element[0] == b' ' && name[0] == element[1] && name[1..].iter().all(|&byte| name_character(byte))
}

/// The name of an atom in a registration: no element is known there.
pub fn registration_atom(name: [u8; 4]) -> bool {
    let rest = if name[0] == b' ' { &name[1..] } else { &name };
    name_character(rest[0]) && then_blanks(rest, name_character)
}

#[cfg(test)]
mod tests {
    use super::*;

    #[test]
    fn reals_of_eight_columns() {
        assert_eq!(real(b"-999.999", 3), Some(-999_999));
        assert_eq!(real(b"9999.999", 3), Some(9_999_999));
        assert_eq!(real(b"  -0.001", 3), Some(-1));
        assert_eq!(real(b"   0.000", 3), Some(0));
        for wrong in [
            b"  -0.000",
            b" 011.281",
            b"11.281  ",
            b"    .281",
            b"   -.281",
            b"      1.",
            b"  +1.000",
            b"    1.00",
            b" 1.00.00",
            b" 1 0.000",
            b"        ",
            b"   1.00 ",
            b"- 11.281",
            b"   00.00",
        ] {
            assert_eq!(real(wrong, 3), None, "{}", String::from_utf8_lossy(wrong));
        }
    }

    #[test]
    fn integers() {
        assert_eq!(integer(b"  -3"), Some(-3));
        assert_eq!(integer(b"   0"), Some(0));
        assert_eq!(integer(b"9999"), Some(9999));
        for wrong in [b"  -0", b"  03", b"-03 ", b"  +3", b"3   ", b"- 3 ", b"    ", b"   -", b" 3 3"] {
            assert_eq!(integer(wrong), None, "{}", String::from_utf8_lossy(wrong));
        }
    }

    #[test]
    fn names() {
        assert!(atom_name(*b" CA ", *b" C") && atom_name(*b"CA  ", *b"CA") && atom_name(*b" N  ", *b" N"));
        assert!(!atom_name(*b" CA ", *b"CA") && !atom_name(*b" C A", *b" C") && !atom_name(*b"CA  ", *b" C"));
        assert!(registration_atom(*b" N  ") && registration_atom(*b"N   ") && registration_atom(*b"HH11"));
        assert!(!registration_atom(*b"  N ") && !registration_atom(*b"    ") && !registration_atom(*b"N O "));
        assert!(residue_name(b"  A") && residue_name(b"5MC") && !residue_name(b"A  ") && !residue_name(b"   "));
        assert!(charge(*b"  ") && charge(*b"2+") && !charge(*b" +") && !charge(*b"0+") && !charge(*b"+2"));
        assert!(identifier(b"  ~") && !identifier(b"A B") && !identifier(b"A  "));
    }

    #[test]
    fn names_of_four_columns() {
        for (name, element) in [
            (b"HH11", b" H"),
            (b"HG21", b" H"),
            (b"HG21", b"HG"),
            (b"DD11", b" D"),
            (b"CA12", b" C"),
            (b"CA12", b"CA"),
            (b"H5''", b" H"),
            (b"C***", b" C"),
        ] {
            assert!(atom_name(*name, *element), "{}", String::from_utf8_lossy(name));
        }
        for (name, element) in [
            (b"HH1 ", b" H"),
            (b"H 11", b" H"),
            (b"HH 1", b" H"),
            (b"H   ", b" H"),
            (b"H#11", b" H"),
            (b"HH#1", b" H"),
            (b"HH1#", b" H"),
            (b"Hh11", b" H"),
            (b"hH11", b" H"),
            (b"CA1 ", b" C"),
            (b"1HH1", b" H"),
            (b"DD11", b" H"),
            (b"CB12", b"CA"),
            (b"HH11", b"HG"),
        ] {
            assert!(!atom_name(*name, *element), "{}", String::from_utf8_lossy(name));
        }
    }
}
