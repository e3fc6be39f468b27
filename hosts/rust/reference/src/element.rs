//! The elements.

/// The symbols of the elements by rising atomic number, from hydrogen.
const SYMBOLS: [&str; 118] = [
    "H", "HE", "LI", "BE", "B", "C", "N", "O", "F", "NE", "NA", "MG", "AL", "SI", "P", "S", "CL", "AR", "K", "CA",
    "SC", "TI", "V", "CR", "MN", "FE", "CO", "NI", "CU", "ZN", "GA", "GE", "AS", "SE", "BR", "KR", "RB", "SR", "Y",
    "ZR", "NB", "MO", "TC", "RU", "RH", "PD", "AG", "CD", "IN", "SN", "SB", "TE", "I", "XE", "CS", "BA", "LA", "CE",
    "PR", "ND", "PM", "SM", "EU", "GD", "TB", "DY", "HO", "ER", "TM", "YB", "LU", "HF", "TA", "W", "RE", "OS", "IR",
    "PT", "AU", "HG", "TL", "PB", "BI", "PO", "AT", "RN", "FR", "RA", "AC", "TH", "PA", "U", "NP", "PU", "AM", "CM",
    "BK", "CF", "ES", "FM", "MD", "NO", "LR", "RF", "DB", "SG", "BH", "HS", "MT", "DS", "RG", "CN", "NH", "FL", "MC",
    "LV", "TS", "OG",
];

/// The atomic number of the element in these two columns, or nothing if they hold none. Deuterium is hydrogen.
pub fn atomic_number(columns: [u8; 2]) -> Option<u8> {
    let symbol = if columns[0] == b' ' { &columns[1..] } else { &columns[..] };
    if symbol == b"D" {
        return Some(1);
    }
    let index = SYMBOLS.iter().position(|known| known.as_bytes() == symbol)?;
    u8::try_from(index + 1).ok()
}

#[cfg(test)]
mod tests {
    use super::*;

    #[test]
    fn every_number_once_but_hydrogen() {
        let mut seen = [0; 119];
        for first in (b'A'..=b'Z').chain([b' ']) {
            for second in b'A'..=b'Z' {
                seen[usize::from(atomic_number([first, second]).unwrap_or(0))] += 1;
            }
        }
        assert_eq!(seen[1], 2);
        assert!(seen[2..].iter().all(|&times| times == 1));
        assert_eq!(seen[0], 702 - 119);
    }

    #[test]
    fn some() {
        assert_eq!(atomic_number(*b" C"), Some(6));
        assert_eq!(atomic_number(*b"CA"), Some(20));
        assert_eq!(atomic_number(*b"OG"), Some(118));
        for none in [*b"C ", *b"Fe", *b"  ", *b" X", *b"12"] {
            assert_eq!(atomic_number(none), None);
        }
    }
}
