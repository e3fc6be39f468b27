//! Why a line is out of place, and what could stand there, in words.

use station::{piece, pieces};

use crate::advice::is_left_out;
use crate::models;

/// All names with their places, in order. A name of a trio has the place of the trio.
const NAMES: [(&[u8; 6], u8); 29] = [
    (b"HEADER", 1),
    (b"TITLE ", 2),
    (b"COMPND", 3),
    (b"SOURCE", 4),
    (b"KEYWDS", 5),
    (b"EXPDTA", 6),
    (b"AUTHOR", 7),
    (b"REVDAT", 8),
    (b"JRNL  ", 9),
    (b"REMARK", 10),
    (b"SEQRES", 11),
    (b"HET   ", 12),
    (b"HELIX ", 13),
    (b"SHEET ", 14),
    (b"CRYST1", 15),
    (b"ORIGX1", 16),
    (b"ORIGX2", 16),
    (b"ORIGX3", 16),
    (b"SCALE1", 17),
    (b"SCALE2", 17),
    (b"SCALE3", 17),
    (b"MODEL ", 18),
    (b"ATOM  ", 18),
    (b"HETATM", 18),
    (b"TER   ", 18),
    (b"ENDMDL", 18),
    (b"CONECT", 19),
    (b"MASTER", 20),
    (b"END   ", 21),
];

/// Lines of which the second comes right after the first, and neither without the other.
const TIED: [(&[u8; 6], &[u8; 6]); 5] = [
    (b"ORIGX1", b"ORIGX2"),
    (b"ORIGX2", b"ORIGX3"),
    (b"SCALE1", b"SCALE2"),
    (b"SCALE2", b"SCALE3"),
    (b"MASTER", b"END   "),
];

/// Lines that come once, or begin what comes once.
const ONCE: [&[u8; 6]; 5] = [b"HEADER", b"CRYST1", b"ORIGX1", b"SCALE1", b"MASTER"];

fn name(piece: &[u8]) -> Option<&[u8; 6]> {
    piece.first_chunk()
}

fn word(name: &[u8; 6]) -> &str {
    std::str::from_utf8(name).unwrap_or_default().trim_end()
}

fn place(name: &[u8; 6]) -> u8 {
    NAMES.iter().find(|(known, _)| *known == name).map_or(0, |(_, place)| *place)
}

/// Why a line that is refused for its place may not stand there. Models are looked at before places: a line that is at
/// odds with them is hardly ever meant for another place.
pub fn why(text: &[u8], line: u64) -> Option<String> {
    let own = name(piece(text, line)?)?;
    let above = pieces(text).take(usize::try_from(line.checked_sub(1)?).ok()?);
    let Some(before) = above.rev().find(|piece| !is_left_out(piece)).and_then(name) else {
        return Some("line 1 has to be HEADER".to_owned());
    };
    if let Some((_, second)) = TIED.iter().find(|(first, _)| *first == before) {
        return Some(format!("right after {} comes {}, and nothing else", word(before), word(second)));
    }
    if before == b"END   " {
        return Some("END is the last line, and this one stands behind it".to_owned());
    }
    if let Some(words) = models::place(text, line) {
        return Some(words);
    }
    if let Some((first, _)) = TIED.iter().find(|(_, second)| *second == own) {
        return Some(format!("{} comes right after {}; {}", word(own), word(first), could_stand(text, line, before)));
    }
    let earlier = || (1..line).zip(pieces(text).filter_map(name));
    let words = if ONCE.contains(&own) && earlier().any(|(_, name)| name == own) {
        let (first, _) = earlier().find(|(_, name)| *name == own)?;
        format!("there is a {} line already, line {first}; it comes once", word(own))
    } else {
        let (later, other) = earlier().find(|(_, name)| place(name) > place(own))?;
        format!("{} lines come above {} lines, and line {later} is one", word(own), word(other))
    };
    Some(format!("{words}; {}", could_stand(text, line, before)))
}

/// Whether a line may follow another, models left aside.
fn may_follow(own: &[u8; 6], before: &[u8; 6]) -> bool {
    let tied = TIED.iter().all(|(first, second)| (before == *first) == (own == *second));
    let placed = if ONCE.contains(&own) { place(before) < place(own) } else { place(before) <= place(own) };
    tied && placed
}

/// The names that could stand at a line.
fn could_stand(text: &[u8], line: u64, before: &[u8; 6]) -> String {
    let above = models::Above::of(text, line);
    let right = NAMES.iter().filter(|(name, _)| may_follow(name, before) && above.allows(&name[..]));
    let words: Vec<&str> = right.map(|(name, _)| word(name)).collect();
    match words.split_last() {
        Some((last, rest)) if !rest.is_empty() => format!("here could stand {} or {last}", rest.join(", ")),
        Some((last, _)) => format!("here could stand {last}"),
        None => "here could stand nothing".to_owned(),
    }
}

#[cfg(test)]
mod tests {
    use super::*;
    use crate::words::tests::{refused, text};
    use station::{Entry, Refusal};

    const WATER: &str = "HETATM    1  O   HOH A   7       1.000   2.000   3.000  1.00  0.00           O";

    /// The words for the last of some lines.
    fn words(lines: &[&str]) -> String {
        let (text, line) = refused(lines, Refusal::PLACE);
        why(&text, line).expect("words")
    }

    #[test]
    fn places_are_explained() {
        let zeros = format!("MASTER    {}", "    0".repeat(12));
        assert_eq!(words(&["TITLE"]), "line 1 has to be HEADER");
        assert_eq!(words(&["HEADER", "ORIGX1", "SCALE1"]), "right after ORIGX1 comes ORIGX2, and nothing else");
        assert_eq!(words(&["HEADER", "ORIGX1", "MODEL        1"]), "right after ORIGX1 comes ORIGX2, and nothing else");
        assert_eq!(words(&["HEADER", &zeros, "CONECT"]), "right after MASTER comes END, and nothing else");
        assert_eq!(words(&["HEADER", &zeros, "END", "END"]), "END is the last line, and this one stands behind it");
        assert_eq!(
            words(&["HEADER", WATER, "END"]),
            "END comes right after MASTER; here could stand ATOM, HETATM, TER, CONECT or MASTER"
        );
        assert_eq!(
            words(&["HEADER", "CRYST1", "CRYST1"]),
            "there is a CRYST1 line already, line 2; it comes once; here could stand ORIGX1, SCALE1, MODEL, ATOM, \
             HETATM, TER, CONECT or MASTER"
        );
        assert_eq!(
            words(&["HEADER", "TITLE", "CRYST1", "SCALE1", "SCALE2", "SCALE3", "REMARK"]),
            "REMARK lines come above CRYST1 lines, and line 3 is one; here could stand MODEL, ATOM, HETATM, TER, CONECT \
             or MASTER"
        );
        assert_eq!(
            words(&["HEADER", "MODEL        1", "ENDMDL", "REMARK"]),
            "REMARK lines come above MODEL lines, and line 2 is one; here could stand MODEL, CONECT or MASTER"
        );
        assert!(words(&["HEADER", "MODEL        1", "REMARK"]).contains("has to end with ENDMDL first"));
    }

    /// What is said to be right there is what the library does not refuse for its place, and nothing else is.
    #[test]
    fn what_could_stand_is_held_against_the_library() {
        let heads: [&[&str]; 12] = [
            &["HEADER"],
            &["HEADER", "TITLE", "REMARK"],
            &["HEADER", "HET"],
            &["HEADER", "CRYST1"],
            &["HEADER", "ORIGX1"],
            &["HEADER", "ORIGX1", "ORIGX2", "ORIGX3"],
            &["HEADER", "SCALE1", "SCALE2"],
            &["HEADER", "SCALE1", "SCALE2", "SCALE3"],
            &["HEADER", WATER],
            &["HEADER", "MODEL        1"],
            &["HEADER", "MODEL        1", WATER],
            &["HEADER", "MODEL        1", WATER, "ENDMDL"],
        ];
        for head in heads {
            let line = head.len() as u64 + 1;
            let above = text(head);
            let before = name(piece(&above, line - 1).expect("a line")).expect("a name");
            let words = could_stand(&above, line, before);
            let said: Vec<&str> = words["here could stand ".len()..].split([',', ' ']).collect();
            for (name, _) in NAMES {
                let with = [&above[..], &text(&[word(name)])].concat();
                let verdict = Entry::check(&with);
                let placed = verdict.line > line || verdict.refusal != Some(Refusal::PLACE);
                assert_eq!(said.contains(&word(name)), placed, "{head:?} {}", word(name));
            }
        }
    }
}
