//! Why a line breaks the rules of runs and TER, in words.

use station::{piece, pieces};

use crate::models;
use crate::words::trimmed;

/// The run that a line meets: the ATOM and HETATM lines since the last TER, the start or the MODEL, by their numbers.
struct Run<'t> {
    lines: Vec<(u64, &'t [u8])>,
    /// The TER above it, if there is one.
    ter: Option<u64>,
}

impl<'t> Run<'t> {
    fn above(text: &'t [u8], line: u64) -> Option<Run<'t>> {
        let mut run = Run { lines: Vec::new(), ter: None };
        let first = usize::try_from(models::first_line(text, line)).ok()?;
        for (number, piece) in (1..line).zip(pieces(text)).skip(first - 1) {
            if piece.starts_with(b"TER   ") {
                run = Run { lines: Vec::new(), ter: Some(number) };
            } else if models::is_coordinate(piece) {
                run.lines.push((number, piece));
            }
        }
        Some(run)
    }

    fn holds_atom(&self) -> bool {
        self.lines.iter().any(|(_, piece)| piece.starts_with(b"ATOM  "))
    }

    /// The first line of another chain.
    fn of_other_chain(&self, chain: u8) -> Option<(u64, char)> {
        let (number, piece) = self.lines.iter().find(|(_, piece)| piece[21] != chain)?;
        Some((*number, char::from(piece[21])))
    }
}

/// A residue in words: `ALA A 15`, with its insertion code.
fn residue(piece: &[u8]) -> String {
    [17..20, 21..22, 22..27].map(|columns| trimmed(&piece[columns])).join(" ")
}

/// Why a line breaks the rules of runs.
pub fn why(text: &[u8], line: u64) -> Option<String> {
    let own = piece(text, line).filter(|own| own.len() == 81)?;
    let run = Run::above(text, line)?;
    match own.get(..6)? {
        b"TER   " => ter(own, &run),
        b"ATOM  " | b"HETATM" => {
            let (number, other) = run.of_other_chain(own[21])?;
            let chain = char::from(own[21]);
            let due = if run.holds_atom() {
                "a TER has to close that run first"
            } else {
                "a run with an ATOM line is of one chain"
            };
            Some(format!("it is of chain {chain}, and line {number} in the same run of chain {other}; {due}"))
        }
        _ => {
            let (first, piece) = run.lines.first()?;
            let chain = char::from(piece[21]);
            Some(format!("the run of chain {chain} is open since line {first}; its TER is missing above"))
        }
    }
}

fn ter(own: &[u8], run: &Run) -> Option<String> {
    if !run.holds_atom() {
        let since = run.ter.map_or(String::new(), |ter| format!(" since the TER in line {ter}"));
        return Some(format!("there is no ATOM line{since} that it could close"));
    }
    let (last, piece) = run.lines.last()?;
    Some(format!("it names {}, and the run ends with {} in line {last}", residue(own), residue(piece)))
}

#[cfg(test)]
mod tests {
    use super::*;
    use crate::words::tests::refused;
    use station::Refusal;

    fn atom(name: &str, serial: u32, chain: char, number: u32) -> String {
        format!("{name:6}{serial:5}  C   ALA {chain}{number:4}       1.000   2.000   3.000  1.00  0.00           C")
    }

    fn words(lines: &[&str]) -> String {
        let (text, line) = refused(&[&["HEADER"], lines].concat(), Refusal::RUN);
        why(&text, line).expect("words")
    }

    #[test]
    fn an_open_run_is_named() {
        let [one, two] = [atom("ATOM", 1, 'A', 1), atom("ATOM", 2, 'A', 2)];
        let open = "the run of chain A is open since line 2; its TER is missing above";
        assert_eq!(words(&[&one, &two, "CONECT    1    2"]), open);
        assert_eq!(words(&[&one, &two, &format!("MASTER    {}", "    0".repeat(12))]), open);
        let late = ["MODEL        1", "ENDMDL", "MODEL        2", &one, "ENDMDL"];
        assert_eq!(words(&late), "the run of chain A is open since line 5; its TER is missing above");
    }

    #[test]
    fn chains_that_mix_are_named() {
        let [one, other, water] = [atom("ATOM", 1, 'A', 1), atom("ATOM", 2, 'B', 2), atom("HETATM", 2, 'W', 2)];
        assert_eq!(
            words(&[&one, &other]),
            "it is of chain B, and line 2 in the same run of chain A; a TER has to close that run first"
        );
        assert_eq!(
            words(&[&one, &water]),
            "it is of chain W, and line 2 in the same run of chain A; a TER has to close that run first"
        );
        assert_eq!(
            words(&[&atom("HETATM", 1, 'A', 1), &water, &atom("ATOM", 3, 'W', 3)]),
            "it is of chain W, and line 2 in the same run of chain A; a run with an ATOM line is of one chain"
        );
    }

    #[test]
    fn what_a_ter_closes_is_named() {
        let [one, water] = [atom("ATOM", 1, 'A', 1), atom("HETATM", 3, 'A', 7)];
        assert_eq!(
            words(&[&one, "TER       2      GLY A   1B"]),
            "it names GLY A 1B, and the run ends with ALA A 1 in line 2"
        );
        assert_eq!(words(&["TER       2      GLY A   1"]), "there is no ATOM line that it could close");
        assert_eq!(
            words(&[&one, "TER       2      ALA A   1", &water, "TER       4      ALA A   7"]),
            "there is no ATOM line since the TER in line 3 that it could close"
        );
    }
}
