//! `station cut`.

use std::collections::BTreeMap;
use std::path::Path;

use station::{Counts, Entry, Refusal, Tally};

use crate::counts;
use crate::input;
use crate::output::{write_all, Console, Order};
use crate::problem::{Problem, Status};
use crate::words::{self, output_name, several, trimmed};

/// The columns of a line.
const WIDTH: usize = 80;

/// So many kinds of dropped lines are told by name. An entry has fewer; noise has one for each line.
const KINDS: usize = 40;

/// The name of a line.
type Name = [u8; 6];

const ENDMDL: &Name = b"ENDMDL";
const ANEW: [&Name; 2] = [b"MASTER", b"END   "];

/// Cuts an entry to the lines of known kinds, and checks what is left. It is written also if it is refused.
pub fn run(file: &Path, out: &Path, force: bool, console: &mut Console) -> Result<Status, Problem> {
    let input = input::read(file)?;
    let cut = Cut::of(&input.text);
    if cut.kept == 0 {
        let cause = words::foreign(&input.text).map_or(String::new(), |words| format!("\n  {words}"));
        return Err(Problem::Refused(format!(
            "{}: there is no line to keep, so nothing was written{cause}",
            input.name
        )));
    }
    let order = Order { option: "--out", path: out, bytes: &cut.text };
    write_all(&[order], input.identity.as_ref(), force, console)?;
    for words in cut.words() {
        console.say_done(format_args!("{}: {words}", input.name))?;
    }
    let verdict = Entry::check(&cut.text);
    let found = words::found(&output_name(out), &cut.text, &verdict);
    if verdict.is_granted() {
        console.say_done(found)?;
        return Ok(Status::Done);
    }
    console.say_line(found)?;
    Ok(Status::Refused)
}

/// A text that was cut, and what was done to it.
#[derive(Default)]
struct Cut {
    text: Vec<u8>,
    /// The lines that were kept.
    kept: u64,
    /// How many of them were filled up with blanks, and how many lost a carriage return.
    filled: u64,
    returns: u64,
    /// The lines that were dropped, by name.
    dropped: BTreeMap<Name, u64>,
}

impl Cut {
    fn of(text: &[u8]) -> Cut {
        let mut cut = Cut { text: Vec::with_capacity(text.len()), ..Cut::default() };
        let (mut tally, mut past) = (Tally::default(), false);
        let mut anew = [false; ANEW.len()];
        for line in text.split_inclusive(|&byte| byte == b'\n') {
            let line = line.strip_suffix(b"\n").unwrap_or(line);
            let bare = line.strip_suffix(b"\r").unwrap_or(line);
            let name = name(bare);
            // The library knows which names there are. A count that is full is left to the check.
            if tally.count_past(&name, past) == Err(Refusal::NAME) {
                cut.drop_line(name);
            } else if let Some(at) = ANEW.iter().position(|anew| **anew == name) {
                if std::mem::replace(&mut anew[at], true) {
                    cut.drop_line(name);
                }
            } else {
                past |= name == *ENDMDL;
                cut.returns += u64::from(bare.len() < line.len());
                cut.keep(bare);
            }
        }
        // No count of a tally is too large for its columns.
        let master = counts::master(&counts::with(&Counts::default(), &tally)).unwrap_or([b' '; WIDTH]);
        cut.text.extend(master);
        cut.text.push(b'\n');
        cut.text.extend(format!("{:WIDTH$}\n", "END").into_bytes());
        cut
    }

    fn drop_line(&mut self, name: Name) {
        *self.dropped.entry(name).or_default() += 1;
    }

    /// Keeps a line. One that is too long stays so: what to leave out of it is not for a program to say.
    fn keep(&mut self, line: &[u8]) {
        self.kept += 1;
        self.filled += u64::from(line.len() < WIDTH);
        self.text.extend(line);
        self.text.extend(std::iter::repeat_n(b' ', WIDTH.saturating_sub(line.len())));
        self.text.push(b'\n');
    }

    /// What was done, in words.
    fn words(&self) -> Vec<String> {
        let mut words = vec![self.dropped()];
        if self.filled > 0 {
            words.push(format!("{} filled up with blanks", several(self.filled, "short line")));
        }
        if self.returns > 0 {
            words.push(format!("{} dropped", several(self.returns, "carriage return")));
        }
        words
    }

    /// What was dropped, by kind and count.
    fn dropped(&self) -> String {
        let lines: u64 = self.dropped.values().sum();
        if lines == 0 {
            return "no line dropped".to_owned();
        }
        let mut kinds: Vec<String> =
            self.dropped.iter().take(KINDS).map(|(name, count)| format!("{} {count}", shown(name))).collect();
        if self.dropped.len() > KINDS {
            let others: u64 = self.dropped.values().skip(KINDS).sum();
            kinds.push(format!("{} more kinds {others}", self.dropped.len() - KINDS));
        }
        format!("{} dropped: {}", several(lines, "line"), kinds.join(", "))
    }
}

/// The six columns of the name, also of a line that is too short for them.
fn name(line: &[u8]) -> Name {
    let mut name = [b' '; 6];
    name.iter_mut().zip(line).for_each(|(column, &byte)| *column = byte);
    name
}

fn shown(name: &Name) -> String {
    let shown = trimmed(name);
    if shown.is_empty() {
        "without a name".to_owned()
    } else {
        shown
    }
}

#[cfg(test)]
mod tests {
    use super::*;

    fn line(text: &str) -> String {
        format!("{text:80}\n")
    }

    fn cut(text: &str) -> (String, Vec<String>) {
        let cut = Cut::of(text.as_bytes());
        let words = cut.words();
        (String::from_utf8(cut.text).expect("ASCII"), words)
    }

    #[test]
    fn known_lines_keep_their_columns() {
        let long = format!("REMARK{:80}x", "");
        let (text, words) = cut(&format!("HEADER\r\n\nDBREF  1\nhelix\n{long}\nHET    a  b\nDBREF  2\nTER"));
        let kept = [line("HEADER"), format!("{long}\n"), line("HET    a  b"), line("TER")].concat();
        let master = line("MASTER        1    0    1    0    0    0    0    0    0    1    0    0");
        assert_eq!(text, kept + &master + &line("END"));
        let dropped = "4 lines dropped: without a name 1, DBREF 2, helix 1";
        assert_eq!(words, [dropped, "3 short lines filled up with blanks", "1 carriage return dropped"]);
    }

    #[test]
    fn the_first_model_is_counted() {
        let model = "MODEL        1\nATOM\nTER\nENDMDL\n";
        let (text, _) = cut(&format!("{model}{model}HETATM\nCONECT\n"));
        assert!(text.ends_with(&(line(&format!("MASTER    {}    1    1    1    0", "    0".repeat(8))) + &line("END"))));
    }

    #[test]
    fn master_and_end_come_once_and_last() {
        let whole = [line("HEADER"), line(&format!("MASTER    {}", "    0".repeat(12))), line("END")].concat();
        assert_eq!(cut(&whole), (whole.clone(), vec!["no line dropped".to_owned()]));
        assert_eq!(cut("HEADER").0, whole);
        let (text, words) = cut("MASTER\nEND\nHEADER\nEND\n");
        assert_eq!((text, words[0].as_str()), (whole, "1 line dropped: END 1"));
    }

    #[test]
    fn many_kinds_are_not_all_named() {
        let text: String = (0..50).map(|kind| format!("X{kind:02}\n")).collect();
        let cut = Cut::of(text.as_bytes());
        assert!(cut.kept == 0 && cut.dropped().starts_with("50 lines dropped: X00 1, X01 1, "));
        assert!(cut.dropped().ends_with("X39 1, 10 more kinds 10"), "{}", cut.dropped());
    }
}
