//! What offends below the first offence: the check goes on without each line that it refuses. This is advice and no
//! verdict, since a line may offend only because another was left out above it.

use std::collections::BTreeMap;

use station::{piece, Entry, Line, LineRefusal, Refusal, Tally, Verdict};

use crate::counts;
use crate::words;

/// How many offences are listed, and how many times the text is checked again. Each time costs a walk over all good lines
/// above the next offence.
const OFFENCES: usize = 1_000;

/// How many good lines are walked over in all, some seconds' worth.
const LINES: u64 = 10_000_000;

/// Lines that offend alike, with nothing but lines left out between them.
pub struct Offence {
    /// The first and the last line.
    pub first: u64,
    pub last: u64,
    /// How many offend.
    pub count: u64,
    pub refusal: Refusal,
    /// The column, as in a verdict.
    pub column: u64,
    /// The first line, to show; there is none where the text is over.
    pub shown: Option<String>,
    /// The cause, of the first where each has its own.
    pub cause: Option<String>,
}

/// A name that is not known: how often it comes, and the first line that has it.
pub struct Unknown {
    pub name: String,
    pub count: u64,
    pub first: u64,
}

/// All that was found. Lines count by newlines, so that one of another width does not spoil those below it; where every
/// line has its 80 columns they count as ever.
pub struct Advice {
    pub unknown: Vec<Unknown>,
    /// By their first lines.
    pub offences: Vec<Offence>,
    /// The line at which the search was given up, if it was.
    pub ended: Option<u64>,
}

impl Advice {
    /// Looks through a whole text.
    pub fn on(text: &[u8]) -> Advice {
        let mut search = Search::default();
        search.by_themselves(text);
        search.together();
        let mut offences = search.offences;
        offences.sort_by_key(|offence| offence.first);
        let unknown = search.unknown.into_iter().map(|(name, (count, first))| {
            let name = words::shown(&name).trim_end().to_owned();
            Unknown { name, count, first }
        });
        let mut unknown: Vec<Unknown> = unknown.collect();
        unknown.sort_by_key(|unknown| unknown.first);
        Advice { unknown, offences, ended: search.ended }
    }

    /// How many lines offend, those with names that are not known left out.
    pub fn count(&self) -> u64 {
        self.offences.iter().map(|offence| offence.count).sum()
    }
}

#[derive(Default)]
struct Search {
    unknown: BTreeMap<[u8; 6], (u64, u64)>,
    offences: Vec<Offence>,
    ended: Option<u64>,
    /// The text with lines left out made blank, so that lines keep their numbers: the causes are looked up in it.
    blanked: Vec<u8>,
    /// The text without the lines left out, and the number of each line. Both begin at `start`: to take a line out, those
    /// above it move down by one, which costs no more than the check that found it.
    kept: Vec<u8>,
    numbers: Vec<u64>,
    start: usize,
    /// The counts of the lines left out, by their names and by whether the first ENDMDL stands above them.
    left_out: Tally,
    first_endmdl: Option<u64>,
}

impl Search {
    /// Takes out the lines that are refused with 1 to 4 wherever they stand: the library is asked about each by itself.
    fn by_themselves(&mut self, text: &[u8]) {
        let lines = || (1..).zip(text.split_inclusive(|&byte| byte == b'\n'));
        self.first_endmdl = lines().find(|(_, line)| line.starts_with(b"ENDMDL")).map(|(number, _)| number);
        for (number, line) in lines() {
            // Lines left out are blank lines of full width in the copy: many short ones would swell it.
            let listed = self.offences.len().max(self.unknown.len());
            if listed >= OFFENCES || self.blanked.len() > 2 * text.len() + 1_000_000 {
                self.ended = Some(number);
                return;
            }
            let alone = Entry::check(line);
            match (alone.refusal, line.first_chunk()) {
                (Some(Refusal::NAME), Some(name)) => {
                    self.unknown.entry(*name).or_insert((0, number)).0 += 1;
                }
                (Some(refusal @ (Refusal::LENGTH | Refusal::NEWLINE | Refusal::BYTE)), _) => {
                    let cause = words::cause(line, &Verdict { line: 1, ..alone }, refusal);
                    let alike = |group: &Offence| group.refusal == refusal && group.last + 1 == number;
                    self.list(number, refusal, 0, line, cause, alike);
                    if let Some(row) = row_instead(line) {
                        self.keep(&[&row[..], b"\n"].concat(), number);
                        continue;
                    }
                }
                _ => {
                    self.keep(line, number);
                    continue;
                }
            }
            self.count_left_out(line, number);
            self.blanked.extend(BLANK);
        }
    }

    /// Keeps a line of full width for the checks.
    fn keep(&mut self, line: &[u8], number: u64) {
        self.kept.extend(line);
        self.blanked.extend(line);
        self.numbers.push(number);
    }

    /// Has the rest checked, again and again, without the line that is refused.
    fn together(&mut self) {
        let mut walked = 0;
        for round in 0.. {
            if self.ended.is_some() {
                return;
            }
            let verdict = Entry::check(&self.kept[81 * self.start..]);
            let Some(refusal) = verdict.refusal else {
                return;
            };
            walked += verdict.good_lines;
            let at = self.start + verdict.good_lines as usize;
            let Some(&line) = self.numbers.get(at) else {
                let line = self.blanked.len() as u64 / 81 + 1;
                return self.offend(&Verdict { line, ..verdict }, refusal);
            };
            if round == OFFENCES || walked > LINES || self.offences.len() >= OFFENCES {
                self.ended = Some(line);
                return;
            }
            let verdict = Verdict { line, ..verdict };
            if refusal != Refusal::COUNT || !self.counts_with_left_out(at, &verdict) {
                self.offend(&verdict, refusal);
            }
            if !self.mend(at, &verdict) {
                let more = if refusal == Refusal::FIELD { self.fields_below(at, &verdict) } else { 0 };
                self.leave_out(at, 1 + more);
            }
        }
    }

    /// Lists the lines right below one with a wrong field that have its name and a wrong field too, and tells how many: as
    /// it stands in its place, so do they, and no walk is needed for each.
    fn fields_below(&mut self, at: usize, verdict: &Verdict) -> usize {
        let mut more = 0;
        while let Some(&line) = self.numbers.get(at + more + 1) {
            let [own, next] = [at, at + more + 1].map(|at| &self.kept[81 * at..81 * at + 80]);
            match Line::judge(next) {
                Err(LineRefusal { refusal: Refusal::FIELD, column })
                    if own[..6] == next[..6] && self.offences.len() < OFFENCES =>
                {
                    self.offend(&Verdict { line, column, ..*verdict }, Refusal::FIELD);
                    more += 1;
                }
                _ => break,
            }
        }
        more
    }

    /// Lists an offence, with the one before if that is of the same cause and nothing stands between the two.
    fn offend(&mut self, verdict: &Verdict, refusal: Refusal) {
        let line = verdict.line;
        let cause = words::cause(&self.blanked, verdict, refusal);
        let own = piece(&self.blanked, line).map_or(Vec::new(), <[u8]>::to_vec);
        let between = self.offences.last().and_then(|group| {
            let from = usize::try_from(group.last).ok()?;
            self.blanked.get(81 * from..81 * (usize::try_from(line).ok()? - 1))
        });
        let next = between.is_some_and(|between| between.chunks(81).all(is_left_out));
        let same = cause.clone();
        let alike = |group: &Offence| next && (group.refusal, &group.cause) == (refusal, &same);
        self.list(line, refusal, verdict.column, &own, cause, alike);
        self.fade(line);
    }

    /// Adds a line to the last offence if that is alike, or as one more.
    fn list(
        &mut self,
        line: u64,
        refusal: Refusal,
        column: u64,
        own: &[u8],
        cause: Option<String>,
        alike: impl Fn(&Offence) -> bool,
    ) {
        if let Some(group) = self.offences.last_mut().filter(|group| alike(group)) {
            group.last = line;
            group.count += 1;
        } else {
            let shown = (!own.is_empty()).then(|| words::shown(&own[..own.len().min(81)]));
            self.offences.push(Offence { first: line, last: line, count: 1, refusal, column, shown, cause });
        }
    }

    /// Whether MASTER has the true counts once the lines left out are counted by their names as well: then not it
    /// offends, but they do.
    fn counts_with_left_out(&self, at: usize, verdict: &Verdict) -> bool {
        let counts = counts::with(&verdict.counts, &self.left_out);
        counts::master(&counts).is_some_and(|master| self.kept[81 * at..81 * at + 80] == master)
    }

    /// Gives a MASTER line with wrong counts or fields the counts of the good lines, so that END may follow it, and an ORIGX or
    /// SCALE line with wrong fields other numbers, so that its trio is whole.
    fn mend(&mut self, at: usize, verdict: &Verdict) -> bool {
        let line = &mut self.kept[81 * at..81 * at + 80];
        let master = || counts::master(&verdict.counts).filter(|_| line.starts_with(b"MASTER"));
        let mended = match verdict.refusal {
            Some(Refusal::COUNT) => master(),
            Some(Refusal::FIELD) => master().or_else(|| row_instead(line)),
            _ => None,
        };
        if let Some(mended) = mended {
            line.copy_from_slice(&mended);
            self.overwrite(verdict.line, &mended);
        }
        mended.is_some()
    }

    /// Takes lines out.
    fn leave_out(&mut self, at: usize, lines: usize) {
        for index in at..at + lines {
            let line: [u8; 80] = self.kept[81 * index..81 * index + 80].try_into().unwrap_or([b' '; 80]);
            self.count_left_out(&line, self.numbers[index]);
        }
        self.kept.copy_within(81 * self.start..81 * at, 81 * (self.start + lines));
        self.numbers.copy_within(self.start..at, self.start + lines);
        self.start += lines;
    }

    fn count_left_out(&mut self, line: &[u8], number: u64) {
        let past = self.first_endmdl.is_some_and(|endmdl| endmdl < number);
        // A name that is not known has no count.
        let _ = self.left_out.count_past(line, past);
    }

    /// Makes a line blank in the copy.
    fn fade(&mut self, number: u64) {
        self.overwrite(number, &[b' '; 80]);
    }

    fn overwrite(&mut self, number: u64, columns: &[u8; 80]) {
        let from = usize::try_from(number).map_or(0, |number| 81 * (number - 1));
        if let Some(line) = self.blanked.get_mut(from..from + 80) {
            line.copy_from_slice(columns);
        }
    }
}

/// A right line with the name of an ORIGX or SCALE line that is wrong.
fn row_instead(line: &[u8]) -> Option<[u8; 80]> {
    let (name, row) = line.get(..6)?.split_at(5);
    let numbers = b"      0.000000  0.000000  0.000000        0.00000";
    let mut instead = [b' '; 80];
    instead[..5].copy_from_slice(name);
    instead[5] = row[0];
    instead[6..6 + numbers.len()].copy_from_slice(numbers);
    (matches!(name, b"ORIGX" | b"SCALE") && matches!(row, b"1" | b"2" | b"3")).then_some(instead)
}

/// A line left out, in the copy.
const BLANK: [u8; 81] = {
    let mut blank = [b' '; 81];
    blank[80] = b'\n';
    blank
};

/// Whether a line was left out: it is blank.
pub fn is_left_out(piece: &[u8]) -> bool {
    piece.iter().take(80).all(|&byte| byte == b' ')
}

#[cfg(test)]
mod tests {
    use super::*;
    use crate::words::tests::every_kind;
    use station::pieces;

    /// How many lines are refused one after the other, each looked for from the top, until only the counts may be wrong or
    /// the text is over.
    fn one_by_one(text: &[u8]) -> u64 {
        let mut lines: Vec<Vec<u8>> = pieces(text).map(<[u8]>::to_vec).collect();
        for count in 0.. {
            let verdict = Entry::check(&lines.concat());
            if matches!(verdict.refusal, None | Some(Refusal::COUNT | Refusal::OVER)) {
                return count;
            }
            let at = verdict.good_lines as usize;
            // Without an ORIGX or SCALE line the lines round it would be no trio.
            match row_instead(&lines[at]).filter(|_| verdict.refusal == Some(Refusal::FIELD)) {
                Some(row) => lines[at][..80].copy_from_slice(&row),
                None => drop(lines.remove(at)),
            }
        }
        unreachable!("a text has an end")
    }

    /// Entries with two lines spoilt: the advice begins with the verdict, and finds what is found one by one.
    #[test]
    fn what_is_found_is_what_is_refused() {
        let lines = every_kind();
        let spoilt = |line: &String, how: usize| match how {
            0 => String::new(),
            1 => format!("ANISOU{}", &line[6.min(line.len())..]),
            2 => format!("{line:79}?"),
            _ => format!("{line:80}").replace(" A ", " ? ").replace("    1", "    0"),
        };
        for (first, second) in
            (1..lines.len() - 2).flat_map(|first| (first..lines.len() - 2).map(move |second| (first, second)))
        {
            let mut damaged = lines.clone();
            damaged[first] = spoilt(&lines[first], (first + second) % 4);
            damaged[second] = spoilt(&lines[second], (first + 3 * second) % 4);
            let text = damaged.iter().map(|line| format!("{line:80}\n")).collect::<String>().into_bytes();
            let verdict = Entry::check(&text);
            let Some(refusal) = verdict.refusal else { continue };
            let advice = Advice::on(&text);
            let unknown = advice.unknown.iter().map(|unknown| (unknown.first, Refusal::NAME, 0));
            let offences = advice.offences.iter().map(|offence| (offence.first, offence.refusal, offence.column));
            let earliest = unknown.chain(offences).min();
            assert_eq!(earliest, Some((verdict.line, refusal, verdict.column)), "{first} {second}");
            let lines =
                advice.offences.iter().filter(|offence| ![Refusal::COUNT, Refusal::OVER].contains(&offence.refusal));
            let found = lines.map(|offence| offence.count).sum::<u64>();
            let unknown: u64 = advice.unknown.iter().map(|unknown| unknown.count).sum();
            assert_eq!(found + unknown, one_by_one(&text), "{first} {second}");
            assert_eq!(advice.ended, None);
        }
    }
}
