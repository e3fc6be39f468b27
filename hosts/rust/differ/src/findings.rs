//! What a run found: which call answered which number how often, and where the two sides differ.

use std::collections::BTreeMap;

use crate::names::Form;
use crate::{cells, faults, jumps, models, places, twins};

/// Which call was made.
#[derive(Clone, Copy, Debug, PartialEq, Eq, PartialOrd, Ord)]
#[allow(missing_docs)]
pub enum Call {
    Check,
    Verdict,
    Load,
    Order,
    Arrange,
    Fragments,
    Save,
    Tray,
    SlotOfLine,
    RewriteLine,
    ReadLine,
    CellOfLine,
    TransformOfLine,
    Scale,
    Place,
    Fractional,
    Find,
    Dot,
    Stroke,
    Frame,
    CountLine,
    CountLinePast,
}

impl Call {
    /// All calls.
    pub const ALL: [Call; 22] = [
        Call::Check,
        Call::Verdict,
        Call::Load,
        Call::Order,
        Call::Arrange,
        Call::Fragments,
        Call::Save,
        Call::Tray,
        Call::SlotOfLine,
        Call::RewriteLine,
        Call::ReadLine,
        Call::CellOfLine,
        Call::TransformOfLine,
        Call::Scale,
        Call::Place,
        Call::Fractional,
        Call::Find,
        Call::Dot,
        Call::Stroke,
        Call::Frame,
        Call::CountLine,
        Call::CountLinePast,
    ];

    /// The calls in which every form of an atom's name has to be met.
    pub const NAMED: [Call; 2] = [Call::Check, Call::SlotOfLine];

    /// The calls that tell the column of a wrong field.
    pub const TELLING: [Call; 2] = [Call::Verdict, Call::ReadLine];

    /// The calls in which every kind of CRYST1, ORIGX and SCALE lines has to be met, by themselves and in a text.
    pub const FRAMING: [Call; 3] = [Call::CellOfLine, Call::TransformOfLine, Call::Verdict];

    /// The calls that tell a fractional place.
    pub const PLACING: [Call; 2] = [Call::Place, Call::Fractional];

    /// The numbers that the call can answer. A jump can answer any line: 1 stands for them all.
    pub fn numbers(self) -> &'static [u64] {
        match self {
            Call::Check | Call::Verdict => &[0, 1, 2, 3, 4, 5, 6, 7, 8, 9, 10, 11, 12, 21, 22],
            Call::Load => &[0, 1, 2, 3, 4, 5, 6, 7, 8, 9, 10, 11, 12, 13, 21, 22],
            Call::Order => &[0, 1, 2, 3, 4, 5, 6, 7, 8, 9, 10, 11, 12, 13, 15, 16, 18, 21, 22],
            Call::Arrange => &[0, 1, 2, 3, 4, 5, 6, 7, 8, 9, 10, 11, 12, 13, 15, 18, 21, 22],
            Call::Fragments | Call::Save | Call::Tray => {
                &[0, 1, 2, 3, 4, 5, 6, 7, 8, 9, 10, 11, 12, 13, 17, 18, 21, 22]
            }
            Call::SlotOfLine | Call::ReadLine | Call::CellOfLine | Call::TransformOfLine => &[0, 1, 3, 4, 6],
            Call::Scale => &[0, 1, 2, 3, 4, 5, 6, 7, 8, 9, 10, 11, 12, 21, 22, 29],
            Call::Place => &[0, 33],
            Call::Fractional => &[0, 1, 2, 3, 4, 5, 6, 7, 8, 9, 10, 11, 12, 21, 22, 29, 33],
            Call::RewriteLine => &[0, 1, 3, 4, 6, 17],
            Call::Find | Call::Dot | Call::Stroke => &[0, 1],
            Call::Frame => &[0, 19],
            Call::CountLine | Call::CountLinePast => &[0, 4, 14],
        }
    }

    /// The one of these numbers that an answer is counted as.
    fn counted(self, answer: u64) -> u64 {
        if self == Call::Find {
            answer.min(1)
        } else {
            answer
        }
    }
}

/// What a run found.
#[derive(Default)]
pub struct Findings {
    /// Calls made.
    pub calls: u64,
    /// Calls that differ.
    pub differences: u64,
    /// The first of them, in words.
    pub shown: Vec<String>,
    /// How often a call answered a number.
    pub reached: Met<(Call, u64)>,
    /// How often a call met a form of an atom's name: a right one in what was granted, a wrong one that alone was the cause of
    /// a refusal.
    pub forms: Met<(Call, Form)>,
    /// How often a check met a kind of pairs of atoms.
    pub twins: Met<twins::Kind>,
    /// How often a call met a kind of models.
    pub models: Met<models::Kind>,
    /// How often a jump was of a kind.
    pub jumps: Met<jumps::Kind>,
    /// How often a call that tells a column met a kind of wrong fields.
    pub faults: Met<(Call, faults::Kind)>,
    /// How often a call met a kind of CRYST1, ORIGX and SCALE lines.
    pub cells: Met<(Call, cells::Kind)>,
    /// How often a call met a kind of fractional places.
    pub places: Met<(Call, places::Kind)>,
}

/// How often each of some things was met.
pub type Met<K> = BTreeMap<K, u64>;

/// Takes down some of them once more.
fn raise<K: Ord>(met: &mut Met<K>, kinds: impl IntoIterator<Item = K>) {
    for kind in kinds {
        *met.entry(kind).or_insert(0) += 1;
    }
}

/// Those that were never met, each in words.
fn unmet<K: Ord>(all: impl IntoIterator<Item = K>, met: &Met<K>, words: impl Fn(K) -> String) -> Vec<String> {
    all.into_iter().filter(|one| !met.contains_key(one)).map(words).collect()
}

/// Some calls, each with all kinds that it has to meet.
fn of_calls<K>(calls: &[Call], all: fn(Call) -> Vec<K>) -> Vec<(Call, K)> {
    calls.iter().flat_map(|&call| all(call).into_iter().map(move |kind| (call, kind))).collect()
}

/// Differences that are kept in words.
const SHOWN: usize = 20;

impl Findings {
    /// What a run has to come across and this one never did, in words: a number that a call can answer, a form of an atom's
    /// name, a kind of pairs of atoms, of models, of jumps, of wrong fields, of crystal lines or of fractional places.
    pub fn missing(&self) -> Vec<String> {
        let numbers = Call::ALL.into_iter().flat_map(|call| call.numbers().iter().map(move |&number| (call, number)));
        let forms = Call::NAMED.into_iter().flat_map(|call| Form::ALL.map(|form| (call, form)));
        let faults = of_calls(&Call::TELLING, faults::Kind::all);
        let cells = of_calls(&Call::FRAMING, cells::Kind::all);
        let places = of_calls(&Call::PLACING, places::Kind::all);
        [
            unmet(numbers, &self.reached, |(call, number)| format!("{call:?} never answered {number}")),
            unmet(forms, &self.forms, |(call, form)| format!("{call:?} never met a name {form:?}")),
            unmet(twins::Kind::ALL, &self.twins, |kind| format!("Check never met a pair of atoms {kind:?}")),
            unmet(models::Kind::ALL.iter().copied(), &self.models, |kind| format!("No call met models {kind:?}")),
            unmet(jumps::Kind::ALL, &self.jumps, |kind| format!("Find never met a jump {kind:?}")),
            unmet(faults, &self.faults, |(call, kind)| format!("{call:?} never met a wrong field {kind:?}")),
            unmet(cells, &self.cells, |(call, kind)| format!("{call:?} never met a line {kind:?}")),
            unmet(places, &self.places, |(call, kind)| format!("{call:?} never met a place {kind:?}")),
        ]
        .concat()
    }

    /// Takes down kinds of models.
    pub fn note_models(&mut self, kinds: impl IntoIterator<Item = models::Kind>) {
        raise(&mut self.models, kinds);
    }

    /// Takes down kinds of wrong fields that a call met.
    pub fn note_faults(&mut self, call: Call, kinds: impl IntoIterator<Item = faults::Kind>) {
        raise(&mut self.faults, kinds.into_iter().map(|kind| (call, kind)));
    }

    /// Takes down kinds of CRYST1, ORIGX and SCALE lines that a call met.
    pub fn note_cells(&mut self, call: Call, kinds: impl IntoIterator<Item = cells::Kind>) {
        raise(&mut self.cells, kinds.into_iter().map(|kind| (call, kind)));
    }

    /// Takes down kinds of fractional places that a call met.
    pub fn note_places(&mut self, call: Call, kinds: impl IntoIterator<Item = places::Kind>) {
        raise(&mut self.places, kinds.into_iter().map(|kind| (call, kind)));
    }

    /// Takes down one call of a case: the number that is due, the number that came, and where memory is wrong.
    pub fn note(&mut self, case: u64, call: Call, due: u64, came: u64, memory: &[(&str, Option<isize>)]) {
        self.calls += 1;
        *self.reached.entry((call, call.counted(due))).or_insert(0) += 1;
        let wrong: Vec<String> =
            memory.iter().filter_map(|(name, wrong)| wrong.map(|at| format!("{name} wrong from {at} on"))).collect();
        if due == came && wrong.is_empty() {
            return;
        }
        self.differ(case, &format!("{call:?}: reference {due}, library {came}; {}", wrong.join(", ")));
    }

    /// Takes down a difference in a case.
    pub fn differ(&mut self, case: u64, words: &str) {
        self.differences += 1;
        if self.shown.len() < SHOWN {
            self.shown.push(format!("case {case}, {}", words.trim_end_matches("; ")));
        }
    }
}

#[cfg(test)]
mod tests {
    use super::*;

    #[test]
    fn what_was_met_is_not_missing() {
        let mut findings = Findings::default();
        let all = findings.missing();
        for words in
            ["Load never answered 13", "SlotOfLine never met a name Gap", "Check never met a pair of atoms Far"]
        {
            assert!(all.iter().any(|missing| missing == words), "{words}");
        }
        findings.jumps.insert(jumps::Kind::Again, 1);
        findings.note(0, Call::Find, 77, 77, &[]);
        let missing = findings.missing();
        let met: Vec<&String> = all.iter().filter(|words| !missing.contains(words)).collect();
        assert_eq!(met, ["Find never answered 1", "Find never met a jump Again"]);
        assert_eq!((findings.differences, missing.len()), (0, all.len() - 2));
    }
}
